// A journal of postings: `post` and the opening lines alone.
use crate::books::{Book, Grid, List};
use std::io::{self, BufRead, BufWriter, Write};

pub fn replay() -> io::Result<()> {
    let mut out = BufWriter::new(io::stdout().lock());
    let mut input = io::stdin().lock();
    let mut book: Box<dyn Book> = Box::new(Grid::new(0, 1));
    let (mut line, mut n, mut accepted, mut refused) = (String::new(), 0u64, 0u64, 0u64);
    loop {
        line.clear();
        if input.read_line(&mut line)? == 0 {
            break;
        }
        n += 1;
        let mut words = line.split_ascii_whitespace();
        let head = words.next();
        if head == Some("post") {
            let mut number = || words.next().and_then(|w| w.parse::<i64>().ok()).unwrap();
            let side = |number: i64| usize::try_from(number).unwrap_or(usize::MAX);
            match book.post(side(number()), side(number()), number()) {
                Ok(q) => {
                    accepted += 1;
                    writeln!(out, "{n} ok {q}")?;
                }
                Err(why) => {
                    refused += 1;
                    writeln!(out, "{n} refused {} {}", why.number(), why.name())?;
                }
            }
        } else if head == Some("book") {
            let layout = words.next().unwrap();
            let mut number = || words.next().map(|w| w.parse::<usize>().unwrap());
            let (entities, contracts) = (number().unwrap(), number().unwrap());
            book = match layout {
                "grid" => Box::new(Grid::new(entities, contracts)),
                _ => Box::new(List::new(number().unwrap(), entities, contracts)),
            };
            writeln!(out, "{n} declared")?;
        } else if head == Some("open") {
            let shape = book.shape();
            writeln!(out, "{n} open {} {} {}", shape.entities, shape.contracts, shape.capacity)?;
        } else if head.is_some() {
            writeln!(out, "{n} declared")?;
        }
    }
    writeln!(out, "end lines {n} accepted {accepted} refused {refused} malformed 0")
}
