// The plain side of the measurements, in ordinary safe Rust: a row by name, a journal, or with no word each row once.
mod books;
mod calls;
mod journal;
mod monitor;
mod noise;
mod rows;

use std::env;
use std::error::Error;

fn main() -> Result<(), Box<dyn Error>> {
    let words: Vec<String> = env::args().skip(1).collect();
    match words.iter().map(String::as_str).collect::<Vec<_>>()[..] {
        [] => {
            for row in rows::ROWS {
                println!("{row} {}", rows::measure(row, 1)?.digest);
            }
        }
        ["journal"] => journal::replay()?,
        [row, rounds] => {
            let measured = rows::measure(row, rounds.parse()?)?;
            println!("{} {}", measured.digest, measured.nanos);
        }
        _ => return Err("usage: plain [ROW ROUNDS]".into()),
    }
    Ok(())
}
