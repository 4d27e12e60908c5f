// The rows that are measured. crates/bench does the same with the proved crates, and answers the same digests.
use crate::books::{Book, Grid, List, MOST_PAIRS, Refusal, Table};
use crate::monitor::{
    Cash, Contract, Kind, Limits, MOST_CONTRACTS, MOST_ENTITIES, Mark, Monitor, Published, Underlying, charge, limit,
};
use crate::calls;
use crate::noise::Noise;
use std::hint::black_box;
use std::time::Instant;

pub const ROWS: [&str; 7] =
    ["posts-grid", "posts-list", "index-grid", "index-list", "close-grid", "close-list", "limit-charge"];

const SEED: u64 = 7;
const POSTS: usize = 1_000_000;
const LIMITS: Limits = Limits { net: 2_000_000_000, gross: 8_000_000_000 };

pub struct Measured {
    pub digest: u64,
    pub nanos: u128,
}

// A running digest of answers, so that none is left out.
#[derive(Clone, Copy)]
struct Digest(u64);

impl Digest {
    fn note(&mut self, value: u64) {
        self.0 = self.0.wrapping_mul(31).wrapping_add(value);
    }

    fn answer(&mut self, answer: Result<i64, Refusal>) {
        self.note(match answer {
            Ok(value) => value.cast_unsigned(),
            Err(cause) => 1_000 + u64::from(cause.number()),
        });
    }
}

struct Post {
    entity: usize,
    contract: usize,
    change: i64,
}

// Some posts outside the book and some too large, and changes small enough that quantities often come back to zero.
fn stream() -> Vec<Post> {
    let mut noise = Noise::new(SEED);
    (0..POSTS)
        .map(|_| {
            let entity = noise.below(MOST_ENTITIES as u64 + 1) as usize;
            let contract = noise.below(MOST_CONTRACTS as u64) as usize;
            let change = if noise.below(64) == 0 { 2_000_000_000 } else { 50 * noise.within(3) };
            Post { entity, contract, change }
        })
        .collect()
}

fn contracts(kinds: &[Kind]) -> Vec<Contract> {
    (0..MOST_CONTRACTS).map(|c| Contract { underlying: 0, kind: kinds[c % kinds.len()] }).collect()
}

// A lawful delta for each contract, none of them zero.
fn deltas(noise: &mut Noise, contracts: &[Contract]) -> Table<i32> {
    let mut rows = Table::new(MOST_CONTRACTS);
    for (c, contract) in contracts.iter().enumerate() {
        let size = 1 + noise.below(10_000) as i32;
        let delta = match contract.kind {
            Kind::Future => 10_000,
            Kind::Call => size,
            Kind::Put => -size,
        };
        rows.put(c as u64, delta).unwrap();
    }
    rows
}

// Gives each pair an odd quantity.
fn fill<B: Book>(book: &mut B, noise: &mut Noise) {
    for e in 0..MOST_ENTITIES {
        for c in 0..MOST_CONTRACTS {
            book.post(e, c, 2 * noise.within(500) + 1).unwrap();
        }
    }
}

// A few even changes, which leave no pair at zero.
fn flow<B: Book>(monitor: &mut Monitor<B>, noise: &mut Noise, digest: &mut Digest) {
    for _ in 0..8 {
        let entity = noise.below(MOST_ENTITIES as u64) as usize;
        let contract = noise.below(MOST_CONTRACTS as u64) as usize;
        digest.answer(monitor.post(entity, contract, 2 * noise.within(2)));
    }
}

fn posts<B: Book>(mut book: B, rounds: u64) -> Measured {
    let stream = stream();
    let contracts = contracts(&[Kind::Future, Kind::Call, Kind::Put]);
    let mut monitor = Monitor::open(&mut book, contracts, vec![Underlying::Stock], LIMITS);
    let mut digest = Digest(0);
    let start = Instant::now();
    for _ in 0..rounds {
        for post in &stream {
            digest.answer(monitor.post(post.entity, post.contract, post.change));
        }
    }
    Measured { nanos: start.elapsed().as_nanos(), digest: black_box(digest.0) }
}

// A whole day: 21 regular snapshots and their cures, the final one and the settlement.
fn day<B: Book>(monitor: &mut Monitor<B>, noise: &mut Noise, rows: &Table<i32>, cash: &Cash, digest: &mut Digest) {
    let source = |minute: u64| Published { minute, price: 2_000_000 + minute, rows };
    for step in 0..21 {
        let minute = 555 + 16 * step;
        flow(monitor, noise, digest);
        digest.answer(monitor.snapshot(0, &source(minute)));
        flow(monitor, noise, digest);
        digest.answer(monitor.cure(0, &source(minute + 15)));
    }
    flow(monitor, noise, digest);
    digest.answer(monitor.snapshot(0, &source(900)));
    digest.answer(monitor.settle(0, cash));
}

fn index<B: Book>(mut book: B, rounds: u64) -> Measured {
    let mut noise = Noise::new(SEED);
    let contracts = contracts(&[Kind::Call, Kind::Put]);
    let rows = deltas(&mut noise, &contracts);
    fill(&mut book, &mut noise);
    let mut cash = Cash::new(512);
    for e in 0..64 {
        cash.report(2 * e, 0, 100_000_000 * e as u64).unwrap();
    }
    let mut monitor = Monitor::open(&mut book, contracts, vec![Underlying::Index], LIMITS);
    let mut digest = Digest(0);
    let start = Instant::now();
    for round in 0..rounds {
        day(&mut monitor, &mut noise, &rows, &cash, &mut digest);
        for mark in Mark::ALL {
            let kept = monitor.kept(0, (round % MOST_ENTITIES as u64) as usize, mark).unwrap_or(0);
            digest.note(u64::try_from(kept).unwrap_or(u64::MAX));
        }
    }
    Measured { nanos: start.elapsed().as_nanos(), digest: black_box(digest.0) }
}

// A whole ban: the close that begins it, 32 closes that hold it, and the one that ends it.
fn ban<B: Book>(monitor: &mut Monitor<B>, noise: &mut Noise, two: &Published, closing: &Published, digest: &mut Digest) {
    digest.answer(monitor.set_limit(0, 1_000_000, &[0]));
    digest.answer(monitor.close(0, two, closing));
    for entity in 0..32 {
        flow(monitor, noise, digest);
        digest.answer(monitor.close(0, two, closing));
        digest.note(monitor.violated(0, 4 * entity));
        digest.note(monitor.charge(0, 4 * entity));
        digest.note(u64::from(monitor.is_banned(0)));
    }
    digest.answer(monitor.set_limit(0, 1_000_000_000_000, &[0]));
    digest.answer(monitor.close(0, two, closing));
}

fn close<B: Book>(mut book: B, rounds: u64) -> Measured {
    let mut noise = Noise::new(SEED);
    let contracts = contracts(&[Kind::Future, Kind::Call, Kind::Put]);
    let two_rows = deltas(&mut noise, &contracts);
    let closing_rows = deltas(&mut noise, &contracts);
    fill(&mut book, &mut noise);
    let mut monitor = Monitor::open(&mut book, contracts, vec![Underlying::Stock], LIMITS);
    let two = Published { minute: 840, price: 2_000_000, rows: &two_rows };
    let closing = Published { minute: 930, price: 2_100_000, rows: &closing_rows };
    let mut digest = Digest(0);
    let start = Instant::now();
    for _ in 0..rounds {
        ban(&mut monitor, &mut noise, &two, &closing, &mut digest);
    }
    Measured { nanos: start.elapsed().as_nanos(), digest: black_box(digest.0) }
}

struct Stock {
    free_float: u64,
    deliveries: [u64; 92],
    violated: u64,
    price: u64,
}

fn stock(noise: &mut Noise) -> Stock {
    let free_float = 10 + noise.below(999_999_999_990);
    let mut deliveries = [0; 92];
    for delivery in &mut deliveries {
        *delivery = noise.below(10_000_000_000);
    }
    Stock { free_float, deliveries, violated: noise.below(10_000_000_000), price: 1 + noise.below(100_000_000) }
}

// The limit and a charge of each of 256 stocks.
fn rules(rounds: u64) -> Measured {
    let mut noise = Noise::new(SEED);
    let stocks: Vec<Stock> = (0..256).map(|_| stock(&mut noise)).collect();
    let mut digest = Digest(0);
    let start = Instant::now();
    for _ in 0..rounds {
        for stock in &stocks {
            digest.note(limit(stock.free_float, &stock.deliveries).unwrap_or(0));
            digest.note(charge(stock.violated, stock.price));
        }
    }
    Measured { nanos: start.elapsed().as_nanos(), digest: black_box(digest.0) }
}

// The same from bytes, through whatever `calls` is built with.
fn host(rounds: u64) -> Measured {
    let mut noise = Noise::new(SEED);
    let stocks: Vec<Stock> = (0..256).map(|_| stock(&mut noise)).collect();
    let days: Vec<Vec<u8>> =
        stocks.iter().map(|stock| stock.deliveries.iter().flat_map(|day| day.to_be_bytes()).collect()).collect();
    let mut digest = Digest(0);
    let start = Instant::now();
    for _ in 0..rounds {
        for (stock, days) in stocks.iter().zip(&days) {
            digest.note(calls::limit(stock.free_float, days));
            digest.note(calls::charge(stock.violated, stock.price));
        }
    }
    Measured { nanos: start.elapsed().as_nanos(), digest: black_box(digest.0) }
}

pub fn measure(row: &str, rounds: u64) -> Result<Measured, String> {
    let grid = || Grid::new(MOST_ENTITIES, MOST_CONTRACTS);
    let list = || List::new(MOST_PAIRS, MOST_ENTITIES, MOST_CONTRACTS);
    let rounds = black_box(rounds);
    Ok(match row {
        "posts-grid" => posts(grid(), rounds),
        "posts-list" => posts(list(), rounds),
        "index-grid" => index(grid(), rounds),
        "index-list" => index(list(), rounds),
        "close-grid" => close(grid(), rounds),
        "close-list" => close(list(), rounds),
        "limit-charge" => rules(rounds),
        "host-calls" => host(rounds),
        _ => return Err(format!("no row is called {row}")),
    })
}
