// The monitor in plain Rust: an index's day, a stock's limit and close, over a book of either make.
use crate::books::{Book, Holds, MOST_PAIRS, Refusal, Table};

pub const MOST_ENTITIES: usize = 128;
pub const MOST_CONTRACTS: usize = 32;
pub const MOST_UNDERLYINGS: usize = 4;
const AMOUNT_BOUND: u64 = 100_000_000_000_000;
const PRICE_BOUND: u64 = 100_000_000;
const TWO_MINUTE: u64 = 840;
const CLOSE_MINUTE: u64 = 930;
const DELTA_BOUND: i32 = 10_000;
const PER_PAISA: u128 = 10_000;
const VALUE_MOST: u128 = 9_000_000_000_000_000_000;
const PER_UNIT: u64 = 10_000;

#[derive(Clone, Copy, PartialEq, Eq)]
pub enum Kind {
    Future,
    Call,
    Put,
}

#[derive(Clone, Copy, PartialEq, Eq)]
pub enum Underlying {
    Index,
    Stock,
}

#[derive(Clone, Copy)]
pub struct Contract {
    pub underlying: usize,
    pub kind: Kind,
}

#[derive(Clone, Copy)]
pub struct Limits {
    pub net: u64,
    pub gross: u64,
}

pub trait Delta {
    fn delta(&self, contract: usize, kind: Kind) -> Option<i32>;
    fn minute(&self) -> u64;
    fn price(&self) -> u64;
}

// Deltas that were published, in rows of contract and delta.
pub struct Published<'r> {
    pub minute: u64,
    pub price: u64,
    pub rows: &'r Table<i32>,
}

impl Delta for Published<'_> {
    fn delta(&self, contract: usize, kind: Kind) -> Option<i32> {
        let lawful = |delta: &i32| match kind {
            Kind::Future => *delta == DELTA_BOUND,
            Kind::Call => (0..=DELTA_BOUND).contains(delta),
            Kind::Put => (-DELTA_BOUND..=0).contains(delta),
        };
        self.rows.find(contract as u64).filter(lawful)
    }

    fn minute(&self) -> u64 {
        self.minute
    }

    fn price(&self) -> u64 {
        self.price
    }
}

#[derive(Clone, Copy)]
enum Side {
    Long,
    Short,
}

#[derive(Clone, Copy)]
pub enum Mark {
    NetLong,
    NetShort,
    GrossLong,
    GrossShort,
}

impl Mark {
    pub const ALL: [Mark; 4] = [Mark::NetLong, Mark::NetShort, Mark::GrossLong, Mark::GrossShort];

    fn side(self) -> Side {
        match self {
            Mark::NetLong | Mark::GrossLong => Side::Long,
            Mark::NetShort | Mark::GrossShort => Side::Short,
        }
    }
}

// What is reported of an entity on an underlying covers its long side there.
pub struct Cash {
    reports: Table<u64>,
}

impl Cash {
    pub fn new(places: usize) -> Cash {
        Cash { reports: Table::new(places) }
    }

    fn key(entity: usize, underlying: usize) -> Option<u64> {
        (entity < MOST_ENTITIES && underlying < MOST_UNDERLYINGS).then(|| (entity * MOST_UNDERLYINGS + underlying) as u64)
    }

    pub fn report(&mut self, entity: usize, underlying: usize, amount: u64) -> Result<(), Refusal> {
        let key = Cash::key(entity, underlying).ok_or(Refusal::Input)?;
        if amount > AMOUNT_BOUND {
            return Err(Refusal::Input);
        }
        self.reports.put(key, amount)
    }

    fn cover(&self, entity: usize, underlying: usize, side: Side) -> u64 {
        match side {
            Side::Long => Cash::key(entity, underlying).and_then(|key| self.reports.find(key)).unwrap_or(0),
            Side::Short => 0,
        }
    }
}

#[derive(Clone, Copy)]
struct Reading {
    net: i64,
    long: i64,
    short: i64,
}

// What a unit of each contract weighs, or none where it lacks a delta; 0 for a contract of another underlying.
struct Sheet {
    deltas: [Option<i32>; MOST_CONTRACTS],
}

impl Sheet {
    fn new<D: Delta>(source: &D, contracts: &[Contract], underlying: usize) -> Sheet {
        let mut deltas = [Some(0); MOST_CONTRACTS];
        for (c, contract) in contracts.iter().enumerate().take(MOST_CONTRACTS) {
            if contract.underlying == underlying {
                deltas[c] = source.delta(c, contract.kind);
            }
        }
        Sheet { deltas }
    }

    fn reading<H: Holds>(&self, holder: &H, entity: usize) -> Reading {
        let (mut long, mut short) = (0, 0);
        for (c, delta) in self.deltas.iter().enumerate() {
            let weight = delta.unwrap_or(0);
            if weight != 0 {
                let part = holder.quantity(entity, c) * i64::from(weight);
                long += part.max(0);
                short += (-part).max(0);
            }
        }
        Reading { net: long - short, long, short }
    }

    fn interest<H: Holds>(&self, holder: &H, entities: usize) -> u128 {
        (0..entities).map(|e| u128::from(self.reading(holder, e).net.unsigned_abs())).sum()
    }

    fn none_missing(&self, entities: usize, needs: impl Fn(usize, usize) -> bool) -> Result<(), Refusal> {
        for (contract, delta) in self.deltas.iter().enumerate() {
            if delta.is_none() {
                if let Some(entity) = (0..entities).find(|e| needs(*e, contract)) {
                    return Err(Refusal::Delta { contract, entity });
                }
            }
        }
        Ok(())
    }
}

#[derive(Clone, Copy, PartialEq, Eq)]
enum Due {
    Snapshot,
    Cure,
    Settlement,
}

#[derive(Clone, Copy)]
struct Day {
    taken: u64,
    last: Option<u64>,
    due: Due,
}

const NEW_DAY: Day = Day { taken: 0, last: None, due: Due::Snapshot };

#[derive(Clone, Copy)]
enum Rule {
    Sight,
    Finish,
    Cure,
}

#[derive(Clone, Copy, Default)]
struct MarkRow {
    sighted: bool,
    count: u64,
    largest: u128,
    kept: Option<u128>,
}

impl MarkRow {
    fn finish(&mut self, over: bool, value: u128) -> bool {
        if over {
            self.count = self.count.saturating_add(1);
            self.largest = self.largest.max(value);
        }
        over
    }

    fn watch(&mut self, rule: Rule, limit: u64, value: u128) -> bool {
        let over = u128::from(limit) * PER_PAISA < value;
        match rule {
            Rule::Sight => {
                self.sighted = over;
                over
            }
            Rule::Finish => self.finish(over, value),
            Rule::Cure => {
                let broken = self.sighted && self.finish(over, value);
                self.sighted = false;
                broken
            }
        }
    }

    fn settle(&mut self, limit: u64, cover: u64) -> bool {
        let found = 0 < self.count && (u128::from(limit) + u128::from(cover)) * PER_PAISA < self.largest;
        *self = MarkRow { kept: found.then_some(self.largest), ..MarkRow::default() };
        found
    }
}

fn value_for(reading: Reading, price: u64, mark: Mark) -> u128 {
    let size = match mark {
        Mark::NetLong => reading.net.max(0),
        Mark::NetShort => reading.net.min(0),
        Mark::GrossLong => reading.long,
        Mark::GrossShort => reading.short,
    };
    u128::from(size.unsigned_abs()) * u128::from(price)
}

impl Limits {
    fn of(self, mark: Mark) -> u64 {
        match mark {
            Mark::NetLong | Mark::NetShort => self.net,
            Mark::GrossLong | Mark::GrossShort => self.gross,
        }
    }
}

#[derive(Clone)]
struct IndexRecord {
    day: Day,
    marks: [[MarkRow; 4]; MOST_ENTITIES],
}

impl IndexRecord {
    fn sweep(&mut self, entities: usize, mut judge: impl FnMut(usize, Mark, &mut MarkRow) -> bool) -> i64 {
        let mut told = 0;
        for (e, rows) in self.marks.iter_mut().enumerate().take(entities) {
            for (mark, row) in Mark::ALL.into_iter().zip(rows) {
                told += i64::from(judge(e, mark, row));
            }
        }
        told
    }
}

#[derive(Clone, Copy)]
struct Violation {
    quantity: u64,
    charge: u64,
}

#[derive(Clone)]
struct StockRecord {
    limit: Option<u64>,
    banned: bool,
    violations: [Option<Violation>; MOST_ENTITIES],
}

#[derive(Clone, Copy, PartialEq, Eq)]
enum Turn {
    NoBan,
    Begins,
    Holds,
    Ends,
}

impl Turn {
    fn decide(banned: bool, limit: u64, interest: u128) -> Turn {
        let share = |percent: u64| u128::from(percent * PER_UNIT / 100) * u128::from(limit);
        match banned {
            true if interest <= share(80) => Turn::Ends,
            true => Turn::Holds,
            false if share(95) < interest => Turn::Begins,
            false => Turn::NoBan,
        }
    }
}

// The base quantities, 32 to an entity.
struct Base {
    cells: [i64; MOST_PAIRS],
}

impl Holds for Base {
    fn quantity(&self, entity: usize, contract: usize) -> i64 {
        if entity >= MOST_ENTITIES || contract >= MOST_CONTRACTS {
            return 0;
        }
        self.cells[entity * MOST_CONTRACTS + contract]
    }
}

// The charge in paise for a violated quantity, in ten-thousandths of a unit, at a closing price in paise.
pub fn charge(violated: u64, price: u64) -> u64 {
    if violated == 0 {
        return 0;
    }
    let paise = u128::from(violated) * u128::from(price) / u128::from(PER_UNIT * 100);
    paise.clamp(500_000, 10_000_000) as u64
}

fn violated(x: i64, y: i64) -> u64 {
    if (x < 0 && 0 < y) || (y < 0 && 0 < x) { y.unsigned_abs() } else { y.abs_diff(x) }
}

// The market-wide limit of a stock, rounded down once at the end.
pub fn limit(free_float: u64, deliveries: &[u64]) -> Result<u64, Refusal> {
    let accepted = (10..=1_000_000_000_000).contains(&free_float)
        && (1..=92).contains(&deliveries.len())
        && deliveries.iter().all(|delivery| *delivery <= 10_000_000_000);
    if !accepted {
        return Err(Refusal::Input);
    }
    let below = |a: (u64, u64), b: (u64, u64)| u128::from(a.0) * u128::from(b.1) < u128::from(b.0) * u128::from(a.1);
    let floor = (10 * free_float, 100);
    let ceiling = (15 * free_float, 100);
    let averages = (65 * deliveries.iter().sum::<u64>(), deliveries.len() as u64);
    let least = if below(ceiling, averages) { ceiling } else { averages };
    let (top, bottom) = if below(floor, least) { least } else { floor };
    Ok(top / bottom)
}

pub struct Monitor<'b, B> {
    book: &'b mut B,
    contracts: Vec<Contract>,
    underlyings: Vec<Underlying>,
    limits: Limits,
    live: bool,
    base: Base,
    indices: Vec<IndexRecord>,
    stocks: Vec<StockRecord>,
}

impl<'b, B: Book> Monitor<'b, B> {
    pub fn open(book: &'b mut B, contracts: Vec<Contract>, underlyings: Vec<Underlying>, limits: Limits) -> Self {
        let shape = book.shape();
        let sound = |contract: &Contract| match underlyings.get(contract.underlying) {
            None => false,
            Some(underlying) => (contract.kind, *underlying) != (Kind::Future, Underlying::Index),
        };
        let live = (1..=MOST_ENTITIES).contains(&shape.entities)
            && (1..=MOST_CONTRACTS).contains(&shape.contracts)
            && shape.contracts == contracts.len()
            && (1..=MOST_UNDERLYINGS).contains(&underlyings.len())
            && contracts.iter().all(sound)
            && (1..=AMOUNT_BOUND).contains(&limits.net)
            && (1..=AMOUNT_BOUND).contains(&limits.gross);
        let index = IndexRecord { day: NEW_DAY, marks: [[MarkRow::default(); 4]; MOST_ENTITIES] };
        let stock = StockRecord { limit: None, banned: false, violations: [None; MOST_ENTITIES] };
        Monitor {
            book,
            contracts,
            underlyings,
            limits,
            live,
            base: Base { cells: [0; MOST_PAIRS] },
            indices: vec![index; MOST_UNDERLYINGS],
            stocks: vec![stock; MOST_UNDERLYINGS],
        }
    }

    fn opened(&self) -> Result<(), Refusal> {
        if self.live { Ok(()) } else { Err(Refusal::Closed) }
    }

    fn admits(&self, underlying: usize, kind: Underlying) -> Result<(), Refusal> {
        self.opened()?;
        match self.underlyings.get(underlying) {
            None => Err(Refusal::Underlying),
            Some(found) if *found != kind => Err(Refusal::Kind),
            Some(_) => Ok(()),
        }
    }

    pub fn post(&mut self, entity: usize, contract: usize, change: i64) -> Result<i64, Refusal> {
        self.opened()?;
        self.book.post(entity, contract, change)
    }

    fn watch<D: Delta>(&mut self, underlying: usize, day: Day, rule: Rule, source: &D) -> Result<i64, Refusal> {
        let book = &*self.book;
        let entities = book.shape().entities;
        let sheet = Sheet::new(source, &self.contracts, underlying);
        sheet.none_missing(entities, |e, c| book.quantity(e, c) != 0)?;
        let mut readings = [Reading { net: 0, long: 0, short: 0 }; MOST_ENTITIES];
        for (e, reading) in readings.iter_mut().enumerate().take(entities) {
            *reading = sheet.reading(book, e);
        }
        let price = source.price();
        let too_large = |reading: &Reading| {
            VALUE_MOST < value_for(*reading, price, Mark::GrossLong)
                || VALUE_MOST < value_for(*reading, price, Mark::GrossShort)
        };
        if let Some(entity) = readings.iter().take(entities).position(too_large) {
            return Err(Refusal::Value { entity });
        }
        let limits = self.limits;
        let index = &mut self.indices[underlying];
        index.day = day;
        Ok(index.sweep(entities, |e, mark, row| row.watch(rule, limits.of(mark), value_for(readings[e], price, mark))))
    }

    pub fn snapshot<D: Delta>(&mut self, underlying: usize, source: &D) -> Result<i64, Refusal> {
        self.admits(underlying, Underlying::Index)?;
        let before = self.indices[underlying].day;
        if before.due != Due::Snapshot {
            return Err(Refusal::Turn);
        }
        let minute = source.minute();
        let (rule, due) = match minute {
            555..885 => (Rule::Sight, Due::Cure),
            885..=930 => (Rule::Finish, Due::Settlement),
            _ => return Err(Refusal::Time),
        };
        if before.last.is_some_and(|last| minute <= last) {
            return Err(Refusal::Time);
        }
        if !(1..=PRICE_BOUND).contains(&source.price()) {
            return Err(Refusal::Price);
        }
        let day = Day { taken: before.taken.saturating_add(1), last: Some(minute), due };
        self.watch(underlying, day, rule, source)
    }

    pub fn cure<D: Delta>(&mut self, underlying: usize, source: &D) -> Result<i64, Refusal> {
        self.admits(underlying, Underlying::Index)?;
        let before = self.indices[underlying].day;
        if before.due != Due::Cure {
            return Err(Refusal::Turn);
        }
        let minute = source.minute();
        if before.last.is_none_or(|last| minute.checked_sub(15) != Some(last)) {
            return Err(Refusal::Time);
        }
        if !(1..=PRICE_BOUND).contains(&source.price()) {
            return Err(Refusal::Price);
        }
        let day = Day { last: Some(minute), due: Due::Snapshot, ..before };
        self.watch(underlying, day, Rule::Cure, source)
    }

    pub fn settle(&mut self, underlying: usize, cash: &Cash) -> Result<i64, Refusal> {
        self.admits(underlying, Underlying::Index)?;
        let before = self.indices[underlying].day;
        if before.taken < 4 || before.due != Due::Settlement {
            return Err(Refusal::ShortDay);
        }
        let (limits, entities) = (self.limits, self.book.shape().entities);
        let index = &mut self.indices[underlying];
        index.day = NEW_DAY;
        let judge = |e: usize, mark: Mark, row: &mut MarkRow| {
            row.settle(limits.of(mark), cash.cover(e, underlying, mark.side()))
        };
        Ok(index.sweep(entities, judge))
    }

    // The value with which the last settlement kept a mark as a final breach.
    pub fn kept(&self, underlying: usize, entity: usize, mark: Mark) -> Option<u128> {
        if !self.live {
            return None;
        }
        self.indices.get(underlying)?.marks.get(entity)?[mark as usize].kept
    }

    pub fn set_limit(&mut self, underlying: usize, free_float: u64, deliveries: &[u64]) -> Result<i64, Refusal> {
        self.admits(underlying, Underlying::Stock)?;
        self.stocks[underlying].limit = Some(limit(free_float, deliveries)?);
        Ok(0)
    }

    fn judge(&self, two: &Sheet, price: u64, turn: Turn, entity: usize) -> Option<Violation> {
        if !matches!(turn, Turn::Holds | Turn::Ends) {
            return None;
        }
        let x = two.reading(&self.base, entity).net;
        let y = two.reading(self.book, entity).net;
        if (0..=x).contains(&y) || (x..=0).contains(&y) {
            return None;
        }
        let quantity = violated(x, y);
        Some(Violation { quantity, charge: charge(quantity, price) })
    }

    fn move_base(&mut self, underlying: usize, entity: usize, turn: Turn, charged: bool) {
        let moves = match turn {
            Turn::NoBan => false,
            Turn::Begins | Turn::Ends => true,
            Turn::Holds => !charged,
        };
        if !moves {
            return;
        }
        let row = &mut self.base.cells[entity * MOST_CONTRACTS..][..MOST_CONTRACTS];
        for (c, (cell, contract)) in row.iter_mut().zip(&self.contracts).enumerate() {
            if contract.underlying == underlying {
                *cell = if turn == Turn::Ends { 0 } else { self.book.quantity(entity, c) };
            }
        }
    }

    pub fn close<D: Delta>(&mut self, underlying: usize, two: &D, closing: &D) -> Result<i64, Refusal> {
        self.admits(underlying, Underlying::Stock)?;
        let (limit, banned) = (self.stocks[underlying].limit.ok_or(Refusal::Unset)?, self.stocks[underlying].banned);
        if closing.minute() != CLOSE_MINUTE || banned && two.minute() != TWO_MINUTE {
            return Err(Refusal::Time);
        }
        if !(1..=PRICE_BOUND).contains(&closing.price()) {
            return Err(Refusal::Price);
        }
        let entities = self.book.shape().entities;
        let (book, base) = (&*self.book, &self.base);
        let at_two = Sheet::new(two, &self.contracts, underlying);
        let at_close = Sheet::new(closing, &self.contracts, underlying);
        at_close.none_missing(entities, |e, c| book.quantity(e, c) != 0)?;
        if banned {
            at_two.none_missing(entities, |e, c| book.quantity(e, c) != 0 || base.quantity(e, c) != 0)?;
        }
        let turn = Turn::decide(banned, limit, at_close.interest(book, entities));
        self.stocks[underlying].banned = matches!(turn, Turn::Begins | Turn::Holds);
        self.stocks[underlying].violations = [None; MOST_ENTITIES];
        let mut count = 0;
        for e in 0..entities.min(MOST_ENTITIES) {
            let violation = self.judge(&at_two, closing.price(), turn, e);
            self.stocks[underlying].violations[e] = violation;
            count += i64::from(violation.is_some());
            self.move_base(underlying, e, turn, violation.is_some());
        }
        Ok(count)
    }

    fn violation(&self, underlying: usize, entity: usize) -> Option<Violation> {
        if !self.live {
            return None;
        }
        self.stocks.get(underlying)?.violations.get(entity).copied().flatten()
    }

    pub fn violated(&self, underlying: usize, entity: usize) -> u64 {
        self.violation(underlying, entity).map_or(0, |violation| violation.quantity)
    }

    pub fn charge(&self, underlying: usize, entity: usize) -> u64 {
        self.violation(underlying, entity).map_or(0, |violation| violation.charge)
    }

    pub fn is_banned(&self, underlying: usize) -> bool {
        self.live && self.stocks.get(underlying).is_some_and(|stock| stock.banned)
    }
}
