// The position books in plain Rust: a grid, and a list of the non-zero pairs in ascending order of key.
pub const QUANTITY_BOUND: i64 = 1_000_000_000;
pub const MOST_PAIRS: usize = 4_096;

#[derive(Clone, Copy, PartialEq, Eq, Debug)]
pub enum Refusal {
    Closed,
    Underlying,
    Kind,
    Unset,
    Turn,
    Time,
    Price,
    Delta { contract: usize, entity: usize },
    Value { entity: usize },
    ShortDay,
    Input,
    Pair,
    Size,
    Full,
}

impl Refusal {
    pub fn number(self) -> u8 {
        match self {
            Refusal::Closed => 10,
            Refusal::Underlying => 1,
            Refusal::Kind => 2,
            Refusal::Unset => 9,
            Refusal::Turn => 3,
            Refusal::Time => 4,
            Refusal::Price => 5,
            Refusal::Delta { .. } => 6,
            Refusal::Value { .. } => 7,
            Refusal::ShortDay => 8,
            Refusal::Input => 15,
            Refusal::Pair => 11,
            Refusal::Size => 12,
            Refusal::Full => 13,
        }
    }

    pub fn name(self) -> &'static str {
        match self {
            Refusal::Closed => "CLOSED",
            Refusal::Underlying => "UNDERLYING",
            Refusal::Kind => "KIND",
            Refusal::Unset => "UNSET",
            Refusal::Turn => "TURN",
            Refusal::Time => "TIME",
            Refusal::Price => "PRICE",
            Refusal::Delta { .. } => "DELTA",
            Refusal::Value { .. } => "VALUE",
            Refusal::ShortDay => "SHORT-DAY",
            Refusal::Input => "INPUT",
            Refusal::Pair => "PAIR",
            Refusal::Size => "SIZE",
            Refusal::Full => "FULL",
        }
    }
}

#[derive(Clone, Copy, PartialEq, Eq, Debug)]
pub struct Shape {
    pub entities: usize,
    pub contracts: usize,
    pub capacity: usize,
}

pub trait Holds {
    fn quantity(&self, entity: usize, contract: usize) -> i64;
}

pub trait Book: Holds {
    fn shape(&self) -> Shape;
    fn post(&mut self, entity: usize, contract: usize, change: i64) -> Result<i64, Refusal>;
}

fn summed(quantity: i64, change: i64) -> Result<i64, Refusal> {
    quantity
        .checked_add(change)
        .filter(|sum| (-QUANTITY_BOUND..=QUANTITY_BOUND).contains(sum))
        .ok_or(Refusal::Size)
}

pub struct Grid {
    cells: Vec<i64>,
    entities: usize,
    contracts: usize,
}

impl Grid {
    pub fn new(entities: usize, contracts: usize) -> Grid {
        Grid { cells: vec![0; entities * contracts], entities, contracts }
    }

    fn place(&self, entity: usize, contract: usize) -> Option<usize> {
        (entity < self.entities && contract < self.contracts).then(|| entity * self.contracts + contract)
    }
}

impl Holds for Grid {
    fn quantity(&self, entity: usize, contract: usize) -> i64 {
        self.place(entity, contract).map_or(0, |at| self.cells[at])
    }
}

impl Book for Grid {
    fn shape(&self) -> Shape {
        Shape { entities: self.entities, contracts: self.contracts, capacity: self.cells.len() }
    }

    fn post(&mut self, entity: usize, contract: usize, change: i64) -> Result<i64, Refusal> {
        let at = self.place(entity, contract).ok_or(Refusal::Pair)?;
        let cell = &mut self.cells[at];
        *cell = summed(*cell, change)?;
        Ok(*cell)
    }
}

// Rows of key and value in ascending order of key, never more than `places`.
pub struct Table<V> {
    rows: Vec<(u64, V)>,
    places: usize,
}

impl<V: Copy> Table<V> {
    pub fn new(places: usize) -> Table<V> {
        Table { rows: Vec::with_capacity(places), places }
    }

    fn locate(&self, key: u64) -> Result<usize, usize> {
        self.rows.binary_search_by_key(&key, |row| row.0)
    }

    pub fn find(&self, key: u64) -> Option<V> {
        self.locate(key).ok().map(|at| self.rows[at].1)
    }

    pub fn put(&mut self, key: u64, value: V) -> Result<(), Refusal> {
        match self.locate(key) {
            Ok(at) => self.rows[at].1 = value,
            Err(_) if self.rows.len() == self.places => return Err(Refusal::Full),
            Err(at) => self.rows.insert(at, (key, value)),
        }
        Ok(())
    }

    pub fn remove(&mut self, key: u64) {
        if let Ok(at) = self.locate(key) {
            self.rows.remove(at);
        }
    }
}

pub struct List {
    table: Table<i64>,
    entities: usize,
    contracts: usize,
}

impl List {
    pub fn new(places: usize, entities: usize, contracts: usize) -> List {
        List { table: Table::new(places.min(MOST_PAIRS)), entities, contracts }
    }

    fn key(&self, entity: usize, contract: usize) -> Option<u64> {
        (entity < self.entities && contract < self.contracts).then(|| (entity * self.contracts + contract) as u64)
    }
}

impl Holds for List {
    fn quantity(&self, entity: usize, contract: usize) -> i64 {
        self.key(entity, contract).and_then(|key| self.table.find(key)).unwrap_or(0)
    }
}

impl Book for List {
    fn shape(&self) -> Shape {
        Shape { entities: self.entities, contracts: self.contracts, capacity: self.table.places }
    }

    fn post(&mut self, entity: usize, contract: usize, change: i64) -> Result<i64, Refusal> {
        let key = self.key(entity, contract).ok_or(Refusal::Pair)?;
        let sum = summed(self.table.find(key).unwrap_or(0), change)?;
        if sum == 0 {
            self.table.remove(key);
        } else {
            self.table.put(key, sum)?;
        }
        Ok(sum)
    }
}
