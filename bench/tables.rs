//! The tables that are measured.
pub use ramstitcher::kind::*;

/// A node table: six numbers a node, the listed addresses and the word width.
#[derive(Clone, Default)]
pub struct Table {
    pub nodes: Vec<[u64; 6]>,
    pub addresses: Vec<u64>,
    pub word: u64,
}

impl Table {
    fn new(word: u64) -> Table {
        Table { word, ..Default::default() }
    }

    /// Adds a node, and gives its number.
    fn node(&mut self, kind: u64, width: u64, a: u64, b: u64, c: u64) -> u64 {
        self.nodes.push([kind, width, a, b, c, 0]);
        self.nodes.len() as u64
    }

    fn input(&mut self, width: u64) -> u64 {
        self.node(INPUT, width, 0, 0, 0)
    }

    /// An eq with x and a bad over it, so that the node is reached.
    fn reached(mut self, node: u64, x: u64) -> Table {
        let e = self.node(EQ, 1, node, x, 0);
        self.node(BAD, 1, e, 0, 0);
        self
    }

    pub fn flat(&self) -> Vec<u64> {
        self.nodes.concat()
    }
}

/// One operation on two 64-bit inputs.
pub fn two(kind: u64) -> Table {
    let mut t = Table::new(64);
    let (x, y) = (t.input(64), t.input(64));
    let r = t.node(kind, 64, x, y, 0);
    t.reached(r, x)
}

/// Chained 64-bit adds.
pub fn adds(n: u64) -> Table {
    let mut t = Table::new(64);
    let (x, mut last) = (t.input(64), t.input(64));
    for i in 0..n {
        last = t.node(ADD, 64, last, 1 + i % 2, 0);
    }
    t.reached(last, x)
}

/// Four inputs, then add, and, eq and ite in turn: nodes in all, filled up by adds.
pub fn mix(nodes: u64) -> Table {
    let mut t = Table::new(64);
    for _ in 0..4 {
        t.input(64);
    }
    let (mut x, mut y) = (1, 2);
    for i in 0..(nodes - 6) / 4 {
        let sum = t.node(ADD, 64, x, y, 0);
        let both = t.node(AND, 64, y, 1 + i % 4, 0);
        let same = t.node(EQ, 1, sum, both, 0);
        y = x;
        x = t.node(ITE, 64, same, sum, both);
    }
    for _ in 0..(nodes - 6) % 4 {
        x = t.node(ADD, 64, x, y, 0);
    }
    t.reached(x, 1)
}

/// A 64-bit word moved down and up by an amount that is an input, the two joined and an input added: so many times.
pub fn masks(n: u64) -> Table {
    let mut t = Table::new(64);
    let (x, amount) = (t.input(64), t.input(64));
    let mut last = x;
    for _ in 0..n {
        let down = t.node(SRL, 64, last, amount, 0);
        let up = t.node(SLL, 64, last, amount, 0);
        let both = t.node(OR, 64, down, up, 0);
        last = t.node(ADD, 64, both, x, 0);
    }
    t.reached(last, x)
}

/// A memory of 64 words of 32 bits: four writes and four reads, each at an address that is an input.
pub fn memory() -> Table {
    let mut t = Table::new(32);
    t.addresses = (0..64).map(|i| 4 * i).collect();
    let mut m = t.input(0);
    let mut value = t.input(32);
    let first = value;
    for _ in 0..4 {
        let (to, from) = (t.input(32), t.input(32));
        m = t.node(WRITE, 0, m, to, value);
        value = t.node(READ, 32, m, from, 0);
    }
    t.reached(value, first)
}
