//! Tables, and the form in which the two answers are held against each other.

pub use ramstitcher::kind::*;

/// The widths that the original's `NodeType` has.
pub const WIDTHS: [u64; 9] = [1, 8, 16, 24, 32, 40, 48, 56, 64];

#[derive(Clone, Copy, PartialEq, Eq)]
pub struct Node {
    pub kind: u64,
    pub width: u64,
    pub operands: [usize; 3],
    pub imm: u64,
}

impl Node {
    pub fn new(kind: u64, width: u64, operands: [usize; 3], imm: u64) -> Node {
        Node { kind, width, operands, imm }
    }

    /// An input, or a state without an initial node: its value is given from outside.
    pub fn is_given(&self) -> bool {
        self.kind == INPUT || self.kind == STATE && self.operands[0] == 0
    }
}

/// Nodes are numbered from 1: node k stands at place k - 1.
#[derive(Clone)]
pub struct Table {
    pub word: u64,
    pub addresses: Vec<u64>,
    pub nodes: Vec<Node>,
}

pub fn mask(width: u64) -> u64 {
    u64::MAX >> (64 - width)
}

/// A kind's name, as a table's text has it.
fn name(kind: u64) -> String {
    ALL.iter().find(|(number, _)| *number == kind).map_or("none", |(_, name)| name).to_lowercase()
}

impl Table {
    pub fn flat(&self) -> Vec<u64> {
        self.nodes.iter().flat_map(|n| [n.kind, n.width, n.operands[0] as u64, n.operands[1] as u64, n.operands[2] as u64, n.imm]).collect()
    }

    /// One line: `1: input 8 / 2: not 8 (1) / ...`, as docs/DIFFERENCES.md writes tables.
    pub fn line(&self) -> String {
        let mut words = Vec::new();
        for (i, n) in self.nodes.iter().enumerate() {
            let mut word = format!("{}: {} {}", i + 1, name(n.kind), n.width);
            let operands: Vec<String> = n.operands.iter().filter(|k| **k != 0).map(usize::to_string).collect();
            if !operands.is_empty() {
                word += &format!(" ({})", operands.join(","));
            }
            if n.kind == CONST {
                word += &format!(" imm {}", n.imm);
            }
            words.push(word);
        }
        let memory = if self.addresses.is_empty() { String::new() } else { format!("W={} at {:?}: ", self.word, self.addresses) };
        memory + &words.join(" / ")
    }
}

/// What a reached node became: the bits mapped to a constant, and its value under each of the given inputs.
#[derive(Clone)]
pub struct Bits {
    pub count: usize,
    pub known: u64,
    pub values: Vec<u64>,
}

impl Bits {
    pub fn wholly_known(&self) -> bool {
        self.known == mask(self.count as u64)
    }
}

/// A lowering, as far as it is compared: the reached nodes and the number of constraints.
pub struct Answer {
    pub nodes: Vec<Option<Bits>>,
    pub constraints: usize,
}

/// Given values: one word a node, 0 where none is given.
pub type Given = Vec<u64>;
