//! Random tables, mostly of the shared domain, and random inputs. A seed gives the same tables again.
use crate::model::*;

/// SplitMix64.
pub struct Random(pub u64);

impl Random {
    pub fn next(&mut self) -> u64 {
        self.0 = self.0.wrapping_add(0x9e37_79b9_7f4a_7c15);
        let x = (self.0 ^ self.0 >> 30).wrapping_mul(0xbf58_476d_1ce4_e5b9);
        let x = (x ^ x >> 27).wrapping_mul(0x94d0_49bb_1331_11eb);
        x ^ x >> 31
    }

    pub fn below(&mut self, n: usize) -> usize {
        (self.next() % n as u64) as usize
    }

    pub fn one_in(&mut self, n: usize) -> bool {
        self.below(n) == 0
    }

    fn pick<T: Copy>(&mut self, from: &[T]) -> T {
        from[self.below(from.len())]
    }

    /// A number of so many bits: often one whose bits run on, so that carries do too.
    pub fn word(&mut self, width: u64) -> u64 {
        let shift = self.below(width as usize);
        let number = match self.below(8) {
            0 => 0,
            1 => u64::MAX,
            2 => 1 << shift,
            3 => u64::MAX << shift,
            4 => (1 << shift) - 1,
            5 => self.next() & 15,
            _ => self.next(),
        };
        number & mask(width)
    }
}

/// A table under way. `fixed` says of a node that it hangs on constants alone, so that a division over it is in the shared domain.
struct Draft {
    table: Table,
    fixed: Vec<bool>,
}

impl Draft {
    fn push(&mut self, kind: u64, width: u64, operands: [usize; 3], imm: u64) -> usize {
        let node = Node::new(kind, width, operands, imm);
        let fixed = !node.is_given() && operands.iter().all(|k| *k == 0 || self.fixed[*k - 1]);
        self.table.nodes.push(node);
        self.fixed.push(fixed);
        self.table.nodes.len()
    }

    fn constant(&mut self, r: &mut Random, width: u64) -> usize {
        let imm = r.word(width);
        self.push(CONST, width, [0; 3], imm)
    }

    fn divisor(&mut self, r: &mut Random, width: u64) -> usize {
        let imm = r.word(width).max(1);
        self.push(CONST, width, [0; 3], imm)
    }

    fn leaf(&mut self, r: &mut Random, width: u64) -> usize {
        match r.below(5) {
            0 | 1 => self.constant(r, width),
            2 => self.push(STATE, width, [0; 3], 0),
            _ => self.push(INPUT, width, [0; 3], 0),
        }
    }

    /// A node that may be an operand: a bad node may not. Late ones are taken more often, so that tables are deep.
    fn operand(&mut self, r: &mut Random, width: u64, fixed: bool) -> usize {
        let found: Vec<usize> = (1..=self.table.nodes.len())
            .filter(|k| {
                let n = &self.table.nodes[k - 1];
                n.width == width && n.kind != BAD && (!fixed || self.fixed[k - 1])
            })
            .collect();
        if found.is_empty() || r.one_in(8) {
            return if fixed { self.constant(r, width) } else { self.leaf(r, width) };
        }
        let i = r.below(found.len()).max(r.below(found.len()));
        if width > 1 && r.one_in(8) {
            return self.masked(r, width, found[i]);
        }
        found[i]
    }

    /// A word of which a part is known: its bits where a constant has ones.
    fn masked(&mut self, r: &mut Random, width: u64, of: usize) -> usize {
        let ones = self.constant(r, width);
        let operands = if r.one_in(2) { [of, ones, 0] } else { [ones, of, 0] };
        self.push(AND, width, operands, 0)
    }

    /// A shift's amount: a constant below the width, or a known word cut to one; now and then any word.
    fn amount(&mut self, r: &mut Random, width: u64) -> usize {
        if r.one_in(20) {
            let fixed = r.one_in(2);
            return self.operand(r, width, fixed);
        }
        let of = if r.one_in(4) { Some(self.operand(r, width, true)) } else { None };
        let below = r.below(width as usize) as u64;
        let number = self.push(CONST, width, [0; 3], below);
        of.map_or(number, |of| self.push(AND, width, [of, number, 0], 0))
    }

    fn two(&mut self, r: &mut Random, kind: u64, width: u64, of: u64, fixed: bool) -> usize {
        let a = self.operand(r, of, fixed);
        let b = self.operand(r, of, fixed);
        self.push(kind, width, [a, b, 0], 0)
    }

    fn step(&mut self, r: &mut Random, widths: &[u64]) {
        const KINDS: [u64; 30] = [
            CONST, INPUT, STATE, STATE, NOT, NOT, AND, AND, AND, EXT, EQ, EQ, ADD, ADD, ADD, ITE, ITE, ITE, SUB, SUB, ULT, MUL, DIVU, REM, OR, OR, SLL,
            SLL, SRL, SRL,
        ];
        let width = r.pick(widths);
        match r.pick(&KINDS) {
            CONST => {
                self.constant(r, width);
            }
            INPUT => {
                self.push(INPUT, width, [0; 3], 0);
            }
            STATE => {
                let init = if r.one_in(3) { 0 } else { self.operand(r, width, false) };
                self.push(STATE, width, [init, 0, 0], 0);
            }
            NOT => {
                let a = self.operand(r, width, false);
                self.push(NOT, width, [a, 0, 0], 0);
            }
            EXT => {
                let a = self.operand(r, width, false);
                self.push(EXT, 64, [a, 0, 0], 0);
            }
            kind @ (EQ | ULT) => {
                self.two(r, kind, 1, width, false);
            }
            ITE => {
                let fixed = r.one_in(4);
                let c = self.operand(r, 1, fixed);
                let a = self.operand(r, width, false);
                let b = self.operand(r, width, false);
                self.push(ITE, width, [c, a, b], 0);
            }
            // At width 1 the original stops; once in a while it may.
            SUB if width == 1 && !r.one_in(50) => {
                self.two(r, ULT, 1, 1, false);
            }
            MUL if width > 32 && !r.one_in(4) => {
                self.two(r, MUL, 8, 8, false);
            }
            kind @ (DIVU | REM) => {
                let fixed = !r.one_in(40);
                let a = self.operand(r, width, fixed);
                // By a known zero the original stops.
                let b = if r.one_in(8) { self.operand(r, width, fixed) } else { self.divisor(r, width) };
                self.push(kind, width, [a, b, 0], 0);
            }
            kind @ (SLL | SRL) => {
                // At width 1 the one amount below the width moves nothing.
                let width = if width == 1 && !r.one_in(4) { r.pick(&widths[1..]) } else { width };
                let a = self.operand(r, width, false);
                let b = self.amount(r, width);
                self.push(kind, width, [a, b, 0], 0);
            }
            kind => {
                self.two(r, kind, width, width, false);
            }
        }
    }

    /// A memory, a write to it and a read: the original stops where one of them is reached.
    fn memory(&mut self, r: &mut Random) {
        self.table.word = 8;
        self.table.addresses = vec![0, 8];
        let kind = r.pick(&[INPUT, STATE]);
        let memory = self.push(kind, 0, [0; 3], 0);
        let at = self.operand(r, 8, false);
        let value = self.operand(r, 8, false);
        let written = self.push(WRITE, 0, [memory, at, value], 0);
        self.push(READ, 8, [r.pick(&[memory, written]), at, 0], 0);
    }

    /// A bad node over one bit, or over a comparison of a late word.
    fn bad(&mut self, r: &mut Random, widths: &[u64]) {
        let width = r.pick(widths);
        let condition = if r.one_in(4) {
            self.operand(r, 1, false)
        } else {
            let kind = r.pick(&[EQ, EQ, ULT]);
            self.two(r, kind, 1, width, false)
        };
        self.push(BAD, 1, [condition, 0, 0], 0);
    }
}

pub fn table(r: &mut Random) -> Table {
    let mut widths = vec![1];
    for _ in 0..1 + r.below(3) {
        widths.push(if r.one_in(2) { 8 } else { r.pick(&WIDTHS) });
    }
    let mut draft = Draft { table: Table { word: 64, addresses: Vec::new(), nodes: Vec::new() }, fixed: Vec::new() };
    let steps = if r.one_in(20) { 20 + r.below(40) } else { 1 + r.below(20) };
    for _ in 0..steps {
        draft.step(r, &widths);
        if r.one_in(12) {
            draft.bad(r, &widths);
        }
        if r.one_in(300) {
            draft.memory(r);
        }
    }
    for _ in 0..1 + r.below(3) {
        draft.bad(r, &widths);
    }
    draft.table
}

/// Inputs: all zero, all one, and random ones.
pub fn given(r: &mut Random, table: &Table, count: usize) -> Vec<Given> {
    let mut all = Vec::new();
    for i in 0..count {
        let word = |n: &Node| match (n.is_given() && n.width > 0, i) {
            (false, _) | (_, 0) => 0,
            (_, 1) => mask(n.width),
            _ => r.word(n.width),
        };
        all.push(table.nodes.iter().map(word).collect());
    }
    all
}
