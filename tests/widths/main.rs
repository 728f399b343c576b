//! Every operation at every small width, over words that are all given, tried at every input. The gates that the lowering makes are evaluated and their
//! bits read as numbers; these are held against the word evaluator's and against the numbers of BTOR2, which stand here once more as plain Rust.
//! Of a division every value of the Quotient and Remainder gates is tried at every input: exactly one must meet the constraints.
use ramstitcher::kind::*;
use ramstitcher::{eval_gates, eval_words, gate, lower, room, CONSTRAINT, GATE};

/// Greatest number of a width.
fn ones(w: u64) -> u64 {
    (1 << w) - 1
}

/// An operation: its name, kind and operand count, its own width over operands w wide, and what it makes of numbers.
struct Operation {
    name: &'static str,
    kind: u64,
    operands: usize,
    width: fn(u64) -> u64,
    value: fn(u64, u64, u64) -> u64,
}

const fn binary(name: &'static str, kind: u64, value: fn(u64, u64, u64) -> u64) -> Operation {
    Operation { name, kind, operands: 2, width: |w| w, value }
}

const fn comparison(name: &'static str, kind: u64, value: fn(u64, u64, u64) -> u64) -> Operation {
    Operation { name, kind, operands: 2, width: |_| 1, value }
}

const fn unary(name: &'static str, kind: u64, width: fn(u64) -> u64, value: fn(u64, u64, u64) -> u64) -> Operation {
    Operation { name, kind, operands: 1, width, value }
}

const OPERATIONS: [Operation; 14] = [
    unary("not", NOT, |w| w, |w, x, _| !x & ones(w)),
    binary("and", AND, |_, x, y| x & y),
    binary("or", OR, |_, x, y| x | y),
    unary("ext", EXT, |w| w + 2, |_, x, _| x),
    unary("sext", SEXT, |w| w + 2, |w, x, _| if x >> (w - 1) == 1 { x | 3 << w } else { x }),
    comparison("eq", EQ, |_, x, y| (x == y).into()),
    comparison("ult", ULT, |_, x, y| (x < y).into()),
    binary("add", ADD, |w, x, y| (x + y) & ones(w)),
    binary("sub", SUB, |w, x, y| x.wrapping_sub(y) & ones(w)),
    binary("mul", MUL, |w, x, y| x * y & ones(w)),
    binary("sll", SLL, |w, x, y| if y < w { x << y & ones(w) } else { 0 }),
    binary("srl", SRL, |w, x, y| if y < w { x >> y } else { 0 }),
    binary("divu", DIVU, |w, x, y| x.checked_div(y).unwrap_or(ones(w))),
    binary("rem", REM, |_, x, y| x.checked_rem(y).unwrap_or(x)),
];

/// A table that was lowered: its gates, its constraints (gate, value), and the bit map.
struct Lowered {
    gates: Vec<u32>,
    constraints: Vec<[u32; CONSTRAINT]>,
    map: Vec<u32>,
}

/// With the room that the table asks for.
fn lowered(table: &[u64], addrs: &[u64], word: u64) -> Lowered {
    let asked = room(table, addrs, word).expect("a table without fault");
    let (mut gates, mut constraints) = (vec![0; GATE * asked.gates], vec![0; CONSTRAINT * asked.constraints]);
    let mut map = vec![0; asked.map];
    let made = lower(table, addrs, word, &mut gates, &mut constraints, &mut map).expect("room");
    gates.truncate(GATE * made.gates);
    let constraints = constraints.chunks(CONSTRAINT).take(made.constraints).map(|c| [c[0], c[1]]).collect();
    Lowered { gates, constraints, map }
}

impl Lowered {
    /// The gates of a kind, in order.
    fn free(&self, wanted: impl Fn(u32) -> bool) -> Vec<usize> {
        self.gates.chunks(GATE).enumerate().filter(|(_, g)| wanted(g[0])).map(|(i, _)| i).collect()
    }

    /// All values, where each InputBit has its digit of its node's number and the other free gates have those of `guess`.
    fn values(&self, given: &[u64], guessed: &[usize], guess: u64) -> Vec<u8> {
        let mut values = vec![0; self.gates.len() / GATE];
        for (i, g) in self.gates.chunks(GATE).enumerate().filter(|(_, g)| g[0] == gate::INPUT_BIT) {
            values[i] = (given[g[1] as usize - 1] >> g[2] & 1) as u8;
        }
        for (j, i) in guessed.iter().enumerate() {
            values[*i] = (guess >> j & 1) as u8;
        }
        eval_gates(&self.gates, &mut values).expect("a list that was lowered");
        values
    }

    fn met(&self, values: &[u8]) -> bool {
        self.constraints.iter().all(|[gate, value]| u32::from(values[*gate as usize]) == *value)
    }

    /// The number that so many bits from a place of the map on say.
    fn number(&self, values: &[u8], at: usize, bits: usize) -> u64 {
        (0..bits).fold(0, |x, j| x | u64::from(values[self.map[at + j] as usize]) << j)
    }

    /// Exactly one choice of the Quotient and Remainder gates meets the constraints: the values under it.
    fn one(&self, given: &[u64]) -> Option<Vec<u8>> {
        let guessed = self.free(|kind| kind == gate::QUOTIENT || kind == gate::REMAINDER);
        let mut met = (0..1 << guessed.len()).map(|guess| self.values(given, &guessed, guess)).filter(|values| self.met(values));
        let first = met.next();
        first.filter(|_| met.next().is_none())
    }
}

/// Says how many inputs differ; answers whether none does.
fn report(name: &str, same: &[bool]) -> bool {
    let differ = same.iter().filter(|same| !**same).count();
    println!("{name}: {} inputs, {differ} differ", same.len());
    differ == 0 && !same.is_empty()
}

/// The operation over two inputs w wide. Node 4 keeps it and the other input reached: a comparison of the result with itself asks nothing new of it.
fn operation(o: &Operation, w: u64) -> Vec<bool> {
    let (width, two) = ((o.width)(w), if o.operands == 2 { 2 } else { 0 });
    let table = [[INPUT, w, 0, 0, 0, 0], [INPUT, w, 0, 0, 0, 0], [o.kind, width, 1, two, 0, 0], [ULT, 1, 3, 3, 0, 0], [BAD, 1, 4, 0, 0, 0]].concat();
    let list = lowered(&table, &[], 1);
    let inputs = (0..1u64 << (2 * w)).map(|i| (i & ones(w), i >> w));
    inputs
        .map(|(x, y)| {
            let wanted = (o.value)(w, x, y);
            let mut words = [x, y, 9, 9, 9];
            let evaluated = eval_words(&table, &[], 1, &mut words).is_ok() && words[2] == wanted;
            let gates = list.one(&[x, y]).map(|values| list.number(&values, 2 * w as usize, width as usize));
            evaluated && gates == Some(wanted)
        })
        .collect()
}

/// A choice by one given bit between two given words.
fn choice(w: u64) -> Vec<bool> {
    let table = [[INPUT, 1, 0, 0, 0, 0], [INPUT, w, 0, 0, 0, 0], [INPUT, w, 0, 0, 0, 0], [ITE, w, 1, 2, 3, 0], [ULT, 1, 4, 4, 0, 0], [BAD, 1, 5, 0, 0, 0]].concat();
    let list = lowered(&table, &[], 1);
    (0..1u64 << (2 * w + 1))
        .map(|i| {
            let given = [i & 1, i >> 1 & ones(w), i >> (w + 1)];
            let values = list.values(&given, &[], 0);
            list.number(&values, 1 + 2 * w as usize, w as usize) == given[if given[0] == 1 { 1 } else { 2 }]
        })
        .collect()
}

/// A memory of three words of two bits, of which address 1 is not listed; each number is the words in list order from its lowest bits on.
const ADDRESSES: [u64; 3] = [2, 0, 3];

fn place(address: u64) -> Option<u64> {
    ADDRESSES.iter().position(|a| *a == address).map(|i| 2 * i as u64)
}

fn read(memory: u64, address: u64, _: u64) -> u64 {
    place(address).map_or(0, |p| memory >> p & 3)
}

fn write(memory: u64, address: u64, value: u64) -> u64 {
    place(address).map_or(memory, |p| memory & !(3 << p) | value << p)
}

/// Memory, address and value are given; node 4 is the access, of so many bits. A write is read again at its own address, so that a bad node reaches it.
fn access(node: [u64; 6], bits: usize, wanted: fn(u64, u64, u64) -> u64) -> Vec<bool> {
    let reader = if node[0] == WRITE { [READ, 2, 4, 2, 0, 0] } else { [NOT, 2, 4, 0, 0, 0] };
    let table = [[INPUT, 0, 0, 0, 0, 0], [INPUT, 2, 0, 0, 0, 0], [INPUT, 2, 0, 0, 0, 0], node, reader, [EQ, 1, 5, 3, 0, 0], [BAD, 1, 6, 0, 0, 0]].concat();
    let list = lowered(&table, &ADDRESSES, 2);
    (0..1u64 << 10)
        .map(|i| {
            let (memory, address, value) = (i & 63, i >> 6 & 3, i >> 8);
            let values = list.values(&[memory, address, value], &[], 0);
            list.number(&values, 10, bits) == wanted(memory, address, value)
        })
        .collect()
}

fn main() {
    let mut good = true;
    for o in &OPERATIONS {
        // all quotients and remainders of a division are tried, so that it stops at three bits
        let widest = if o.kind == DIVU || o.kind == REM { 3 } else { 4 };
        let same: Vec<bool> = (1..=widest).flat_map(|w| operation(o, w)).collect();
        good &= report(&format!("{} of 1 to {widest} bits", o.name), &same);
    }
    let same: Vec<bool> = (1..=4).flat_map(choice).collect();
    good &= report("ite of 1 to 4 bits", &same);
    good &= report("read", &access([READ, 2, 1, 2, 0, 0], 2, read));
    good &= report("write", &access([WRITE, 0, 1, 2, 3, 0], 6, write));
    std::process::exit(i32::from(!good));
}
