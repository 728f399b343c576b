//! The fixed list: answers of the original, as numbers alone, that need no Rust to be replayed.
//!
//! The first number is the count of cases. A case is: word width, addresses, table; 1 where no sub or ult is reached over a right operand, and no
//! srl of a word, that the original does not wholly know, else 0; and one number for each place of the bit map: 0 where the node was not reached, 16
//! for an unknown bit, 32 for a known one, and to these the bit's values under four inputs, as 1, 2, 4 and 8. Each list stands behind its length. The
//! bits of an input are the inputs themselves.
use crate::compare::{compare, Compared, Outcome};
use crate::generate::{self, Random};
use crate::model::*;
use crate::ours::Ours;

/// Inputs of each case: a place of the list holds their bits.
const LANES: usize = 4;
/// A listed table has no more gates than this by the ceilings, and no more nodes.
const GATES: u64 = 4_000;
const NODES: usize = 24;
/// The kinds that are to be reached.
const REACHED: [u64; 18] = [CONST, INPUT, STATE, NOT, BAD, AND, EXT, EQ, ADD, ITE, SUB, ULT, MUL, DIVU, REM, OR, SLL, SRL];

fn ceiling(n: &Node, of: u64) -> u64 {
    match n.kind {
        CONST | BAD | EXT => 0,
        STATE if n.operands[0] != 0 => 0,
        INPUT | STATE | NOT | AND | OR => of,
        EQ => 3 * of - 1,
        ADD | ITE => 3 * of,
        SUB => 4 * of,
        ULT => 4 * of + 1,
        MUL => 2 * of * (of + 1),
        SLL | SRL => {
            let stages = (0..64).filter(|j| 1 << j < of).count() as u64;
            3 * of * stages + 2 * of - stages - 1
        }
        _ => 2 * of * of + 13 * of + 1 + of * (of - 1) / 2,
    }
}

fn listable(table: &Table) -> bool {
    let of = |n: &Node| if n.kind == EQ || n.kind == ULT { table.nodes[n.operands[0] - 1].width } else { n.width };
    let gates: u64 = 2 + table.nodes.iter().map(|n| ceiling(n, of(n))).sum::<u64>();
    table.addresses.is_empty() && table.nodes.len() <= NODES && gates <= GATES
}

fn counted(out: &mut Vec<u64>, numbers: &[u64]) {
    out.push(numbers.len() as u64);
    out.extend(numbers);
}

fn place(bits: &Bits, i: u64) -> u64 {
    let values = bits.values.iter().enumerate().fold(0, |v, (lane, word)| v | (word >> i & 1) << lane);
    16 + 16 * (bits.known >> i & 1) + values
}

fn case(table: &Table, c: &Compared) -> Vec<u64> {
    let mut out = vec![table.word];
    counted(&mut out, &table.addresses);
    counted(&mut out, &table.flat());
    out.push(c.plain as u64);
    let mut places = Vec::new();
    for (n, bits) in table.nodes.iter().zip(&c.theirs.nodes) {
        places.extend((0..n.width).map(|i| bits.as_ref().map_or(0, |bits| place(bits, i))));
    }
    counted(&mut out, &places);
    out
}

/// A case is taken where the kind that was reached least often so far is reached in it, so that none is rare; every fifth is taken as it comes.
pub fn write(count: usize, seed: u64) -> bool {
    let mut r = Random(seed);
    let mut ours = Ours::new();
    let mut times = [0usize; REACHED.len()];
    let mut cases = Vec::new();
    while cases.len() < count {
        let table = generate::table(&mut r);
        let given = generate::given(&mut r, &table, LANES);
        if !listable(&table) {
            continue;
        }
        let Outcome::Compared(c) = compare(&table, &given, &mut ours) else { continue };
        let reached = |kind: u64| table.nodes.iter().zip(&c.theirs.nodes).filter(|(n, b)| n.kind == kind && b.is_some()).count();
        let rarest = (0..REACHED.len()).min_by_key(|i| times[*i]).unwrap();
        if cases.len() % 5 != 0 && reached(REACHED[rarest]) == 0 {
            continue;
        }
        if !c.wrong().is_empty() {
            eprintln!("differs: {}", table.line());
            return false;
        }
        REACHED.iter().zip(&mut times).for_each(|(kind, times)| *times += reached(*kind));
        cases.push(case(&table, &c));
    }
    println!("{}", cases.len());
    for case in &cases {
        println!("{}", case.iter().map(u64::to_string).collect::<Vec<_>>().join(" "));
    }
    true
}
