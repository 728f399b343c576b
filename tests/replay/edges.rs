//! The edges: tables and answers that are made here, and not read. None of them lists an address.
use crate::lowering::{lent, only};
use ramstitcher::kind::*;
use ramstitcher::{gate, Lowered, Refusal, CONSTRAINT, GATE};

fn node(kind: u64, width: u64, a: u64, b: u64, c: u64) -> [u64; 6] {
    [kind, width, a, b, c, 0]
}

fn record(kind: u32, x: u32, y: u32) -> [u32; GATE] {
    [kind, x, y, 0]
}

fn refused(number: u64) -> Result<Lowered, Refusal> {
    Err(Refusal { number, node: 0 })
}

fn done(gates: usize, constraints: usize) -> Result<Lowered, Refusal> {
    Ok(Lowered { gates, constraints })
}

/// An input of one bit, Nots one upon the other, and a bad node as node n.
fn not_chain(n: u64) -> Vec<[u64; 6]> {
    let mut table = vec![node(INPUT, 1, 0, 0, 0)];
    table.extend((2..n).map(|k| node(NOT, 1, k - 1, 0, 0)));
    table.push(node(BAD, 1, n - 1, 0, 0));
    table
}

/// The two constants, and the bits of an input.
fn input_gates(of: u32, width: u32) -> Vec<[u32; GATE]> {
    let mut gates = vec![record(gate::CONST_FALSE, 0, 0), record(gate::CONST_TRUE, 0, 0)];
    gates.extend((0..width).map(|j| record(gate::INPUT_BIT, of, j)));
    gates
}

/// Lowered into buffers of these lengths, a table is answered so, and leaves these used parts.
fn leaves(table: &[[u64; 6]], word: u64, room: [usize; 3], answer: Result<Lowered, Refusal>, gates: &[[u32; GATE]], map: &[u32]) -> bool {
    let mut buffers = lent(room[0], room[1], room[2]);
    buffers.lower(&table.concat(), &[], word) == answer && buffers.holds(&gates.concat(), &[], map)
}

/// 512 nodes pass.
fn most_nodes() -> bool {
    let mut gates = input_gates(1, 1);
    gates.extend((3..=512).map(|i| record(gate::NOT, i - 1, 0)));
    let mut map: Vec<u32> = (2..513).collect();
    map.push(512);
    leaves(&not_chain(512), 1, [GATE * 515, 2, 514], done(513, 0), &gates, &map)
}

/// 513 do not, whatever is lent.
fn too_many_nodes() -> bool {
    leaves(&not_chain(513), 1, [GATE * 515, 2, 514], refused(1), &[], &[])
}

/// 512 nodes of which none is bad: nothing is asked, with all the room that there can be.
fn nothing_asked() -> bool {
    let mut table = not_chain(512);
    table[511] = node(NOT, 1, 511, 0, 0);
    leaves(&table, 1, [GATE * 515, 2, 514], refused(14), &[], &[])
}

/// No nodes ask nothing either. That is said before the room: for the two constants a number is missing.
fn no_nodes() -> bool {
    leaves(&[], 64, [GATE * 2 - 1, 0, 0], refused(14), &[], &[])
}

/// Without addresses a write changes nothing and a read is 0, at an address of eight unknown bits.
fn no_addresses() -> bool {
    let table = [
        node(INPUT, 0, 0, 0, 0),
        node(INPUT, 8, 0, 0, 0),
        node(WRITE, 0, 1, 2, 2),
        node(READ, 8, 3, 2, 0),
        node(CONST, 8, 0, 0, 0),
        node(EQ, 1, 4, 5, 0),
        node(BAD, 1, 6, 0, 0),
    ];
    let mut map: Vec<u32> = (2..10).collect();
    map.extend([0; 16]);
    map.extend([1, 1]);
    leaves(&table, 8, [GATE * 33, 2, 30], done(10, 0), &input_gates(2, 8), &map)
}

/// A memory without bits, and 500 ites over it, each with the one before as both of its sides; node 503 reads the last. Such nodes have no place in
/// the map that could tell that they were visited: a lowering that visits one again for each side does not end in a lifetime.
fn many_ites() -> bool {
    let mut table = vec![node(INPUT, 1, 0, 0, 0), node(INPUT, 0, 0, 0, 0)];
    table.extend((3..503).map(|k| node(ITE, 0, 1, k - 1, k - 1)));
    table.push(node(READ, 1, 502, 1, 0));
    table.push(node(BAD, 1, 503, 0, 0));
    leaves(&table, 1, [GATE * 4, 0, 3], done(3, 0), &input_gates(1, 1), &[2, 0, 0])
}

/// A divu of two inputs of 64 bits, and the question whether the quotient is the dividend. The sums are 11,682 gates (2 constants, 64 and 64 of the inputs,
/// 11,361 of the divu, 191 of the eq), 2,146 constraints and 194 bits.
const DIVISION: [[u64; 6]; 5] = [[INPUT, 64, 0, 0, 0, 0], [INPUT, 64, 0, 0, 0, 0], [DIVU, 64, 1, 2, 0, 0], [EQ, 1, 3, 1, 0, 0], [BAD, 1, 4, 0, 0, 0]];
const GATES: usize = GATE * 11_682;
const CONSTRAINTS: usize = CONSTRAINT * 2_146;

/// So much is enough. Of its 11,361 the divu makes 8,962, since constants fold: 2w² + 12w + 2 at width w. Of its constraints it records all.
fn division() -> bool {
    let mut buffers = lent(GATES, CONSTRAINTS, 194);
    let untouched = |found: &[u32], from: usize| only(found, &found[..from]);
    buffers.lower(&DIVISION.concat(), &[], 64) == done(9_283, 2_146) && untouched(&buffers.gates, GATE * 9_283)
}

/// Where a number is missing it is refused, and nothing is changed: the first that is missing of gates, map and constraints says which refusal.
fn division_refused(number: u64, gates: usize, map: usize) -> bool {
    leaves(&DIVISION, 64, [gates, CONSTRAINTS - 1, map], refused(number), &[], &[])
}

pub fn all() -> Vec<bool> {
    vec![
        most_nodes(),
        too_many_nodes(),
        nothing_asked(),
        no_nodes(),
        no_addresses(),
        many_ites(),
        division(),
        division_refused(7, GATES - 1, 193),
        division_refused(8, GATES, 193),
        division_refused(9, GATES, 194),
    ]
}
