//! The differences that docs/DIFFERENCES.md names, each at its smallest table: what the original does there, and what the port does.
use crate::compare::{compare, Difference, Outcome};
use crate::generate::{self, Random};
use crate::model::*;
use crate::ours::Ours;
use crate::theirs::{self, Theirs};

fn table(nodes: &[(u64, u64, [usize; 3], u64)]) -> Table {
    let nodes = nodes.iter().map(|(kind, width, operands, imm)| Node::new(*kind, *width, *operands, *imm)).collect();
    Table { word: 1, addresses: Vec::new(), nodes }
}

fn zeros(table: &Table) -> Given {
    vec![0; table.nodes.len()]
}

fn stops(table: &Table, words: &str) -> bool {
    theirs::stop(table).is_some_and(|why| why.contains(words))
}

fn lowered(table: &Table, ours: &mut Ours) -> bool {
    ours.lower(table, &[zeros(table)]).is_ok()
}

fn refused(table: &Table, number: u64, node: usize, ours: &mut Ours) -> bool {
    ours.lower(table, &[]).is_err_and(|r| r.number == number && r.node == node)
}

/// In the shared domain, with this difference at this node, so many bits that are known here only, and no other difference.
fn differs(table: &Table, kind: Difference, node: usize, bits: u64, ours: &mut Ours) -> bool {
    let given = generate::given(&mut Random(1), table, 64);
    match compare(table, &given, ours) {
        Outcome::Compared(c) => c.found == [(kind, node)] && c.known_here - c.known_in_both == bits && c.wrong().is_empty(),
        _ => false,
    }
}

/// Over a memory of one word, or of none.
fn memory(ours: &mut Ours) -> bool {
    let mut t = table(&[(INPUT, 0, [0; 3], 0), (CONST, 1, [0; 3], 0), (READ, 1, [1, 2, 0], 0), (BAD, 1, [3, 0, 0], 0)]);
    let none = stops(&t, "unknown bitsize") && lowered(&t, ours);
    t.addresses = vec![0];
    none && stops(&t, "unknown bitsize") && lowered(&t, ours)
}

fn narrow_sub(ours: &mut Ours) -> bool {
    let t = table(&[(INPUT, 1, [0; 3], 0), (SUB, 1, [1, 1, 0], 0), (BAD, 1, [2, 0, 0], 0)]);
    stops(&t, "bitvector_1.len() < inverted_bits.len()") && lowered(&t, ours)
}

/// The bad node shares the ult's bit.
fn known_by_ult(ours: &mut Ours) -> bool {
    let t = table(&[(INPUT, 1, [0; 3], 0), (CONST, 1, [0; 3], 1), (ULT, 1, [2, 1, 0], 0), (BAD, 1, [3, 0, 0], 0)]);
    differs(&t, Difference::MoreOfUlt, 3, 2, ours)
}

fn known_by_sub(ours: &mut Ours) -> bool {
    let t = table(&[
        (INPUT, 8, [0; 3], 0),
        (CONST, 8, [0; 3], 1),
        (AND, 8, [1, 2, 0], 0),
        (SUB, 8, [2, 3, 0], 0),
        (EQ, 1, [4, 4, 0], 0),
        (BAD, 1, [5, 0, 0], 0),
    ]);
    differs(&t, Difference::MoreOfSub, 4, 7, ours)
}

fn reached(ours: &mut Ours) -> bool {
    let t = table(&[
        (INPUT, 1, [0; 3], 0),
        (CONST, 1, [0; 3], 1),
        (ULT, 1, [2, 1, 0], 0),
        (INPUT, 1, [0; 3], 0),
        (ITE, 1, [3, 4, 1], 0),
        (BAD, 1, [5, 0, 0], 0),
    ]);
    let given = generate::given(&mut Random(1), &t, 64);
    match compare(&t, &given, ours) {
        Outcome::Compared(c) => c.found.contains(&(Difference::Fewer, 4)) && c.wrong().is_empty(),
        _ => false,
    }
}

fn zero_by_zero(ours: &mut Ours) -> bool {
    let t = table(&[(CONST, 1, [0; 3], 0), (DIVU, 1, [1, 1, 0], 0), (BAD, 1, [2, 0, 0], 0)]);
    stops(&t, "divide by zero") && value(&t, &zeros(&t), 2, ours) == Some(1)
}

/// Of a table with one division, its words 1 bit wide and node 1 its one input: no quotient and remainder meet the original's constraints.
fn never_met(table: &Table) -> bool {
    !(0..8u64).any(|i| {
        let mut given = zeros(table);
        given[0] = i & 1;
        theirs::admits(table, &given, i >> 1 & 1, i >> 2)
    })
}

/// With an unknown dividend the original goes on, and no quotient and remainder meet its constraints. Here there is none, and the answer is all ones.
fn unknown_by_zero(ours: &mut Ours) -> bool {
    let t = table(&[(INPUT, 1, [0; 3], 0), (CONST, 1, [0; 3], 0), (DIVU, 1, [1, 2, 0], 0), (BAD, 1, [3, 0, 0], 0)]);
    matches!(theirs::lower(&t, &[zeros(&t)]), Theirs::Divides) && never_met(&t) && value(&t, &zeros(&t), 3, ours) == Some(1)
}

/// Where an unknown divisor is zero, no quotient and remainder meet the original's constraints, and exactly one meets ours.
fn by_unknown_zero(ours: &mut Ours) -> bool {
    let t = table(&[(INPUT, 1, [0; 3], 0), (DIVU, 1, [1, 1, 0], 0), (BAD, 1, [2, 0, 0], 0)]);
    let given = zeros(&t);
    let there = (0..4).filter(|i| theirs::admits(&t, &given, i & 1, i >> 1)).count();
    let here = (0..4).filter(|i| ours.admits(&t, &given, i & 1, i >> 1) == Ok(true)).count();
    (there, here) == (0, 1)
}

/// 1 by 2 at width 8: 128 times 2 and 1 more is 257, of which the original's rows keep 1.
fn quotient_dropped(ours: &mut Ours) -> bool {
    let t = table(&[(INPUT, 8, [0; 3], 0), (INPUT, 8, [0; 3], 0), (DIVU, 8, [1, 2, 0], 0), (EQ, 1, [3, 1, 0], 0), (BAD, 1, [4, 0, 0], 0)]);
    let mut given = zeros(&t);
    (given[0], given[1]) = (1, 2);
    let there = (theirs::admits(&t, &given, 0, 1), theirs::admits(&t, &given, 128, 1));
    let here = (ours.admits(&t, &given, 0, 1), ours.admits(&t, &given, 128, 1));
    there == (true, true) && here == (Ok(true), Ok(false))
}

/// A node's value here.
fn value(table: &Table, given: &Given, node: usize, ours: &mut Ours) -> Option<u64> {
    let made = ours.lower(table, std::slice::from_ref(given)).ok()?;
    made.nodes[node - 1].as_ref().map(|bits| bits.values[0])
}

fn or(ours: &mut Ours) -> bool {
    let t = table(&[(INPUT, 1, [0; 3], 0), (OR, 1, [1, 1, 0], 0), (BAD, 1, [2, 0, 0], 0)]);
    stops(&t, "implement OR") && lowered(&t, ours)
}

fn known_by_srl(ours: &mut Ours) -> bool {
    let t = table(&[(INPUT, 8, [0; 3], 0), (CONST, 8, [0; 3], 1), (SRL, 8, [1, 2, 0], 0), (EQ, 1, [1, 3, 0], 0), (BAD, 1, [4, 0, 0], 0)]);
    differs(&t, Difference::MoreOfSrl, 3, 1, ours)
}

/// 0 by 2 at width 8: 128 times 2 is 256, of which the original's rows keep 0.
fn shifted_by_quotient(ours: &mut Ours) -> bool {
    let t = table(&[(INPUT, 8, [0; 3], 0), (CONST, 8, [0; 3], 1), (SRL, 8, [1, 2, 0], 0), (EQ, 1, [1, 3, 0], 0), (BAD, 1, [4, 0, 0], 0)]);
    let given = zeros(&t);
    theirs::admits(&t, &given, 0, 0) && theirs::admits(&t, &given, 128, 0) && value(&t, &given, 3, ours) == Some(0)
}

/// The original multiplies the powers of the amount's unknown bits, and a power is 0 where its bit is.
fn unknown_amount(ours: &mut Ours) -> bool {
    let left = table(&[(INPUT, 1, [0; 3], 0), (CONST, 1, [0; 3], 1), (SLL, 1, [2, 1, 0], 0), (BAD, 1, [3, 0, 0], 0)]);
    let right = table(&[(INPUT, 1, [0; 3], 0), (SRL, 1, [1, 1, 0], 0), (BAD, 1, [2, 0, 0], 0)]);
    let given = zeros(&left);
    let values = (theirs::value(&left, &given, 3), value(&left, &given, 3, ours));
    values == (Some(0), Some(1)) && never_met(&right) && value(&right, &zeros(&right), 2, ours) == Some(0)
}

/// By a known amount at the width the original's sll is zero, as it should be; its srl divides by zero.
fn wide_amount(ours: &mut Ours) -> bool {
    let by = |kind| table(&[(INPUT, 1, [0; 3], 0), (CONST, 1, [0; 3], 1), (kind, 1, [1, 2, 0], 0), (BAD, 1, [3, 0, 0], 0)]);
    let (left, right) = (by(SLL), by(SRL));
    let known = table(&[(CONST, 1, [0; 3], 1), (SRL, 1, [1, 1, 0], 0), (BAD, 1, [2, 0, 0], 0)]);
    let mut given = zeros(&left);
    given[0] = 1;
    let zero = [theirs::value(&left, &given, 3), value(&left, &given, 3, ours), value(&right, &given, 3, ours)] == [Some(0); 3];
    zero && never_met(&right) && stops(&known, "divide by zero") && value(&known, &zeros(&known), 2, ours) == Some(0)
}

/// Of an amount of more than 32 bits the original takes the lower 32.
fn cut_amount(ours: &mut Ours) -> bool {
    let t = table(&[(CONST, 40, [0; 3], 1), (CONST, 40, [0; 3], 1 << 32), (SLL, 40, [1, 2, 0], 0), (EQ, 1, [1, 3, 0], 0), (BAD, 1, [4, 0, 0], 0)]);
    let given = zeros(&t);
    (theirs::value(&t, &given, 3), value(&t, &given, 3, ours)) == (Some(1), Some(0))
}

/// The original's ext has no sort of its own and is always 64 wide. It stops where the width is asked for, and else goes on with the longer word.
fn short_ext(ours: &mut Ours) -> bool {
    let asked = table(&[(INPUT, 1, [0; 3], 0), (EXT, 1, [1, 0, 0], 0), (BAD, 1, [2, 0, 0], 0)]);
    let unasked = table(&[(INPUT, 1, [0; 3], 0), (EXT, 1, [1, 0, 0], 0), (EQ, 1, [2, 2, 0], 0), (BAD, 1, [3, 0, 0], 0)]);
    let bits = |answer: &Answer| answer.nodes[1].as_ref().map(|bits| bits.count);
    let longer = matches!(theirs::lower(&unasked, &[zeros(&unasked)]), Theirs::Lowered(answer, _) if bits(&answer) == Some(64));
    let here = ours.lower(&unasked, &[zeros(&unasked)]).is_ok_and(|answer| bits(&answer) == Some(1));
    stops(&asked, "replacement.len() == 1") && lowered(&asked, ours) && longer && here
}

/// The original makes nothing of it, and whoever looks for a bad state finds none.
fn nothing_asked(ours: &mut Ours) -> bool {
    let t = table(&[(INPUT, 1, [0; 3], 0)]);
    let nothing = |answer: &Answer| answer.nodes.iter().all(Option::is_none) && answer.constraints == 0;
    matches!(theirs::lower(&t, &[zeros(&t)]), Theirs::Lowered(answer, _) if nothing(&answer)) && refused(&t, 14, 0, ours)
}

type Check = fn(&mut Ours) -> bool;

/// Says how many are as they are said to be, and which are not.
pub fn run(ours: &mut Ours) -> bool {
    let all: [(&str, Check); 17] = [
        ("a memory", memory),
        ("a sub at width 1", narrow_sub),
        ("known bits of ult", known_by_ult),
        ("known bits of sub", known_by_sub),
        ("reached nodes", reached),
        ("zero by a known zero", zero_by_zero),
        ("an unknown word by a known zero", unknown_by_zero),
        ("an unknown divisor that is zero", by_unknown_zero),
        ("quotient bits dropped", quotient_dropped),
        ("an or", or),
        ("known bits of srl", known_by_srl),
        ("quotient bits dropped by an srl", shifted_by_quotient),
        ("a shift by an unknown amount", unknown_amount),
        ("a shift by the width", wide_amount),
        ("a shift by 2^32", cut_amount),
        ("an ext that is not 64 wide", short_ext),
        ("a table that asks nothing", nothing_asked),
    ];
    let wrong: Vec<&str> = all.iter().filter(|(_, check)| !check(ours)).map(|(name, _)| *name).collect();
    println!("{} named differences, {} are not as docs/DIFFERENCES.md says", all.len(), wrong.len());
    wrong.iter().for_each(|name| println!("NOT SO: {}", name));
    wrong.is_empty()
}
