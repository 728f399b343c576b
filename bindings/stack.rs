//! Every entry point on threads of little stack, over the tables that need most of it: 512 nodes, each with the one before it as an operand.
//!   stack          on threads of `STACK` bytes; where that is not enough, the process dies
//!   stack KIB      on threads of so many KiB
//!   stack need     the least KiB that are enough, by steps of a page, found by children that die
use ramstitcher::{eval_gates, eval_words, kind::*, lower, room, CONSTRAINT, GATE, STACK};
use std::process::{Command, Stdio};

const NODES: usize = 512;
const WIDE: u64 = 64;
/// The width of addresses and of a memory's words, of which there are 64.
const WORD: u64 = 8;
const ENTRIES: [&str; 4] = ["room", "lower", "eval_words", "eval_gates"];
/// The leaves of the tables over memories: the memory, a condition, a word.
const MEMORY: [[u64; 6]; 3] = [leaf(0), leaf(1), leaf(WORD)];

type Node = [u64; 6];

const fn leaf(width: u64) -> Node {
    [INPUT, width, 0, 0, 0, 0]
}

/// A node over node 1, but for one operand, which is the node before.
fn over(kind: u64, width: u64, operands: usize, one: usize, before: u64) -> Node {
    let of = |i: usize| if i == one { before } else { (i < operands) as u64 };
    [kind, width, of(0), of(1), of(2), 0]
}

/// The leaves; then nodes over the one before, the first of them over a leaf; then those that make a bit of the last one, and a bad node.
fn chain(leaves: &[Node], first: u64, next: impl Fn(u64) -> Node, ends: &[fn(u64) -> Node]) -> Vec<Node> {
    let mut nodes = leaves.to_vec();
    let mut before = first;
    while nodes.len() + ends.len() + 1 < NODES {
        nodes.push(next(before));
        before = nodes.len() as u64;
    }
    for end in ends {
        nodes.push(end(nodes.len() as u64));
    }
    nodes.push([BAD, 1, nodes.len() as u64, 0, 0, 0]);
    nodes
}

/// A chain through each operand of each kind that has one, under a name.
fn tables() -> Vec<(String, Vec<Node>)> {
    let mut all = Vec::new();
    let name = |kind: u64, one: usize| format!("{} by operand {}", ALL[kind as usize - 1].1.to_lowercase(), one + 1);
    let words = [STATE, NOT, EXT, SEXT].map(|k| (k, 1)).into_iter().chain([AND, OR, ADD, SUB, MUL, DIVU, REM, SLL, SRL].map(|k| (k, 2)));
    for (kind, operands) in words {
        for one in 0..operands {
            all.push((name(kind, one), chain(&[leaf(WIDE)], 1, |k| over(kind, WIDE, operands, one, k), &[|k| [EQ, 1, k, k, 0, 0]])));
        }
    }
    for (kind, operands) in [(BAD, 1), (EQ, 2), (ULT, 2), (ITE, 3)] {
        for one in 0..operands {
            all.push((name(kind, one), chain(&[leaf(1)], 1, |k| over(kind, 1, operands, one, k), &[])));
        }
    }
    let memories: [(&str, fn(u64) -> Node); 4] = [
        ("write by operand 1", |k| [WRITE, 0, k, 3, 3, 0]),
        ("state of a memory", |k| [STATE, 0, k, 0, 0, 0]),
        ("ite of memories by operand 2", |k| [ITE, 0, 2, k, 1, 0]),
        ("ite of memories by operand 3", |k| [ITE, 0, 2, 1, k, 0]),
    ];
    for (name, next) in memories {
        all.push((name.to_string(), chain(&MEMORY, 1, next, &[|k| [READ, WORD, k, 3, 0, 0], |k| [EQ, 1, k, k, 0, 0]])));
    }
    // by turns a read of what was written, and a write to there, or of that
    let turns: [(&str, u64, fn(u64) -> Node); 3] = [
        ("read by operand 2", 3, |k| [READ, WORD, 1, k, 0, 0]),
        ("write by operand 2", 1, |k| if k % 2 == 1 { [READ, WORD, k, 3, 0, 0] } else { [WRITE, 0, 1, k, 3, 0] }),
        ("write by operand 3", 1, |k| if k % 2 == 1 { [READ, WORD, k, 3, 0, 0] } else { [WRITE, 0, 1, 3, k, 0] }),
    ];
    for (name, first, next) in turns {
        all.push((name.to_string(), chain(&MEMORY, first, next, &[|k| [EQ, 1, k, k, 0, 0]])));
    }
    all
}

/// One entry point on a thread of so many bytes. All that is lent stands elsewhere.
fn call(entry: &str, nodes: &[Node], bytes: usize) {
    let table = nodes.concat();
    let addresses: Vec<u64> = (0..64).collect();
    let asked = room(&table, &addresses, WORD).expect("an accepted table");
    let (mut gates, mut constraints, mut map) = (vec![0; GATE * asked.gates], vec![0; CONSTRAINT * asked.constraints], vec![0; asked.map]);
    let mut slots = vec![0; nodes.iter().map(|node| if node[1] == 0 { addresses.len() } else { 1 }).sum()];
    // the list to evaluate is made where there is stack enough
    let made = if entry == "eval_gates" { lower(&table, &addresses, WORD, &mut gates, &mut constraints, &mut map).expect("room").gates } else { 0 };
    let mut bits = vec![0; made];
    std::thread::scope(|scope| {
        let work = || match entry {
            "room" => drop(room(&table, &addresses, WORD).expect("an accepted table")),
            "lower" => drop(lower(&table, &addresses, WORD, &mut gates, &mut constraints, &mut map).expect("room")),
            "eval_words" => eval_words(&table, &addresses, WORD, &mut slots).expect("slots"),
            "eval_gates" => eval_gates(&gates[..GATE * made], &mut bits).expect("values"),
            _ => unreachable!("{entry}"),
        };
        std::thread::Builder::new().stack_size(bytes).spawn_scoped(scope, work).expect("a thread").join().expect("an answer");
    });
}

/// The least KiB of stack, by steps of a page, at which a child lives.
fn need(entry: &str, table: usize) -> usize {
    let program = std::env::current_exe().expect("this program");
    let lives = |kib: usize| {
        let words = ["one".to_string(), entry.to_string(), table.to_string(), kib.to_string()];
        Command::new(&program).args(words).stderr(Stdio::null()).status().expect("a child").success()
    };
    // no thread has less than 16
    let (mut dies, mut enough) = (12, 1024);
    while dies + 4 < enough {
        let middle = (dies + enough) / 8 * 4;
        if lives(middle) {
            enough = middle;
        } else {
            dies = middle;
        }
    }
    enough
}

fn main() {
    let words: Vec<String> = std::env::args().skip(1).collect();
    let number = |i: usize| words[i].parse::<usize>().expect("a number");
    let tables = tables();
    match words.first().map(String::as_str) {
        Some("one") => call(&words[1], &tables[number(2)].1, number(3) << 10),
        Some("need") => {
            for entry in ENTRIES {
                for (i, (name, _)) in tables.iter().enumerate() {
                    println!("{entry}\t{}\t{name}", need(entry, i));
                }
            }
        }
        _ => {
            let bytes = if words.is_empty() { STACK } else { number(0) << 10 };
            for (_, nodes) in &tables {
                ENTRIES.iter().for_each(|entry| call(entry, nodes, bytes));
            }
            println!("bindings, stack of {} KiB: {} tables, ok", bytes >> 10, tables.len());
        }
    }
}
