//! The original as judge.
//!
//!     compare COUNT SEED         tries the named differences, and compares so many random tables of the shared domain
//!     compare list COUNT SEED    writes so many of the original's answers, as tests/replay reads them
mod compare;
mod generate;
mod list;
mod model;
mod named;
mod ours;
mod shrink;
mod theirs;

use compare::{compare, Difference, Outcome, KINDS};
use generate::Random;
use model::Table;
use ours::Ours;
use std::collections::BTreeMap;

/// Inputs under which values are compared.
const LANES: usize = 8;
/// A shrunk table is tried under more.
const MANY: usize = 64;
/// So many tables of each kind of difference are made small.
const SHRUNK: usize = 40;

#[derive(Default)]
struct Counts {
    drawn: usize,
    stops: BTreeMap<String, usize>,
    divides: usize,
    shifts: usize,
    compared: usize,
    plain: usize,
    reached: usize,
    bits: u64,
    known_in_both: u64,
    known_here: u64,
    wrong: usize,
}

/// The tables that show a kind of difference: how many, and the smallest.
#[derive(Default)]
struct Shown {
    tables: usize,
    smallest: Option<Table>,
}

fn shows(table: &Table, kind: Difference, wrong: bool, ours: &mut Ours) -> bool {
    let given = generate::given(&mut Random(1), table, MANY);
    match compare(table, &given, ours) {
        Outcome::Compared(c) => c.has(kind) && (!wrong || c.wrong().iter().any(|(d, _)| *d == kind)),
        _ => false,
    }
}

impl Shown {
    fn add(&mut self, table: &Table, kind: Difference, wrong: bool, ours: &mut Ours) {
        self.tables += 1;
        if self.tables > SHRUNK {
            return;
        }
        let small = shrink::shrink(table, |t| shows(t, kind, wrong, ours));
        if self.smallest.as_ref().is_none_or(|s| shrink::is_smaller(&small, s)) {
            self.smallest = Some(small);
        }
    }
}

fn run(count: usize, seed: u64) -> bool {
    let mut r = Random(seed);
    let mut ours = Ours::new();
    let named = named::run(&mut ours);
    let mut n = Counts::default();
    let mut shown: BTreeMap<(bool, usize), Shown> = BTreeMap::new();
    while n.compared < count {
        let table = generate::table(&mut r);
        let given = generate::given(&mut r, &table, LANES);
        n.drawn += 1;
        let c = match compare(&table, &given, &mut ours) {
            Outcome::Stopped(why) => {
                *n.stops.entry(why).or_default() += 1;
                continue;
            }
            Outcome::Divides => {
                n.divides += 1;
                continue;
            }
            Outcome::Shifts => {
                n.shifts += 1;
                continue;
            }
            // none is drawn: only a table that is made small can get there
            Outcome::Unasked => continue,
            Outcome::Compared(c) => c,
        };
        n.compared += 1;
        n.plain += c.plain as usize;
        n.reached += c.reached_in_both;
        n.bits += c.bits;
        n.known_in_both += c.known_in_both;
        n.known_here += c.known_here;
        let wrong = c.wrong();
        n.wrong += !wrong.is_empty() as usize;
        for (kind, _) in &c.found {
            let is_wrong = wrong.iter().any(|(d, _)| d == kind);
            let at = KINDS.iter().position(|k| k == kind).unwrap();
            shown.entry((is_wrong, at)).or_default().add(&table, *kind, is_wrong, &mut ours);
        }
    }
    println!("seed {}: {} tables of the shared domain compared, {} differ", seed, n.compared, n.wrong);
    let stops = n.stops.values().sum::<usize>();
    println!("drawn {}; outside the domain: {} divide an unknown word, {} stop the original", n.drawn, n.divides, stops);
    println!("  {} shift by an amount that is unknown or not below the width", n.shifts);
    for (why, times) in &n.stops {
        println!("  {} times {}", times, why);
    }
    println!("nodes reached in both {}, with {} bits and {} values", n.reached, n.bits, n.reached * LANES);
    println!("bits known in both {}, known here only {}", n.known_in_both, n.known_here - n.known_in_both);
    println!("tables without sub and ult over an unknown right operand, and without srl of an unknown word {}", n.plain);
    for ((wrong, at), s) in &shown {
        let word = if *wrong { "WRONG" } else { "allowed" };
        println!("{} {:?}: {} tables, the smallest: {}", word, KINDS[*at], s.tables, s.smallest.as_ref().map_or(String::new(), Table::line));
    }
    named && n.wrong == 0
}

fn number(word: Option<&String>) -> u64 {
    word.and_then(|w| w.parse().ok()).unwrap_or_else(|| {
        eprintln!("compare COUNT SEED, or compare list COUNT SEED");
        std::process::exit(2)
    })
}

fn main() {
    let words: Vec<String> = std::env::args().skip(1).collect();
    let listed = words.first().is_some_and(|w| w == "list");
    let rest = &words[listed as usize..];
    let (count, seed) = (number(rest.first()) as usize, number(rest.get(1)));
    // Gates are freed and evaluated by recursion, and chains of them are long.
    let work = std::thread::Builder::new().stack_size(1 << 30).spawn(move || {
        theirs::keep_stops();
        if listed {
            list::write(count, seed)
        } else {
            run(count, seed)
        }
    });
    match work.expect("a thread").join() {
        Ok(true) => (),
        Ok(false) => std::process::exit(1),
        Err(said) => {
            let words = said.downcast_ref::<&str>().map(|s| s.to_string()).or_else(|| said.downcast_ref::<String>().cloned());
            eprintln!("stopped: {}", words.unwrap_or_default());
            std::process::exit(2)
        }
    }
}
