//! Answers of the original, as `tests/rust/list.rs` wrote them: numbers alone. The first is the count of cases. A case is: word width, addresses,
//! table; 1 where no sub or ult is reached over a right operand, and no srl of a word, that the original does not wholly know, else 0; and one number for
//! each place of the bit map: 0 where the original did not reach the node, 16 for an unknown bit, 32 for a known one, and to these the bit's values
//! under four inputs as 1, 2, 4 and 8. Each list stands behind its length. No table of the list is refused, or has a constraint.
use ramstitcher::{eval_gates, lower, room, CONSTRAINT, GATE, UNREACHED};

const LANES: u64 = 4;

fn list(numbers: &mut impl Iterator<Item = u64>) -> Vec<u64> {
    let n = numbers.next().expect("a list is cut off");
    let list: Vec<u64> = numbers.take(n as usize).collect();
    assert!(list.len() as u64 == n, "a list is cut off");
    list
}

/// What is reached here is reached there, and what is known there is known here. In a plain case that holds the other way too.
fn agrees(plain: bool, here: u32, there: u64) -> bool {
    let known = here < 2;
    match there {
        _ if here == UNREACHED => there == 0 || !plain,
        0..=15 => false,
        16..=31 => !(plain && known),
        _ => known,
    }
}

/// Each mapped gate gets the wanted value of its place; a free gate keeps it, and what the others hold beforehand takes no part.
fn right(gates: &[u32], made: usize, map: &[u32], wanted: &[u64], lane: u64) -> bool {
    let mut values = vec![0u8; made];
    let reached = || map.iter().zip(wanted).filter(|(here, _)| **here != UNREACHED);
    for (here, there) in reached() {
        values[*here as usize] = (there >> lane & 1) as u8;
    }
    eval_gates(gates, &mut values).is_ok() && reached().all(|(here, there)| values[*here as usize] == (there >> lane & 1) as u8)
}

fn same(word: u64, addrs: &[u64], table: &[u64], plain: bool, wanted: &[u64]) -> bool {
    let Ok(asked) = room(table, addrs, word) else { return false };
    let (mut gates, mut constraints) = (vec![0; GATE * asked.gates], vec![0; CONSTRAINT * asked.constraints]);
    let mut map = vec![0; asked.map];
    let Ok(made) = lower(table, addrs, word, &mut gates, &mut constraints, &mut map) else { return false };
    made.constraints == 0
        && map.len() == wanted.len()
        && map.iter().zip(wanted).all(|(here, there)| agrees(plain, *here, *there))
        && (0..LANES).all(|lane| right(&gates[..GATE * made.gates], made.gates, &map, wanted, lane))
}

pub fn replay(text: &str) -> Vec<bool> {
    let mut numbers = text.split_whitespace().map(|x| x.parse().expect("a number"));
    let cases = numbers.next().expect("the count of cases");
    let found = (0..cases)
        .map(|_| {
            let word = numbers.next().expect("a word width");
            let (addrs, table) = (list(&mut numbers), list(&mut numbers));
            let plain = numbers.next().expect("plain or not") == 1;
            same(word, &addrs, &table, plain, &list(&mut numbers))
        })
        .collect();
    assert!(numbers.next().is_none(), "more cases than were counted");
    found
}
