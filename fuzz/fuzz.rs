//! Offers any numbers to the entry points and holds each answer and each lent buffer, end to end and with guards around it, to the model.
//!   fuzz N [SEED]    N inputs; the same seed gives the same inputs
//! The library has no coverage counters for a guided fuzzer to follow, so that the inputs are random, and most stand near an accepted table.
mod model;

use model::Table;
use ramstitcher::{gate, kind::*, Lowered, Refusal, Room};

/// xorshift64*
struct Random(u64);

impl Random {
    fn next(&mut self) -> u64 {
        self.0 ^= self.0 >> 12;
        self.0 ^= self.0 << 25;
        self.0 ^= self.0 >> 27;
        self.0.wrapping_mul(0x2545_f491_4f6c_dd1d)
    }

    fn below(&mut self, n: u64) -> u64 {
        (self.next() >> 32) % n
    }

    fn one_in(&mut self, n: u64) -> bool {
        self.below(n) == 0
    }

    fn pick<T: Copy>(&mut self, of: &[T]) -> T {
        of[self.below(of.len() as u64) as usize]
    }

    /// Small numbers mostly, and the edges of what is tested.
    fn any(&mut self) -> u64 {
        match self.below(8) {
            0 => self.next(),
            1 => self.pick(&[16, 17, 18, 19, 20, 21, 22, 23, 24, 25, 63, 64, 65, 127, 255, 256, 512, u32::MAX as u64, 1 << 32, 1 << 63, u64::MAX]),
            2 => self.below(64),
            _ => self.below(8),
        }
    }
}

const GUARD: usize = 16;

/// A lent buffer between guards, all of it random at first.
struct Lent<T> {
    all: Vec<T>,
    before: Vec<T>,
}

impl<T: Copy + PartialEq> Lent<T> {
    fn new(n: usize, mut fill: impl FnMut() -> T) -> Lent<T> {
        let all: Vec<T> = (0..n + 2 * GUARD).map(|_| fill()).collect();
        Lent { before: all.clone(), all }
    }

    fn lend(&mut self) -> &mut [T] {
        let end = self.all.len() - GUARD;
        &mut self.all[GUARD..end]
    }

    /// What the model is to write.
    fn model(&mut self) -> &mut [T] {
        let end = self.before.len() - GUARD;
        &mut self.before[GUARD..end]
    }

    fn same(&self) -> bool {
        self.all == self.before
    }
}

/// A table, most often near a good one.
fn table(r: &mut Random) -> (Vec<u64>, Vec<u64>, u64) {
    if r.one_in(8) {
        // any numbers at all
        let n = r.below(20) as usize;
        let addresses = r.below(3) as usize;
        return ((0..n).map(|_| r.any()).collect(), (0..addresses).map(|_| r.any()).collect(), r.any());
    }
    let word = r.pick(&[1, 1, 2, 2, 2, 3, 3, 4, 5, 8, 9, 64]);
    let mut addresses: Vec<u64> = Vec::new();
    for _ in 0..r.below(4) {
        let a = r.below(1 << word.min(3));
        if !addresses.contains(&a) {
            addresses.push(a);
        }
    }
    let mut widths: Vec<u64> = Vec::new();
    let mut flat = Vec::new();
    let nodes = if r.one_in(2000) { 500 + r.below(20) } else { r.below(12) };
    let usual = r.pick(&[1, 2, 2, 3, 3, 4, word]);
    for _ in 0..nodes {
        let mut node = good_node(r, &widths, usual, word);
        if matches!(node[0], SLL | SRL) && node[1] != 0 {
            for part in amount(r, widths.len() as u64, node[1], node[3]) {
                widths.push(part[1]);
                flat.extend(part);
                node[3] = widths.len() as u64;
            }
        }
        widths.push(node[1]);
        flat.extend(node);
    }
    // most often something is asked
    let questions = if r.one_in(12) { 0 } else { 1 + r.below(3) };
    for _ in 0..questions {
        let words: Vec<u64> = (1..=widths.len() as u64).filter(|&k| widths[k as usize - 1] != 0).collect();
        if words.is_empty() {
            break;
        }
        let k = r.pick(&words);
        let width = widths[k as usize - 1];
        let other = words.iter().copied().rev().find(|&j| widths[j as usize - 1] == width && j != k).unwrap_or(k);
        let last = widths.len() as u64;
        let pair = [[EQ, 1, k, other, 0, 0], [BAD, 1, last + 1, 0, 0, 0]];
        let bad = if width == 1 { &[[BAD, 1, k, 0, 0, 0]][..] } else { &pair[..] };
        for node in bad {
            widths.push(1);
            flat.extend(node);
        }
    }
    // now and then something is bent
    if r.one_in(4) && !flat.is_empty() {
        for _ in 0..1 + r.below(2) {
            let at = r.below(flat.len() as u64) as usize;
            flat[at] = r.any();
        }
    }
    if r.one_in(64) {
        flat.pop();
    }
    if r.one_in(64) {
        addresses.push(r.any());
    }
    if r.one_in(512) {
        addresses = (0..60 + r.below(8)).collect();
    }
    let word = if r.one_in(64) { r.any() } else { word };
    (flat, addresses, word)
}

/// The nodes of a shift's amount, after the last node: a constant, a word of which few bits are unknown, or none where the amount stays node b.
fn amount(r: &mut Random, last: u64, width: u64, b: u64) -> Vec<[u64; 6]> {
    let number = match r.below(6) {
        0 => r.next(),
        1 | 2 => width - 1 + r.below(3),
        _ => r.below(width),
    } & u64::MAX >> (64 - width);
    let number = [CONST, width, 0, 0, 0, number];
    match r.below(4) {
        0 | 1 => vec![number],
        2 => vec![number, [AND, width, b, last + 1, 0, 0]],
        _ => vec![],
    }
}

/// An extension of any word: to a width that others have, by no bits, by any number, to 64; now and then narrower, which is the fault.
fn extension(r: &mut Random, kind: u64, widths: &[u64], usual: u64, word: u64) -> [u64; 6] {
    let words: Vec<u64> = (1..=widths.len() as u64).filter(|&k| (1..=64).contains(&widths[k as usize - 1])).collect();
    if words.is_empty() {
        return [kind, 64, 0, 0, 0, 0];
    }
    let a = r.pick(&words);
    let of = widths[a as usize - 1];
    let width = match r.below(32) {
        0 => r.below(of),
        1..=7 => of,
        8..=14 => of + r.below(65 - of),
        15..=18 => 64,
        _ => r.pick(&[usual, word]).max(of),
    };
    [kind, width, a, 0, 0, 0]
}

/// A node that keeps the sorts where operands for it are there.
fn good_node(r: &mut Random, widths: &[u64], usual: u64, word: u64) -> [u64; 6] {
    let of = |r: &mut Random, width: u64| {
        let found: Vec<u64> = (1..=widths.len() as u64).filter(|&k| widths[k as usize - 1] == width).collect();
        if found.is_empty() {
            0
        } else {
            r.pick(&found)
        }
    };
    let leaf = |r: &mut Random, width: u64| match r.below(3) {
        0 if width != 0 => [CONST, width, 0, 0, 0, if r.one_in(4) { 0 } else { r.next() & u64::MAX >> (64 - width) }],
        1 => [STATE, width, 0, 0, 0, 0],
        _ => [INPUT, width, 0, 0, 0, 0],
    };
    let width = r.pick(&[usual, usual, usual, 1, word, 0]);
    let kind = r.pick(&[
        CONST, INPUT, STATE, NOT, BAD, AND, EXT, EQ, ADD, ITE, SUB, ULT, MUL, DIVU, REM, READ, WRITE, OR, SLL, SLL, SRL, SRL, SEXT, SEXT,
    ]);
    let node = match kind {
        CONST | INPUT | STATE => return if r.one_in(8) { [STATE, width, of(r, width), 0, 0, 0] } else { leaf(r, width) },
        NOT => [NOT, width, of(r, width), 0, 0, 0],
        BAD => [BAD, 1, of(r, 1), 0, 0, 0],
        EXT | SEXT => extension(r, kind, widths, usual, word),
        EQ | ULT => {
            let v = r.pick(&[usual, word, 1]);
            [kind, 1, of(r, v), of(r, v), 0, 0]
        }
        ITE => [ITE, width, of(r, 1), of(r, width), of(r, width), 0],
        READ => [READ, word, of(r, 0), of(r, word), 0, 0],
        WRITE => [WRITE, 0, of(r, 0), of(r, word), of(r, word), 0],
        _ => [kind, width, of(r, width), of(r, width), 0, 0],
    };
    // an operand that is missing, or a word's operation on a memory: a leaf in its place, now and then the fault
    let used = [1, 2, 3].map(|i| i == 1 || (i == 2 && !matches!(kind, NOT | BAD | EXT | SEXT)) || (i == 3 && matches!(kind, ITE | WRITE)));
    let missing = (0..3).any(|i| used[i] && node[2 + i] == 0);
    if (missing || (width == 0 && !matches!(kind, BAD | EXT | EQ | ITE | ULT | READ | WRITE | SEXT))) && !r.one_in(32) {
        let width = r.pick(&[width, 1, word, 0]);
        return leaf(r, width);
    }
    node
}

/// Room near what is needed.
fn room(r: &mut Random, needed: usize) -> usize {
    match r.below(16) {
        0 => r.below(needed as u64 + 1) as usize,
        1 => needed.saturating_sub(1),
        2 => needed + r.below(9) as usize,
        3 => 0,
        _ => needed,
    }
}

/// A gate list, most often near a good one.
fn gates(r: &mut Random) -> Vec<u32> {
    let n = r.below(12) as usize;
    let mut list = Vec::new();
    for i in 0..n {
        let x = |r: &mut Random| r.below(i.max(1) as u64) as u32;
        list.extend(match i {
            0 | 1 => [i as u32, 0, 0, 0],
            _ => match gate::INPUT_BIT + r.below(12) as u32 {
                gate::NOT => [gate::NOT, x(r), 0, 0],
                k @ gate::AND..=gate::RESULT_HALF => [k, x(r), x(r), 0],
                k @ (gate::CARRY_FULL | gate::RESULT_FULL) => [k, x(r), x(r), x(r)],
                k => [k, r.any() as u32, r.any() as u32, 0],
            },
        });
    }
    if r.one_in(3) && !list.is_empty() {
        let at = r.below(list.len() as u64) as usize;
        list[at] = r.any() as u32;
    }
    if r.one_in(32) {
        list.push(r.any() as u32);
    }
    list
}

/// How often each number was answered, by entry point; and lowerings that made gates, and constraints.
#[derive(Default)]
struct Counts {
    answers: [[u64; 15]; 3],
    gates: u64,
    constraints: u64,
}

fn refused(answer: (u64, usize)) -> Result<(), Refusal> {
    match answer {
        (0, _) => Ok(()),
        (number, node) => Err(Refusal { number, node }),
    }
}

fn try_table(r: &mut Random, counts: &mut Counts) -> bool {
    let (flat, addresses, word) = table(r);
    let mut fixed = Lent::new(flat.len(), || 0);
    let mut listed = Lent::new(addresses.len(), || 0);
    for (lent, from) in [(&mut fixed, &flat), (&mut listed, &addresses)] {
        lent.lend().copy_from_slice(from);
        lent.model().copy_from_slice(from);
    }
    let t = Table { table: &flat, addresses: &addresses, word };
    let (g, m, c) = t.sums().unwrap_or((3, 3, 3));
    let fewer = (g.min(1 << 20), m.min(1 << 20), c.min(1 << 20));
    let (lent_gates, lent_map, lent_pairs) = (4 * room(r, fewer.0) + r.below(4) as usize, room(r, fewer.1), 2 * room(r, fewer.2) + r.below(2) as usize);
    let mut gates = Lent::new(lent_gates, || r.next() as u32);
    let mut pairs = Lent::new(lent_pairs, || r.next() as u32);
    let mut map = Lent::new(lent_map, || r.next() as u32);
    let (wanted, made, held) = model::lower(t, gates.model(), pairs.model(), map.model());
    counts.answers[0][wanted.0 as usize] += 1;
    counts.gates += (made > 2) as u64;
    counts.constraints += (held > 0) as u64;
    let found = ramstitcher::lower(fixed.lend(), listed.lend(), word, gates.lend(), pairs.lend(), map.lend());
    let good = found == refused(wanted).map(|()| Lowered { gates: made, constraints: held }) && gates.same() && pairs.same() && map.same();

    let slots = if t.sums().is_some() { t.slots_in_all() } else { 3 };
    let bound = if r.one_in(16) { u64::MAX } else { r.pick(&[1, 1, 3, 3, 7]) };
    let lent_slots = room(r, slots);
    let mut values = Lent::new(lent_slots, || r.next() & bound);
    let wanted = model::eval_words(t, values.model());
    counts.answers[1][wanted.0 as usize] += 1;
    let found = ramstitcher::eval_words(fixed.lend(), listed.lend(), word, values.lend());
    let good = good && found == refused(wanted) && values.same();

    let wanted = refused(t.fault()).map(|()| Room { gates: g, constraints: c, map: m });
    let good = good && ramstitcher::room(fixed.lend(), listed.lend(), word) == wanted && fixed.same() && listed.same();
    if !good {
        println!("differs: word {word}, addresses {addresses:?}, table {flat:?}, room {lent_gates} {lent_pairs} {lent_map} {lent_slots}");
    }
    good
}

fn try_gates(r: &mut Random, counts: &mut Counts) -> bool {
    let list = gates(r);
    let mut fixed = Lent::new(list.len(), || 0);
    fixed.lend().copy_from_slice(&list);
    fixed.model().copy_from_slice(&list);
    let bound = if r.one_in(8) { 3 } else { 1 };
    let lent = room(r, list.len() / 4);
    let mut values = Lent::new(lent, || r.next() as u8 & bound);
    let wanted = model::eval_gates(&list, values.model());
    counts.answers[2][wanted.0 as usize] += 1;
    let found = ramstitcher::eval_gates(fixed.lend(), values.lend());
    let good = found == refused(wanted) && values.same() && fixed.same();
    if !good {
        println!("differs: gates {list:?}, {lent} values");
    }
    good
}

fn main() {
    let mut words = std::env::args().skip(1).map(|w| w.parse::<u64>().expect("a number"));
    let n = words.next().expect("how many inputs");
    let seed = words.next().unwrap_or(1);
    // xorshift's state is never 0
    let mut r = Random(seed.wrapping_mul(0x9e37_79b9_7f4a_7c15) | 1);
    let mut counts = Counts::default();
    let mut differ = 0;
    for _ in 0..n {
        let good = if r.one_in(4) { try_gates(&mut r, &mut counts) } else { try_table(&mut r, &mut counts) };
        differ += !good as u64;
        if differ == 10 {
            break;
        }
    }
    for (name, c) in ["lower", "eval_words", "eval_gates"].iter().zip(&counts.answers) {
        let shown: Vec<String> = (0..c.len()).filter(|&i| c[i] > 0).map(|i| format!("{i}: {}", c[i])).collect();
        println!("{name}\t{}", shown.join(", "));
    }
    println!("lowered\twith gates: {}, with constraints: {}", counts.gates, counts.constraints);
    println!("fuzz: {n} inputs, seed {seed}, {differ} differ");
    std::process::exit((differ > 0) as i32);
}
