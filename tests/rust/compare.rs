//! Two answers held against each other.
use crate::model::*;
use crate::ours::Ours;
use crate::theirs::{self, Theirs};

/// What may differ at a node. `MoreOfSub`, `MoreOfUlt`, `MoreOfSrl` and `Fewer` follow from the recipes for sub, ult and srl, which know more bits; they
/// are allowed where one of these is reached over an operand that the original does not wholly know: the right one, of an srl the word.
#[derive(Clone, Copy, PartialEq, Eq, Debug)]
pub enum Difference {
    /// Refused here, or a constraint recorded: nothing of the shared domain is. There, an srl of an unknown word records constraints, nothing else.
    Refused,
    /// A constraint there that the right quotient and remainder do not meet.
    Unmet,
    /// Another number of bits.
    Length,
    /// Reached here only.
    ReachedHere,
    /// Known there and not here.
    Lost,
    /// Another value under the given inputs; for a known bit that is another constant.
    Value,
    /// Our gates and our word evaluator give different values.
    Words,
    /// Known here only, at a node that is neither sub nor ult nor srl and none of whose operands has such a bit.
    More,
    /// Known here only, at a sub none of whose operands has such a bit.
    MoreOfSub,
    /// The same at an ult.
    MoreOfUlt,
    /// The same at an srl.
    MoreOfSrl,
    /// Reached there only.
    Fewer,
}

pub const KINDS: [Difference; 12] = [
    Difference::Refused,
    Difference::Unmet,
    Difference::Length,
    Difference::ReachedHere,
    Difference::Lost,
    Difference::Value,
    Difference::Words,
    Difference::More,
    Difference::MoreOfSub,
    Difference::MoreOfUlt,
    Difference::MoreOfSrl,
    Difference::Fewer,
];

/// A table of the shared domain, compared.
pub struct Compared {
    /// Each kind of difference with the first node that shows it.
    pub found: Vec<(Difference, usize)>,
    /// No sub or ult is reached there over a right operand, and no srl of a word, that is not wholly known there: then nothing at all may differ.
    pub plain: bool,
    pub theirs: Answer,
    pub reached_in_both: usize,
    pub known_in_both: u64,
    pub known_here: u64,
    pub bits: u64,
}

pub enum Outcome {
    Stopped(String),
    Divides,
    Shifts,
    /// No bad node: refused here with 14, and lowered to nothing there.
    Unasked,
    Compared(Compared),
}

impl Compared {
    pub fn has(&self, kind: Difference) -> bool {
        self.found.iter().any(|(d, _)| *d == kind)
    }

    /// The differences that are not allowed.
    pub fn wrong(&self) -> Vec<(Difference, usize)> {
        let more = |d| matches!(d, Difference::MoreOfSub | Difference::MoreOfUlt | Difference::MoreOfSrl | Difference::Fewer);
        let allowed = |d| !self.plain && more(d);
        self.found.iter().copied().filter(|(d, _)| !allowed(*d)).collect()
    }

    fn note(&mut self, kind: Difference, node: usize) {
        if !self.has(kind) {
            self.found.push((kind, node));
        }
    }
}

/// Whether one of these kinds is reached over an operand that is not wholly known there: the operand of this place.
fn open(table: &Table, theirs: &Answer, kinds: &[u64], operand: usize) -> bool {
    let wholly = |k: usize| theirs.nodes[k - 1].as_ref().is_some_and(Bits::wholly_known);
    table.nodes.iter().zip(&theirs.nodes).any(|(n, bits)| bits.is_some() && kinds.contains(&n.kind) && !wholly(n.operands[operand]))
}

fn at_node(c: &mut Compared, k: usize, theirs: &Bits, ours: &Bits, words: &[Vec<u64>]) {
    if theirs.count != ours.count {
        c.note(Difference::Length, k + 1);
    }
    if theirs.known & !ours.known != 0 {
        c.note(Difference::Lost, k + 1);
    }
    if theirs.values != ours.values {
        c.note(Difference::Value, k + 1);
    }
    if ours.values.iter().zip(words).any(|(value, words)| *value != words[k]) {
        c.note(Difference::Words, k + 1);
    }
    c.reached_in_both += 1;
    c.known_in_both += (theirs.known & ours.known).count_ones() as u64;
    c.known_here += ours.known.count_ones() as u64;
    c.bits += ours.count as u64;
}

/// Bits that are known here only begin at a sub, an ult or an srl, and are handed on from there.
fn more(c: &mut Compared, table: &Table, theirs: &Answer, ours: &Answer) {
    let has = |k: usize| match (&theirs.nodes[k - 1], &ours.nodes[k - 1]) {
        (Some(there), Some(here)) => here.known & !there.known != 0,
        _ => false,
    };
    for (i, n) in table.nodes.iter().enumerate() {
        if has(i + 1) && !n.operands.iter().any(|k| *k > 0 && has(*k)) {
            let kind = match n.kind {
                SUB => Difference::MoreOfSub,
                ULT => Difference::MoreOfUlt,
                SRL => Difference::MoreOfSrl,
                _ => Difference::More,
            };
            c.note(kind, i + 1);
        }
    }
}

pub fn compare(table: &Table, given: &[Given], ours: &mut Ours) -> Outcome {
    if table.nodes.iter().all(|n| n.kind != BAD) {
        return Outcome::Unasked;
    }
    let (theirs, met) = match theirs::lower(table, given) {
        Theirs::Stopped(why) => return Outcome::Stopped(why),
        Theirs::Divides => return Outcome::Divides,
        Theirs::Shifts => return Outcome::Shifts,
        Theirs::Lowered(answer, met) => (answer, met),
    };
    let divided = open(table, &theirs, &[SRL], 0);
    let plain = !divided && !open(table, &theirs, &[SUB, ULT], 1);
    let empty = Answer { nodes: Vec::new(), constraints: 0 };
    let mut c = Compared { found: Vec::new(), plain, theirs: empty, reached_in_both: 0, known_in_both: 0, known_here: 0, bits: 0 };
    let words: Result<Vec<Vec<u64>>, _> = given.iter().map(|g| ours.words(table, g)).collect();
    match (ours.lower(table, given), words) {
        (Ok(here), Ok(words)) => {
            if here.constraints != 0 || (theirs.constraints != 0 && !divided) {
                c.note(Difference::Refused, 0);
            }
            if !met {
                c.note(Difference::Unmet, 0);
            }
            for (k, both) in theirs.nodes.iter().zip(&here.nodes).enumerate() {
                match both {
                    (Some(there), Some(here)) => at_node(&mut c, k, there, here, &words),
                    (Some(_), None) => c.note(Difference::Fewer, k + 1),
                    (None, Some(_)) => c.note(Difference::ReachedHere, k + 1),
                    (None, None) => (),
                }
            }
            more(&mut c, table, &theirs, &here);
        }
        (Err(refusal), _) | (_, Err(refusal)) => c.note(Difference::Refused, refusal.node),
    }
    c.theirs = theirs;
    Outcome::Compared(c)
}
