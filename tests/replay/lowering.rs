//! The lowering. A case has `table`, `addrs`, `word` and the lengths of the three lent buffers; `answer` is `["done", gates, constraints]` with the used
//! parts of the three, or `["refused", number, node]`. The buffers are lent filled with numbers that nothing of a lowering is, so that every place
//! beyond a used part is seen to be as it was; at a refusal every place is.
use crate::json::Json;
use crate::values::refusal;
use ramstitcher::{lower, Lowered, Refusal};

/// What stands at a place before: no gate's number, no bit and no value of a constraint, and not what its neighbours hold.
fn before(i: usize) -> u32 {
    1_000_000_000 + (i % 65_536) as u32
}

pub struct Lent {
    pub gates: Vec<u32>,
    pub constraints: Vec<u32>,
    pub map: Vec<u32>,
}

pub fn lent(gates: usize, constraints: usize, map: usize) -> Lent {
    let filled = |n: usize| (0..n).map(before).collect();
    Lent { gates: filled(gates), constraints: filled(constraints), map: filled(map) }
}

/// Whether a buffer holds the used part and is else as it was.
pub fn only(found: &[u32], used: &[u32]) -> bool {
    found.starts_with(used) && found.iter().enumerate().skip(used.len()).all(|(i, x)| *x == before(i))
}

impl Lent {
    pub fn lower(&mut self, table: &[u64], addrs: &[u64], word: u64) -> Result<Lowered, Refusal> {
        lower(table, addrs, word, &mut self.gates, &mut self.constraints, &mut self.map)
    }

    pub fn holds(&self, gates: &[u32], constraints: &[u32], map: &[u32]) -> bool {
        only(&self.gates, gates) && only(&self.constraints, constraints) && only(&self.map, map)
    }
}

/// One case.
pub fn lowering(case: &Json) -> bool {
    let length = |name: &str| case.get(name).number() as usize;
    let mut buffers = lent(length("gates_len"), length("constraints_len"), length("map_len"));
    let found = buffers.lower(&case.get("table").words(), &case.get("addrs").words(), case.get("word").number());
    let used = |name: &str| case.get(name).halves();
    let answer = case.get("answer").list();
    match answer[0].text() {
        b"done" => {
            let counts = Lowered { gates: answer[1].number() as usize, constraints: answer[2].number() as usize };
            found == Ok(counts) && buffers.holds(&used("gates"), &used("constraints"), &used("map"))
        }
        _ => found == Err(refusal(answer)) && buffers.holds(&[], &[], &[]),
    }
}
