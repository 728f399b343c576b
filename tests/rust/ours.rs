//! The port's answer, through the static library.
use crate::model::*;
use ramstitcher::{eval_gates, eval_words, gate, lower, Refusal, CONSTRAINT, GATE, UNREACHED};

/// Buffers that are lent again and again, larger than any drawn table needs.
pub struct Ours {
    gates: Vec<u32>,
    constraints: Vec<u32>,
    map: Vec<u32>,
    bytes: Vec<u8>,
}

impl Ours {
    pub fn new() -> Ours {
        Ours { gates: vec![0; GATE * 600_000], constraints: vec![0; CONSTRAINT * 150_000], map: vec![0; 40_000], bytes: Vec::new() }
    }

    /// Each free gate gets its bit, and the list is evaluated. A division's free gates take theirs from one quotient and one remainder.
    fn values(&mut self, made: usize, given: &Given, quotient: u64, remainder: u64) -> Result<(), Refusal> {
        self.bytes.clear();
        for record in self.gates[..GATE * made].chunks(GATE) {
            let word = match record[0] {
                gate::INPUT_BIT => given[record[1] as usize - 1],
                gate::QUOTIENT => quotient,
                gate::REMAINDER => remainder,
                _ => 0,
            };
            self.bytes.push(if word == 0 { 0 } else { (word >> record[2] & 1) as u8 });
        }
        eval_gates(&self.gates[..GATE * made], &mut self.bytes)
    }

    pub fn lower(&mut self, table: &Table, given: &[Given]) -> Result<Answer, Refusal> {
        let made = lower(&table.flat(), &table.addresses, table.word, &mut self.gates, &mut self.constraints, &mut self.map)?;
        let memory = table.addresses.len() * table.word as usize;
        let mut nodes: Vec<Option<Bits>> = Vec::new();
        let mut places = Vec::new();
        let mut at = 0;
        for n in &table.nodes {
            let count = if n.width == 0 { memory } else { n.width as usize };
            let bits = &self.map[at..at + count];
            let reached = count > 0 && bits[0] != UNREACHED;
            // Of a memory it is told only that it was reached: in the shared domain none is.
            let known = bits.iter().take(64).enumerate().fold(0, |known, (i, place)| known | ((*place < 2) as u64) << i);
            nodes.push(reached.then(|| Bits { count, known, values: Vec::new() }));
            places.push(at);
            at += count;
        }
        for g in given {
            self.values(made.gates, g, 0, 0)?;
            for (k, bits) in nodes.iter_mut().enumerate() {
                if let Some(bits) = bits {
                    let map = &self.map[places[k]..places[k] + bits.count.min(64)];
                    let word = map.iter().enumerate().fold(0, |word, (i, place)| word | (self.bytes[*place as usize] as u64) << i);
                    bits.values.push(word);
                }
            }
        }
        Ok(Answer { nodes, constraints: made.constraints })
    }

    /// Whether every constraint of a table with one division holds at a quotient and a remainder.
    pub fn admits(&mut self, table: &Table, given: &Given, quotient: u64, remainder: u64) -> Result<bool, Refusal> {
        let made = lower(&table.flat(), &table.addresses, table.word, &mut self.gates, &mut self.constraints, &mut self.map)?;
        self.values(made.gates, given, quotient, remainder)?;
        let held = &self.constraints[..CONSTRAINT * made.constraints];
        Ok(held.chunks(CONSTRAINT).all(|c| self.bytes[c[0] as usize] as u32 == c[1]))
    }

    /// The word evaluator's value of each node: one number a word; a memory's words are left out.
    pub fn words(&self, table: &Table, given: &Given) -> Result<Vec<u64>, Refusal> {
        let mut values = Vec::new();
        let mut places = Vec::new();
        for (n, word) in table.nodes.iter().zip(given) {
            places.push(values.len());
            if n.width == 0 {
                values.resize(values.len() + table.addresses.len(), 0);
            } else {
                values.push(*word);
            }
        }
        eval_words(&table.flat(), &table.addresses, table.word, &mut values)?;
        Ok(places.iter().map(|at| values.get(*at).copied().unwrap_or(0)).collect())
    }
}
