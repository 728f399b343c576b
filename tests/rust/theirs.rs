//! The original's answer: a table handed to its `bitblast_model`, and an evaluator over its gates. Nothing here is the original's text.
use crate::model::*;
use original::unicorn::bitblasting::{bitblast_model, get_constant, Gate, GateModel, GateRef, HashableGateRef};
use original::unicorn::Node as Original;
use original::unicorn::{HashableNodeRef, Model, NodeRef, NodeType};
use std::cell::RefCell;
use std::collections::HashMap;
use std::panic;

/// Why a table is not in the shared domain, or the answer, and whether its constraints hold under every input with the right quotients and remainders.
pub enum Theirs {
    Stopped(String),
    Divides,
    Shifts,
    Lowered(Answer, bool),
}

/// How an or is handed over: the original stops at an or, and knows the same bits of the word spelled by and and not.
#[derive(Clone, Copy, PartialEq)]
enum Or {
    Literal,
    Spelled,
}

thread_local! { static STOP: RefCell<String> = const { RefCell::new(String::new()) }; }

/// A stop is an answer, so that its message is kept and not printed.
pub fn keep_stops() {
    panic::set_hook(Box::new(|info| {
        let said = info.payload();
        let words = said.downcast_ref::<&str>().map(|s| s.to_string()).or_else(|| said.downcast_ref::<String>().cloned());
        let place = info.location().map_or(String::new(), |l| format!("{}:{}", l.file().rsplit('/').next().unwrap_or(""), l.line()));
        STOP.with(|s| *s.borrow_mut() = format!("{} {}", place, words.unwrap_or_default().replace('\n', " ")));
    }));
}

pub fn last_stop() -> String {
    STOP.with(|s| s.borrow().clone())
}

fn sort(width: u64) -> NodeType {
    match width {
        0 => NodeType::Memory,
        1 => NodeType::Bit,
        8 => NodeType::Input1Byte,
        16 => NodeType::Input2Byte,
        24 => NodeType::Input3Byte,
        32 => NodeType::Input4Byte,
        40 => NodeType::Input5Byte,
        48 => NodeType::Input6Byte,
        56 => NodeType::Input7Byte,
        64 => NodeType::Word,
        _ => unreachable!("width {} is not drawn", width),
    }
}

/// Not a and b, where a and b are the Nots of the operands. The inner three are no nodes of the table.
fn spelled(nid: u64, width: u64, left: NodeRef, right: NodeRef) -> Original {
    let not = |value: NodeRef| Original::Not { nid, sort: sort(width), value };
    let (left, right) = (NodeRef::from(not(left)), NodeRef::from(not(right)));
    not(NodeRef::from(Original::And { nid, sort: sort(width), left, right }))
}

fn node(nodes: &[NodeRef], table: &Table, n: &Node, or: Or) -> Original {
    let nid = nodes.len() as u64 + 1;
    let at = |i: usize| nodes[n.operands[i] - 1].clone();
    let sort_of = sort(n.width);
    match n.kind {
        CONST => Original::Const { nid, sort: sort_of, imm: n.imm },
        INPUT => Original::Input { nid, sort: sort_of, name: nid.to_string() },
        STATE => {
            let init = if n.operands[0] == 0 { None } else { Some(at(0)) };
            Original::State { nid, sort: sort_of, init, name: Some(nid.to_string()) }
        }
        NOT => Original::Not { nid, sort: sort_of, value: at(0) },
        BAD => Original::Bad { nid, cond: at(0), name: None },
        AND => Original::And { nid, sort: sort_of, left: at(0), right: at(1) },
        EXT => Original::Ext { nid, from: sort(table.nodes[n.operands[0] - 1].width), value: at(0) },
        EQ => Original::Eq { nid, left: at(0), right: at(1) },
        ADD => Original::Add { nid, left: at(0), right: at(1) },
        ITE => Original::Ite { nid, sort: sort_of, cond: at(0), left: at(1), right: at(2) },
        SUB => Original::Sub { nid, left: at(0), right: at(1) },
        ULT => Original::Ult { nid, left: at(0), right: at(1) },
        MUL => Original::Mul { nid, left: at(0), right: at(1) },
        DIVU => Original::Divu { nid, left: at(0), right: at(1) },
        REM => Original::Rem { nid, left: at(0), right: at(1) },
        READ => Original::Read { nid, memory: at(0), address: at(1) },
        WRITE => Original::Write { nid, memory: at(0), address: at(1), value: at(2) },
        OR if or == Or::Spelled => spelled(nid, n.width, at(0), at(1)),
        OR => Original::Or { nid, sort: sort_of, left: at(0), right: at(1) },
        SLL => Original::Sll { nid, left: at(0), right: at(1) },
        SRL => Original::Srl { nid, left: at(0), right: at(1) },
        kind => unreachable!("kind {} is not drawn", kind),
    }
}

/// The bad nodes go in table order. No memory gets as far as its addresses (its sort stops the original), so that the ranges are empty.
fn model(table: &Table, or: Or) -> Model {
    let mut lines: Vec<NodeRef> = Vec::new();
    for n in &table.nodes {
        let made = node(&lines, table, n, or);
        lines.push(NodeRef::from(made));
    }
    let bad = table.nodes.iter().zip(&lines).filter(|(n, _)| n.kind == BAD).map(|(_, l)| l.clone()).collect();
    Model {
        lines,
        sequentials: Vec::new(),
        bad_states_initial: bad,
        bad_states_sequential: Vec::new(),
        data_range: 0..0,
        heap_range: 0..0,
        stack_range: 0..0,
        memory_size: 0,
    }
}

/// Values of gates, a bit for each of up to 64 given inputs.
struct Values<'a> {
    made: &'a GateModel,
    seen: HashMap<*const Gate, u64>,
    /// The quotient and the remainder of a table's one division. Where none are given, each division is an srl's, and has the right ones.
    division: Option<(u64, u64)>,
}

/// The same bit under each input.
fn all_lanes(word: u64, bit: u32) -> u64 {
    0u64.wrapping_sub(word >> bit & 1)
}

fn number(bits: &[GateRef]) -> Option<u64> {
    bits.iter().rev().try_fold(0, |number, gate| Some(number << 1 | get_constant(gate)? as u64))
}

impl Values<'_> {
    fn new<'a>(made: &'a GateModel, lines: &[NodeRef], given: &[Given], division: Option<(u64, u64)>) -> Values<'a> {
        let places: HashMap<_, usize> = lines.iter().enumerate().map(|(k, line)| (std::rc::Rc::as_ptr(line), k)).collect();
        let mut seen = HashMap::new();
        for (node, gates) in &made.input_gates {
            let k = places[&std::rc::Rc::as_ptr(node)];
            for (bit, gate) in gates.iter().enumerate() {
                let value = given.iter().enumerate().fold(0, |v, (lane, g)| v | (g[k] >> bit & 1) << lane);
                seen.insert(RefCell::as_ptr(gate) as *const Gate, value);
            }
        }
        Values { made, seen, division }
    }

    /// A bit of a quotient or a remainder. An srl divides its word by two to the amount, which is known: the quotient is the word from there on, the
    /// remainder the word below.
    fn divided(&mut self, gate: &GateRef, quotient: bool, bit: u32) -> u64 {
        if let Some((q, r)) = self.division {
            return all_lanes(if quotient { q } else { r }, bit);
        }
        let made = self.made;
        let (word, amount) = &made.constraint_based_dependencies[&HashableGateRef::from(gate.clone())];
        let by = number(&made.mapping[&HashableNodeRef::from(amount.clone())]).expect("a known amount");
        let place = if quotient { bit as u64 + by } else { bit as u64 };
        if !quotient && place >= by {
            return 0;
        }
        made.mapping[&HashableNodeRef::from(word.clone())].get(place as usize).map_or(0, |gate| self.of(gate))
    }

    fn of(&mut self, gate: &GateRef) -> u64 {
        let place = RefCell::as_ptr(gate) as *const Gate;
        if let Some(value) = self.seen.get(&place) {
            return *value;
        }
        let value = match &*gate.borrow() {
            Gate::ConstTrue => u64::MAX,
            Gate::ConstFalse => 0,
            Gate::Not { value } => !self.of(value),
            Gate::And { left, right } => self.of(left) & self.of(right),
            Gate::Nand { left, right } => !(self.of(left) & self.of(right)),
            Gate::Or { left, right } => self.of(left) | self.of(right),
            Gate::Matriarch1 { cond, right } => !self.of(cond) & self.of(right),
            Gate::CarryHalfAdder { left, right } => self.of(left) & self.of(right),
            Gate::ResultHalfAdder { input1, input2 } => self.of(input1) ^ self.of(input2),
            Gate::CarryFullAdder { input1, input2, input3 } => {
                let (x, y, z) = (self.of(input1), self.of(input2), self.of(input3));
                x & y | x & z | y & z
            }
            Gate::ResultFullAdder { input1, input2, input3 } => self.of(input1) ^ self.of(input2) ^ self.of(input3),
            Gate::InputBit { name } => unreachable!("input bit {} is not listed", name),
            Gate::Quotient { index, .. } => self.divided(gate, true, *index),
            Gate::Remainder { index, .. } => self.divided(gate, false, *index),
        };
        self.seen.insert(place, value);
        value
    }

    /// Whether every constraint holds under each of so many inputs.
    fn met(&mut self, inputs: usize) -> bool {
        let lanes = mask(inputs as u64);
        self.made.constraints.iter().all(|(gate, wanted)| self.of(&gate.value) & lanes == all_lanes(*wanted as u64, 0) & lanes)
    }
}

fn known(bits: &[GateRef]) -> u64 {
    bits.iter().enumerate().fold(0, |known, (i, gate)| known | (get_constant(gate).is_some() as u64) << i)
}

/// Whether a reached node is outside the shared domain by the original's own knowledge: the test has the node, and its operands' numbers where they are
/// wholly known.
fn outside(table: &Table, lines: &[NodeRef], made: &GateModel, test: impl Fn(&Node, [Option<u64>; 2]) -> bool) -> bool {
    let bits_of = |k: usize| made.mapping.get(&HashableNodeRef::from(lines[k - 1].clone()));
    let known = |k: usize| if k == 0 { None } else { bits_of(k).and_then(|bits| number(bits)) };
    let reached = |k: usize| bits_of(k).is_some();
    table.nodes.iter().enumerate().any(|(i, n)| reached(i + 1) && test(n, [known(n.operands[0]), known(n.operands[1])]))
}

/// Both operands of a division are wholly known.
fn divides(n: &Node, operands: [Option<u64>; 2]) -> bool {
    (n.kind == DIVU || n.kind == REM) && operands.contains(&None)
}

/// A shift's amount is wholly known and below the width.
fn shifts(n: &Node, operands: [Option<u64>; 2]) -> bool {
    (n.kind == SLL || n.kind == SRL) && operands[1].is_none_or(|amount| amount >= n.width)
}

/// The original, run; or what it said when it stopped.
fn run(table: &Table, or: Or) -> Result<(Model, GateModel), String> {
    let model = model(table, or);
    match panic::catch_unwind(panic::AssertUnwindSafe(|| bitblast_model(&model, true, table.word))) {
        Ok(made) => Ok((model, made)),
        Err(_) => Err(last_stop()),
    }
}

fn answer(lines: &[NodeRef], made: &GateModel, given: &[Given], values: &mut Values) -> Answer {
    let nodes = lines.iter().map(|line| {
        let bits = made.mapping.get(&HashableNodeRef::from(line.clone()))?;
        let mut words = vec![0; given.len()];
        for (i, gate) in bits.iter().enumerate() {
            let lanes = values.of(gate);
            words.iter_mut().enumerate().for_each(|(lane, word)| *word |= (lanes >> lane & 1) << i);
        }
        Some(Bits { count: bits.len(), known: known(bits), values: words })
    });
    Answer { nodes: nodes.collect(), constraints: made.constraints.len() }
}

pub fn lower(table: &Table, given: &[Given]) -> Theirs {
    let (model, made) = match run(table, Or::Spelled) {
        Ok(both) => both,
        Err(why) => return Theirs::Stopped(why),
    };
    if outside(table, &model.lines, &made, divides) {
        return Theirs::Divides;
    }
    if outside(table, &model.lines, &made, shifts) {
        return Theirs::Shifts;
    }
    let mut values = Values::new(&made, &model.lines, given, None);
    let met = values.met(given.len());
    Theirs::Lowered(answer(&model.lines, &made, given, &mut values), met)
}

/// What the original says where it stops at a table as it stands, an or included.
pub fn stop(table: &Table) -> Option<String> {
    run(table, Or::Literal).err()
}

/// A node's value, in a table that need not be of the shared domain; free gates of a division are false.
pub fn value(table: &Table, given: &Given, node: usize) -> Option<u64> {
    let (model, made) = run(table, Or::Literal).ok()?;
    let given = std::slice::from_ref(given);
    let mut values = Values::new(&made, &model.lines, given, Some((0, 0)));
    answer(&model.lines, &made, given, &mut values).nodes.swap_remove(node - 1).map(|bits| bits.values[0])
}

/// Whether every constraint of a table with one division holds at a quotient and a remainder.
pub fn admits(table: &Table, given: &Given, quotient: u64, remainder: u64) -> bool {
    let Ok((model, made)) = run(table, Or::Literal) else { return false };
    Values::new(&made, &model.lines, std::slice::from_ref(given), Some((quotient, remainder))).met(1)
}
