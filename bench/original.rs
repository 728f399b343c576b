//! The unchanged original as a crate: its module `unicorn`, and a model built of a table.
pub mod tables;
pub mod unicorn;

use tables::*;
use unicorn::bitblasting::{bitblast_model, get_constant, Gate, GateModel, GateRef};
use unicorn::{Model, Node, NodeRef, NodeType};

/// The model of a table that the benchmark measures; the original stops at any memory and any or, so that none is built for them.
pub fn model(table: &Table) -> Option<Model> {
    let sort = |width| match width {
        1 => NodeType::Bit,
        _ => NodeType::Word,
    };
    let mut lines: Vec<NodeRef> = Vec::new();
    let mut bads = Vec::new();
    for (i, &[kind, width, a, b, c, _]) in table.nodes.iter().enumerate() {
        if width == 0 {
            return None;
        }
        let nid = i as u64 + 1;
        let get = |k: u64| lines[k as usize - 1].clone();
        let node = NodeRef::from(match kind {
            INPUT => Node::Input { nid, sort: sort(width), name: format!("n{nid}") },
            BAD => Node::Bad { nid, cond: get(a), name: None },
            AND => Node::And { nid, sort: sort(width), left: get(a), right: get(b) },
            EQ => Node::Eq { nid, left: get(a), right: get(b) },
            ADD => Node::Add { nid, left: get(a), right: get(b) },
            ITE => Node::Ite { nid, sort: sort(width), cond: get(a), left: get(b), right: get(c) },
            MUL => Node::Mul { nid, left: get(a), right: get(b) },
            DIVU => Node::Divu { nid, left: get(a), right: get(b) },
            _ => return None,
        });
        if kind == BAD {
            bads.push(node.clone());
        }
        lines.push(node);
    }
    Some(Model {
        lines,
        sequentials: Vec::new(),
        bad_states_initial: bads,
        bad_states_sequential: Vec::new(),
        data_range: 0..0,
        heap_range: 0..0,
        stack_range: 0..0,
        memory_size: 0,
    })
}

/// Lowers it.
pub fn lower(model: &Model, word: u64) -> GateModel {
    bitblast_model(model, true, word)
}

/// The gates that it made and that something holds, constants aside.
pub fn gates(made: &GateModel) -> usize {
    let mut seen = std::collections::HashSet::new();
    let mut left: Vec<GateRef> = made.mapping.values().flatten().cloned().collect();
    left.extend(made.constraints.keys().map(|k| k.value.clone()));
    left.extend(made.mapping_adders.iter().flat_map(|(k, v)| [k.value.clone(), v.clone()]));
    let mut count = 0;
    while let Some(g) = left.pop() {
        if !seen.insert(g.as_ptr()) {
            continue;
        }
        count += get_constant(&g).is_none() as usize;
        match &*g.borrow() {
            Gate::Not { value } => left.push(value.clone()),
            Gate::And { left: x, right: y }
            | Gate::Nand { left: x, right: y }
            | Gate::Or { left: x, right: y }
            | Gate::Matriarch1 { cond: x, right: y }
            | Gate::CarryHalfAdder { left: x, right: y }
            | Gate::ResultHalfAdder { input1: x, input2: y } => left.extend([x.clone(), y.clone()]),
            Gate::CarryFullAdder { input1, input2, input3 } | Gate::ResultFullAdder { input1, input2, input3 } => {
                left.extend([input1.clone(), input2.clone(), input3.clone()])
            }
            _ => {}
        }
    }
    count
}
