//! A table made smaller while it still shows a difference: nodes are deleted, replaced by leaves, and made narrower.
use crate::model::*;

/// What counts: nodes first, then addresses, then how much is no leaf, then bits, then constants.
fn size(table: &Table) -> (usize, usize, usize, u64, u32, u64) {
    let nodes = &table.nodes;
    let inner = nodes.iter().map(|n| match n.kind {
        CONST => 0,
        INPUT => 1,
        STATE => 2,
        _ => 3,
    });
    (
        nodes.len(),
        table.addresses.len(),
        inner.sum(),
        nodes.iter().map(|n| n.width).sum(),
        nodes.iter().map(|n| n.imm.count_ones()).sum(),
        nodes.iter().map(|n| n.imm).fold(0, u64::wrapping_add),
    )
}

/// Without node k: its users use j instead (0 where it has none).
fn without(table: &Table, k: usize, j: usize) -> Table {
    let mut nodes = table.nodes.clone();
    nodes.remove(k - 1);
    for n in &mut nodes {
        for x in &mut n.operands {
            if *x == k {
                *x = j;
            } else if *x > k {
                *x -= 1;
            }
        }
    }
    Table { nodes, ..table.clone() }
}

fn with(table: &Table, k: usize, node: Node) -> Table {
    let mut t = table.clone();
    t.nodes[k - 1] = node;
    t
}

/// All nodes of one width at another.
fn narrower(table: &Table, from: u64, to: u64) -> Table {
    let mut t = table.clone();
    for n in &mut t.nodes {
        if n.width == from {
            n.width = to;
            n.imm &= mask(to);
        }
    }
    t
}

fn smaller(table: &Table) -> Vec<Table> {
    let mut all = Vec::new();
    for k in (1..=table.nodes.len()).rev() {
        let n = table.nodes[k - 1];
        if table.nodes.iter().all(|user| !user.operands.contains(&k)) {
            all.push(without(table, k, 0));
            continue;
        }
        for j in 1..k {
            if table.nodes[j - 1].width == n.width && table.nodes[j - 1].kind != BAD {
                all.push(without(table, k, j));
            }
        }
        if n.width > 0 {
            for imm in [0, 1, n.imm & n.imm.wrapping_sub(1), n.imm >> 1] {
                all.push(with(table, k, Node::new(CONST, n.width, [0; 3], imm)));
            }
            all.push(with(table, k, Node::new(INPUT, n.width, [0; 3], 0)));
        }
    }
    if !table.addresses.is_empty() && table.nodes.iter().all(|n| n.width > 0) {
        all.push(Table { word: 64, addresses: Vec::new(), ..table.clone() });
    }
    for from in WIDTHS {
        for to in WIDTHS {
            if to < from {
                all.push(narrower(table, from, to));
            }
        }
    }
    all
}

/// Operands that are still there and before their user, and sorts that fit, so that the table may be handed to the original.
fn well_formed(table: &Table) -> bool {
    table.nodes.iter().enumerate().all(|(i, n)| {
        let width = |j: usize| table.nodes[n.operands[j] - 1].width;
        let count = match n.kind {
            CONST | INPUT => 0,
            STATE => (n.operands[0] != 0) as usize,
            NOT | BAD | EXT => 1,
            ITE | WRITE => 3,
            _ => 2,
        };
        if !n.operands.iter().enumerate().all(|(j, k)| if j < count { *k > 0 && *k <= i } else { *k == 0 }) {
            return false;
        }
        match n.kind {
            CONST => n.width > 0,
            INPUT => true,
            STATE => count == 0 || width(0) == n.width,
            BAD => n.width == 1 && width(0) == 1,
            EXT => n.width == 64 && width(0) > 0,
            EQ | ULT => n.width == 1 && width(0) > 0 && width(0) == width(1),
            ITE => width(0) == 1 && width(1) == n.width && width(2) == n.width,
            READ => n.width == table.word && width(0) == 0 && width(1) == table.word,
            WRITE => n.width == 0 && width(0) == 0 && width(1) == table.word && width(2) == table.word,
            _ => n.width > 0 && (0..count).all(|j| width(j) == n.width),
        }
    })
}

pub fn shrink(table: &Table, mut shows: impl FnMut(&Table) -> bool) -> Table {
    let mut best = table.clone();
    while let Some(next) = smaller(&best).into_iter().find(|t| size(t) < size(&best) && well_formed(t) && shows(t)) {
        best = next;
    }
    best
}

pub fn is_smaller(a: &Table, b: &Table) -> bool {
    size(a) < size(b)
}
