//! The entry points, written in Rust from the definition of the build: plain, slow, and over lists that grow. Where the definition leaves an order
//! open (the sum as an adder's left operand, a read's Ands before its Ors and the result as the Or's left operand), the order is the code's, so that there
//! the comparison shows no more than that both agree.
//! Each gives the whole answer: refusal, node, counts, and all that a lent buffer then holds.

use ramstitcher::{gate, kind::*, UNREACHED};

/// A refusal's number and the node or gate beside it; (0, 0) is none.
pub type Answer = (u64, usize);

const DONE: Answer = (0, 0);

fn below(x: u64, width: u64) -> bool {
    width >= 64 || x >> width == 0
}

fn cut(x: u64, width: u64) -> u64 {
    if width >= 64 {
        x
    } else {
        x & ((1 << width) - 1)
    }
}

/// How many amount bits have a stage of their own: those of place j with 2^j below the width.
fn stages(width: u64) -> u64 {
    (0..64).filter(|&j| 1 << j < width).count() as u64
}

/// A table as it is offered: any numbers.
#[derive(Clone, Copy)]
pub struct Table<'a> {
    pub table: &'a [u64],
    pub addresses: &'a [u64],
    pub word: u64,
}

#[derive(Clone, Copy)]
struct Node {
    kind: u64,
    width: u64,
    a: u64,
    b: u64,
    c: u64,
    imm: u64,
}

impl Node {
    /// An input, or a state without an initial node.
    fn given(&self) -> bool {
        self.kind == INPUT || (self.kind == STATE && self.a == 0)
    }
}

impl Table<'_> {
    fn nodes(&self) -> usize {
        self.table.len() / 6
    }

    /// Node k, from 1.
    fn node(&self, k: usize) -> Node {
        let f = &self.table[6 * (k - 1)..6 * k];
        Node { kind: f[0], width: f[1], a: f[2], b: f[3], c: f[4], imm: f[5] }
    }

    fn bits(&self, width: u64) -> usize {
        (if width == 0 { self.addresses.len() as u64 * self.word } else { width }) as usize
    }

    fn slots(&self, width: u64) -> usize {
        if width == 0 {
            self.addresses.len()
        } else {
            1
        }
    }

    /// Refusals 1 to 6.
    pub fn fault(&self) -> Answer {
        let n = self.addresses.len();
        if self.table.len() % 6 != 0 || self.nodes() > 512 || n > 64 || !(1..=64).contains(&self.word) {
            return (1, 0);
        }
        let again = |i: usize| self.addresses[..i].contains(&self.addresses[i]);
        if (0..n).any(|i| !below(self.addresses[i], self.word) || again(i)) {
            return (2, 0);
        }
        for k in 1..=self.nodes() {
            let d = self.node(k);
            if !ALL.iter().any(|&(kind, _)| kind == d.kind) {
                return (3, k);
            }
            if matches!(d.kind, DIV | NEXT | COMMENT) {
                return (4, k);
            }
            if !self.operands(k, d) {
                return (5, k);
            }
            if !self.sorts(d) {
                return (6, k);
            }
        }
        DONE
    }

    fn operands(&self, k: usize, d: Node) -> bool {
        let smaller = |x: u64| x != 0 && x < k as u64;
        let used = match d.kind {
            CONST | INPUT | STATE => 0,
            NOT | BAD | EXT | SEXT => 1,
            ITE | WRITE => 3,
            _ => 2,
        };
        let fits = |i: usize, x: u64| {
            if i < used {
                smaller(x)
            } else {
                x == 0
            }
        };
        let first = if d.kind == STATE { d.a == 0 || smaller(d.a) } else { fits(0, d.a) };
        first && fits(1, d.b) && fits(2, d.c) && (d.kind == CONST || d.imm == 0)
    }

    fn sorts(&self, d: Node) -> bool {
        let of = |x: u64| self.node(x as usize).width;
        let word = (1..=64).contains(&d.width);
        let w = self.word;
        match d.kind {
            CONST => word && below(d.imm, d.width),
            INPUT => d.width <= 64,
            STATE => d.width <= 64 && (d.a == 0 || of(d.a) == d.width),
            NOT => word && of(d.a) == d.width,
            BAD => d.width == 1 && of(d.a) == 1,
            EXT | SEXT => word && of(d.a) != 0 && of(d.a) <= d.width,
            EQ | ULT => d.width == 1 && of(d.a) != 0 && of(d.a) == of(d.b),
            ITE => d.width <= 64 && of(d.a) == 1 && of(d.b) == d.width && of(d.c) == d.width,
            READ => d.width == w && of(d.a) == 0 && of(d.b) == w,
            WRITE => d.width == 0 && of(d.a) == 0 && of(d.b) == w && of(d.c) == w,
            _ => word && of(d.a) == d.width && of(d.b) == d.width,
        }
    }

    /// The sums of a table without fault: gates, places of the map, constraints.
    pub fn sums(&self) -> Option<(usize, usize, usize)> {
        if self.fault() != DONE {
            return None;
        }
        let (n, w) = (self.addresses.len() as u64, self.word);
        let (mut gates, mut map, mut pairs) = (2, 0, 0);
        for k in 1..=self.nodes() {
            let d = self.node(k);
            let v = d.width;
            let of = || self.node(d.a as usize).width;
            map += self.bits(v) as u64;
            gates += match d.kind {
                _ if d.given() => self.bits(v) as u64,
                NOT | AND | OR => v,
                EQ => 3 * of() - 1,
                ADD => 3 * v,
                SUB => 4 * v,
                ULT => 4 * of() + 1,
                MUL => 2 * v * (v + 1),
                ITE => 3 * self.bits(v) as u64,
                READ => n * (4 * w - 1),
                WRITE => n * (5 * w - 1),
                DIVU | REM => 2 * v * v + 18 * v + 1 + v * (v - 1) / 2,
                SLL | SRL => 3 * v * stages(v) + 2 * v - stages(v) - 1,
                _ => 0,
            };
            if matches!(d.kind, DIVU | REM) {
                pairs += v * (v - 1) / 2 + 2 * v + 2;
            }
        }
        Some((gates as usize, map as usize, pairs as usize))
    }

    /// How many slots the word evaluator needs, of a table without fault.
    pub fn slots_in_all(&self) -> usize {
        (1..=self.nodes()).map(|k| self.slots(self.node(k).width)).sum()
    }
}

/// The word evaluator.
pub fn eval_words(t: Table, values: &mut [u64]) -> Answer {
    let fault = t.fault();
    if fault != DONE {
        return fault;
    }
    if values.len() < t.slots_in_all() {
        return (12, 0);
    }
    let mut starts = vec![0; t.nodes() + 2];
    for k in 1..=t.nodes() {
        starts[k + 1] = starts[k] + t.slots(t.node(k).width);
    }
    let range = |k: usize| starts[k]..starts[k + 1];
    for k in 1..=t.nodes() {
        let d = t.node(k);
        let width = if d.width == 0 { t.word } else { d.width };
        if d.given() && values[range(k)].iter().any(|&x| !below(x, width)) {
            return (13, k);
        }
    }
    for k in 1..=t.nodes() {
        let d = t.node(k);
        if d.given() {
            continue;
        }
        let all = |x: u64| values[range(x as usize)].to_vec();
        let one = |x: u64| values[starts[x as usize]];
        let place = |x: u64| t.addresses.iter().position(|&y| y == x);
        let found = match d.kind {
            STATE | BAD | EXT => all(d.a),
            ITE => all(if one(d.a) == 1 { d.b } else { d.c }),
            READ => vec![place(one(d.b)).map_or(0, |i| all(d.a)[i])],
            WRITE => {
                let mut words = all(d.a);
                if let Some(i) = place(one(d.b)) {
                    words[i] = one(d.c);
                }
                words
            }
            CONST => vec![d.imm],
            _ => {
                let (x, y) = (one(d.a), if d.b == 0 { 0 } else { one(d.b) });
                vec![match d.kind {
                    NOT => cut(!x, d.width),
                    AND => x & y,
                    EQ => (x == y) as u64,
                    ADD => cut(x.wrapping_add(y), d.width),
                    SUB => cut(x.wrapping_sub(y), d.width),
                    ULT => (x < y) as u64,
                    MUL => cut(x.wrapping_mul(y), d.width),
                    DIVU => x.checked_div(y).unwrap_or(cut(u64::MAX, d.width)),
                    REM => x.checked_rem(y).unwrap_or(x),
                    OR => x | y,
                    SEXT => {
                        let above = 64 - t.node(d.a as usize).width;
                        cut(((x << above) as i64 >> above) as u64, d.width)
                    }
                    _ if y >= d.width => 0,
                    SLL => cut(x << y, d.width),
                    _ => x >> y,
                }]
            }
        };
        values[range(k)].copy_from_slice(&found);
    }
    DONE
}

/// Gates and constraints so far.
struct Net {
    gates: Vec<[u32; 4]>,
    constraints: Vec<[u32; 2]>,
}

fn known(x: u32) -> bool {
    x < 2
}

fn number(bits: &[u32]) -> Option<u64> {
    bits.iter().rev().try_fold(0u64, |v, &x| known(x).then_some(v << 1 | x as u64))
}

fn digits(x: u64, width: usize) -> Vec<u32> {
    (0..width).map(|j| (x >> j & 1) as u32).collect()
}

impl Net {
    fn make(&mut self, kind: u32, x: u32, y: u32, z: u32) -> u32 {
        self.gates.push([kind, x, y, z]);
        self.gates.len() as u32 - 1
    }

    fn not(&mut self, x: u32) -> u32 {
        if known(x) {
            1 - x
        } else {
            self.make(gate::NOT, x, 0, 0)
        }
    }

    fn and(&mut self, x: u32, y: u32) -> u32 {
        match (x, y) {
            (0, _) | (_, 0) => 0,
            (1, z) | (z, 1) => z,
            _ => self.make(gate::AND, x, y, 0),
        }
    }

    fn or(&mut self, x: u32, y: u32) -> u32 {
        match (x, y) {
            (1, _) | (_, 1) => 1,
            (0, z) | (z, 0) => z,
            _ => self.make(gate::OR, x, y, 0),
        }
    }

    fn xnor(&mut self, x: u32, y: u32) -> u32 {
        match (x, y) {
            (1, z) | (z, 1) => z,
            (0, z) | (z, 0) => self.not(z),
            _ => {
                let half = self.make(gate::RESULT_HALF, x, y, 0);
                self.not(half)
            }
        }
    }

    /// Result and carry.
    fn adder(&mut self, left: u32, right: u32, carry: u32) -> (u32, u32) {
        let (sure, open): (Vec<u32>, Vec<u32>) = [left, right, carry].into_iter().partition(|&x| known(x));
        match (&sure[..], &open[..]) {
            (&[x, y, z], _) => ((x + y + z) % 2, (x + y + z) / 2),
            (&[x, y], &[z]) if x == y => (z, x),
            (_, &[z]) => (self.not(z), z),
            (&[0], &[x, y]) => (self.make(gate::RESULT_HALF, x, y, 0), self.make(gate::CARRY_HALF, x, y, 0)),
            (_, &[x, y]) => {
                let half = self.make(gate::RESULT_HALF, x, y, 0);
                (self.not(half), self.or(x, y))
            }
            _ => (self.make(gate::RESULT_FULL, left, right, carry), self.make(gate::CARRY_FULL, left, right, carry)),
        }
    }

    /// Adds the right bits onto the sum from a place on, and gives the last carry.
    fn chain(&mut self, sum: &mut [u32], right: &[u32], mut carry: u32) -> u32 {
        for (s, &r) in sum.iter_mut().zip(right) {
            (*s, carry) = self.adder(*s, r, carry);
        }
        carry
    }

    fn sub(&mut self, left: &[u32], right: &[u32]) -> Vec<u32> {
        let nots: Vec<u32> = right.iter().map(|&x| self.not(x)).collect();
        let mut sum = left.to_vec();
        self.chain(&mut sum, &nots, 1);
        sum
    }

    fn ult(&mut self, left: &[u32], right: &[u32]) -> u32 {
        let wide = |bits: &[u32]| [bits, &[0]].concat();
        *self.sub(&wide(left), &wide(right)).last().unwrap()
    }

    fn choice(&mut self, c: u32, t: u32, f: u32) -> u32 {
        if known(c) {
            return if c == 1 { t } else { f };
        }
        match (t, f) {
            (0, 0) | (1, 1) => t,
            (1, 0) => c,
            (0, 1) => self.not(c),
            _ => {
                let yes = self.and(t, c);
                let no = if known(f) {
                    if f == 1 {
                        self.not(c)
                    } else {
                        0
                    }
                } else {
                    self.make(gate::MATRIARCH1, c, f, 0)
                };
                self.or(yes, no)
            }
        }
    }

    fn choices(&mut self, c: u32, yes: &[u32], no: &[u32]) -> Vec<u32> {
        yes.iter().zip(no).map(|(&t, &f)| self.choice(c, t, f)).collect()
    }

    /// Left moves bits up, the other way moves them down; known false comes in.
    fn shift(&mut self, word: &[u32], amount: &[u32], left: bool) -> Vec<u32> {
        let w = word.len();
        let s = stages(w as u64) as usize;
        let mut word = word.to_vec();
        for (j, &c) in amount[..s].iter().enumerate() {
            let (by, falses) = (1 << j, vec![0; 1 << j]);
            let moved = if left { [&falses, &word[..w - by]].concat() } else { [&word[by..], &falses].concat() };
            word = self.choices(c, &moved, &word);
        }
        let mut beyond = amount[s];
        for &x in &amount[s + 1..] {
            beyond = self.or(beyond, x);
        }
        self.choices(beyond, &vec![0; w], &word)
    }

    fn eq(&mut self, left: &[u32], right: &[u32]) -> u32 {
        let same: Vec<u32> = left.iter().zip(right).map(|(&x, &y)| self.xnor(x, y)).collect();
        let mut all = same[0];
        for &x in &same[1..] {
            all = self.and(all, x);
        }
        all
    }

    fn row(&mut self, bits: &[u32], digit: u32) -> Vec<u32> {
        bits.iter().map(|&x| self.and(x, digit)).collect()
    }

    fn mul(&mut self, left: &[u32], right: &[u32]) -> Vec<u32> {
        let w = left.len();
        let mut sum = vec![0; w];
        for i in 0..w {
            let row = self.row(&left[..w - i], right[i]);
            self.chain(&mut sum[i..], &row, 0);
        }
        sum
    }

    fn constrain(&mut self, gate: u32, value: u32) {
        self.constraints.push([gate, value]);
    }

    /// The quotient, or the remainder.
    fn divide(&mut self, node: u32, quotient: bool, num: &[u32], den: &[u32]) -> Vec<u32> {
        let w = num.len();
        let by_zero = if quotient { vec![1; w] } else { num.to_vec() };
        if let (Some(x), Some(y)) = (number(num), number(den)) {
            return match y {
                0 => by_zero,
                _ => digits(if quotient { x / y } else { x % y }, w),
            };
        }
        let zero = self.eq(den, &vec![0; w]);
        if zero == 1 {
            return by_zero;
        }
        let mut den = den.to_vec();
        den[0] = self.or(den[0], zero);
        let (quot, rem) = self.parts(node, num, &den);
        self.choices(zero, &by_zero, if quotient { &quot } else { &rem })
    }

    /// Quotient and remainder by a divisor that is not zero.
    fn parts(&mut self, node: u32, num: &[u32], den: &[u32]) -> (Vec<u32>, Vec<u32>) {
        let w = num.len();
        let (mut quot, mut rem) = (Vec::new(), Vec::new());
        for bit in 0..w as u32 {
            quot.push(self.make(gate::QUOTIENT, node, bit, 0));
            rem.push(self.make(gate::REMAINDER, node, bit, 0));
        }
        let mut sum = vec![0; w];
        for i in 0..w {
            let kept = self.row(&quot[..w - i], den[i]);
            let lost = self.row(&quot[w - i..], den[i]);
            for x in lost {
                self.constrain(x, 0);
            }
            let carry = self.chain(&mut sum[i..], &kept, 0);
            self.constrain(carry, 0);
        }
        let carry = self.chain(&mut sum, &rem, 0);
        self.constrain(carry, 0);
        for (&x, &y) in num.iter().zip(&sum) {
            let same = self.xnor(x, y);
            self.constrain(same, 1);
        }
        let less = self.ult(&rem, den);
        self.constrain(less, 1);
        (quot, rem)
    }
}

/// The visits of a table without fault.
struct Lowering<'a> {
    t: Table<'a>,
    net: Net,
    bits: Vec<Option<Vec<u32>>>,
}

impl Lowering<'_> {
    fn of(&self, k: u64) -> &[u32] {
        self.bits[k as usize].as_ref().unwrap()
    }

    fn visit(&mut self, k: u64) {
        if k == 0 || self.bits[k as usize].is_some() {
            return;
        }
        let d = self.t.node(k as usize);
        self.visit(d.a);
        if d.kind == ITE && known(self.of(d.a)[0]) {
            let side = if self.of(d.a)[0] == 1 { d.b } else { d.c };
            self.visit(side);
            self.bits[k as usize] = Some(self.of(side).to_vec());
            return;
        }
        self.visit(d.b);
        self.visit(d.c);
        let word = |x: u64| if x == 0 { Vec::new() } else { self.of(x).to_vec() };
        let (x, y, z) = (word(d.a), word(d.b), word(d.c));
        let (w, n) = (self.t.word as usize, self.t.addresses.len());
        let net = &mut self.net;
        let made = match d.kind {
            _ if d.given() => (0..self.t.bits(d.width) as u32).map(|j| net.make(gate::INPUT_BIT, k as u32, j, 0)).collect(),
            CONST => digits(d.imm, d.width as usize),
            STATE | BAD => x,
            EXT | SEXT => {
                let above = if d.kind == SEXT { x[x.len() - 1] } else { 0 };
                [&x[..], &vec![above; d.width as usize - x.len()]].concat()
            }
            NOT => x.iter().map(|&b| net.not(b)).collect(),
            AND => x.iter().zip(&y).map(|(&a, &b)| net.and(a, b)).collect(),
            OR => x.iter().zip(&y).map(|(&a, &b)| net.or(a, b)).collect(),
            SLL | SRL => net.shift(&x, &y, d.kind == SLL),
            EQ => vec![net.eq(&x, &y)],
            ADD => {
                let mut sum = x;
                net.chain(&mut sum, &y, 0);
                sum
            }
            ITE => net.choices(x[0], &y, &z),
            SUB => net.sub(&x, &y),
            ULT => vec![net.ult(&x, &y)],
            MUL => net.mul(&x, &y),
            DIVU | REM => net.divide(k as u32, d.kind == DIVU, &x, &y),
            READ => match number(&y) {
                Some(a) => match self.t.addresses.iter().position(|&l| l == a) {
                    Some(i) => x[i * w..(i + 1) * w].to_vec(),
                    None => vec![0; w],
                },
                None => {
                    let mut found = vec![0; w];
                    for i in 0..n {
                        let same = net.eq(&digits(self.t.addresses[i], w), &y);
                        let ands = net.row(&x[i * w..(i + 1) * w], same);
                        for (f, &b) in found.iter_mut().zip(&ands) {
                            *f = net.or(*f, b);
                        }
                    }
                    found
                }
            },
            _ => {
                let mut words = x;
                match number(&y) {
                    Some(a) => {
                        if let Some(i) = self.t.addresses.iter().position(|&l| l == a) {
                            words[i * w..(i + 1) * w].copy_from_slice(&z);
                        }
                    }
                    None => {
                        for i in 0..n {
                            let same = net.eq(&digits(self.t.addresses[i], w), &y);
                            for j in 0..w {
                                words[i * w + j] = net.choice(same, z[j], words[i * w + j]);
                            }
                        }
                    }
                }
                words
            }
        };
        self.bits[k as usize] = Some(made);
    }
}

/// The lowering: the answer and the counts of gates and constraints.
pub fn lower(t: Table, gates: &mut [u32], constraints: &mut [u32], map: &mut [u32]) -> (Answer, usize, usize) {
    let fault = t.fault();
    if fault != DONE {
        return (fault, 0, 0);
    }
    if (1..=t.nodes()).all(|k| t.node(k).kind != BAD) {
        return ((14, 0), 0, 0);
    }
    let (g, m, c) = t.sums().unwrap();
    for (number, lent, sum) in [(7, gates.len() / 4, g), (8, map.len(), m), (9, constraints.len() / 2, c)] {
        if lent < sum {
            return ((number, 0), 0, 0);
        }
    }
    let net = Net { gates: vec![[gate::CONST_FALSE, 0, 0, 0], [gate::CONST_TRUE, 0, 0, 0]], constraints: Vec::new() };
    let mut run = Lowering { t, net, bits: vec![None; t.nodes() + 1] };
    for k in 1..=t.nodes() {
        if t.node(k).kind == BAD {
            run.visit(k as u64);
        }
    }
    let (made, held) = (run.net.gates.concat(), run.net.constraints.concat());
    gates[..made.len()].copy_from_slice(&made);
    constraints[..held.len()].copy_from_slice(&held);
    let mut at = 0;
    for k in 1..=t.nodes() {
        let places = &mut map[at..at + t.bits(t.node(k).width)];
        at += places.len();
        match &run.bits[k] {
            Some(bits) => places.copy_from_slice(bits),
            None => places.fill(UNREACHED),
        }
    }
    (DONE, made.len() / 4, held.len() / 2)
}

/// The gate evaluator.
pub fn eval_gates(gates: &[u32], values: &mut [u8]) -> Answer {
    if gates.len() % 4 != 0 || gates.len() < 8 {
        return (11, 0);
    }
    let n = gates.len() / 4;
    let free = |kind: u32| matches!(kind, gate::INPUT_BIT | gate::QUOTIENT | gate::REMAINDER);
    for (i, g) in gates.chunks(4).enumerate() {
        let used = match g[0] {
            gate::NOT => 1,
            gate::CARRY_FULL | gate::RESULT_FULL => 3,
            _ => 2,
        };
        let sound = match (i, g[0]) {
            (0, _) | (1, _) => g == [i as u32, 0, 0, 0],
            (_, kind) if free(kind) => g[3] == 0,
            (_, gate::NOT..=gate::RESULT_FULL) => g[1..].iter().enumerate().all(|(j, &x)| if j < used { (x as usize) < i } else { x == 0 }),
            _ => false,
        };
        if !sound {
            return (11, i);
        }
    }
    if values.len() < n {
        return (12, 0);
    }
    if let Some(i) = (0..n).find(|&i| free(gates[4 * i]) && values[i] > 1) {
        return (13, i);
    }
    for i in 0..n {
        let [x, y, z] = [1, 2, 3].map(|j| values.get(gates[4 * i + j] as usize).copied().unwrap_or(0));
        values[i] = match gates[4 * i] {
            gate::CONST_FALSE => 0,
            gate::CONST_TRUE => 1,
            gate::NOT => 1 - x,
            gate::AND | gate::CARRY_HALF => x & y,
            gate::NAND => 1 - (x & y),
            gate::OR => x | y,
            gate::MATRIARCH1 => (1 - x) & y,
            gate::RESULT_HALF => x ^ y,
            gate::CARRY_FULL => (x & y) | (x & z) | (y & z),
            gate::RESULT_FULL => x ^ y ^ z,
            _ => continue,
        };
    }
    DONE
}
