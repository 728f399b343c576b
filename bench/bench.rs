//! Times of the lowering and the evaluators over the static library, beside those of the unchanged original where it was built in.
#[cfg(not(original))]
mod tables;
#[cfg(original)]
use original::tables;

use ramstitcher::{eval_gates, eval_words, lower, room, Lowered, CONSTRAINT, GATE};
use tables::{adds, masks, memory, mix, two, Table, DIVU, MUL};

/// A time is the lowest of the medians of this many passes over all tables, each of this many rounds: other load only ever adds.
const PASSES: usize = 9;
const ROUNDS: usize = 51;
/// A round repeats until it takes this long, in seconds.
const ROUND: f64 = 200e-6;

#[repr(C)]
struct Timespec {
    seconds: i64,
    nanoseconds: i64,
}
extern "C" {
    fn clock_gettime(clock: i32, time: *mut Timespec) -> i32;
}

/// CPU time of this thread in seconds: other load on the machine counts less.
fn now() -> f64 {
    const THREAD_CPU: i32 = 3;
    let mut t = Timespec { seconds: 0, nanoseconds: 0 };
    unsafe { clock_gettime(THREAD_CPU, &mut t) };
    t.seconds as f64 + t.nanoseconds as f64 * 1e-9
}

fn median(mut measure: impl FnMut() -> f64) -> f64 {
    let mut found: Vec<f64> = (0..ROUNDS).map(|_| measure()).collect();
    found.sort_by(f64::total_cmp);
    found[ROUNDS / 2]
}

/// Seconds of one call.
fn time(mut call: impl FnMut()) -> f64 {
    for _ in 0..3 {
        call();
    }
    let start = now();
    call();
    let repeats = (ROUND / (now() - start).max(1e-9)).ceil().clamp(1.0, 10_000.0) as usize;
    median(|| {
        let start = now();
        for _ in 0..repeats {
            call();
        }
        (now() - start) / repeats as f64
    })
}

/// A table with buffers that have just the room of its sums.
struct Ready {
    table: Vec<u64>,
    addresses: Vec<u64>,
    word: u64,
    gates: Vec<u32>,
    constraints: Vec<u32>,
    map: Vec<u32>,
    slots: usize,
}

impl Ready {
    fn new(t: &Table) -> Ready {
        let table = t.flat();
        let room = room(&table, &t.addresses, t.word).unwrap();
        Ready {
            table,
            addresses: t.addresses.clone(),
            word: t.word,
            gates: vec![0; GATE * room.gates],
            constraints: vec![0; CONSTRAINT * room.constraints],
            map: vec![0; room.map],
            slots: t.nodes.iter().map(|node| if node[1] == 0 { t.addresses.len() } else { 1 }).sum(),
        }
    }

    fn lower(&mut self) -> Lowered {
        lower(&self.table, &self.addresses, self.word, &mut self.gates, &mut self.constraints, &mut self.map).unwrap()
    }

    fn clear(&mut self) {
        self.gates.fill(0);
        self.constraints.fill(0);
        self.map.fill(0);
        std::hint::black_box((&self.gates, &self.constraints, &self.map));
    }
}

/// The original's gates and its seconds to lower, and to lower and free.
#[cfg(original)]
fn theirs(t: &Table) -> Option<(usize, f64, f64)> {
    let model = original::model(t)?;
    let gates = original::gates(&original::lower(&model, t.word));
    let lowered = median(|| {
        let start = now();
        let made = original::lower(&model, t.word);
        let end = now();
        drop(made);
        end - start
    });
    let freed = time(|| drop(original::lower(&model, t.word)));
    Some((gates, lowered, freed))
}
#[cfg(not(original))]
fn theirs(_: &Table) -> Option<(usize, f64, f64)> {
    None
}

/// What is found of a table: counts, and times in seconds.
struct Found {
    made: Lowered,
    lower: f64,
    cleared: f64,
    gates: f64,
    words: f64,
    theirs: Option<(usize, f64, f64)>,
}

fn measure(t: &Table) -> Found {
    let mut r = Ready::new(t);
    let made = r.lower();
    let lower = time(|| {
        std::hint::black_box(r.lower());
    });
    let cleared = time(|| {
        r.clear();
        std::hint::black_box(r.lower());
    });
    let mut bytes = vec![1u8; made.gates];
    let list = &r.gates[..GATE * made.gates];
    let gates = time(|| eval_gates(list, &mut bytes).unwrap());
    let mut values = vec![3u64; r.slots];
    let words = time(|| eval_words(&r.table, &r.addresses, r.word, &mut values).unwrap());
    Found { made, lower, cleared, gates, words, theirs: theirs(t) }
}

impl Found {
    fn least(&mut self, other: Found) {
        self.lower = self.lower.min(other.lower);
        self.cleared = self.cleared.min(other.cleared);
        self.gates = self.gates.min(other.gates);
        self.words = self.words.min(other.words);
        if let (Some(x), Some(y)) = (&mut self.theirs, other.theirs) {
            *x = (x.0, x.1.min(y.1), x.2.min(y.2));
        }
    }

    fn each(&self, seconds: f64) -> f64 {
        seconds * 1e9 / self.made.gates as f64
    }
}

fn run() {
    let tables = [
        ("mul of two 64-bit inputs", two(MUL)),
        ("60 chained 64-bit adds", adds(60)),
        ("mix of 302 nodes", mix(302)),
        ("memory of 64 words of 32 bits", memory()),
        ("64-bit divu", two(DIVU)),
        ("mix of 64 nodes", mix(64)),
        ("mix of 128 nodes", mix(128)),
        ("mix of 256 nodes", mix(256)),
        ("mix of 512 nodes", mix(512)),
        ("16 times srl, sll, or and add", masks(16)),
    ];
    let mut all: Vec<Found> = tables.iter().map(|(_, t)| measure(t)).collect();
    for _ in 1..PASSES {
        for (found, (_, t)) in all.iter_mut().zip(&tables) {
            found.least(measure(t));
        }
    }
    println!("Lowering, microseconds. Buffers are as the round before left them; under \"cleared\" all that is lent is set to zero first.\n");
    println!("| table | gates | constraints | ours | ns a gate | cleared | original's gates | original | and freed | ratio |");
    println!("|---|---:|---:|---:|---:|---:|---:|---:|---:|---:|");
    for ((name, _), f) in tables.iter().zip(&all) {
        let other = match f.theirs {
            Some((g, s, free)) => format!("{g} | {:.0} | {:.0} | {:.1}", s * 1e6, free * 1e6, s / f.lower),
            None => "- | - | - | -".to_string(),
        };
        let Lowered { gates, constraints } = f.made;
        println!("| {name} | {gates} | {constraints} | {:.1} | {:.2} | {:.1} | {other} |", f.lower * 1e6, f.each(f.lower), f.cleared * 1e6);
    }
    println!("\nEvaluators, over the same tables.\n");
    println!("| table | gate evaluator, million gates a second | ns a gate | word evaluator, microseconds | ns a node |");
    println!("|---|---:|---:|---:|---:|");
    for ((name, t), f) in tables.iter().zip(&all) {
        println!(
            "| {name} | {:.0} | {:.2} | {:.2} | {:.0} |",
            1e3 / f.each(f.gates),
            f.each(f.gates),
            f.words * 1e6,
            f.words * 1e9 / t.nodes.len() as f64
        );
    }
    let growth = all[8].lower / all[5].lower;
    println!("\nGrowth from 64 to 512 nodes: {growth:.2} times the time, {:.2} times the gates.", all[8].made.gates as f64 / all[5].made.gates as f64);
}

fn main() {
    // the original recurses over nodes, and freeing a chain of its gates recurses over gates
    std::thread::Builder::new().stack_size(2 << 30).spawn(run).unwrap().join().unwrap();
}
