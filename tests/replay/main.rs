//! Replays stored vectors against the library, through the wrapper that callers use. Each set is a file of `tests/vectors`, a case a line; a case
//! that differs is named by its line. What a set holds is said where it is judged.
mod edges;
mod json;
mod lowering;
mod original;
mod values;

use json::Json;

/// Whether a case came out as it should.
type Judge = fn(&Json) -> bool;

const SETS: [(&str, Judge); 3] = [("words", values::words), ("gates", values::gates), ("lower", lowering::lowering)];

/// Says how many cases differ, each by its number from 1; answers whether none does.
fn report(name: &str, kind: &str, same: &[bool]) -> bool {
    for (i, _) in same.iter().enumerate().filter(|(_, same)| !**same) {
        println!("{name}: case {} differs", i + 1);
    }
    let differ = same.iter().filter(|same| !**same).count();
    println!("{name}: {} {kind}, {differ} differ", same.len());
    // an empty set shows nothing
    differ == 0 && !same.is_empty()
}

fn main() {
    let folder = std::env::args().nth(1).expect("the folder of the vectors");
    let read = |name: &str| std::fs::read_to_string(format!("{folder}/{name}")).unwrap_or_else(|e| panic!("{name}: {e}"));
    let mut good = true;
    for (name, judge) in SETS {
        let same: Vec<bool> = read(&format!("{name}.jsonl")).lines().map(|line| judge(&Json::read(line))).collect();
        good &= report(name, "cases", &same);
    }
    good &= report("original", "cases", &original::replay(&read("original.txt")));
    good &= report("lower", "edges", &edges::all());
    std::process::exit(i32::from(!good));
}
