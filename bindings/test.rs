// The Rust wrapper against the library, with a model beyond the program's rooms: 512 nodes, each word 64 wide; and against the header.
use ramstitcher::{eval_gates, eval_words, gate, kind, lower, room, Lowered, Refusal, Room, CONSTRAINT, GATE, NODE, STACK, UNREACHED};

// The numbers that the header has are those of the wrapper.
fn same_numbers() {
    let header = include_str!("ramstitcher.h");
    let lines: Vec<&str> = header.lines().map(|line| line.split(" /*").next().unwrap_or("").trim().trim_end_matches(',')).collect();
    let says = |line: String| assert!(lines.contains(&line.as_str()), "the header does not say {line}");
    kind::ALL.iter().for_each(|(number, name)| says(format!("RAMSTITCHER_NODE_{name} = {number}")));
    gate::ALL.iter().for_each(|(number, name)| says(format!("RAMSTITCHER_GATE_{name} = {number}")));
    for (name, number) in [("NODE", NODE), ("GATE", GATE), ("CONSTRAINT", CONSTRAINT), ("STACK", STACK)] {
        says(format!("#define RAMSTITCHER_{name} {number}"));
    }
    says(format!("#define RAMSTITCHER_UNREACHED UINT32_C({UNREACHED})"));
}

fn first_table() {
    let table = [[kind::INPUT, 1, 0, 0, 0, 0], [kind::NOT, 1, 1, 0, 0, 0], [kind::BAD, 1, 2, 0, 0, 0]].concat();
    let (mut gates, mut map) = ([0u32; 16], [0u32; 3]);
    assert_eq!(lower(&table, &[], 2, &mut gates, &mut [], &mut map), Ok(Lowered { gates: 4, constraints: 0 }));
    let wanted = [[gate::CONST_FALSE, 0, 0, 0], [gate::CONST_TRUE, 0, 0, 0], [gate::INPUT_BIT, 1, 0, 0], [gate::NOT, 2, 0, 0]];
    assert_eq!(gates, *wanted.as_flattened());
    assert_eq!(map, [2, 3, 3]);
    let mut values = [9, 9, 0, 9];
    assert_eq!(eval_gates(&gates, &mut values), Ok(()));
    assert_eq!(values, [0, 1, 0, 1]);
    assert_eq!(eval_gates(&gates[..15], &mut values), Err(Refusal { number: 11, node: 0 }));
    assert_eq!(room(&table, &[], 2), Ok(Room { gates: 4, constraints: 0, map: 3 }));
    assert_eq!(room(&table[..17], &[], 2), Err(Refusal { number: 1, node: 0 }));
    assert_eq!(lower(&table[..17], &[], 2, &mut gates, &mut [], &mut map), Err(Refusal { number: 1, node: 0 }));
    assert_eq!(lower(&table, &[4], 2, &mut gates, &mut [], &mut map), Err(Refusal { number: 2, node: 0 }));
    assert_eq!(lower(&table, &[], 2, &mut gates[..12], &mut [], &mut map), Err(Refusal { number: 7, node: 0 }));
    // without its bad node it asks nothing: the lowering refuses it, whatever is lent, and the word evaluator takes it
    assert_eq!(lower(&table[..12], &[], 2, &mut [], &mut [], &mut []), Err(Refusal { number: 14, node: 0 }));
    assert_eq!(lower(&[], &[], 2, &mut gates, &mut [], &mut map), Err(Refusal { number: 14, node: 0 }));
    assert_eq!(eval_words(&table[..12], &[], 2, &mut [1, 9]), Ok(()));
}

// Squares summed up: the bits that the gates give are the words that the word evaluator gives.
fn large_model() {
    let mut table = vec![[kind::INPUT, 64, 0, 0, 0, 0]; 2];
    while table.len() < 510 {
        let last = table.len() as u64;
        let operation = if last % 50 == 3 { kind::MUL } else { kind::ADD };
        table.push([operation, 64, last, 1 + last % 2, 0, 0]);
    }
    table.push([kind::EQ, 1, 510, 1, 0, 0]);
    table.push([kind::BAD, 1, 511, 0, 0, 0]);
    let flat = table.concat();
    let Room { gates: room, constraints: 0, map: places } = room(&flat, &[], 64).unwrap() else { panic!("constraints") };
    let (mut gates, mut map) = (vec![0u32; GATE * room], vec![0u32; places + 1]);
    map[places] = 17;
    let made = lower(&flat, &[], 64, &mut gates, &mut [0; CONSTRAINT], &mut map).unwrap();
    assert!(made.gates > 100_000 && made.gates <= room && made.constraints == 0);
    assert!(map[places] == 17 && !map[..places].contains(&UNREACHED));

    let (x, y) = (0x0123_4567_89ab_cdefu64, 0xfedc_ba98_7654_3211u64);
    let mut words = vec![0u64; table.len()];
    (words[0], words[1]) = (x, y);
    assert_eq!(eval_words(&flat, &[], 64, &mut words), Ok(()));
    let mut bits = vec![0u8; made.gates];
    for j in 0..64 {
        bits[map[j] as usize] = (x >> j & 1) as u8;
        bits[map[64 + j] as usize] = (y >> j & 1) as u8;
    }
    assert_eq!(eval_gates(&gates[..GATE * made.gates], &mut bits), Ok(()));
    let mut at = 0;
    for (k, node) in table.iter().enumerate() {
        let value = (0..node[1] as usize).fold(0, |v, j| v | (bits[map[at + j] as usize] as u64) << j);
        assert_eq!(value, words[k], "node {}", k + 1);
        at += node[1] as usize;
    }
    assert_eq!(eval_words(&flat, &[], 64, &mut words[..511]), Err(Refusal { number: 12, node: 0 }));
}

fn main() {
    same_numbers();
    first_table();
    large_model();
    println!("bindings, Rust: ok");
}
