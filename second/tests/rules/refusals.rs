//! Refusals 1 to 12: each, their order, and what they leave alone. Those of
//! code that is not whole are in `whole.rs`.

use crate::rig::{Rig, FF, WORDS};
use second::api::Buffers;
use second::assemble::{encode, Source};
use second::image::{parse, Procedure};
use second::{load, run, start, Machine};

fn refusal(image: &[u8]) -> u8 {
    parse(image).err().unwrap_or(0)
}

#[test]
fn sizes_and_counts() {
    assert_eq!(refusal(&[]), 1);
    assert_eq!(refusal(&[0; 65_536]), 1);
    assert_eq!(refusal(&[0; 65_535]), 2);
    assert_eq!(refusal(&[0x00]), 2);
    assert_eq!(refusal(&[22]), 2);
    assert_eq!(refusal(&[21]), 3);
    assert_eq!(refusal(&[0xFF, 0x00]), 2);
}

#[test]
fn each_part_is_present_before_it_is_judged() {
    // Bit map.
    assert_eq!(refusal(&[0x01]), 3);
    for bit in 3..8 {
        assert_eq!(refusal(&[0x01, 1 << bit]), 5);
        assert_eq!(refusal(&[0x01, 1 << bit | 7]), 5);
    }
    // Data size.
    assert_eq!(refusal(&[0x01, 0x01]), 3);
    assert_eq!(refusal(&[0x01, 0x01, 0x00]), 3);
    // Procedure count: 0 is judged before the name or the length is missed.
    assert_eq!(refusal(&[0x01, 0x02]), 3);
    assert_eq!(refusal(&[0x01, 0x02, 0x00]), 6);
    assert_eq!(refusal(&[0x01, 0x06, 0x00]), 6);
    assert_eq!(refusal(&[0x01, 0x06, 0x01]), 3);
    // Name.
    assert_eq!(refusal(&[0x01, 0x04, 1, 2, 3, 4, 5, 6, 7]), 3);
    assert_eq!(refusal(&[0x01, 0x04, 1, 2, 3, 4, 5, 6, 7, 8]), 3);
    assert_eq!(refusal(&[0x01, 0x04, 1, 2, 3, 4, 5, 6, 7, 8, 0, 0]), 6);
    assert_eq!(
        refusal(&[0x01, 0x04, 1, 2, 3, 4, 5, 6, 7, 8, 0, 1, 0xEC]),
        0
    );
    // Code length: judged before the records or the code are missed.
    assert_eq!(refusal(&[0x01, 0x00]), 3);
    assert_eq!(refusal(&[0x01, 0x00, 0x00]), 3);
    assert_eq!(refusal(&[0x01, 0x00, 0x00, 0x00]), 6);
    assert_eq!(refusal(&[0x01, 0x00, 0x80, 0x00]), 6);
    assert_eq!(refusal(&[0x01, 0x02, 0x01, 0x80, 0x00]), 6);
    assert_eq!(refusal(&[0x01, 0x00, 0x7F, 0xFF]), 3);
    // Records.
    let record = |rest: &[u8]| refusal(&[&[0x01, 0x02, 0x01, 0x00, 0x02], rest].concat());
    assert_eq!(record(&[]), 3);
    assert_eq!(record(&[0x00]), 3);
    assert_eq!(record(&[0x00, 0x02]), 6);
    assert_eq!(record(&[0x00, 0x01]), 3);
    assert_eq!(record(&[0x00, 0x01, 0x01]), 6);
    assert_eq!(record(&[0x00, 0x01, 0x00]), 3);
    assert_eq!(record(&[0x00, 0x01, 0x00, 0x05]), 6);
    assert_eq!(record(&[0x00, 0x01, 0x00, 0x04]), 3);
    // Code.
    assert_eq!(record(&[0x00, 0x01, 0x00, 0x04, 0xEC]), 3);
    assert_eq!(record(&[0x00, 0x01, 0x00, 0x04, 0xEC, 0xEC]), 0);
    assert_eq!(record(&[0x00, 0x01, 0x00, 0x04, 0xEC, 0xEC, 0x00]), 4);
}

#[test]
fn parameters_up_to_16_but_none_for_the_first_procedure() {
    // Two procedures, of which the first must have no parameters.
    let image = |parameters: u8| {
        [
            0x01, 0x02, 0x02, 0x00, 0x01, 0, 0, 0, 0, 0, 0, parameters, 0, 0xEC,
        ]
    };
    assert_eq!(refusal(&image(16)), 0);
    assert_eq!(refusal(&image(17)), 6);
    // Procedure 0 of module 1 may have some.
    let second = |parameters: u8| {
        [
            0x02, 0x00, 0x00, 0x01, 0xEC, 0x02, 0x01, 0x00, 0x01, 0, 0, parameters, 4, 0xEC,
        ]
    };
    assert_eq!(refusal(&second(16)), 0);
    assert_eq!(refusal(&second(17)), 6);
}

#[test]
fn modules_are_judged_in_reading_order() {
    // Module 0 has a length of 0, module 1 a bad bit map.
    assert_eq!(refusal(&[0x02, 0x00, 0x00, 0x00, 0xFF]), 6);
    // Module 0 is good, module 1 has a bad bit map, and is cut after it.
    assert_eq!(refusal(&[0x02, 0x00, 0x00, 0x01, 0xEC, 0xFF]), 5);
    // Module 1 is missing.
    assert_eq!(refusal(&[0x02, 0x00, 0x00, 0x01, 0xEC]), 3);
    // Bytes after the last module come after all its faults.
    assert_eq!(refusal(&[0x01, 0x00, 0x00, 0x01, 0xEC, 0x00]), 4);
    assert_eq!(refusal(&[0x01, 0x00, 0x00, 0x00, 0xEC, 0x00]), 6);
}

#[test]
fn all_fields_are_read() {
    let program = parse(&[
        0x02, 0x07, 0x01, 0x02, 0x02, 8, 7, 6, 5, 4, 3, 2, 1, 0x00, 0x03, 0, 2, 0, 1, 0, 1, 5, 4,
        0xDE, 0xDE, 0xEC, 0x00, 0x00, 0x01, 0xEC,
    ])
    .unwrap();
    let modules: Vec<_> = program
        .modules
        .iter()
        .map(|m| (m.code_start, m.code_length, m.data_size, m.base))
        .collect();
    // 258 words of data: module 1 at 128 + 3 + 258.
    assert_eq!(modules, [(23, 3, 258, 128), (29, 1, 0, 389)]);
    let procedure = |entry, parameters, results| Procedure {
        entry,
        parameters,
        results,
    };
    assert_eq!(
        program.procedures(0),
        [procedure(2, 0, 1), procedure(1, 5, 4)]
    );
    assert_eq!(program.procedures(1), [procedure(0, 0, 0)]);
    assert_eq!(program.z, 392);
}

#[test]
fn load_refuses_in_order_and_leaves_the_map() {
    // A TRAP without its word.
    let unfit = [0x01, 0x00, 0x00, 0x01, 0xC4];
    let mut map = [0x55; 7];
    // 4 before 7 before 8.
    let after = [0x01, 0x00, 0x00, 0x01, 0xC4, 0x00];
    assert_eq!(load(&after, &mut map[..1]).number, 4);
    assert_eq!(load(&unfit, &mut map[..4]).number, 7);
    assert_eq!(map, [0x55; 7]);
    // 8 sets FF over the image's length.
    assert_eq!(load(&unfit, &mut map).number, 8);
    assert_eq!(map, [FF, FF, FF, FF, FF, 0x55, 0x55]);
    // Also where module 0 fits and only module 1 does not.
    let mut map = [0x55; 10];
    let second = [0x02, 0x00, 0x00, 0x01, 0xEC, 0x00, 0x00, 0x01, 0xC4];
    assert_eq!(load(&second, &mut map).number, 8);
    assert_eq!(map[..9], [FF; 9]);
    assert_eq!(map[9], 0x55);
    // A bad header behind unfit code is found first.
    let mut map = [0x55; 7];
    let header = [0x02, 0x00, 0x00, 0x01, 0xC4, 0x08];
    assert_eq!(load(&header, &mut map).number, 5);
    assert_eq!(map, [0x55; 7]);
}

#[test]
fn start_sets_the_store_and_the_machine() {
    let modules = [
        Source {
            data_size: 5,
            procedures: vec![Procedure {
                entry: 1,
                parameters: 0,
                results: 0,
            }],
            code: vec![0xEC, 0xEC],
            ..Source::default()
        },
        Source::plain(&[0xEC]),
    ];
    let image = encode(&modules);
    // Bases 128 and 136, Z = 139; the least store has 175 words.
    let mut store = vec![0xAAAA; 175];
    let (number, machine) = start(&image, &mut store);
    assert_eq!(number, 0);
    assert_eq!(
        machine,
        Machine {
            module: 0,
            pc: 1,
            depth: 0,
            p: 139,
            l: 147,
            s: 151,
            h: 151,
            m: 0,
            stack: [0; 16],
        }
    );
    let mut expected = vec![0; 175];
    expected[32] = 128;
    expected[33] = 136;
    expected[149] = 0x7FFF;
    assert_eq!(store, expected);
}

#[test]
fn start_refuses_stores_and_leaves_them() {
    let image = encode(&[Source::plain(&[0xEC])]);
    // Z = 131.
    for (words, number) in [(0, 9), (166, 9), (167, 0), (65_535, 0), (65_536, 9)] {
        let mut store = vec![0xAAAA; words];
        let (answer, machine) = start(&image, &mut store);
        assert_eq!(answer, number, "{words}");
        if number != 0 {
            assert_eq!(machine, Machine::default());
            assert_eq!(store, vec![0xAAAA; words]);
        }
    }
    // Refusals 1 to 6 come before 9.
    for (image, number) in [
        (&[][..], 1),
        (&[0], 2),
        (&[1], 3),
        (&[1, 0, 0, 1, 0xEC, 0], 4),
        (&[1, 8], 5),
        (&[1, 0, 0, 0], 6),
    ] {
        let mut store = [0xAAAA; 4];
        assert_eq!(start(image, &mut store), (number, Machine::default()));
        assert_eq!(store, [0xAAAA; 4]);
    }
}

#[test]
fn data_sizes_are_free_but_no_store_holds_them() {
    // Two modules of 65,535 words: Z passes 65,535 and is not reduced.
    let module = Source {
        data_size: 65_535,
        ..Source::plain(&[0xEC])
    };
    let image = encode(&[module.clone(), module]);
    let mut map = vec![0; image.len()];
    assert_eq!(load(&image, &mut map).number, 0);
    for words in [4_096, 65_535] {
        let mut store = vec![7; words];
        assert_eq!(start(&image, &mut store), (9, Machine::default()));
        let buffers = Buffers {
            image: &image,
            map: &map,
            store: &mut store,
            outputs: &mut [0; 16],
            inputs: &[0; 16],
        };
        let answer = run(Machine::default(), buffers, 0, 1);
        assert_eq!(answer.number, 9);
    }
    // Z + 36 = 65,535 exactly, and one more.
    for (data_size, number) in [(65_368, 0), (65_369, 9)] {
        let image = encode(&[Source {
            data_size,
            ..Source::plain(&[0xEC])
        }]);
        assert_eq!(start(&image, &mut vec![0; 65_535]).0, number);
    }
}

/// A run on a copy of the rig, with everything it was lent unchanged, and its word of
/// requests returned.
fn refused(rig: &Rig, machine: Machine, words: usize, outputs: usize, inputs: usize) -> u8 {
    let mut store = vec![0x1234; words];
    let mut lent_outputs = vec![0x4321; outputs];
    let buffers = Buffers {
        image: &rig.image,
        map: &rig.map,
        store: &mut store,
        outputs: &mut lent_outputs,
        inputs: &vec![0; inputs],
    };
    let answer = run(machine, buffers, 0x00FF, 5);
    if answer.number < 30 {
        assert_eq!((answer.code, answer.count, answer.requests), (0, 0, 0x00FF));
        assert_eq!(answer.machine, machine);
        assert_eq!(store, vec![0x1234; words]);
        assert_eq!(lent_outputs, vec![0x4321; outputs]);
    }
    answer.number
}

#[test]
fn run_refuses_in_order_7_12_9_10_11() {
    let good = Rig::plain(&[0o336, 0o035, 2]);
    let machine = good.machine;
    let broken = Machine {
        depth: 1,
        ..machine
    };
    assert_eq!(refused(&good, machine, WORDS, 16, 16), 30);
    // All faults at once, then taken away one by one.
    let mut rig = good.clone();
    rig.image.push(0);
    rig.map = vec![0; 3];
    assert_eq!(refused(&rig, broken, 10, 15, 17), 4);
    rig.image.pop();
    assert_eq!(refused(&rig, broken, 10, 15, 17), 7);
    rig.map = vec![0; rig.image.len()];
    assert_eq!(refused(&rig, broken, 10, 15, 17), 12);
    rig.map = good.map.clone();
    assert_eq!(refused(&rig, broken, 10, 15, 17), 9);
    assert_eq!(refused(&rig, broken, WORDS, 15, 17), 10);
    assert_eq!(refused(&rig, broken, WORDS, 16, 16), 11);
    assert_eq!(refused(&rig, machine, WORDS, 16, 16), 30);
    // Each alone.
    assert_eq!(refused(&rig, machine, 166, 16, 16), 9);
    assert_eq!(refused(&rig, machine, 65_536, 16, 16), 9);
    for (outputs, inputs) in [(15, 16), (17, 16), (16, 15), (16, 17), (0, 0)] {
        assert_eq!(refused(&rig, machine, WORDS, outputs, inputs), 10);
    }
}

#[test]
fn run_reads_the_image_afresh() {
    let good = Rig::plain(&[0o336, 0o035, 2]);
    for (image, number) in [
        (&[][..], 1),
        (&[0], 2),
        (&[1], 3),
        (&[1, 0, 0, 1, 0xEC, 0], 4),
        (&[1, 8], 5),
        (&[1, 0, 0, 0], 6),
    ] {
        let mut rig = good.clone();
        rig.image = image.to_vec();
        assert_eq!(refused(&rig, good.machine, WORDS, 16, 16), number);
    }
    let mut rig = good.clone();
    rig.image = vec![0; 65_536];
    assert_eq!(refused(&rig, good.machine, WORDS, 16, 16), 1);
}

#[test]
fn a_budget_of_0_tests_everything_and_spends_nothing() {
    let mut rig = Rig::plain(&[0o354]);
    let before = rig.machine;
    let answer = rig.run(0);
    assert_eq!((answer.number, answer.code, answer.count), (30, 0, 0));
    assert_eq!(answer.machine, before);
    rig.machine.s = rig.machine.h + 1;
    assert_eq!(rig.run(0).number, 11);
}

#[test]
fn what_a_machine_is() {
    // LI1, JPF to 4, LI0, RTN: positions 0, 1 and 4 are marked, 3 is not. The
    // procedure gives 1 result.
    let module = Source {
        procedures: vec![Procedure {
            entry: 0,
            parameters: 0,
            results: 1,
        }],
        ..Source::plain(&[0o001, 0o033, 2, 0o000, 0o354])
    };
    let rig = Rig::new(&[module], WORDS);
    assert_eq!(rig.map[9..], [32, 33, FF, FF, 33]);
    let machine = rig.machine;
    let number = |change: fn(&mut Machine)| {
        let mut machine = machine;
        change(&mut machine);
        refused(&rig, machine, WORDS, 16, 16)
    };
    assert_eq!(number(|_| ()), 34);
    // A loaded module.
    assert_eq!(number(|m| m.module = 1), 11);
    assert_eq!(number(|m| m.module = 255), 11);
    // A position marked with its depth.
    assert_eq!(number(|m| m.depth = 1), 11);
    assert_eq!(number(|m| (m.pc, m.depth) = (1, 1)), 34);
    assert_eq!(number(|m| (m.pc, m.depth) = (1, 0)), 11);
    assert_eq!(number(|m| (m.pc, m.depth) = (2, 255)), 11);
    assert_eq!(number(|m| (m.pc, m.depth) = (2, 1)), 11);
    assert_eq!(number(|m| m.pc = 5), 11);
    assert_eq!(number(|m| m.pc = 65_535), 11);
    // S ≤ H.
    assert_eq!(number(|m| m.s = m.h), 34);
    assert_eq!(number(|m| m.s = m.h + 1), 11);
    assert_eq!(number(|m| (m.s, m.h) = (0, 0)), 34);
    // H + 24 ≤ W, not reduced.
    assert_eq!(number(|m| m.h = 4_072), 34);
    assert_eq!(number(|m| m.h = 4_073), 11);
    assert_eq!(number(|m| m.h = 65_535), 11);
    // P + 8 ≤ W, not reduced.
    assert_eq!(number(|m| m.p = 4_088), 34);
    assert_eq!(number(|m| m.p = 4_089), 11);
    assert_eq!(number(|m| m.p = 65_535), 11);
    // Zeros above its depth.
    assert_eq!(number(|m| m.stack[0] = 1), 11);
    assert_eq!(number(|m| m.stack[15] = 1), 11);
    assert_eq!(number(|m| (m.pc, m.depth, m.stack[0]) = (1, 1, 9)), 34);
    assert_eq!(number(|m| (m.pc, m.depth, m.stack[1]) = (1, 1, 9)), 11);
    // L and M are free.
    assert_eq!(number(|m| (m.l, m.m) = (65_535, 65_535)), 34);
}

#[test]
fn a_position_past_the_code_is_not_one_of_the_next_module() {
    // Module 0: NOP RTN, module 1 the same, behind the 3 bytes of its header.
    // Position 5 of module 0 would be position 0 of module 1.
    let module = Source::plain(&[0o336, 0o354]);
    let rig = Rig::new(&[module.clone(), module], WORDS);
    assert_eq!(rig.map[4..], [0, 0, FF, FF, FF, 0, 0]);
    let machine = Machine {
        pc: 5,
        ..rig.machine
    };
    assert_eq!(refused(&rig, machine, WORDS, 16, 16), 11);
}
