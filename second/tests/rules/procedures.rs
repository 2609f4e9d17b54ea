//! Calls and returns.

use crate::rig::{
    at_instruction, at_instruction_of, entry, here, procedure, set_stack, Rig, BASE_0, BASE_1, H,
    L, S, WORDS,
};
use second::assemble::Source;
use second::Machine;

#[test]
fn local_calls() {
    let check = |instruction: &[u8], number: u16, words: &[u16]| {
        let next = here(words) + instruction.len() as u16;
        at_instruction(instruction, words).expect_step(
            |machine| {
                machine.pc = entry(number);
                machine.l = S;
                machine.s = S + 4;
            },
            &[(S, L), (S + 1, L), (S + 2, next)],
        );
    };
    let words = |count: u16| (1..=count).collect::<Vec<u16>>();
    for number in 1..16u16 {
        let parameters = match number {
            14 => 2,
            15 => 16,
            _ => 0,
        };
        check(&[0o360 + number as u8], number, &words(parameters));
        check(&[0o360, number as u8], number, &words(parameters));
    }
}

#[test]
fn a_call_with_a_link_takes_it() {
    at_instruction(&[0o356, 14], &[1, 2, 0xCAFE]).expect_step(
        |machine| {
            set_stack(machine, &[1, 2]);
            machine.pc = entry(14);
            machine.l = S;
            machine.s = S + 4;
        },
        &[(S, 0xCAFE), (S + 1, L), (S + 2, here(&[0, 0, 0]) + 2)],
    );
}

#[test]
fn external_calls_mark_with_8000_hex() {
    at_instruction(&[0o355, 1, 1], &[7, 8, 9]).expect_step(
        |machine| {
            machine.module = 1;
            machine.pc = 3;
            machine.l = S;
            machine.s = S + 4;
        },
        &[
            (S, BASE_0),
            (S + 1, L),
            (S + 2, 0x8000 + here(&[0, 0, 0]) + 3),
        ],
    );
    // To the own module too.
    at_instruction(&[0o355, 0, 14], &[7, 8]).expect_step(
        |machine| {
            machine.pc = entry(14);
            machine.l = S;
            machine.s = S + 4;
        },
        &[(S, BASE_0), (S + 1, L), (S + 2, 0x8000 + here(&[0, 0]) + 3)],
    );
}

#[test]
fn calls_stop_at_the_limit() {
    for (instruction, words) in [
        (&[0o361][..], &[][..]),
        (&[0o360, 1], &[]),
        (&[0o356, 1], &[5]),
        (&[0o355, 1, 0], &[]),
    ] {
        let mut rig = at_instruction(instruction, words);
        rig.machine.s = H - 3;
        rig.expect_stop(33, 0);
        rig.machine.s = H;
        rig.expect_stop(33, 0);
        rig.machine.s = H - 4;
        assert_eq!(rig.run(1).count, 1);
        assert_eq!((rig.machine.l, rig.machine.s), (H - 4, H));
    }
    // S + 4 is not reduced.
    let mut rig = Rig::new(
        &[Source {
            procedures: vec![procedure(0, 0, 0)],
            ..Source::plain(&[0o360, 0, 0o354])
        }],
        65_535,
    );
    rig.machine.s = 65_511;
    rig.expect_stop(33, 0);
}

/// Main calls 1 with (3, 4), which answers their sum to output 0.
#[test]
fn a_call_and_its_return() {
    let main = Source {
        procedures: vec![procedure(0, 0, 1), procedure(7, 2, 1)],
        code: vec![
            0o003, 0o004, 0o361, 0o064, 0o000, 0o354, 0o336, // main
            0o353, 2, 0o270, 0o354, // 1
        ],
        ..Source::default()
    };
    let mut rig = Rig::new(&[main], WORDS);
    let started = rig.machine;
    let answer = rig.run(1000);
    assert_eq!((answer.number, answer.count), (31, 8));
    // SLW4 wrote the sum, LI0 stands before the end.
    assert_eq!(rig.store[usize::from(started.l) + 4], 7);
    assert_eq!((rig.machine.pc, rig.stack()), (5, &[0][..]));
    assert_eq!((rig.machine.l, rig.machine.s), (started.l, started.s));
}

/// External calls there and back over three modules, with results.
#[test]
fn far_calls_and_returns() {
    let main = Source {
        data_size: 4,
        ..Source::plain(&[0o355, 1, 0, 0o304])
    };
    let middle = Source {
        data_size: 9,
        procedures: vec![procedure(1, 0, 1)],
        code: vec![0o304, 0o005, 0o355, 2, 0, 0o270, 0o354],
        ..Source::default()
    };
    let last = Source {
        procedures: vec![procedure(0, 1, 2)],
        code: vec![0o336, 0o265, 0o354],
        ..Source::default()
    };
    let mut rig = Rig::new(&[main, middle, last], WORDS);
    let trace: Vec<(u8, u16, u8)> = (0..9)
        .map(|_| {
            let machine = rig.machine;
            rig.run(1);
            (machine.module, machine.pc, machine.depth)
        })
        .collect();
    assert_eq!(
        trace,
        [
            (0, 0, 0),
            (1, 1, 0),
            (1, 2, 1),
            (2, 0, 1),
            (2, 1, 1),
            (2, 2, 2),
            (1, 5, 2),
            (1, 6, 1),
            (0, 3, 1),
        ]
    );
    rig.expect_stop(40, 10);
}

/// The most modules: each calls the next, the last one traps.
#[test]
fn twenty_one_modules() {
    let mut modules: Vec<Source> = (1..21)
        .map(|next| Source {
            data_size: next.into(),
            ..Source::plain(&[0o355, next, 0, 0o354])
        })
        .collect();
    modules.push(Source::plain(&[0o025, 5, 0o304]));
    let mut rig = Rig::new(&modules, WORDS);
    // 20 modules with data of 1 to 20 words lie below the last base.
    let base = 128 + 20 * 3 + 20 * 21 / 2;
    assert_eq!(rig.store[52], base);
    assert_eq!(rig.store[53], 0);
    assert_eq!(rig.machine.p, base + 3);
    let answer = rig.run(100);
    assert_eq!(
        (answer.number, answer.code, answer.count),
        (40, base + 5, 21)
    );
    assert_eq!((rig.machine.module, rig.machine.pc), (20, 2));
    assert_eq!(rig.machine.s, base + 3 + 12 + 20 * 4);
}

/// A rig before an RTN at depth `words.len()`, which are the results, with this
/// mark at L.
fn at_return(words: &[u16], mark: [u16; 3]) -> Rig {
    // Behind the RTN: an instruction never reached.
    let mut rig = at_instruction_of(words.len() as u8, &[0o354], words, &[0o354]);
    rig.machine.l = 1000;
    rig.poke(&[(1000, mark[0]), (1001, mark[1]), (1002, mark[2])]);
    rig
}

fn returned(module: u8, pc: u16, dynamic_link: u16) -> impl Fn(&mut Machine) {
    move |machine| {
        machine.module = module;
        machine.pc = pc;
        machine.s = 1000;
        machine.l = dynamic_link;
    }
}

#[test]
fn returns_here() {
    // Position 0 and the literals are marked with the depths 0, 0, 1.
    at_return(&[], [BASE_1, 77, 0]).expect_step(returned(0, 0, 77), &[]);
    at_return(&[5], [9, 0xFFFF, 21]).expect_step(returned(0, 21, 0xFFFF), &[]);
    // A wrong depth, an operand byte, a byte past the code.
    at_return(&[5], [9, 77, 18]).expect_stop(34, 0);
    at_return(&[5], [9, 77, 0]).expect_stop(34, 0);
    at_return(&[], [9, 77, 1]).expect_stop(34, 0);
    let length = here(&[]) + 2;
    at_return(&[], [9, 77, length]).expect_stop(34, 0);
    // Position 0 of module 1, as module 0 would reach it: behind the code
    // come 14 bytes of header.
    let mut rig = at_return(&[], [9, 77, length + 14]);
    assert_eq!(rig.map[7 + 16 * 4 + usize::from(length) + 14], 0);
    rig.expect_stop(34, 0);
    at_return(&[], [9, 77, 0x7FFE]).expect_stop(34, 0);
}

#[test]
fn the_end_mark_ends_anywhere() {
    at_return(&[], [9, 77, 0x7FFF]).expect_stop(31, 0);
    at_return(&[1, 2, 3], [9, 77, 0x7FFF]).expect_stop(31, 0);
}

#[test]
fn far_returns() {
    // Module 1: four RTNs of which 0 has depth 0 and 3 has depth 3.
    at_return(&[], [BASE_1, 77, 0x8000]).expect_step(returned(1, 0, 77), &[]);
    at_return(&[1, 2, 3], [BASE_1, 77, 0x8003]).expect_step(returned(1, 3, 77), &[]);
    at_return(&[], [BASE_0, 77, 0x8000]).expect_step(returned(0, 0, 77), &[]);
    // A wrong depth, an unmarked position, one past the code, no base.
    at_return(&[1], [BASE_1, 77, 0x8000]).expect_stop(34, 0);
    at_return(&[], [BASE_1, 77, 0x8001]).expect_stop(34, 0);
    at_return(&[], [BASE_1, 77, 0x8004]).expect_stop(34, 0);
    at_return(&[], [BASE_1 + 1, 77, 0x8000]).expect_stop(34, 0);
    at_return(&[], [BASE_1 - 1, 77, 0x8000]).expect_stop(34, 0);
    at_return(&[], [0, 77, 0x8000]).expect_stop(34, 0);
    at_return(&[], [1, 77, 0x8000]).expect_stop(34, 0);
    at_return(&[], [crate::rig::Z, 77, 0x8000]).expect_stop(34, 0);
    // FFFF is position 7FFF of a module, never marked.
    at_return(&[], [BASE_1, 77, 0xFFFF]).expect_stop(34, 0);
    // The copy of the bases is not believed.
    let mut rig = at_return(&[], [555, 77, 0x8000]);
    rig.poke(&[(33, 555)]);
    rig.expect_stop(34, 0);
}

/// In module 1 a mark below 8000 hex is a position of module 1.
#[test]
fn returns_here_are_in_the_module_that_returns() {
    let mut rig = at_instruction(&[0o355, 1, 1], &[7, 8, 9]);
    assert_eq!(rig.run(1).count, 1);
    assert_eq!(rig.machine.module, 1);
    rig.poke(&[(S + 2, 3)]);
    rig.expect_step(
        |machine| {
            machine.pc = 3;
            machine.s = S;
            machine.l = L;
        },
        &[],
    );
}

#[test]
fn l_above_h_is_34_before_the_end_mark() {
    let mut rig = at_instruction(&[0o354], &[]);
    rig.poke(&[(H + 1, BASE_0), (H + 2, 0x7FFF), (H + 3, 0x7FFF)]);
    rig.machine.l = H + 1;
    rig.expect_stop(34, 0);
    rig.machine.l = H;
    rig.expect_stop(31, 0);
    rig.machine.l = 65_535;
    rig.expect_stop(34, 0);
    // S ≤ H is not what is compared.
    let mut rig = at_instruction(&[0o354], &[]);
    rig.machine.l = rig.machine.s + 1;
    rig.poke(&[(S + 3, 0x7FFF)]);
    rig.expect_stop(31, 0);
}

/// A program that rewrites its own mark: the word is not believed because
/// load passed the code.
#[test]
fn an_overwritten_mark() {
    let code = |mark: u8| {
        vec![
            0o361, 0o001, 0o304, // main
            0o020, mark, 0o060, 2, 0o354, // 1
        ]
    };
    let run = |mark: u8| {
        let main = Source {
            procedures: vec![procedure(0, 0, 0), procedure(3, 0, 0)],
            code: code(mark),
            ..Source::default()
        };
        let mut rig = Rig::new(&[main], WORDS);
        let answer = rig.run(100);
        (answer.number, answer.count, rig.machine.pc)
    };
    // The right position: LI1 and TRAP follow.
    assert_eq!(run(1), (40, 5, 2));
    // A position with one word more; an operand; no position.
    assert_eq!(run(2), (34, 3, 7));
    assert_eq!(run(4), (34, 3, 7));
    assert_eq!(run(200), (34, 3, 7));
    // Back to the call, which is marked 0: the calls come again for ever.
    assert_eq!(run(0), (30, 100, 0));
}
