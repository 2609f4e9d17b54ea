//! A.8, a trap process in the cabinet.

use crate::rig::{
    at_instruction, at_instruction_of, desk_with_requests, entry, here, set_stack, Rig, BASE_0,
    BASE_1, H, L, S, SPOILED, WORDS, Z,
};
use crate::transfer::{check_conditions_of, poke_good, poke_record, restored, GOOD, MASK, Q};
use second::assemble::{encode, Source};
use second::{desk, Machine};

const NOP: u8 = 0o336;
const RTN: u8 = 0o354;
const TRAP: u8 = 0o304;
const UDIV: u8 = 0o273;
const STORE: u8 = 0o262;
const LODFW: u8 = 0o260;
const LIB: u8 = 0o020;
const TRA: u8 = 0o256;
const JPB: u8 = 0o035;

/// "with words 14 and 15"
const TARGET: u16 = 14;
const OLD: u16 = 15;

/// The good process at Q, in word 14.
fn give_process(rig: &mut Rig) {
    rig.machine.m = MASK;
    poke_good(rig);
    rig.poke(&[(TARGET, Q), (OLD, 0xDEAD)]);
}

/// A rig before an instruction with these words, and with the good process.
fn at_trap(instruction: &[u8], words: &[u16]) -> Rig {
    let mut rig = at_instruction(instruction, words);
    give_process(&mut rig);
    rig
}

/// The same before a division of 11 by 0, which is 36.
fn at_division() -> Rig {
    at_trap(&[UDIV], &[11, 0])
}

/// What a caught trap of module 0 writes, in the order of the writes: "the number to
/// P + 6 first, then the save as for a line".
fn writes(machine: &Machine, trap: u16) -> Vec<(u16, u16)> {
    let Machine {
        pc, p, l, s, h, m, ..
    } = *machine;
    let words = &machine.stack[..usize::from(machine.depth)];
    let count = words.len() as u16;
    let record = [BASE_0, l, pc, m, s + count + 1, h + 24];
    let mut writes = vec![(p + 6, trap)];
    writes.extend((s..).zip(words.iter().rev().copied()));
    writes.push((s + count, count));
    writes.extend((p..).zip(record));
    writes.push((OLD, p));
    writes
}

/// The next step is this trap, caught by the good process.
fn expect_caught(rig: &mut Rig, trap: u16) {
    let writes = writes(&rig.machine, trap);
    rig.expect_step(restored(0x2222), &writes);
}

/// Instructions with words that trap, and what each traps with. Word 901 is 65,535.
const TRAPS: &[(&[u8], &[u16], u16)] = &[
    (&[0o140], &[4096], 32),
    (&[0o157], &[4081], 32),
    (&[0o200, 9], &[4087], 32),
    (&[0o206], &[4090, 6], 32),
    (&[0o205], &[4096, 1], 32),
    (&[0o160], &[4096, 5], 32),
    (&[0o177], &[4081, 5], 32),
    (&[0o220, 1], &[4095, 5], 32),
    (&[0o226], &[4000, 96, 5], 32),
    (&[0o225], &[4095, 2, 5], 32),
    (&[0o201, 0], &[4095], 32),
    (&[0o202], &[4095], 32),
    (&[0o221, 0], &[4095, 1, 2], 32),
    (&[0o222], &[4096, 1, 2], 32),
    (&[0o240], &[4096, 15], 32),
    (&[TRA, 1], &[900, 4096], 32),
    (&[TRA, 0], &[4096, 900], 32),
    (&[TRA, 1], &[900, 901], 35),
    (&[TRA, 0], &[7, 900, 901], 35),
    (&[UDIV], &[5, 0], 36),
    (&[0o274], &[5, 0], 36),
    (&[0o333], &[5, 0], 36),
    (&[0o270], &[65_535, 1], 37),
    (&[0o271], &[0, 1], 37),
    (&[0o272], &[256, 256], 37),
    (&[0o330], &[0x7FFF, 1], 37),
    (&[0o331], &[0x8000, 1], 37),
    (&[0o332], &[300, 110], 37),
    (&[0o333], &[0x8000, 0xFFFF], 37),
    (&[0o316], &[0x8000], 37),
    (&[0o317], &[0x8000], 37),
    (&[0o305], &[5, 6, 7], 38),
    (&[0o305], &[8, 6, 7], 38),
    (&[0o245], &[5, 6, 7], 38),
    (&[0o245], &[8, 6, 7], 38),
    (&[0o306], &[6, 5], 38),
    (&[0o240], &[4096, 16], 39),
    (&[0o240], &[0, 65_535], 39),
    (&[0o241], &[16, 5], 39),
    (&[TRAP], &[0], 40),
    (&[TRAP], &[9], 40),
    (&[TRAP], &[1, 2, 65_535], 40),
];

/// An instruction, its words, what is set besides, and the trap.
type Trap = (&'static [u8], &'static [u16], fn(&mut Machine), u16);

/// The same for those that L, S or H decide.
const TRAPS_OF_REGISTERS: &[Trap] = &[
    (&[0o040, 9], &[], |it| it.l = 4087, 32),
    (&[0o041, 0], &[], |it| it.l = 4095, 32),
    (&[0o044], &[], |it| it.l = 4092, 32),
    (&[0o060, 9], &[5], |it| it.l = 4087, 32),
    (&[0o061, 0], &[5, 6], |it| it.l = 4095, 32),
    (&[0o077], &[5], |it| it.l = 4081, 32),
    (&[0o350, 1], &[], |it| it.l = 4096, 32),
    (&[0o351], &[7, 8], |it| it.l = 65_535, 32),
    (&[0o353, 255], &[4], |it| it.s = H - 254, 33),
    (&[0o353, 1], &[], |it| (it.s, it.h) = (0, 0), 33),
    (&[0o355, 1, 0], &[], |it| it.s = H - 3, 33),
    (&[0o356, 0], &[5], |it| it.s = H - 3, 33),
    (&[0o360, 0], &[], |it| it.s = H, 33),
    (&[0o361], &[], |it| it.s = H - 3, 33),
    (&[0o375], &[], |it| it.s = H - 3, 33),
    (&[STORE], &[1, 2], |it| it.s = H - 2, 33),
    (&[STORE], &[], |it| it.s = H, 33),
    (&[RTN], &[], |it| it.l = H + 1, 34),
    (&[RTN], &[], |it| it.l = 65_535, 34),
    // Words 902 to 904 are 0, 0 and FFFF hex.
    (&[RTN], &[], |it| it.l = 902, 34),
];

/// A rig at one of these traps, with the good process.
fn at(instruction: &[u8], words: &[u16], change: fn(&mut Machine)) -> Rig {
    let mut rig = at_trap(instruction, words);
    change(&mut rig.machine);
    rig.poke(&[(901, 65_535), (904, 65_535)]);
    rig
}

/// Hands each trap's rig to a check, with its number and its code.
fn for_each_trap(check: impl Fn(Rig, u8, u16)) {
    let unchanged: fn(&mut Machine) = |_| ();
    let plain = TRAPS
        .iter()
        .map(|&(i, words, trap)| (i, words, unchanged, trap));
    for (instruction, words, change, trap) in plain.chain(TRAPS_OF_REGISTERS.iter().copied()) {
        let code = match instruction {
            [TRAP] => words[words.len() - 1],
            _ => 0,
        };
        check(at(instruction, words, change), trap as u8, code);
    }
}

/// "traps 32 to 40 write their number to word P + 6 and then transfer as for a line,
/// with words 14 and 15, the position being the trapping instruction": the whole stack
/// is saved, and M changes.
#[test]
fn a_trap_is_caught() {
    let words = [
        (Z + 6, 36),
        (S, 0),
        (S + 1, 11),
        (S + 2, 2),
        (Z, BASE_0),
        (Z + 1, L),
        (Z + 2, here(&[0; 2])),
        (Z + 3, MASK),
        (Z + 4, S + 3),
        (Z + 5, WORDS as u16),
        (15, Z),
    ];
    at_division().expect_step(restored(0x2222), &words);
}

#[test]
fn each_trap_is_caught() {
    for trap in 32..=40 {
        let registers = TRAPS_OF_REGISTERS.iter().map(|it| it.3);
        let mut traps = TRAPS.iter().map(|it| it.2).chain(registers);
        assert!(traps.any(|it| it == trap), "{trap}");
    }
    // The code of 40 is lost: the step's is 0.
    for_each_trap(|mut rig, trap, _| expect_caught(&mut rig, trap.into()));
}

/// "The code of 40 is lost": also where the run stops with another trap. RTN of the
/// good process has L above H.
#[test]
fn no_code_remains() {
    for code in [0, 9, 65_535] {
        let mut rig = at_trap(&[TRAP], &[code]);
        let answer = rig.run(99);
        assert_eq!((answer.number, answer.code, answer.count), (34, 0, 1));
        // 40 in the trap process, which stops, has its own code: procedure 15 of
        // module 0 is a TRAP with 16 words.
        let mut rig = at_trap(&[TRAP], &[code]);
        poke_record(&mut rig, Q, [BASE_0, 6, entry(15), 0, 2017, 3000]);
        rig.poke(&[(2000, 77), (2016, 16)]);
        let answer = rig.run(99);
        assert_eq!((answer.number, answer.code, answer.count), (40, 77, 1));
    }
}

/// "Word 14 equal to 0 never is a target (a line or TRANSFER may well go to q = 0)."
#[test]
fn word_14_of_0() {
    for_each_trap(|mut rig, trap, code| {
        rig.poke(&[(TARGET, 0)]);
        rig.expect_stop(trap, code);
    });
    // With a good process at word 0, to which a line goes.
    let mut rig = at_division();
    poke_record(&mut rig, 0, [BASE_1, 5, 3, 0, 2004, 3000]);
    rig.poke(&[(TARGET, 0)]);
    rig.expect_stop(36, 0);
    rig.requests = 0x8000;
    assert_eq!((rig.run(1).count, rig.machine.p), (1, 0));
    // And where P is 0.
    let mut rig = at_division();
    rig.machine.p = 0;
    rig.poke(&[(TARGET, 0)]);
    rig.expect_stop(36, 0);
}

/// "If word 14 is not 0 and not P": the own record may be a good one.
#[test]
fn word_14_of_p() {
    for_each_trap(|mut rig, trap, code| {
        rig.machine.p = Q;
        rig.expect_stop(trap, code);
    });
}

/// "If that transfer would itself fail, the run stops with the first trap and nothing
/// is changed."
#[test]
fn word_14_of_no_process() {
    check_conditions_of(36, || at_trap(&[UDIV], &[11, 12, 13, 0]));
    for q in [4089, 4096, 65_528, 65_535] {
        for_each_trap(|mut rig, trap, code| {
            rig.poke(&[(TARGET, q)]);
            rig.expect_stop(trap, code);
        });
    }
    let mut rig = at_division();
    poke_record(&mut rig, 4088, GOOD);
    rig.poke(&[(TARGET, 4088)]);
    assert_eq!((rig.run(1).count, rig.machine.p), (1, 4088));
}

/// LODFW traps with 34 by the count, where depths are saved.
#[test]
fn a_trap_of_lodfw() {
    let mut rig = at_trap(&[STORE, 0o007, LODFW], &[11, 12]);
    assert_eq!(rig.run(2).number, 30);
    let s = rig.machine.s;
    assert_eq!((s, rig.stack()), (S + 3, &[7][..]));
    rig.poke(&[(s - 1, 3)]);
    expect_caught(&mut rig, 34);
}

/// Addresses from a base, in a store of 300 words with the bases 128 and 131. The
/// trap is in one module, and the process in the other.
#[test]
fn traps_of_another_module() {
    let codes: [&[u8]; 8] = [
        &[0o100, 255],
        &[0o101, 255],
        &[0o042, 0, 172],
        &[0o043, 1, 168],
        &[1, 0o120, 255],
        &[1, 2, 0o121, 255],
        &[1, 0o062, 0, 172],
        &[1, 2, 0o063, 1, 168],
    ];
    for code in codes {
        // One literal each before the instruction.
        let words = code.iter().take_while(|&&byte| byte < 3).count();
        let code = [code, &[JPB, 1]].concat();
        let mut rig = Rig::new(&[Source::plain(&[RTN]), Source::plain(&code)], 300);
        rig.machine.module = 1;
        assert_eq!(rig.run(words as u32).number, 30);
        poke_record(&mut rig, 250, [128, 5, 0, 0xAAAA, 261, 300]);
        rig.poke(&[(260, 0), (TARGET, 250)]);
        let before = rig.machine;
        let writes: Vec<(u16, u16)> = writes(&before, 32)
            .into_iter()
            .map(|(address, word)| match address {
                134 => (134, 131),
                _ => (address, word),
            })
            .collect();
        let resumed = |machine: &mut Machine| {
            *machine = Machine {
                module: 0,
                pc: 0,
                p: 250,
                l: 5,
                s: 260,
                h: 276,
                m: 0xAAAA,
                ..*machine
            };
            set_stack(machine, &[]);
        };
        rig.expect_step(resumed, &writes);
    }
}

/// A rig with a line that fails before a NOP, and the good process.
fn at_failing_line(line: u16) -> Rig {
    let mut rig = at_trap(&[NOP], &[11, 12]);
    rig.machine.m = 0;
    rig.poke(&[(2 * line, 65_535)]);
    rig.requests = 1 << line | 0x0081;
    rig
}

/// "A line's failed transfer counts among these traps: the position is the instruction
/// about to run, and its bit is kept."
#[test]
fn a_failed_line_is_caught() {
    for line in 8..=15 {
        let mut rig = at_failing_line(line);
        expect_caught(&mut rig, 35);
        assert_eq!(rig.requests, 1 << line | 0x0081);
        assert_eq!(rig.store[usize::from(2 * line) + 1], 0);
    }
    // Also before an end and before another trap.
    for instruction in [RTN, TRAP] {
        let words = [5, 6];
        let mut rig = at_instruction_of(2, &[instruction], &words, &[]);
        give_process(&mut rig);
        rig.poke(&[(30, 65_535)]);
        rig.requests = 0x8000;
        expect_caught(&mut rig, 35);
    }
}

/// Its bit is kept, so it is tried again when the new process runs with it open. The M
/// of the good process is 2222 hex.
#[test]
fn a_failed_line_is_tried_again() {
    for line in 8..=15 {
        let mut rig = at_failing_line(line);
        let requests = rig.requests;
        let answer = rig.run(9);
        // It fails again, with word 14 at P; or RTN has L above H.
        let stop = match line {
            9 | 13 => 34,
            _ => 35,
        };
        assert_eq!((answer.number, answer.count), (stop, 1));
        assert_eq!((rig.machine.p, rig.requests), (Q, requests));
    }
    // Then it has a target.
    let mut rig = at_failing_line(12);
    assert_eq!(rig.run(1).count, 1);
    rig.poke(&[(24, Z)]);
    let answer = rig.run(1);
    assert_eq!((answer.number, answer.count), (30, 1));
    assert_eq!((rig.machine.p, rig.requests), (Z, 0x0081));
    assert_eq!(rig.stack(), [11, 12]);
    assert_eq!(rig.machine.pc, here(&[0; 2]));
}

/// A failed line with word 14 of 0, of P and of no process stops with 35.
#[test]
fn a_failed_line_that_is_not_caught() {
    for q in [0, Z, 65_535, Q + 1] {
        let mut rig = at_failing_line(15);
        rig.poke(&[(TARGET, q)]);
        rig.expect_stop(35, 0);
    }
    check_conditions_of(35, || {
        let mut rig = at_trap(&[NOP], &[11, 12, 13, 14]);
        rig.poke(&[(30, 65_535)]);
        rig.requests = 0x8000;
        rig
    });
}

/// A line with a good target or the target P is no trap.
#[test]
fn other_lines_are_no_traps() {
    for target in [1100, Z] {
        let mut rig = at_failing_line(15);
        poke_record(&mut rig, 1100, [BASE_1, 5, 0, 0, 1201, 4096]);
        rig.poke(&[(1200, 0), (30, target)]);
        assert_eq!(rig.run(1).count, 1);
        assert_eq!((rig.machine.p, rig.store[15]), (target, 0xDEAD));
        assert_eq!(rig.store[usize::from(Z) + 6], 0);
    }
}

/// "so a saved word, the record or word 15 may overwrite it". The record's six words
/// are P to P + 5: they lie below P + 6, whose sum does not go round.
#[test]
fn the_number_is_written_over() {
    // The top, the word below it, and the count.
    for (s, word) in [(Z + 6, 0), (Z + 5, 11), (Z + 4, 2)] {
        let mut rig = at_division();
        rig.machine.s = s;
        expect_caught(&mut rig, 36);
        assert_eq!(rig.store[usize::from(Z) + 6], word);
    }
    // The words beside it leave it.
    for s in [Z + 7, Z + 3] {
        let mut rig = at_division();
        rig.machine.s = s;
        expect_caught(&mut rig, 36);
        assert_eq!(rig.store[usize::from(Z) + 6], 36);
    }
    // Word 15 is P + 6, and becomes P.
    let mut rig = at_division();
    rig.machine.p = 9;
    expect_caught(&mut rig, 36);
    assert_eq!(rig.store[15], 9);
    // Each of sixteen words, and their count.
    let words: Vec<u16> = (101..=116).collect();
    for above in 0..=16 {
        let mut rig = at_trap(&[TRAP], &words);
        rig.machine.s = Z + 6 - above;
        expect_caught(&mut rig, 40);
        let expected = if above == 16 { 16 } else { 116 - above };
        assert_eq!(rig.store[usize::from(Z) + 6], expected);
    }
}

/// The number may lie over a saved word and word 15 over both: S is 15 and P is 9.
#[test]
fn the_last_write_stays() {
    let mut rig = at_division();
    (rig.machine.p, rig.machine.s) = (9, 15);
    expect_caught(&mut rig, 36);
    assert_eq!(rig.store[14..18], [4096, 9, 11, 2]);
    // The number in word 14, where the target was read before: no process is there for
    // the next trap, the RTN's 34.
    let mut rig = at_division();
    rig.machine.p = 8;
    expect_caught(&mut rig, 36);
    assert_eq!(rig.store[14..16], [36, 8]);
    rig.expect_stop(34, 0);
}

/// "Word 14, its record and its k words are read before anything is written."
#[test]
fn the_number_in_what_was_read() {
    let goes_on = |q: u16| {
        move |machine: &mut Machine| {
            restored(0x2222)(machine);
            machine.p = q;
        }
    };
    // Each word of the target's record is P + 6.
    for offset in 0..6 {
        let mut rig = at_division();
        let q = Z + 6 - offset;
        poke_record(&mut rig, q, GOOD);
        rig.poke(&[(TARGET, q)]);
        let writes = writes(&rig.machine, 36);
        rig.expect_step(goes_on(q), &writes);
    }
    // The same with a record far from the own one.
    for offset in 0..6 {
        let mut rig = at_division();
        rig.machine.p = Q + offset - 6;
        expect_caught(&mut rig, 36);
        assert_eq!(rig.store[usize::from(Q + offset)], 36);
    }
    // The words at 2000 to 2002, and their count.
    for address in 2000..=2003 {
        let mut rig = at_division();
        rig.machine.p = address - 6;
        expect_caught(&mut rig, 36);
        assert_eq!(rig.store[usize::from(address)], 36);
    }
}

/// All that a transfer reads and writes may collide besides.
#[test]
fn other_collisions() {
    // Word 15 is in the own record, or in the saved stack.
    for p in 10..=15 {
        let mut rig = at_division();
        rig.machine.p = p;
        expect_caught(&mut rig, 36);
        assert_eq!(rig.store[15], p);
    }
    for s in 13..=15 {
        let mut rig = at_division();
        rig.machine.s = s;
        expect_caught(&mut rig, 36);
        assert_eq!(rig.store[15], Z);
    }
    // The stack where the own record is saved, and where the target's is.
    for s in Z - 2..Z + 6 {
        let mut rig = at_division();
        rig.machine.s = s;
        expect_caught(&mut rig, 36);
    }
    for s in [Q - 2, Q, Q + 5, 1998, 2000, 2003] {
        let mut rig = at_division();
        rig.machine.s = s;
        expect_caught(&mut rig, 36);
    }
}

/// "the whole stack saved": none, and 16 words, at H; 16 words come back.
#[test]
fn sixteen_words_and_none() {
    let words: Vec<u16> = (1..=16).collect();
    for s in [S, H] {
        let mut rig = at_trap(&[TRAP], &words);
        rig.machine.s = s;
        poke_record(&mut rig, Q, [BASE_0, 6, entry(15), 0x0101, 2017, 3000]);
        rig.poke(&(2000..2016).zip(100..116).collect::<Vec<_>>());
        rig.poke(&[(2016, 16)]);
        let writes = writes(&rig.machine, 40);
        assert_eq!(writes[1..3], [(s, 16), (s + 1, 15)]);
        assert_eq!(writes[17], (s + 16, 16));
        let resumed = |machine: &mut Machine| {
            *machine = Machine {
                pc: entry(15),
                p: Q,
                l: 6,
                s: 2000,
                h: 2976,
                m: 0x0101,
                ..*machine
            };
            set_stack(machine, &(100..116).rev().collect::<Vec<_>>());
        };
        rig.expect_step(resumed, &writes);
    }
    // RTN without words; the target has none and S = 0.
    let mut rig = at(&[RTN], &[], |it| it.l = H + 1);
    poke_record(&mut rig, Q, [BASE_1, 0, 0, 0, 1, 24]);
    rig.poke(&[(0, 0)]);
    let writes = writes(&rig.machine, 34);
    assert_eq!(writes[1], (S, 0));
    let lowest = |machine: &mut Machine| {
        *machine = Machine {
            module: 1,
            pc: 0,
            p: Q,
            l: 0,
            s: 0,
            h: 0,
            m: 0,
            ..*machine
        };
    };
    rig.expect_step(lowest, &writes);
}

/// A trap in the trap process: word 14 is P, so it stops. With another process in word
/// 14 that one catches it, and word 15 names the first.
#[test]
fn a_trap_in_the_trap_process() {
    let mut rig = at_division();
    let answer = rig.run(9);
    assert_eq!((answer.number, answer.count), (34, 1));
    assert_eq!((rig.machine.p, rig.machine.pc), (Q, 3));
    assert_eq!(rig.store[usize::from(Z) + 6], 36);
    let before = rig.clone();
    poke_record(&mut rig, 1100, [BASE_0, 5, entry(1), 7, 1201, 4096]);
    rig.poke(&[(1200, 0), (TARGET, 1100)]);
    assert_eq!(rig.run(1).count, 1);
    assert_eq!((rig.machine.p, rig.machine.m), (1100, 7));
    assert_eq!(rig.store[15], Q);
    assert_eq!(rig.store[usize::from(Q) + 6], 34);
    // The good process is saved as it was.
    let record = usize::from(Q)..usize::from(Q) + 6;
    assert_eq!(rig.store[record.clone()], before.store[record]);
    assert_eq!(rig.store[2000..2004], [0xC0, 0xB0, 0xA0, 3]);
    // L = 5: word 7 is 0, and position 0 of module 0 is marked 0; it goes on there.
    assert_eq!(rig.run(1).count, 1);
}

/// Literals and SSW0 that write words of the store.
fn writing(words: &[(u16, u16)]) -> Vec<u8> {
    let write = |&(address, word): &(u16, u16)| {
        let ([a, b], [c, d]) = (address.to_be_bytes(), word.to_be_bytes());
        [0o022, a, b, 0o022, c, d, 0o160]
    };
    words.iter().flat_map(write).collect()
}

/// A process at 300 that begins a module without words, with its stack at 320.
fn process_at_300(base: u16) -> [(u16, u16); 7] {
    let record = [base, 0, 0, 0xFF00, 321, 4096];
    let mut words = [(320, 0); 7];
    for (word, (address, value)) in words.iter_mut().zip((300..).zip(record)) {
        *word = (address, value);
    }
    words
}

/// A cabinet without the desk. The main program names the trap process, divides 8 by 0
/// inside an expression, and writes the quotient to output 6. The trap process writes
/// its safe pattern 9 to output 1 and the divisor 2 where 0 was saved, and transfers
/// back: the division is tried again.
#[test]
fn a_trap_process_that_transfers_back() {
    // Z is 134, S is 146. LI6, STORE: 6 and its count at 146 and 147. LI8, LI0, UDIV:
    // 0, 8 and their count from 148 up.
    let main = [
        &writing(&process_at_300(131))[..],
        &writing(&[(TARGET, 300)]),
        &[0o006, STORE, 0o010, 0o000, UDIV, LODFW, 0o241, RTN],
    ]
    .concat();
    let safe = [
        &[0o001, 0o011, 0o241][..],
        &writing(&[(148, 2)]),
        &[LIB, 14, LIB, 15, TRA, 1, JPB, 1],
    ]
    .concat();
    let modules = [Source::plain(&main), Source::plain(&safe)];
    let mut rig = Rig::new(&modules, 4096);
    // Eight words written; LI6, STORE, LI8, LI0; the trap; LI1, LI9, WRITE; one word
    // written; LIB, LIB, TRA; UDIV, LODFW, WRITE; and the end.
    let answer = rig.run(99);
    assert_eq!((answer.number, answer.code), (31, 0));
    assert_eq!(answer.count, 24 + 4 + 1 + 3 + 3 + 3 + 3);
    assert_eq!((rig.outputs[1], rig.outputs[6]), (9, 4));
    assert_eq!(
        (rig.machine.p, rig.store[14], rig.store[15]),
        (134, 300, 134)
    );
    assert_eq!(rig.store[140], 36);
    // The trap process is saved behind its transfer.
    assert_eq!(
        rig.store[300..306],
        [131, 0, safe.len() as u16 - 2, 0xFF00, 321, 4096]
    );
    let reading = format!(
        "{}caught 36 process 134 module 0 pc 60\n",
        desk(&encode(&modules))
    );
    assert_eq!(desk_with_requests(&encode(&modules), 0, 0), reading);
    assert_eq!(main[60], UDIV);
}

/// Budgets 0, 1 and 2: "This counts as a step", and all n steps done is 30 first.
#[test]
fn budgets() {
    let mut rig = at_division();
    poke_record(&mut rig, Q, [BASE_0, 5, 18, 0, 2001, 3000]);
    rig.poke(&[(2000, 0)]);
    let before = rig.clone();
    let answer = rig.run(0);
    assert_eq!((answer.number, answer.count), (30, 0));
    assert_eq!((rig.machine, &rig.store), (before.machine, &before.store));
    let answer = rig.run(1);
    assert_eq!((answer.number, answer.count), (30, 1));
    assert_eq!((rig.machine.p, rig.machine.pc), (Q, 18));
    // Then LIW 11.
    let mut rig = before.clone();
    let answer = rig.run(2);
    assert_eq!((answer.number, answer.count), (30, 2));
    assert_eq!((rig.stack(), rig.machine.pc), (&[11][..], 21));
    // A step before the trap, and none left for it.
    let mut rig = before;
    rig.machine.pc -= 3;
    set_stack(&mut rig.machine, &[11]);
    let answer = rig.run(1);
    assert_eq!((answer.number, answer.count, rig.machine.p), (30, 1, Z));
    assert_eq!(rig.store[usize::from(Z) + 6], 0);
}

/// A refused run leaves all, also where the instruction would trap.
#[test]
fn refused_runs() {
    for (number, spoil) in SPOILED {
        let mut rig = at_division();
        rig.requests = 0x8000;
        spoil(&mut rig);
        let before = rig.clone();
        let answer = rig.run(5);
        assert_eq!((answer.number, answer.code, answer.count), (number, 0, 0));
        assert_eq!((answer.requests, rig.machine), (0x8000, before.machine));
        assert_eq!(rig.store, before.store);
    }
}

/// "Running n and then m agrees with n + m", across traps, lines and transfers.
#[test]
fn n_and_then_m() {
    // The division of Z goes to Q at the LIWs before it, which divide by 0 too: word 14
    // is P then. A line comes to Z again in between.
    let start = || {
        let mut rig = at_division();
        poke_record(&mut rig, Q, [BASE_0, 5, 18, 0, 2001, 3000]);
        rig.poke(&[(2000, 0), (26, Z)]);
        rig.requests = 0x2005;
        rig.machine.m = 0x2000;
        rig
    };
    let mut whole = start();
    // The trap; line 13 to Z again; the trap; LIW, LIW; and 36 in Q.
    let total = whole.run(99);
    assert_eq!((total.number, total.count, total.requests), (36, 5, 5));
    assert_eq!(
        (whole.machine.p, whole.store[15], whole.store[27]),
        (Q, Z, Q)
    );
    for n in 0..=5 {
        let mut parts = start();
        assert_eq!(parts.run(n).count, n);
        let rest = parts.run(99 - n);
        assert_eq!((rest.number, rest.count, rest.requests), (36, 5 - n, 5));
        assert_eq!(parts.machine, whole.machine);
        assert_eq!(parts.store, whole.store);
        // Spent at each point, with word 14 set.
        let mut spent = start();
        let answer = spent.run(n);
        assert_eq!((answer.number, answer.code), (30, 0));
    }
}

/// "30 and 31 are no traps."
#[test]
fn an_end_and_a_spent_run_are_not_caught() {
    let mut rig = at_instruction_of(2, &[RTN], &[11, 12], &[]);
    give_process(&mut rig);
    rig.expect_stop(31, 0);
    let mut rig = at_trap(&[NOP], &[11, 12]);
    let before = rig.clone();
    for n in [0, 1, 7] {
        let answer = rig.run(n);
        assert_eq!((answer.number, answer.count), (30, n));
    }
    assert_eq!(rig.store, before.store);
    assert_eq!(rig.machine.p, Z);
}

/// "A run with word 14 at 0 before every step gives exactly what it gave before": the
/// program clears word 14 before the trap.
#[test]
fn a_program_clears_word_14() {
    let code = [&writing(&[(TARGET, 0)])[..], &[0o005, TRAP]].concat();
    let mut rig = Rig::plain(&code);
    poke_record(&mut rig, 300, [128, 0, 0, 0, 321, 4096]);
    rig.poke(&[(TARGET, 300)]);
    let answer = rig.run(99);
    assert_eq!((answer.number, answer.code, answer.count), (40, 5, 4));
    assert_eq!((rig.machine.p, rig.store[15]), (131, 0));
}

/// A line that waits is open behind a caught trap, by the M that it brings; and a trap
/// comes behind a line.
#[test]
fn traps_and_lines() {
    let mut rig = at_division();
    poke_record(&mut rig, Q, [BASE_0, 5, 18, 0, 2001, 3000]);
    poke_record(&mut rig, 1100, [BASE_1, 5, 0, 0xFF00, 1201, 4096]);
    rig.poke(&[(2000, 0), (1200, 0), (26, 1100)]);
    rig.machine.m = 0x2000;
    rig.requests = 0x2000;
    let answer = rig.run(2);
    assert_eq!((answer.number, answer.count, answer.requests), (30, 2, 0));
    assert_eq!((rig.machine.p, rig.store[15], rig.store[27]), (1100, Z, Q));
    // The line first; then RTN at L = 5000 hex, above H, in the line's process.
    let mut rig = at_division();
    poke_record(&mut rig, 1100, [BASE_1, 0x5000, 0, 0xFF00, 1201, 4096]);
    rig.poke(&[(1200, 0), (26, 1100)]);
    rig.machine.m = 0;
    rig.requests = 0x2000;
    let answer = rig.run(2);
    assert_eq!((answer.number, answer.count, answer.requests), (30, 2, 0));
    assert_eq!((rig.machine.p, rig.store[15], rig.store[27]), (Q, 1100, Z));
    assert_eq!((rig.store[1106], rig.store[usize::from(Z) + 6]), (34, 0));
}

/// Several traps are caught in one run, each by the process that word 14 names then:
/// processes 134 and 300 name one another and trap with 1 and 2.
#[test]
fn several_traps_in_one_run() {
    let names = |q: u16, code: u8| {
        let code = [&writing(&[(TARGET, q)])[..], &[code, TRAP]].concat();
        Source::plain(&code)
    };
    let mut rig = Rig::new(&[names(300, 1), names(134, 2)], 4096);
    assert_eq!(rig.machine.p, 134);
    rig.poke(&process_at_300(131));
    let answer = rig.run(4 + 1 + 4 + 1);
    assert_eq!((answer.number, answer.code, answer.count), (30, 0, 10));
    assert_eq!((rig.store[134 + 6], rig.store[300 + 6]), (40, 40));
    // 134 goes on at its TRAP. It traps again with word 14 at P: it stops.
    assert_eq!((rig.machine.p, rig.stack()), (134, &[1][..]));
    rig.expect_stop(40, 1);
}

/// Traps where depths are saved (A.5): the words that STORE has saved stay below.
#[test]
fn traps_where_depths_are_saved() {
    // 21, STORE, 10, STORE, 11, 0, UDIV; LODFW, UADD, LODFW.
    let instruction = [STORE, 0o012, STORE, 0o013, 0, UDIV, LODFW, 0o270, LODFW];
    let mut rig = at_trap(&instruction, &[21]);
    assert_eq!(rig.run(5).number, 30);
    assert_eq!(rig.machine.s, S + 4);
    expect_caught(&mut rig, 36);
    let saved = usize::from(S)..usize::from(S) + 7;
    assert_eq!(rig.store[saved], [21, 1, 10, 1, 0, 11, 2]);
    // Back by a line, with the divisor 1: 11 and 10 are 21, and 21 is below it.
    rig.poke(&[(S + 4, 1), (30, Z)]);
    rig.requests = 0x8000;
    assert_eq!(rig.run(1).count, 1);
    assert_eq!((rig.machine.p, rig.run(4).count), (Z, 4));
    assert_eq!((rig.stack(), rig.machine.s), (&[21, 21][..], S));
    // A STORE that has no room.
    let mut rig = at_trap(&[STORE, 0o012, STORE, 1, TRAP], &[21]);
    assert_eq!(rig.run(2).number, 30);
    rig.machine.h = rig.machine.s + 1;
    expect_caught(&mut rig, 33);
}

/// What the desk's reading tells where the program writes these words and ends; they
/// are read from the store, whoever wrote them.
fn told(words: &[(u16, u16)]) -> Option<String> {
    let code = [&writing(words)[..], &[RTN]].concat();
    let image = encode(&[Source::plain(&code), Source::plain(&[RTN])]);
    let reading = desk(&image);
    assert!(reading.starts_with("stop 31 "), "{reading}");
    let with = desk_with_requests(&image, 0, 0);
    let requested = desk_with_requests(&image, 0x00FF, 3);
    let line = with.strip_prefix(&reading).expect("it begins so");
    assert_eq!(requested, format!("{reading}requests 255\n{line}"));
    (!line.is_empty()).then(|| line.to_string())
}

#[test]
fn the_reading_tells_of_a_trap() {
    let check = |words: &[(u16, u16)], expected: &str| {
        let expected = (!expected.is_empty()).then(|| format!("{expected}\n"));
        assert_eq!(told(words), expected);
    };
    let line = "caught 36 process 300 module 1 pc 77";
    let good = [(15, 300), (300, 131), (302, 77), (306, 36)];
    let but = |other: (u16, u16)| [&good[..], &[other]].concat();
    check(&[], "");
    check(&good, line);
    // The number.
    for number in [0, 30, 31, 41, 0x0120, 65_535] {
        check(&but((306, number)), "");
    }
    check(&but((306, 32)), "caught 32 process 300 module 1 pc 77");
    check(&but((306, 40)), "caught 40 process 300 module 1 pc 77");
    // The process: not 0, and P + 8 ≤ 4096.
    check(&but((15, 0)), "");
    check(&[(0, 131), (6, 36)], "");
    for (p, in_store) in [(4088, true), (4089, false)] {
        let words = [(15, p), (p, 128), (p + 6, 39)];
        let expected = format!("caught 39 process {p} module 0 pc 0");
        check(&words, if in_store { &expected } else { "" });
    }
    check(&but((15, 65_535)), "");
    // The copies of the bases: of two modules, and the first that is equal.
    check(&but((300, 128)), "caught 36 process 300 module 0 pc 77");
    check(&but((300, 0)), "");
    check(&but((33, 555)), "");
    check(&but((34, 131)), line);
    check(&[&good[..], &[(33, 555), (34, 131)]].concat(), "");
    check(&but((32, 131)), "caught 36 process 300 module 0 pc 77");
    assert_eq!(desk_with_requests(&[2], 0, 0), "refused 3\n");
}
