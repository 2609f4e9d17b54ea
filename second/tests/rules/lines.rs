//! A.7, the clock line.

use crate::rig::{
    at_instruction, at_instruction_of, desk_with_requests, entry, here, procedure, set_stack, Rig,
    BASE_0, BASE_1, H, L, S, SPOILED, WORDS, Z,
};
use crate::transfer::{check_conditions, poke_good, poke_record, restored, GOOD, MASK, Q};
use second::assemble::Source;
use second::{desk, Machine};

const NOP: u8 = 0o336;
const RTN: u8 = 0o354;
const TRAP: u8 = 0o304;

/// "bit i has weight 2 to the i"
fn bit(line: u16) -> u16 {
    1 << line
}

/// "store word 3"
const HELD: u16 = 3;

/// A rig before an instruction with 11 and 12 on the stack, the good process at Q,
/// and the words of line i naming it. M has none of the lines but 9 to 11, which
/// MASK has.
fn at_line_before(instruction: &[u8], line: u16) -> Rig {
    let mut rig = at_instruction(instruction, &[11, 12]);
    rig.machine.m = MASK & !bit(line);
    poke_good(&mut rig);
    rig.poke(&[(2 * line, Q), (2 * line + 1, 0xDEAD)]);
    rig.requests = bit(line);
    rig
}

/// The same before a NOP.
fn at_line(line: u16) -> Rig {
    at_line_before(&[NOP], line)
}

/// What line i saves there: "the saved position being the instruction about to run
/// and the whole stack saved", and "the old process to word 2i + 1".
fn saved(line: u16) -> [(u16, u16); 10] {
    [
        (S, 12),
        (S + 1, 11),
        (S + 2, 2),
        (Z, BASE_0),
        (Z + 1, L),
        (Z + 2, here(&[0; 2])),
        (Z + 3, MASK & !bit(line)),
        (Z + 4, S + 3),
        (Z + 5, WORDS as u16),
        (2 * line + 1, Z),
    ]
}

/// The NOP at which [`at_line`] stands.
fn no_operation(machine: &mut Machine) {
    machine.pc += 1;
}

fn nothing(_: &mut Machine) {}

/// "It makes a transfer with the mask changed, the target in word 2i, the old process
/// to word 2i + 1 [...]. It counts as a step and clears its bit."
#[test]
fn each_line_is_taken() {
    for line in 8..=15 {
        at_line(line).expect_step_of(0, restored(0x2222), &saved(line));
    }
}

/// "bits 0 to 7 are ignored and returned as given"
#[test]
fn other_bits_are_no_lines() {
    for i in 0..8 {
        let mut rig = at_line(8);
        // As if bit i were a line, with its words.
        rig.poke(&[(2 * i, Q), (HELD, 0)]);
        rig.requests = bit(i);
        rig.expect_step(no_operation, &[]);
        assert_eq!(rig.requests, bit(i));
    }
    let mut rig = at_line(8);
    rig.requests = 0x00FF;
    rig.expect_step(no_operation, &[]);
    let mut rig = at_line(8);
    rig.requests = 0x01A5;
    rig.expect_step_of(0x00A5, restored(0x2222), &saved(8));
    // They neither mask nor hold it.
    let mut rig = at_line(8);
    rig.machine.m = 0x00FF;
    rig.poke(&[(HELD, 0x00FF)]);
    let mut writes = saved(8);
    writes[6].1 = 0x00FF;
    rig.expect_step_of(0, restored(0x2222), &writes);
}

/// "the highest line is taken that is in the requests, not in M and not in store word
/// 3"
#[test]
fn masked_and_held_lines_wait() {
    for line in 8..=15 {
        for (m, held) in [(bit(line), 0), (0, bit(line)), (bit(line), bit(line))] {
            let mut rig = at_line(line);
            rig.machine.m = m;
            rig.poke(&[(HELD, held)]);
            rig.expect_step(no_operation, &[]);
            assert_eq!(rig.requests, bit(line));
            // It is not lost.
            rig.machine.m = 0;
            rig.poke(&[(HELD, 0)]);
            assert_eq!((rig.run(1).count, rig.machine.p), (1, Q));
            assert_eq!(rig.requests, 0);
        }
        // All others do not matter.
        let mut rig = at_line(line);
        rig.machine.m = !bit(line);
        rig.poke(&[(HELD, !bit(line))]);
        let mut writes = saved(line);
        writes[6].1 = !bit(line);
        rig.expect_step_of(0, restored(0x2222), &writes);
    }
}

/// "the highest line": and then the next one. Line j goes to the record at 1100, of a
/// process at RTN of module 1, without words.
#[test]
fn the_highest_line_comes_first() {
    for (high, low) in [(15, 8), (15, 14), (9, 8), (12, 10)] {
        let mut rig = at_line(high);
        rig.machine.m = 0;
        poke_record(&mut rig, 1100, [BASE_1, 5, 0, 0xFF00, 1201, 4096]);
        // The M of the good process lets the lower one pass.
        rig.poke(&[(Q + 3, 0x0022), (2 * low, 1100), (1200, 0)]);
        rig.requests = bit(high) | bit(low) | 1;
        let mut writes = saved(high);
        writes[6].1 = 0;
        rig.expect_step_of(bit(low) | 1, restored(0x0022), &writes);
        // The good process is saved as it was.
        let second = |machine: &mut Machine| {
            *machine = Machine {
                module: 1,
                pc: 0,
                p: 1100,
                l: 5,
                s: 1200,
                h: H,
                m: 0xFF00,
                ..*machine
            };
            set_stack(machine, &[]);
        };
        rig.expect_step_of(1, second, &[(2 * low + 1, Q)]);
    }
}

/// A higher line that waits does not stop a lower one.
#[test]
fn a_lower_line_passes_a_waiting_one() {
    for (m, held) in [(bit(15), 0), (0, bit(15))] {
        let mut rig = at_line(12);
        rig.machine.m = m;
        rig.poke(&[(30, 0), (HELD, held)]);
        rig.requests = bit(15) | bit(12);
        let mut writes = saved(12);
        writes[6].1 = m;
        rig.expect_step_of(bit(15), restored(0x2222), &writes);
    }
}

/// "A target equal to P, also a step, only writes word 2i + 1 and clears the bit."
#[test]
fn a_target_equal_to_p() {
    for line in 8..=15 {
        let mut rig = at_line(line);
        rig.poke(&[(2 * line, Z)]);
        // Its own record is not looked at.
        poke_record(&mut rig, Z, [1, 2, 3, 4, 0, 6]);
        rig.requests |= 0x00F0;
        rig.expect_step_of(0x00F0, nothing, &[(2 * line + 1, Z)]);
        // Then comes the instruction.
        rig.expect_step(no_operation, &[]);
    }
}

/// "A failed transfer is trap 35 with the bit kept": nothing else is changed.
#[test]
fn a_failed_transfer_is_35() {
    for line in [8, 15] {
        check_conditions(|| {
            let mut rig = at_instruction(&[NOP], &[11, 12, 13, 14]);
            poke_good(&mut rig);
            rig.poke(&[(2 * line, Q)]);
            rig.requests = bit(line);
            rig
        });
    }
    for line in 8..=15 {
        // q + 8 is not reduced.
        for q in [4089, 4096, 65_528, 65_535] {
            let mut rig = at_line(line);
            rig.poke(&[(2 * line, q)]);
            rig.requests |= 0x0081;
            rig.expect_stop(35, 0);
        }
        let mut rig = at_line(line);
        rig.poke(&[(2 * line, 4088)]);
        poke_record(&mut rig, 4088, GOOD);
        assert_eq!((rig.run(1).count, rig.machine.p), (1, 4088));
    }
}

/// "A failed transfer of the highest line is 35, and no lower line is tried."
#[test]
fn no_lower_line_is_tried() {
    let mut rig = at_line(8);
    rig.poke(&[(26, 65_535)]);
    rig.requests = bit(13) | bit(8);
    rig.machine.m = 0;
    rig.expect_stop(35, 0);
    // Where the higher one waits, the lower one is.
    rig.machine.m = bit(13);
    assert_eq!((rig.run(1).count, rig.requests), (1, bit(13)));
}

/// "The vectors start as zeros, so a line given before the program has set word 2i
/// goes to q = 0 and is mostly 35."
#[test]
fn vectors_start_as_zeros() {
    let mut rig = Rig::plain(&[NOP, RTN]);
    rig.requests = 0xFF00;
    rig.expect_stop(35, 0);
    // A process at word 0: its M is word 3. 128, L, position 1, M, s = 9, v = 4096.
    poke_record(&mut rig, 0, [128, 7, 1, 0x7F00, 9, 4096]);
    rig.poke(&[(8, 0)]);
    let answer = rig.run(1);
    assert_eq!(
        (answer.number, answer.count, answer.requests),
        (30, 1, 0x7F00)
    );
    assert_eq!((rig.machine.p, rig.machine.pc), (0, 1));
    assert_eq!((rig.machine.m, rig.machine.s), (0x7F00, 8));
    assert_eq!(rig.store[31], 131);
}

/// "all n steps done is 30 first; then a line; then the instruction (the end too)"
#[test]
fn a_line_comes_behind_30() {
    // A line that is open, and one that would fail.
    for q in [Q, Z, 65_535] {
        let mut rig = at_line(10);
        rig.poke(&[(20, q)]);
        let before = rig.clone();
        let answer = rig.run(0);
        assert_eq!((answer.number, answer.count), (30, 0));
        assert_eq!(answer.requests, bit(10));
        assert_eq!((rig.machine, &rig.store), (before.machine, &before.store));
    }
    // A step, and a line that would fail behind it.
    let mut rig = at_line(10);
    rig.poke(&[(16, 65_535)]);
    rig.requests |= bit(8);
    let answer = rig.run(1);
    assert_eq!(
        (answer.number, answer.count, answer.requests),
        (30, 1, bit(8))
    );
    rig.expect_stop(35, 0);
}

/// "Before an instruction": also before an end, a trap and a jump to itself.
#[test]
fn a_line_comes_before_the_instruction() {
    let mut rig = Rig::plain(&[RTN]);
    assert_eq!(rig.clone().run(9).number, 31);
    rig.poke(&[(16, 131)]);
    rig.requests = bit(8);
    // The target is P: the end comes behind the line.
    let answer = rig.run(9);
    assert_eq!((answer.number, answer.count, answer.requests), (31, 1, 0));
    assert_eq!(rig.store[17], 131);
    // TRAP, division by 0, JPB 1.
    for instruction in [&[TRAP][..], &[0o273], &[0o035, 1]] {
        let mut rig = at_line_before(instruction, 14);
        rig.machine.stack[1] = 0;
        let mut writes = saved(14);
        writes[0].1 = 0;
        rig.expect_step_of(0, restored(0x2222), &writes);
    }
    let mut rig = at_instruction_of(2, &[RTN], &[11, 12], &[]);
    assert_eq!(rig.clone().run(1).number, 31);
    rig.machine.m = MASK;
    poke_good(&mut rig);
    rig.poke(&[(24, Q)]);
    rig.requests = bit(12);
    rig.expect_step_of(0, restored(0x2222), &saved(12));
    // 35 comes before the instruction's own trap.
    let mut rig = at_line_before(&[TRAP], 14);
    rig.poke(&[(28, 65_535)]);
    rig.expect_stop(35, 0);
}

/// "the whole stack saved": none, 16 words, and at H.
#[test]
fn the_whole_stack_is_saved() {
    let mut rig = at_instruction(&[NOP], &[]);
    poke_good(&mut rig);
    rig.poke(&[(16, Q), (S, 0xDEAD)]);
    rig.requests = bit(8);
    let record = [BASE_0, L, here(&[]), 0, S + 1, WORDS as u16];
    let mut writes: Vec<(u16, u16)> = (Z..).zip(record).collect();
    writes.extend([(S, 0), (17, Z)]);
    rig.expect_step_of(0, restored(0x2222), &writes);

    let words: Vec<u16> = (1..=16).collect();
    for s in [S, H] {
        let mut rig = at_instruction(&[NOP], &words);
        rig.machine.s = s;
        poke_good(&mut rig);
        rig.poke(&[(16, Q)]);
        rig.requests = bit(8);
        let record = [BASE_0, L, here(&words), 0, s + 17, WORDS as u16];
        let mut writes: Vec<(u16, u16)> = (Z..).zip(record).collect();
        writes.extend((s..).zip((1..=16).rev()));
        writes.extend([(s + 16, 16), (17, Z)]);
        rig.expect_step_of(0, restored(0x2222), &writes);
    }
}

/// Sixteen words come back, the lowest on top.
#[test]
fn sixteen_words_are_restored() {
    let mut rig = at_line(9);
    // Procedure 15 of module 0 is marked 16.
    poke_record(&mut rig, Q, [BASE_0, 6, entry(15), 0x0101, 2017, 3000]);
    rig.poke(&[(2016, 16)]);
    rig.poke(&(2000..2016).zip(100..116).collect::<Vec<_>>());
    let resumed = |machine: &mut Machine| {
        *machine = Machine {
            pc: entry(15),
            p: Q,
            l: 6,
            s: 2000,
            h: 2976,
            m: 0x0101,
            ..*machine
        };
        set_stack(machine, &(100..116).rev().collect::<Vec<_>>());
    };
    rig.expect_step_of(0, resumed, &saved(9));
}

/// "Colliding writes keep the last in this order": the stack, the count, the record,
/// word 2i + 1. For line 12 this is word 25.
#[test]
fn colliding_writes() {
    // Words behind S, and the record from P up.
    let check = |s: u16, p: u16, writes: &[(u16, u16)]| {
        let mut rig = at_line(12);
        (rig.machine.s, rig.machine.p) = (s, p);
        rig.expect_step_of(0, restored(0x2222), writes);
    };
    let record = |s: u16, p: u16| {
        let words = [BASE_0, L, here(&[0; 2]), MASK, s + 3, WORDS as u16];
        (p..).zip(words).collect::<Vec<(u16, u16)>>()
    };
    let stack = |s: u16| vec![(s, 12), (s + 1, 11), (s + 2, 2)];
    // Word 25 in the record, at each place.
    for p in 20..=25 {
        let writes = [stack(S), record(S, p), vec![(25, p)]].concat();
        check(S, p, &writes);
    }
    // Word 25 in the stack, and its count.
    for s in 23..=25 {
        let writes = [stack(s), record(s, Z), vec![(25, Z)]].concat();
        check(s, Z, &writes);
    }
    // The record over the stack.
    for s in Z - 2..Z + 6 {
        let writes = [stack(s), record(s, Z), vec![(25, Z)]].concat();
        check(s, Z, &writes);
    }
    // All three: S is 24, P is 23. Word 24 is read before L lies over it.
    let writes = [stack(24), record(24, 23), vec![(25, 23)]].concat();
    check(24, 23, &writes);
}

/// "reading the store as before the instruction": the target's record and stack lie
/// where the line writes.
#[test]
fn all_is_read_before_the_first_write() {
    let goes_on = |q: u16| {
        move |machine: &mut Machine| {
            restored(0x2222)(machine);
            machine.p = q;
        }
    };
    // The record where the stack is saved, and over the own record.
    for q in [S - 2, S, Z - 3, Z + 1] {
        let mut rig = at_line(12);
        poke_record(&mut rig, q, GOOD);
        rig.poke(&[(24, q)]);
        rig.expect_step_of(0, goes_on(q), &saved(12));
    }
    // The stack where the stack is saved: 2001 to 2003 were B0, A0 and the count.
    let mut rig = at_line(12);
    rig.machine.s = 2001;
    let mut writes = saved(12);
    (writes[0].0, writes[1].0, writes[2].0) = (2001, 2002, 2003);
    writes[7].1 = 2004;
    rig.expect_step_of(0, restored(0x2222), &writes);
    // And under the own record.
    let mut rig = at_line(12);
    rig.machine.p = 1999;
    let mut writes = saved(12);
    for (i, write) in (0..6).zip(&mut writes[3..9]) {
        write.0 = 1999 + i;
    }
    writes[9].1 = 1999;
    rig.expect_step_of(0, restored(0x2222), &writes);
    // Word 25 is the first of the record, G.
    let mut rig = at_line(12);
    poke_record(&mut rig, 25, GOOD);
    rig.poke(&[(24, 25)]);
    rig.expect_step_of(0, goes_on(25), &saved(12));
    // Word 25 is the count of three words from 22 up, where word 24 is 1000.
    let mut rig = at_line(12);
    poke_record(&mut rig, Q, [BASE_1, 0x1111, 3, 0x2222, 26, 3000]);
    rig.poke(&[(22, 0xC0), (23, 0xB0), (25, 3)]);
    let lower = |machine: &mut Machine| {
        restored(0x2222)(machine);
        machine.s = 22;
        set_stack(machine, &[Q, 0xB0, 0xC0]);
    };
    rig.expect_step_of(0, lower, &saved(12));
}

/// "A line's transfer restores M from the record (the mask changes)": it decides which
/// line is next.
#[test]
fn the_new_mask_decides() {
    // Both are open; the good process masks line 13 and 9.
    let mut rig = at_line(15);
    rig.machine.m = 0;
    rig.poke(&[(26, 65_535), (18, 65_535)]);
    rig.requests = bit(15) | bit(13) | bit(9);
    let answer = rig.run(1);
    assert_eq!(answer.requests, bit(13) | bit(9));
    // RTN of module 1 with three words at L = 1111 hex above H: 34, and no line.
    let answer = rig.run(9);
    assert_eq!((answer.number, answer.count), (34, 0));
    assert_eq!(answer.requests, bit(13) | bit(9));
    // Masked at first, and open behind the line: it fails.
    let mut rig = at_line(14);
    rig.machine.m = bit(15) | bit(8);
    rig.poke(&[(30, 65_535)]);
    rig.requests = bit(15) | bit(14) | bit(8);
    let answer = rig.run(9);
    assert_eq!((answer.number, answer.count), (35, 1));
    assert_eq!(answer.requests, bit(15) | bit(8));
    assert_eq!(rig.machine.p, Q);
}

/// A program that writes word 3 lets a line pass, or holds it, at once.
#[test]
fn word_3_is_read_before_each_instruction() {
    // Word 3 becomes 0; NOP; TRAP with 9.
    let mut rig = Rig::plain(&[0o003, 0o000, 0o160, NOP, 0o011, TRAP]);
    rig.poke(&[(3, bit(8)), (16, 131)]);
    rig.requests = bit(8);
    assert_eq!((rig.run(3).number, rig.requests), (30, bit(8)));
    let answer = rig.run(1);
    assert_eq!((answer.count, answer.requests, rig.machine.pc), (1, 0, 3));
    // In one run: three instructions, the line, two more.
    let mut rig = Rig::plain(&[0o003, 0o000, 0o160, NOP, 0o011, TRAP]);
    rig.poke(&[(3, bit(8)), (16, 131)]);
    rig.requests = bit(8);
    let answer = rig.run(99);
    assert_eq!((answer.number, answer.code, answer.count), (40, 9, 6));
    assert_eq!((answer.requests, rig.store[17]), (0, 131));
}

/// What a line saves may be word 3: from 1 up the count 2, which lets line 8 pass;
/// from 2 up the word 10B hex, which holds it.
#[test]
fn word_3_may_be_saved_over() {
    for (s, held, left) in [(1, bit(8), 0), (2, 0, bit(8))] {
        let mut rig = at_line(15);
        rig.machine.m = 0;
        rig.machine.s = s;
        rig.machine.stack[0] = 0x10B;
        rig.poke(&[(HELD, held), (16, Q)]);
        rig.requests = bit(15) | bit(8);
        // Line 8 has the target P then; else a RTN stops with 34.
        let answer = rig.run(2);
        assert_eq!(answer.requests, left);
        assert_eq!(answer.count, 2 - u32::from(left != 0));
    }
}

/// What a line saves may name the target of another: L is 1100, from P = 15 up word
/// 16, where line 8 would go to 65,535.
#[test]
fn a_vector_may_be_saved_over() {
    let mut rig = at_line(15);
    (rig.machine.m, rig.machine.p, rig.machine.l) = (0, 15, 1100);
    poke_record(&mut rig, 1100, [BASE_1, 5, 0, 0, 1201, 4096]);
    rig.poke(&[(16, 65_535), (1200, 0)]);
    rig.requests = bit(15) | bit(8);
    let answer = rig.run(2);
    assert_eq!((answer.number, answer.count, answer.requests), (30, 2, 0));
    assert_eq!((rig.machine.p, rig.store[31], rig.store[17]), (1100, 15, Q));
}

/// "A refused run returns the word as given."
#[test]
fn a_refused_run_returns_the_word() {
    let good = at_line(8);
    for (number, spoil) in SPOILED {
        for requests in [0xFFFF, 0xA55A, 0x0100, 0x00FF, 0] {
            let mut rig = good.clone();
            rig.requests = requests;
            spoil(&mut rig);
            let answer = rig.run(5);
            assert_eq!((answer.number, answer.requests), (number, requests));
            assert_eq!(rig.requests, requests);
        }
    }
}

/// The same for 10, which a rig cannot have; in a case the next run gets the word.
#[test]
fn the_word_is_handed_on() {
    use second::case::{replay, Case, CaseRun};
    // NOP and a jump back. Line 9 has the target P = 131; line 15 is masked.
    let run = |budget, requests, channels: usize| CaseRun {
        budget,
        requests,
        inputs: vec![0; channels],
        ..CaseRun::default()
    };
    let mut runs = vec![
        run(3, None, 16),
        run(3, Some(0x8201), 15),
        run(0, None, 16),
        run(2, None, 16),
        run(2, None, 16),
        run(2, Some(0x0200), 16),
        run(1, None, 16),
    ];
    runs[0].store_patches = vec![(18, 131), (3, 0x8000)];
    let case = Case {
        image: vec![1, 0, 0, 3, NOP, 0o035, 2],
        map_length: 7,
        store_length: 200,
        outputs: vec![0; 16],
        runs,
        ..Case::default()
    };
    let outcome = replay(&case, &mut ());
    let answers: Vec<(u8, u32, u16, u16)> = outcome
        .runs
        .iter()
        .map(|run| {
            let answer = run.answer;
            (answer.number, answer.count, run.requests, answer.requests)
        })
        .collect();
    let expected = [
        (30, 3, 0, 0),
        (10, 0, 0x8201, 0x8201),
        (30, 0, 0x8201, 0x8201),
        (30, 2, 0x8201, 0x8001),
        (30, 2, 0x8001, 0x8001),
        (30, 2, 0x0200, 0),
        (30, 1, 0, 0),
    ];
    assert_eq!(answers, expected);
}

/// "Running n and then m agrees with n + m if the second call gets the word the first
/// returned."
#[test]
fn n_and_then_m() {
    // Three lines: to Q, at the jump behind the NOP with two words, to Z again, and
    // to P, which is Z.
    let start = || {
        let mut rig = at_line(15);
        rig.machine.m = 0;
        poke_record(&mut rig, Q, [BASE_0, 4, here(&[0; 2]) + 1, 0, 2003, 3000]);
        rig.poke(&[(2002, 2), (26, Z), (20, Z)]);
        rig.requests = bit(15) | bit(13) | bit(10) | 7;
        rig
    };
    let mut whole = start();
    let total = whole.run(9);
    assert_eq!((total.number, total.count, total.requests), (30, 9, 7));
    for n in 0..9 {
        let mut parts = start();
        assert_eq!(parts.run(n).count, n);
        let rest = parts.run(9 - n);
        assert_eq!((rest.number, rest.count, rest.requests), (30, 9 - n, 7));
        assert_eq!(parts.machine, whole.machine);
        assert_eq!(parts.store, whole.store);
    }
}

/// A clock process in another module counts on output 1 and transfers back. The main
/// program is interrupted between a STORE and its LODFW, with two words saved.
#[test]
fn an_expression_is_interrupted() {
    // LI5, LI6, STORE, LI7, LODFW; WRITE: output 6 becomes 7; TRAP with 5.
    let main = [0o005, 0o006, 0o262, 0o007, 0o260, 0o241, TRAP];
    // LI1, LIB 9, WRITE; LIB 20, LIB 21, TRA 1; JPB to the beginning.
    let clock = [
        0o001, 0o020, 9, 0o241, 0o020, 20, 0o020, 21, 0o256, 1, 0o035, 11,
    ];
    let mut rig = Rig::new(&[Source::plain(&main), Source::plain(&clock)], 400);
    // At the LODFW.
    assert_eq!(rig.run(4).number, 30);
    assert_eq!((rig.machine.pc, rig.stack()), (4, &[7][..]));
    // The clock's process: base 131, no words.
    poke_record(&mut rig, 300, [131, 0, 0, 0xFF00, 311, 400]);
    rig.poke(&[(20, 300), (310, 0)]);
    let before = rig.machine;
    rig.requests = bit(10);
    assert_eq!(rig.run(1).count, 1);
    assert_eq!(
        (rig.machine.module, rig.machine.pc, rig.machine.p),
        (1, 0, 300)
    );
    assert_eq!((rig.machine.m, rig.requests), (0xFF00, 0));
    // Z is 134. The 7 is saved behind 6, 5 and their count.
    let s = usize::from(before.s);
    assert_eq!(rig.store[s - 3..s + 2], [6, 5, 2, 7, 1]);
    assert_eq!(rig.store[21], 134);
    assert_eq!(rig.run(6).number, 30);
    assert_eq!(rig.machine, before);
    assert_eq!((rig.outputs[1], rig.store[20]), (9, 300));
    let answer = rig.run(99);
    assert_eq!((answer.number, answer.code, answer.count), (40, 5, 2));
    assert_eq!(rig.outputs[6], 7);
}

/// A line before a call, in it, and before its return.
#[test]
fn a_call_is_interrupted() {
    // CL1, TRAP with 3 behind it; procedure 1 is NOP and RTN.
    let code = [0o361, 0o003, TRAP, NOP, RTN];
    let source = Source {
        procedures: vec![procedure(0, 0, 0), procedure(3, 0, 0)],
        ..Source::plain(&code)
    };
    for n in 0..3 {
        let mut rig = Rig::new(std::slice::from_ref(&source), 400);
        assert_eq!(rig.run(n).number, 30);
        let before = rig.machine;
        // To a process at the NOP, and back to 131 by another line.
        poke_record(&mut rig, 300, [128, 9, 3, 0, 311, 400]);
        rig.poke(&[(310, 0), (30, 300), (28, 131)]);
        rig.requests = bit(15);
        assert_eq!((rig.run(1).count, rig.machine.p), (1, 300));
        rig.requests = bit(14);
        assert_eq!((rig.run(1).count, rig.machine), (1, before));
        let answer = rig.run(99);
        assert_eq!((answer.number, answer.code), (40, 3));
        assert_eq!(answer.count, 4 - n);
    }
}

/// "The desk program gives 0."
#[test]
fn the_desk() {
    let example = [0x01, 0x00, 0x00, 0x04, 0x02, 0x07, 0xA1, 0xEC];
    let reading = desk(&example);
    let with = |requests| desk_with_requests(&example, requests, 0);
    assert_eq!(with(0), reading);
    assert_eq!(with(200), format!("{reading}requests 200\n"));
    // A vector of zeros: word 0 is no base.
    let failed = "stop 35 code 0 steps 0 module 0 pc 0 depth 0\n\
                  0 0 0 0 0 0 0 0 0 0 0 0 0 0 0 0\nrequests 32769\n";
    assert_eq!(with(32_769), failed);
    assert_eq!(desk_with_requests(&[2], 256, 0), "refused 3\n");
}

/// Requests that are given after some steps of the desk's 1,000.
#[test]
fn the_desk_with_requests_later() {
    let example = [0x01, 0x00, 0x00, 0x04, 0x02, 0x07, 0xA1, 0xEC];
    // The line comes before the end, or is never given.
    let failed = |steps: u32, depth: u32, output: u32| {
        format!(
            "stop 35 code 0 steps {steps} module 0 pc {steps} depth {depth}\n\
             0 0 {output} 0 0 0 0 0 0 0 0 0 0 0 0 0\nrequests 256\n"
        )
    };
    for (after, expected) in [
        (1, failed(1, 1, 0)),
        (2, failed(2, 2, 0)),
        (3, failed(3, 0, 7)),
        (4, format!("{}requests 256\n", desk(&example))),
    ] {
        assert_eq!(desk_with_requests(&example, 256, after), expected);
        assert_eq!(desk_with_requests(&example, 0, after), desk(&example));
    }
    // JPB to itself: the steps are the desk's in all.
    let circle = [1, 0, 0, 2, 0x1D, 1];
    let zeros = ["0"; 16].join(" ");
    for (after, stop, steps) in [
        (999, 35, 999),
        (1_000, 30, 1_000),
        (1_001, 30, 1_000),
        (u32::MAX, 30, 1_000),
    ] {
        let first = format!("stop {stop} code 0 steps {steps} module 0 pc 0 depth 0");
        let expected = format!("{first}\n{zeros}\nrequests 256\n");
        assert_eq!(desk_with_requests(&circle, 256, after), expected);
    }
}
