//! A.2: "A return must carry what the procedure promised."

use crate::rig::{at_instruction, at_instruction_of, entry, entry_of, module, procedure};
use crate::rig::{run_number, Rig, BASE_0, FF, FOR_EVER, WORDS};
use second::assemble::{encode, Source};
use second::{desk, load, Machine};

const LI1: u8 = 0o001;
const SLW4: u8 = 0o064;
const TRAP: u8 = 0o304;
const NOP: u8 = 0o336;
const RTN: u8 = 0o354;

/// So many words, and then these bytes.
fn words_and(count: u8, rest: &[u8]) -> Vec<u8> {
    [&vec![LI1; count.into()], rest].concat()
}

/// The map entry of a mark where nothing is saved.
fn mark(depth: u8, results: u8) -> u32 {
    entry_of(depth.into(), results.into(), &[])
}

/// Load's map of the last module's code, or None for refusal 8, which leaves all
/// ones over the image's length.
fn marks(modules: &[Source]) -> Option<Vec<u32>> {
    let image = encode(modules);
    let mut map = vec![0x77; image.len() + 1];
    let number = load(&image, &mut map).number;
    assert_eq!(map.pop(), Some(0x77));
    match number {
        0 => Some(map.split_off(image.len() - modules.last()?.code.len())),
        8 => {
            assert_eq!(map, vec![FF; image.len()]);
            None
        }
        number => panic!("load {number}"),
    }
}

/// The same of one procedure, behind a module 0 that only returns.
fn marks_of(parameters: u8, results: u8, code: &[u8]) -> Option<Vec<u32>> {
    let procedures = [procedure(0, parameters, results)];
    marks(&[Source::plain(&[RTN]), module(&procedures, code)])
}

/// "an entry has its procedure's, and a successor has its predecessor's"
#[test]
fn entries_and_successors_carry_the_result_count() {
    for results in 0..=4 {
        for parameters in 0..=16 {
            let mark = mark(parameters, results);
            let code = [NOP, FOR_EVER[0], FOR_EVER[1]];
            let expected = vec![mark, mark, FF];
            assert_eq!(marks_of(parameters, results, &code), Some(expected));
        }
        // LI1, LI1, JPFC to the TRAP, COPT, SLW4, TRAP.
        let code = [LI1, LI1, 0o032, 3, 0o265, SLW4, TRAP];
        let mut expected = [0, 1, 2, 0, 1, 2, 1].map(|depth| mark(depth, results));
        expected[3] = FF;
        assert_eq!(marks_of(0, results, &code), Some(expected.to_vec()));
    }
    // A module without records has one procedure without results.
    assert_eq!(
        marks(&[Source::plain(&[LI1, SLW4, RTN])]),
        Some(vec![0, 1, 0])
    );
}

/// "RTN needs a depth equal to it": 8 with one word too many or too few.
#[test]
fn a_return_has_just_the_results() {
    for results in 0..=4 {
        for depth in 0..=16 {
            let right = depth == results;
            let put = marks_of(0, results, &words_and(depth, &[RTN]));
            assert_eq!(put.is_some(), right, "{depth} words, {results} results");
            let taken = marks_of(depth, results, &[RTN]);
            assert_eq!(taken, right.then(|| vec![mark(depth, results)]));
        }
    }
    // Each return of a procedure: LI1, JPFC to the second one, LI1, RTN, then
    // RTN with one word less.
    let code = |last: &[u8]| [&[LI1, 0o032, 3, LI1, RTN], last].concat();
    assert!(marks_of(0, 1, &code(&[LI1, RTN])).is_some());
    assert_eq!(marks_of(0, 1, &code(&[RTN])), None);
    assert_eq!(marks_of(0, 1, &code(&[LI1, LI1, RTN])), None);
    // Where nothing reaches it, a return may stand as it likes.
    assert_eq!(
        marks_of(0, 1, &[LI1, RTN, RTN]),
        Some(vec![mark(0, 1), mark(1, 1), FF])
    );
}

/// The main program calls 1, which promises a word and returns with two: "They
/// pass load, then stop with 34 in the field." 8 comes after 7.
#[test]
fn one_word_too_many_is_8() {
    let program = |words: u8| {
        let procedures = [procedure(0, 0, 0), procedure(3, 0, 1)];
        let code = [&[0o361, SLW4, RTN], &words_and(words, &[RTN])[..]].concat();
        encode(&[module(&procedures, &code)])
    };
    assert!(desk(&program(1)).starts_with("stop 31 code 0 steps 4 "));
    assert_eq!(desk(&program(2)), "refused 8\n");
    assert_eq!(desk(&program(0)), "refused 8\n");
    let image = program(2);
    assert_eq!(load(&image, &mut vec![0; image.len() - 1]).number, 7);
}

/// The main program may have results too, and ends with them.
#[test]
fn the_main_program_has_its_results() {
    for results in 0..=4 {
        let main = |depth| module(&[procedure(0, 0, results)], &words_and(depth, &[RTN]));
        let mut rig = Rig::new(&[main(results)], WORDS);
        let answer = rig.run(100);
        assert_eq!((answer.number, answer.count), (31, results.into()));
        assert_eq!(rig.machine.depth, results);
        assert_eq!(marks(&[main(results + 1)]), None);
    }
}

/// "RTN and TRAP have no successor": only RTN has a rule.
#[test]
fn a_trap_fits_at_any_depth() {
    for results in 0..=4 {
        for depth in 1..=16 {
            let expected = Some(vec![mark(depth, results)]);
            assert_eq!(marks_of(depth, results, &[TRAP]), expected);
        }
        assert_eq!(marks_of(0, results, &[TRAP]), None);
    }
}

/// The next position has the callee's results as its depth, and the caller's
/// own result count.
#[test]
fn a_call_keeps_the_callers_result_count() {
    for own in 0..=4u8 {
        for given in 0..=4u8 {
            // Main calls 1 at position 2, and stores or puts what differs.
            let stored = vec![SLW4; given.saturating_sub(own).into()];
            let put = vec![LI1; own.saturating_sub(given).into()];
            let main = [&[0o353, 1, 0o361], &stored[..], &put, &[RTN]].concat();
            let callee = words_and(given, &[RTN]);
            let procedures = [procedure(0, 0, own), procedure(main.len() as u16, 0, given)];
            let module = module(&procedures, &[&main[..], &callee].concat());
            let map = marks(std::slice::from_ref(&module)).unwrap();
            assert_eq!(map[2..4], [mark(0, own), mark(given, own)]);
            assert_eq!(map[main.len() - 1], mark(own, own));
            assert_eq!(map[main.len()], mark(0, given));
            assert_eq!(map.last(), Some(&mark(given, given)));
            let mut rig = Rig::new(&[module], WORDS);
            assert_eq!(rig.run(100).number, 31);
            assert_eq!(rig.machine.depth, own);
        }
    }
    // The same for the other calls: CL, CI with a link, CX.
    for call in [&[0o360, 1][..], &[LI1, 0o356, 1], &[0o355, 0, 1]] {
        let code = [call, &[SLW4, TRAP, LI1, LI1, RTN]].concat();
        let entry = call.len() + 2;
        let procedures = [procedure(0, 0, 3), procedure(entry as u16, 0, 2)];
        let map = marks(&[module(&procedures, &code)]).unwrap();
        assert_eq!(map[call.len()..entry], [mark(2, 3), mark(1, 3)]);
    }
}

/// "Code shared by procedures with other counts does not fit": entries, also
/// where the code never returns.
#[test]
fn shared_entries_need_equal_results() {
    for one in 0..=4 {
        for other in 0..=4 {
            let shared = |parameters, code: &[u8]| {
                let procedures = [
                    procedure(0, 0, 0),
                    procedure(1, parameters, one),
                    procedure(1, parameters, other),
                ];
                marks(&[module(&procedures, &[&[RTN], code].concat())])
            };
            let equal = one == other;
            let expected = equal.then(|| vec![0, mark(2, one)]);
            assert_eq!(shared(2, &[TRAP]), expected);
            let expected = equal.then(|| vec![0, mark(0, one), FF]);
            assert_eq!(shared(0, &FOR_EVER), expected);
            let expected = equal.then(|| vec![0, mark(one, one)]);
            assert_eq!(shared(one, &[RTN]), expected);
        }
    }
    // Equal parameters are needed as before.
    let procedures = [procedure(0, 0, 0), procedure(1, 2, 3), procedure(1, 3, 3)];
    assert_eq!(marks(&[module(&procedures, &[RTN, TRAP])]), None);
}

/// Two procedures that run into the same code by a jump, or into an entry.
#[test]
fn shared_code_needs_equal_results() {
    // 1 at position 1: LI1, JPF to 5. 2 at position 4: LI1. At 5 the code that
    // they share, with one word.
    let endings: [(&[u8], &[u32]); 3] = [(&[TRAP], &[]), (&[RTN], &[]), (&FOR_EVER, &[FF])];
    for (ending, unmarked) in endings {
        for one in 0..=4 {
            for other in 0..=4 {
                let procedures = [
                    procedure(0, 0, 0),
                    procedure(1, 0, one),
                    procedure(4, 0, other),
                ];
                let code = [&[RTN, LI1, 0o033, 2, LI1], ending].concat();
                let [none, word] = [mark(0, one), mark(1, one)];
                let expected = [&[0, none, word, FF, none, word], unmarked].concat();
                let fits = one == other && (ending[0] != RTN || one == 1);
                assert_eq!(
                    marks(&[module(&procedures, &code)]),
                    fits.then_some(expected),
                    "{ending:?} {one} {other}"
                );
            }
        }
    }
    // The main program goes on into procedure 1.
    for results in 0..=4 {
        let procedures = [procedure(0, 0, 2), procedure(1, 1, results)];
        let fits = marks(&[module(&procedures, &[LI1, LI1, RTN])]).is_some();
        assert_eq!(fits, results == 2);
    }
}

/// Run tests a lent map by the same rules. Marks beyond the fewest have any
/// result count, if it agrees with them.
#[test]
fn run_tests_the_result_counts_of_a_lent_map() {
    for depth in 0..=16 {
        for results in 0..=4 {
            let here = mark(depth, results);
            let number = |fits| if fits { 30 } else { 12 };
            // A return needs its depth, a TRAP only its word.
            let returns = depth == results;
            assert_eq!(run_number(&[RTN, RTN], &[0, here]), number(returns));
            assert_eq!(run_number(&[RTN, TRAP], &[0, here]), number(depth > 0));
            // A successor has the same results.
            let code = [RTN, NOP, FOR_EVER[0], FOR_EVER[1]];
            for other in 0..=4 {
                let part = [0, here, mark(depth, other), FF];
                assert_eq!(run_number(&code, &part), number(other == results));
            }
            // So has the next position of a call, here of procedure 0.
            let code = [RTN, 0o360, 0, FOR_EVER[0], FOR_EVER[1]];
            let part = [0, here, FF, mark(0, results), FF];
            assert_eq!(run_number(&code, &part), number(depth == 0));
            let part = [0, mark(0, results), FF, mark(0, (results + 1) % 5), FF];
            assert_eq!(run_number(&code, &part), 12);
        }
    }
    // An entry has its procedure's, all along the code too.
    let code = [NOP, FOR_EVER[0], FOR_EVER[1]];
    assert_eq!(run_number(&code, &[0, 0, FF]), 30);
    for results in 1..=4 {
        let other = mark(0, results);
        assert_eq!(run_number(&code, &[other, other, FF]), 12);
        assert_eq!(run_number(&code, &[other, 0, FF]), 12);
        assert_eq!(run_number(&code, &[0, other, FF]), 12);
    }
}

/// A return with two words from a main program with two results: procedure 14
/// has the depth 2 at its entry, and gives 1.
#[test]
fn a_landing_compares_the_depth_only() {
    let landing = |position: u16| {
        let mut rig = at_instruction_of(2, &[RTN], &[7, 8], &[RTN]);
        rig.machine.l = 1000;
        rig.poke(&[(1000, BASE_0), (1001, 77), (1002, position)]);
        rig
    };
    let landed = |machine: &mut Machine| {
        machine.pc = entry(14);
        machine.s = 1000;
        machine.l = 77;
    };
    landing(entry(14)).expect_step(landed, &[]);
    landing(0x8000 + entry(14)).expect_step(landed, &[]);
    // The same results, but another depth: position 0, the first jump.
    landing(0).expect_stop(34, 0);
    landing(0x8000).expect_stop(34, 0);
    // No mark: its operand.
    landing(1).expect_stop(34, 0);
    landing(0x8001).expect_stop(34, 0);
}

/// A transfer from a main program without results to that entry, with the
/// record at word 1000 and two saved words below 2002.
#[test]
fn a_restore_compares_the_depth_only() {
    let restore = |position: u16, count: u16| {
        let mut rig = at_instruction(&[0o256, 0], &[901, 900]);
        rig.poke(&[(900, 1000), (2000, 6), (2001, 5), (2002, count)]);
        let record = [BASE_0, 0, position, 0, 2003, 3000];
        let places: Vec<(u16, u16)> = (1000..).zip(record).collect();
        rig.poke(&places);
        rig
    };
    let mut rig = restore(entry(14), 2);
    assert_eq!(rig.run(1).count, 1);
    assert_eq!((rig.machine.pc, rig.stack()), (entry(14), &[5, 6][..]));
    // Another depth, and the map entry itself for the count.
    restore(entry(14), 1).expect_stop(35, 0);
    restore(entry(14), mark(2, 1) as u16).expect_stop(35, 0);
    restore(1, 2).expect_stop(35, 0);
}

/// "a position marked with its depth" is one whatever its results are.
#[test]
fn a_machine_compares_the_depth_only() {
    let number = |pc: u16, depth: u8| {
        let mut rig = at_instruction(&[NOP], &[]);
        (rig.machine.pc, rig.machine.depth) = (pc, depth);
        rig.run(0).number
    };
    assert_eq!(number(entry(14), 2), 30);
    assert_eq!(number(entry(14), mark(2, 1) as u8), 11);
    assert_eq!(number(entry(14), 1), 11);
    assert_eq!(number(entry(15), 16), 30);
    assert_eq!(number(entry(15), mark(16, 4) as u8), 11);
    // The operand of the first jump is unmarked.
    assert_eq!(number(1, 0), 11);
    assert_eq!(number(1, 255), 11);
    assert_eq!(number(1, 31), 11);
}
