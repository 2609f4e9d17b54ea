//! The kinds of A.5 and A.6 in the coverage: each is told apart from what is near
//! it.

use crate::generated::{case_of, case_of_modules, reached, reached_of_reasons};
use crate::rig::entry_of;
use second::assemble::Source;
use second::case::CaseRun;
use second::Machine;

const LI1: u8 = 0o001;
const JPFC: u8 = 0o032;
const JPF: u8 = 0o033;
const JPB: u8 = 0o035;
const LODFW: u8 = 0o260;
const STORE: u8 = 0o262;
const TRAP: u8 = 0o304;
const NOP: u8 = 0o336;
const RTN: u8 = 0o354;

/// Entry, parameters and results of the main program.
const MAIN: (u16, u8, u8) = (0, 0, 0);

fn missing(line: &str, kinds: &[&str]) -> Vec<String> {
    kinds
        .iter()
        .map(|kind| format!("no {line} {kind}"))
        .collect()
}

/// Why A.5 alone refuses an image, or nothing where another rule does too, or
/// where two rules of A.5 do.
#[test]
fn images_refused_for_saved_depths() {
    let check = |procedures: &[(u16, u8, u8)], code: &[u8], expected: &[&str]| {
        let reached = reached_of_reasons(case_of(procedures, code, &[]));
        let expected = missing("images refused with 8 only for", expected);
        assert_eq!(reached, expected, "{code:?}");
    };
    let main = |code: &[u8], expected: &[&str]| check(&[MAIN], code, expected);
    main(&[STORE, LI1, LODFW, TRAP], &[]);
    let code = [STORE, STORE, STORE, STORE, STORE, LI1, TRAP];
    main(&code, &["a STORE at four saved depths"]);
    main(&code[1..], &[]);
    let depth = ["a LODFW at another depth than 1"];
    main(&[STORE, LODFW, TRAP], &depth);
    main(&[STORE, LI1, LI1, LODFW, TRAP], &depth);
    main(&[LI1, LODFW, TRAP], &["a LODFW without saved depths"]);
    main(&[LODFW, TRAP], &[]);
    main(&[LI1, LI1, LODFW, TRAP], &[]);
    let sixteen = |rest: &[u8]| [&[LI1; 16], rest].concat();
    let code = sixteen(&[STORE, LI1, LODFW, TRAP]);
    main(&code, &["a LODFW with 16 words saved"]);
    main(&sixteen(&[STORE, LODFW, TRAP]), &[]);
    main(&[STORE, RTN], &["a RTN with saved depths"]);
    main(&[STORE, LI1, RTN], &[]);
    // LI1, JPFC to the LI1 or a STORE before it.
    let clash = ["other saved depths at a position"];
    main(&[LI1, JPFC, 2, STORE, LI1, TRAP], &clash);
    main(&[LI1, JPFC, 2, LI1, LI1, TRAP], &[]);
    let entry = ["saved depths at an entry"];
    check(&[MAIN, (1, 0, 0)], &[STORE, LI1, TRAP], &entry);
    check(&[MAIN, (1, 0, 1)], &[STORE, LI1, TRAP], &[]);
    check(&[MAIN, (1, 1, 0)], &[STORE, TRAP], &[]);
    // Two rules, one in each procedure; and a rule beside A.5.
    check(&[MAIN, (2, 0, 0)], &[STORE, RTN, LI1, LODFW, TRAP], &[]);
    check(
        &[MAIN, (2, 0, 0)],
        &[STORE, RTN, STORE, RTN],
        &["a RTN with saved depths"],
    );
    check(&[MAIN, (2, 0, 0)], &[STORE, RTN, TRAP], &[]);
}

/// What a run reaches with these patches of the map. The code is NOP, STORE, LI1,
/// TRAP, then two jumps to themselves, a TRAP and a RTN, from byte 9 on.
fn reached_with(map_patches: &[(u16, u32)]) -> Vec<String> {
    let run = CaseRun {
        map_patches: map_patches.to_vec(),
        ..CaseRun::default()
    };
    let code = [NOP, STORE, LI1, TRAP, JPB, 1, JPB, 1, TRAP, RTN];
    let case = case_of(&[MAIN], &code, &[run]);
    assert_eq!(case.image.len(), 9 + code.len());
    reached_of_reasons(case)
}

const JUMP: u16 = 13;
const OTHER_JUMP: u16 = 15;
const UNREACHED_TRAP: u16 = 17;
const UNREACHED_RTN: u16 = 18;

/// One entry in place of a mark: each flaw, and a mark with other saved depths.
/// NOP has the entry 0, TRAP is at depth 1 with 0 saved.
#[test]
fn one_entry_of_no_mark() {
    let check = |patches: &[(u16, u32)], expected: &[&str]| {
        let line = "runs refused with 12 only for one entry with";
        let mut reached = reached_with(patches);
        reached.retain(|fault| fault.contains("one entry"));
        assert_eq!(reached, missing(line, expected), "{patches:x?}");
    };
    let trap = entry_of(1, 0, &[0]);
    for depth in 17..=31 {
        check(&[(9, depth)], &["a depth above 16"]);
        check(&[(12, trap - 1 + depth)], &["a depth above 16"]);
        check(&[(12, trap | depth << 11)], &["a saved depth above 16"]);
    }
    for more in 5..=7 {
        check(&[(9, more << 5)], &["results above 4"]);
        check(&[(9, more << 8)], &["more than four saved depths"]);
    }
    for bit in 11..31 {
        check(
            &[(9, 1 << bit)],
            &["an unused bit below 31 with none saved"],
        );
    }
    check(
        &[(12, trap | 1 << 16)],
        &["an unused bit below 31 with 1 saved"],
    );
    check(&[(9, 1 << 31)], &["bit 31 with none saved"]);
    check(&[(12, trap | 1 << 31)], &["bit 31 with 1 saved"]);
    let other = ["a mark with other saved depths"];
    check(&[(12, 1)], &other);
    check(&[(12, entry_of(1, 0, &[1]))], &other);
    // Two flaws, other fields beside, two entries, or an entry beyond.
    check(&[(9, 17 | 5 << 5)], &[]);
    check(&[(9, 1 << 31 | 1 << 30)], &[]);
    check(&[(12, 17 | 1 << 8 | 1 << 11)], &[]);
    check(&[(12, entry_of(2, 0, &[1]))], &[]);
    check(&[(9, 17), (12, 17)], &[]);
    check(&[(9, u32::MAX)], &[]);
    check(&[(JUMP, 17)], &[]);
    check(&[(8, 17)], &[]);
}

/// Entries beyond load's marks that agree with one another.
#[test]
fn entries_of_no_mark_beyond_loads_marks() {
    let check = |patches: &[(u16, u32)], expected: &[&str]| {
        let line = "runs refused with 12 only for entries beyond load's marks with";
        assert_eq!(
            reached_with(patches),
            missing(line, expected),
            "{patches:x?}"
        );
    };
    check(&[(UNREACHED_TRAP, 17)], &["a depth above 16"]);
    check(&[(JUMP, 5 << 5)], &["results above 4"]);
    check(&[(JUMP, 7 << 8)], &["more than four saved depths"]);
    check(&[(JUMP, 2 << 8 | 17 << 16)], &["a saved depth above 16"]);
    let lists: [&[u32]; 5] = [&[], &[1], &[1, 2], &[1, 2, 3], &[1, 2, 3, 4]];
    for (saved, list) in ["none", "1", "2", "3", "4"].into_iter().zip(lists) {
        let entry = entry_of(3, 2, list);
        let kind = format!("an unused bit below 31 with {saved} saved");
        for bit in 11 + 5 * list.len()..31 {
            check(&[(JUMP, entry | 1 << bit)], &[&kind]);
        }
        let kind = format!("bit 31 with {saved} saved");
        check(&[(JUMP, entry | 1 << 31)], &[&kind]);
    }
    let results = ["results above 4"];
    check(&[(JUMP, 5 << 5), (OTHER_JUMP, 6 << 5)], &results);
    // A jump would leave 17 words, a TRAP 17 of 18. A return would not fit.
    check(&[(JUMP, 17)], &[]);
    check(&[(UNREACHED_TRAP, 18)], &[]);
    check(&[(UNREACHED_RTN, 1 << 31 | 1)], &[]);
    check(&[(JUMP, 5 << 5), (OTHER_JUMP, 5 << 8)], &[]);
    check(&[(JUMP, 5 << 5), (UNREACHED_RTN, 1)], &[]);
}

/// Marks of a lent map that break a rule of A.5.
#[test]
fn lent_marks_that_break_a_rule() {
    let check = |code: &[u8], marks: &[(u16, u32)], expected: &[&str]| {
        let run = CaseRun {
            map_patches: marks.iter().map(|&(at, mark)| (10 + at, mark)).collect(),
            ..CaseRun::default()
        };
        let code = [&[RTN], code].concat();
        let reached = reached_of_reasons(case_of(&[MAIN], &code, &[run]));
        let line = "runs refused with 12 only for marks with";
        assert_eq!(reached, missing(line, expected), "{code:?}");
    };
    let four = entry_of(0, 0, &[0; 4]);
    check(
        &[STORE, RTN],
        &[(0, four)],
        &["a STORE at four saved depths"],
    );
    let one = |depth| entry_of(depth, 0, &[0]);
    let depth = ["a LODFW at another depth than 1"];
    check(&[LODFW, RTN], &[(0, one(0))], &depth);
    check(&[LODFW, RTN], &[(0, 1)], &["a LODFW without saved depths"]);
    let full = entry_of(1, 0, &[16]);
    check(
        &[LODFW, RTN],
        &[(0, full)],
        &["a LODFW with 16 words saved"],
    );
    check(&[RTN], &[(0, one(0))], &["a RTN with saved depths"]);
    let other = ["other saved depths at a position"];
    check(&[NOP, TRAP], &[(0, one(1)), (1, 1)], &other);
    check(&[LODFW, TRAP], &[(0, one(1)), (1, one(1))], &other);
    check(&[NOP, TRAP], &[(0, one(1)), (1, 2)], &[]);
    check(&[NOP, TRAP], &[(0, one(1)), (1, one(1))], &[]);
}

/// What runs reach of steps and stops. The first has a machine of its own: the
/// store has 200 words, S is 143 and H is 176.
fn steps(procedures: &[(u16, u8, u8)], code: &[u8], runs: &[CaseRun]) -> Vec<String> {
    let mut reached = reached(case_of(procedures, code, runs));
    let lines = ["steps of", "stops of", "calls", "landings of 256", "LODFW"];
    let lines = lines.map(|line| format!("no {line}"));
    let landing = |fault: &str| fault.contains("with saved depths") && fault.contains("354");
    reached.retain(|fault| lines.iter().any(|line| fault.starts_with(line)) || landing(fault));
    reached
}

/// Runs of these budgets.
fn budgets(budgets: &[u32]) -> Vec<CaseRun> {
    let run = |&budget: &u32| CaseRun {
        budget,
        ..CaseRun::default()
    };
    budgets.iter().map(run).collect()
}

/// A run of one step from a machine at a position, with this depth and S.
fn step_at(pc: u16, depth: u8, s: u16, store_patches: &[(u16, u16)]) -> CaseRun {
    let machine = Machine {
        pc,
        depth,
        s,
        h: 176,
        ..Machine::default()
    };
    CaseRun {
        budget: 1,
        machine: Some(machine),
        store_patches: store_patches.to_vec(),
        ..CaseRun::default()
    }
}

/// Literals up to a depth, STORE, LI1, LODFW where it fits, TRAP.
fn saving(depth: u8) -> Vec<u8> {
    let end = if depth <= 15 {
        &[LODFW, TRAP][..]
    } else {
        &[TRAP]
    };
    [&vec![LI1; depth.into()], &[STORE, LI1][..], end].concat()
}

#[test]
fn steps_and_stops_of_store() {
    for (depth, words) in [
        (0, "no word"),
        (1, "1 to 15 words"),
        (15, "1 to 15 words"),
        (16, "16 words"),
    ] {
        let at = |s: u16| {
            steps(
                &[MAIN],
                &saving(depth),
                &[step_at(depth.into(), depth, s, &[])],
            )
        };
        let store = format!("no steps of STORE with {words}");
        let none_saved = "no steps of STORE at saved depths 0".to_string();
        assert_eq!(at(100), [store.clone(), none_saved.clone()]);
        let last = 176 - u16::from(depth) - 1;
        let to_h = "no steps of STORE that raise S to H".to_string();
        assert_eq!(at(last), [store, none_saved, to_h]);
        let stop = format!("no stops of STORE with 33 with {words}");
        assert_eq!(at(last + 1), [stop]);
    }
    // Where three are saved.
    let code = [STORE, STORE, STORE, STORE, LI1, TRAP];
    let reached = steps(&[MAIN], &code, &[step_at(3, 0, 100, &[])]);
    let expected = [
        "no steps of STORE with no word",
        "no steps of STORE at saved depths 3",
    ];
    assert_eq!(reached, expected);
}

#[test]
fn steps_and_stops_of_lodfw() {
    let at =
        |s: u16, patches: &[(u16, u16)]| steps(&[MAIN], &saving(2), &[step_at(4, 1, s, patches)]);
    let step = [
        "no steps of LODFW with front 2",
        "no steps of LODFW at saved depths 1",
    ];
    assert_eq!(at(100, &[(99, 2)]), step);
    assert_eq!(at(4, &[(3, 2)]), step);
    let to_0 = [step[0], step[1], "no steps of LODFW that lower S to 0"];
    assert_eq!(at(3, &[(2, 2)]), to_0);
    let stop = |why: &str| [format!("no stops of LODFW with 34 by {why}")];
    assert_eq!(at(100, &[(99, 3)]), stop("the count alone"));
    assert_eq!(at(100, &[]), stop("the count alone"));
    assert_eq!(at(2, &[(1, 2)]), stop("S alone, with the right count"));
    assert_eq!(at(1, &[(0, 2)]), stop("S alone, with the right count"));
    assert_eq!(at(2, &[(1, 1)]), [""; 0]);
    assert_eq!(at(2, &[(1, 2), (1, 1)]), [""; 0]);
    assert_eq!(at(0, &[]), stop("S = 0"));
}

/// What was written over between a STORE and its LODFW: words at 143 and 144,
/// their count at 145.
#[test]
fn words_written_over() {
    let since = |patches: &[(u16, u16)]| {
        let mut runs = budgets(&[2, 1, 1, 1]);
        runs[2].store_patches = patches.to_vec();
        let mut reached = steps(&[MAIN], &saving(2), &runs);
        reached.retain(|fault| fault.contains("behind STORE"));
        reached
    };
    let kind = |kind: &str| format!("no steps of LODFW behind STORE with {kind}");
    let (nothing, word) = (kind("nothing written over"), kind("a word written over"));
    let count = kind("the count written over by its like");
    assert_eq!(since(&[]), [&nothing[..]]);
    assert_eq!(since(&[(142, 9), (146, 9)]), [&nothing[..]]);
    assert_eq!(since(&[(143, 9)]), [&word[..]]);
    assert_eq!(since(&[(144, 9)]), [&word[..]]);
    assert_eq!(since(&[(145, 2)]), [&count[..]]);
    assert_eq!(since(&[(145, 3)]), [""; 0]);
    assert_eq!(since(&[(144, 9), (145, 2)]), [word, count]);
}

/// A front that only a lent map has.
#[test]
fn fronts_of_a_lent_map() {
    let with = |count: u16| {
        // RTN at byte 9, LODFW at 10, JPB at 11.
        let mut run = step_at(1, 1, 100, &[(99, count)]);
        run.map_patches = vec![(10, entry_of(1, 0, &[3])), (11, 4)];
        let mut reached = steps(&[MAIN], &[RTN, LODFW, JPB, 1], &[run]);
        reached.retain(|fault| fault.starts_with("no LODFW"));
        reached
    };
    assert_eq!(with(3), ["no LODFW beyond load's marks that goes on"]);
    assert_eq!(with(2), ["no LODFW beyond load's marks that stops with 34"]);
    let mut load_has_it = steps(&[MAIN], &saving(2), &[step_at(4, 1, 100, &[(99, 2)])]);
    load_has_it.retain(|fault| fault.starts_with("no LODFW"));
    assert_eq!(load_has_it, [""; 0]);
}

/// Calls, and the landing behind them.
#[test]
fn calls_and_landings_with_saved_depths() {
    let calls: [(&[u8], &str); 4] = [
        (&[0o361], "CL1"),
        (&[0o360, 1], "CL"),
        (&[0o355, 0, 1], "CX"),
        (&[LI1, 0o356, 1], "CI"),
    ];
    for (call, name) in calls {
        // STORE or a NOP, the call, LI1, TRAP; the procedure returns.
        let reached = |first: u8| {
            let code = [&[first], call, &[LI1, TRAP, RTN]].concat();
            let entry = code.len() as u16 - 1;
            let before = if name == "CI" { 2 } else { 1 };
            steps(&[MAIN, (entry, 0, 0)], &code, &budgets(&[before, 1, 1]))
        };
        let expected = [
            format!("no calls where depths are saved by {name}"),
            "no landings of 354 at a position with saved depths".to_string(),
        ];
        let mut with_store = reached(STORE);
        with_store.retain(|fault| !fault.starts_with("no steps"));
        assert_eq!(with_store, expected);
        assert_eq!(reached(NOP), [""; 0]);
    }
}

/// A transfer to position 0 or to one where others are saved: LI1, LI1, TRA, or
/// the same behind a STORE; then JPF to the end.
#[test]
fn restores_with_saved_depths() {
    let transfer = |from: u16, to: u16| {
        // NOP, LI1, LI1, TRA at 3, STORE at 5, LI1, LI1, TRA at 8, STORE at 10.
        let code = [
            NOP, LI1, LI1, 0o256, 0, STORE, LI1, LI1, 0o256, 0, STORE, LI1, JPF, 1, TRAP,
        ];
        let record = [128, 0, to, 0, 151, 200];
        let mut patches: Vec<(u16, u16)> = (160..).zip(record).collect();
        patches.extend([(150, 0), (40, 160)]);
        let mut run = step_at(from, 2, 100, &patches);
        let mut machine = run.machine.unwrap();
        machine.p = 131;
        machine.stack[..2].copy_from_slice(&[41, 40]);
        run.machine = Some(machine);
        steps(&[MAIN], &code, &[run])
    };
    let landing = |kind: &str| [format!("no landings of 256 from {kind}")];
    assert_eq!(transfer(3, 0), [""; 0]);
    assert_eq!(transfer(3, 6), landing("none to saved depths"));
    assert_eq!(transfer(8, 0), landing("saved depths to none"));
    assert_eq!(transfer(8, 6), [""; 0]);
    assert_eq!(transfer(8, 11), landing("saved depths to others"));
}

/// What a run reaches of A.6: literals, an operator, NOP and TRAP, from a machine
/// at a position with these words.
fn reached_of_results(opcode: u8, words: &[u16], budget: u32) -> Vec<String> {
    let depth = words.len();
    let mut run = step_at(depth as u16, depth as u8, 143, &[]);
    run.budget = budget;
    let machine = run.machine.as_mut().unwrap();
    machine.stack[..depth].copy_from_slice(words);
    let code = [LI1, LI1, opcode, NOP, TRAP];
    let mut reached = reached(case_of(&[MAIN], &code, &[run]));
    let lines = ["no steps of U", "no stops of U"];
    reached.retain(|fault| lines.iter().any(|line| fault.starts_with(line)));
    reached
}

/// UADD, USUB or UMUL as the only step, or as a stop before any.
fn check_result(opcode: u8, c: u16, a: u16, expected: &[&str]) {
    let reached = reached_of_results(opcode, &[c, a], 1);
    assert_eq!(reached, expected, "{opcode:03o} {c} {a}");
}

#[test]
fn unsigned_sums() {
    let check = |c, a, expected| check_result(0o270, c, a, &[expected]);
    check(0, 0, "no steps of UADD with the result 0");
    let between = "no steps of UADD with the result 1 to 65534";
    check(0, 1, between);
    check(65_533, 1, between);
    check(65_534, 1, "no steps of UADD with the result 65535");
    check(65_535, 1, "no stops of UADD with 37 with the result 65536");
    let between = "no stops of UADD with 37 with the result 65537 to 131069";
    check(65_535, 2, between);
    check(65_535, 65_534, between);
    let furthest = "no stops of UADD with 37 with the result 131070";
    check(65_535, 65_535, furthest);
}

#[test]
fn unsigned_differences() {
    let check = |c, a, expected| check_result(0o271, c, a, &[expected]);
    check(7, 7, "no steps of USUB with the result 0");
    let between = "no steps of USUB with the result 1 to 65534";
    check(8, 7, between);
    check(65_535, 1, between);
    check(65_535, 0, "no steps of USUB with the result 65535");
    check(7, 8, "no stops of USUB with 37 with the result -1");
    let between = "no stops of USUB with 37 with the result -65534 to -2";
    check(7, 9, between);
    check(1, 65_535, between);
    check(0, 65_535, "no stops of USUB with 37 with the result -65535");
}

#[test]
fn unsigned_products() {
    let check = |c, a, expected: &[&str]| check_result(0o272, c, a, expected);
    check(0, 65_535, &["no steps of UMUL with the result 0"]);
    let between = ["no steps of UMUL with the result 1 to 65534"];
    check(1, 1, &between);
    check(2, 32_767, &between);
    check(255, 257, &["no steps of UMUL with the result 65535"]);
    let low_0 = "no stops of UMUL with 37 with the low word 0";
    let other = "no stops of UMUL with 37 with the low word other than 0";
    let first = "no stops of UMUL with 37 with the result 65536";
    check(256, 256, &[first, low_0]);
    let between = "no stops of UMUL with 37 with the result 65537 to 4294836224";
    check(2, 32_769, &[between, other]);
    check(512, 256, &[between, low_0]);
    check(65_535, 65_534, &[between, other]);
    let furthest = "no stops of UMUL with 37 with the result 4294836225";
    check(65_535, 65_535, &[furthest, other]);
}

/// The instruction must be the only one of its run.
#[test]
fn results_that_are_not_seen() {
    let sum = |words: &[u16], budget| reached_of_results(0o270, words, budget);
    assert_eq!(sum(&[65_534, 1], 1).len(), 1);
    assert_eq!(sum(&[65_535, 1], 1).len(), 1);
    // No step, and one more.
    assert_eq!(sum(&[65_534, 1], 0), [""; 0]);
    assert_eq!(sum(&[65_534, 1], 2), [""; 0]);
    assert_eq!(sum(&[65_535, 1], 0), [""; 0]);
    // A stop ends the run, whatever its budget.
    assert_eq!(sum(&[65_535, 1], 2), sum(&[65_535, 1], 1));
    // The LI1 before it is a step.
    assert_eq!(sum(&[65_534], 2), [""; 0]);
    assert_eq!(sum(&[65_535], 2), [""; 0]);
    // Another operator, with a signed result outside.
    assert_eq!(reached_of_results(0o330, &[32_767, 1], 1), [""; 0]);
}

/// The sums that are put: the last that is inside, and the first that goes round.
/// Module 1 has the base 65,492 and literals, the instruction and a TRAP.
#[test]
fn sums_that_go_round() {
    let check = |instruction: &[u8], l: u16, words: &[u16], expected: &[&str]| {
        let depth = words.len();
        let mut run = step_at(depth as u16, depth as u8, 143, &[]);
        let machine = run.machine.as_mut().unwrap();
        (machine.module, machine.l) = (1, l);
        machine.stack[..depth].copy_from_slice(words);
        let first = Source {
            data_size: 65_361,
            ..Source::plain(&[RTN])
        };
        let code = [&vec![LI1; depth], instruction, &[TRAP]].concat();
        let mut case = case_of_modules(&[first, Source::plain(&code)], &[run]);
        case.store_length = 65_535;
        let mut reached = reached(case);
        reached.retain(|fault| fault.contains("a sum that goes round"));
        let line = "steps with a sum that goes round at";
        assert_eq!(reached, missing(line, expected), "{instruction:?}");
    };
    check(&[0o024, 1], 65_534, &[], &[]);
    check(&[0o024, 1], 65_535, &[], &["LLA"]);
    check(&[0o025, 43], 0, &[], &[]);
    check(&[0o025, 44], 0, &[], &["LGA"]);
    check(&[0o026, 1], 0, &[65_534], &[]);
    check(&[0o026, 1], 0, &[65_535], &["LSA"]);
    check(&[0o027, 1, 43], 0, &[], &[]);
    check(&[0o027, 1, 44], 0, &[], &["LEA"]);
    check(&[0o027, 0, 255], 0, &[], &[]);
    check(&[0o210], 0, &[65_535, 65_534, 0, 1], &[]);
    check(&[0o210], 0, &[65_535, 65_535, 0, 1], &["DADD"]);
    check(&[0o210], 0, &[0, 65_535, 0, 1], &[]);
    check(&[0o211], 0, &[0, 1, 0, 1], &[]);
    check(&[0o211], 0, &[0, 1, 0, 2], &["DSUB"]);
    check(&[0o211], 0, &[1, 0, 0, 1], &[]);
}
