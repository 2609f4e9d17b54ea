//! The generator, its cases and their file; laws that hold in every case.

use crate::channel_kinds::is_of_channels;
use crate::form_kinds::is_of_forms;
use crate::line_kinds::is_of_lines;
use crate::module_kinds::is_of_modules;
use crate::rig::{channels_of_step, FF};
use crate::trap_kinds::is_of_traps;
use second::api::{run_observed, Buffers};
use second::assemble::{self, Source};
use second::case::{decode, encode, replay, Case, CaseRun, Checksum, RunOutcome};
use second::coverage::{Coverage, Steps};
use second::depths::fits;
use second::gen::{self, Scale, FULL, ROUND, SMALL};
use second::image::{parse, parse_modules, Module, Procedure, Program};
use second::mark::Mark;
use second::opcode::row;
use second::{load, run, start, Machine, RunAnswer};
use std::cell::Cell;
use std::ops::Range;

/// The seed of the small cases that are kept in a file.
const SEED: u64 = 20;

#[test]
fn cases_depend_on_seed_and_index_alone() {
    let same = |scale: &Scale, index| gen::case(scale, 7, index) == gen::case(scale, 7, index);
    assert!((0..64).all(|index| same(&FULL, index) && same(&SMALL, index)));
    assert_ne!(gen::case(&FULL, 7, 0), gen::case(&FULL, 8, 0));
    let listed: Vec<Case> = gen::cases(&FULL, 7, 3).collect();
    assert_eq!(listed[2], gen::case(&FULL, 7, 2));
}

#[test]
fn everything_is_covered() {
    let coverage = Coverage::of(gen::cases(&FULL, 1, 2000));
    assert_eq!(coverage.faults(), Vec::<String>::new());
    // And what is not covered is found: no case, no coverage. All opcodes but
    // 304, the stops of opcodes, 30, and the refusals.
    let nothing = Coverage::of(gen::cases(&FULL, 1, 0));
    let faults = nothing.faults();
    assert!(faults.contains(&"opcode 270 UADD was never executed".to_string()));
    assert!(faults.contains(&"opcode 333 DIV never stopped with 37".to_string()));
    assert!(faults.contains(&"no run stopped with 30".to_string()));
    assert!(faults.contains(&"run never answered 12".to_string()));
    let ending = |end: &str| faults.iter().filter(|f| f.ends_with(end)).count();
    assert_eq!(ending("executed"), 200);
    // The signed operators, and UADD, USUB and UMUL.
    assert_eq!(ending("never stopped with 37"), 6 + 3);
    // Each load and store of a pair fails by either address.
    let cut = "opcode 041 LLD never stopped with 32 by its second address alone";
    assert!(faults.contains(&cut.to_string()));
    assert_eq!(ending("with 32 by its first address"), 10);
    assert_eq!(ending("with 32 by its second address alone"), 10);
    // What A.2 makes of result counts.
    for results in 0..=4 {
        assert_eq!(ending(&format!("images with results {results}")), 1);
    }
    let beginning = |begin: &str| faults.iter().filter(|f| f.starts_with(begin)).count();
    // The same, and what A.5 makes of saved depths.
    assert_eq!(beginning("no images refused with 8 only for "), 4 + 7);
    assert_eq!(beginning("no runs refused with 12 only for marks with "), 7);
    let flaws = 4 + 4 + 5;
    let one = "no runs refused with 12 only for one entry with ";
    assert_eq!(beginning(one), flaws + 1);
    let beyond = "no runs refused with 12 only for entries beyond load's marks with ";
    assert_eq!(beginning(beyond), flaws);
    assert_eq!(
        beginning("no marks of accepted images with saved depths "),
        5
    );
    assert_eq!(beginning("no steps of STORE "), 3 + 4 + 1);
    assert_eq!(beginning("no stops of STORE with 33 "), 3);
    assert_eq!(beginning("no steps of LODFW "), 16 + 4 + 1 + 3);
    assert_eq!(beginning("no stops of LODFW with 34 "), 3);
    assert_eq!(beginning("no LODFW beyond load's marks "), 2);
    assert_eq!(beginning("no calls where depths are saved "), 4);
    assert_eq!(beginning("no landings of "), 2 + 4);
    assert_eq!(ending("on a position with the same results"), 1);
    assert_eq!(ending("on a position with other results"), 1);
    // What A.3 makes of code that is not whole: six causes, opcodes that have
    // them, and places.
    assert!(faults.contains(&"load never answered 13".to_string()));
    assert_eq!(
        beginning("no images refused with 13 for "),
        6 + 6 + 4 + 8 + 2
    );
    assert_eq!(beginning("no images refused with 13 "), 26 + 11);
    assert_eq!(beginning("no images refused with 7 "), 1);
    assert_eq!(beginning("no images refused with 8 with whole code"), 1);
    // Ten collisions of transfers, with three sizes of either stack.
    assert_eq!(beginning("no transfers that restore "), 3 * 10);
    assert_eq!(beginning("no transfers that save "), 3 * 10);
    // What A.6 makes of unsigned results; of products also two low words.
    for (name, low_words) in [("UADD", 0), ("USUB", 0), ("UMUL", 2)] {
        assert_eq!(beginning(&format!("no steps of {name} ")), 3);
        let stops = beginning(&format!("no stops of {name} with 37 "));
        assert_eq!(stops, 3 + low_words);
    }
    assert_eq!(beginning("no steps with a sum that goes round at "), 6);
    // What A.7 makes of eight lines: five fates, ten collisions with three sizes of
    // either stack, and what is beside them.
    for line in 8..=15 {
        assert_eq!(ending(&format!(" line {line}")), 5);
    }
    assert_eq!(beginning("no lines that restore "), 3 * 10);
    assert_eq!(beginning("no lines that save "), 3 * 10);
    assert_eq!(beginning("no steps of a line before "), 3);
    assert_eq!(beginning("no steps of a line handed on "), 3);
    assert_eq!(beginning("no steps of a line with "), 16 + 8);
    assert_eq!(beginning("no lower lines "), 2);
    assert_eq!(beginning("no interrupted process "), 4);
    // And of the word of requests.
    assert_eq!(beginning("no instructions without lines, with bit "), 8);
    assert_eq!(beginning("no runs with lines refused with "), 11);
    assert_eq!(beginning("no runs with an open line "), 3);
    assert_eq!(beginning("no instructions that open a line by "), 2);
    assert_eq!(beginning("no runs that take "), 2 + 2);
    assert_eq!(beginning("no stops with 35 by a line behind "), 3);
    let of_lines = faults.iter().filter(|fault| is_of_lines(fault));
    assert_eq!(
        of_lines.count(),
        40 + 60 + 27 + 3 + 6 + 8 + 11 + 3 + 2 + 4 + 3
    );
    // What A.8 makes of traps: nine numbers, each of each opcode that has it and 35 of
    // each line; collisions, and what is beside a caught trap; words 14 that catch none,
    // at an instruction and at a line.
    let opcodes = beginning("no caught of an opcode: ");
    let stops = faults.iter().filter(|fault| {
        let stop = fault.split_once(" never stopped with ");
        stop.is_some_and(|(_, stop)| stop != "31" && !stop.contains("address"))
    });
    assert_eq!(opcodes, stops.count());
    assert_eq!(beginning("no caught 35 of a line, number "), 8);
    assert_eq!(beginning("no caught traps that restore "), 3 * 10);
    assert_eq!(beginning("no caught traps that save "), 3 * 10);
    assert_eq!(beginning("no caught traps with "), 18);
    assert_eq!(beginning("no caught traps in a run "), 11);
    assert_eq!(beginning("no traps not caught, with word 14 of "), 14);
    let of_a_line = "no traps not caught of a line, with word 14 of ";
    assert_eq!(beginning(of_a_line), 14);
    assert_eq!(beginning("no traps not made, "), 3);
    assert_eq!(beginning("no trapped process "), 4);
    let of_traps = faults.iter().filter(|fault| is_of_traps(fault));
    assert_eq!(
        of_traps.count(),
        9 + opcodes + 8 + 60 + 18 + 11 + 14 + 14 + 3 + 4
    );
    // What A.9 makes of READs: sixteen channels, three ways to fail, words that the
    // machine goes by; and of the word of a run.
    assert_eq!(beginning("no READs of channel "), 16);
    assert_eq!(beginning("no READs stopped with "), 3);
    assert_eq!(beginning("no READs caught with "), 3);
    assert_eq!(beginning("no READs into "), 12);
    assert_eq!(beginning("no words of channels with "), 4);
    assert_eq!(beginning("no runs with a channel stopped with "), 11);
    assert_eq!(beginning("no runs spent "), 2);
    assert_eq!(beginning("no runs behind one "), 3 + 3);
    let of_channels = faults.iter().filter(|fault| is_of_channels(fault));
    let others = 7;
    assert_eq!(
        of_channels.count(),
        16 + 3 + 3 + 12 + others + 4 + 11 + 2 + 6
    );
    // What A.10 makes of counts, of modules at fault, of the last module and of places
    // behind it.
    assert_eq!(beginning("no images refused with 2 for a count of "), 4);
    assert_eq!(beginning("no images of one byte refused "), 4);
    assert_eq!(beginning("no images refused with 2 only for "), 3);
    assert_eq!(beginning("no images of one module too many "), 7);
    assert_eq!(beginning("no images of the most modules accepted "), 3 + 6);
    assert_eq!(beginning("no images of the most modules refused "), 6 + 6);
    assert_eq!(ending("of the most modules accepted by load"), 1);
    assert_eq!(
        ending("of the most modules accepted with the last one at CX"),
        1
    );
    assert_eq!(beginning("no steps with the last of the most modules "), 6);
    assert_eq!(beginning("no steps to the last of the most modules "), 5);
    assert_eq!(beginning("no steps from the last of the most modules "), 5);
    assert_eq!(beginning("no runs of the most modules "), 3);
    let of_modules = faults.iter().filter(|fault| is_of_modules(fault));
    assert_eq!(of_modules.count(), 4 + 4 + 3 + 7 + 9 + 12 + 6 + 10 + 3);
    // What A.11 makes of fields, three in each of eight bit maps; of forms, of where an
    // image is longer, of outputs, and of refusals and maps.
    assert!(faults.contains(&"archive never answered 14".to_string()));
    assert_eq!(beginning("archive never answered "), 11);
    let module = "no accepted images with a module whose ";
    for (field, count) in [
        ("data size is", 5),
        ("procedures are", 10),
        ("name is", 6),
        ("bit map is", 8),
    ] {
        assert_eq!(beginning(&format!("{module}{field} ")), count);
    }
    assert_eq!(beginning("no modules written with the bit map "), 27);
    assert_eq!(beginning("no forms written of "), 3 + 2);
    assert_eq!(beginning("no forms written to an output of "), 6);
    assert_eq!(beginning("no forms refused with 14 of an image "), 2);
    assert_eq!(beginning("no forms refused with 14 for an output "), 3);
    assert_eq!(beginning("no images longer than their form with "), 3);
    assert_eq!(beginning("no images longer than their form by "), 4);
    assert_eq!(beginning("no archive without output refused "), 9);
    assert_eq!(beginning("no archive with a long output refused "), 9);
    assert_eq!(beginning("no archive with a map of the image's length "), 4);
    assert_eq!(beginning("no archive with a longer map "), 4);
    let of_forms = faults.iter().filter(|fault| is_of_forms(fault));
    assert_eq!(
        of_forms.count(),
        11 + 29 + 27 + 5 + 6 + 2 + 3 + 3 + 4 + 9 + 9 + 4 + 4
    );
}

/// A module, and entry, parameters and results of its procedures.
pub fn module_of(procedures: &[(u16, u8, u8)], code: &[u8]) -> Source {
    let procedure = |&(entry, parameters, results): &(u16, u8, u8)| Procedure {
        entry,
        parameters,
        results,
    };
    Source {
        procedures: procedures.iter().map(procedure).collect(),
        ..Source::plain(code)
    }
}

/// A case of one module, with 16 inputs in each run that has none.
pub fn case_of(procedures: &[(u16, u8, u8)], code: &[u8], runs: &[CaseRun]) -> Case {
    case_of_modules(&[module_of(procedures, code)], runs)
}

pub fn case_of_modules(modules: &[Source], runs: &[CaseRun]) -> Case {
    let image = assemble::encode(modules);
    let mut runs = runs.to_vec();
    for run in runs.iter_mut().filter(|run| run.inputs.is_empty()) {
        run.inputs = vec![0; 16];
    }
    Case {
        map_length: image.len(),
        image,
        store_length: 200,
        outputs: vec![0; 16],
        runs,
        ..Case::default()
    }
}

/// What a case reaches: what is missing without it, and not with it.
pub fn reached(case: Case) -> Vec<String> {
    let faults = |cases: Vec<Case>| Coverage::of(cases.into_iter()).faults();
    let missing = faults(vec![case]);
    let mut reached = faults(vec![]);
    reached.retain(|fault| !missing.contains(fault));
    reached
}

/// What a case reaches of refusals for one reason and of landings.
pub fn reached_of_reasons(case: Case) -> Vec<String> {
    let mut reached = reached(case);
    reached.retain(|fault| fault.contains("only for ") || fault.contains("landings"));
    reached
}

/// Why A.2 alone refuses an image, or nothing where others rules do too.
#[test]
fn narrower_refusals_are_told_apart() {
    let check = |procedures: &[(u16, u8, u8)], code: &[u8], expected: &[&str]| {
        let reached = reached_of_reasons(case_of(procedures, code, &[]));
        let refused = |kind: &&str| format!("no images refused with 8 only for {kind}");
        assert_eq!(reached, expected.iter().map(refused).collect::<Vec<_>>());
    };
    let main = (0, 0, 0);
    check(&[main], &[0o354], &[]);
    check(
        &[main],
        &[0o001, 0o354],
        &["a return with one word too many"],
    );
    check(
        &[main],
        &[0o001, 0o001, 0o354],
        &["a return with another depth"],
    );
    check(&[(0, 0, 1)], &[0o354], &["a return with another depth"]);
    // JPB 1 for ever.
    check(
        &[main, (0, 0, 1)],
        &[0o035, 1],
        &["a shared entry with other counts"],
    );
    check(&[main, (0, 0, 0)], &[0o035, 1], &[]);
    // The same behind a NOP.
    check(
        &[main, (1, 0, 1)],
        &[0o336, 0o035, 1],
        &["shared code with other counts"],
    );
    // Refused without A.2 too: no words, other parameters, another depth.
    check(&[main], &[0o270, 0o354], &[]);
    check(&[main, (0, 1, 1)], &[0o035, 1], &[]);
    check(&[main, (1, 1, 1)], &[0o336, 0o035, 1], &[]);
}

/// A landing counts where it is the only step of its run.
#[test]
fn landings_are_told_apart() {
    let reached = |budgets: &[u32], results: u8| {
        let run = |&budget: &u32| CaseRun {
            budget,
            ..CaseRun::default()
        };
        let runs: Vec<CaseRun> = budgets.iter().map(run).collect();
        // CL1, a TRAP with a word put before it; 1 returns.
        let code = [0o361, 0o001, 0o304, 0o354];
        reached_of_reasons(case_of(&[(0, 0, results), (3, 0, 0)], &code, &runs))
    };
    let on = |kind: &str| {
        [format!(
            "no landings of 354 on a position with {kind} results"
        )]
    };
    assert_eq!(reached(&[1, 1], 0), on("the same"));
    assert_eq!(reached(&[1, 1], 3), on("other"));
    assert_eq!(reached(&[1], 3), [""; 0]);
    assert_eq!(reached(&[2], 3), [""; 0]);
    assert_eq!(reached(&[0, 1, 5], 3), [""; 0]);
}

/// The registers of a transfer, how many words it saves, and the process that it
/// finds: where its record is, where its stack begins, and a position with its
/// depth.
struct Collision {
    p: u16,
    s: u16,
    word_c: u16,
    saves: u8,
    record: u16,
    stack: u16,
    goes_on: (u16, u8),
}

/// No word is saved or restored, and nothing touches.
const APART: Collision = Collision {
    p: 131,
    s: 150,
    word_c: 41,
    saves: 0,
    record: 160,
    stack: 170,
    goes_on: (4, 0),
};

/// What it reaches of transfers, if it is the only step of a run.
fn reached_of_transfers(it: &Collision) -> Vec<String> {
    // Two literals, a TRA at position 2; sixteen, a TRA at 20; a TRAP.
    let code = [&[1; 2][..], &[0o256, 0], &[1; 16], &[0o256, 0, 0o304]].concat();
    let depth = it.saves + 2;
    let mut machine = Machine {
        pc: if it.saves == 0 { 2 } else { 20 },
        depth,
        p: it.p,
        s: it.s,
        h: 176,
        ..Machine::default()
    };
    machine.stack[usize::from(it.saves)] = it.word_c;
    machine.stack[usize::from(it.saves) + 1] = 40;
    let (position, count) = it.goes_on;
    let count_at = it.stack + u16::from(count);
    let record = [128, 0, position, 0, count_at + 1, 200];
    let mut store_patches: Vec<(u16, u16)> = (it.record..).zip(record).collect();
    store_patches.extend([(count_at, count.into()), (40, it.record)]);
    let run = CaseRun {
        budget: 1,
        machine: Some(machine),
        store_patches,
        ..CaseRun::default()
    };
    let mut reached = reached(case_of(&[(0, 0, 0)], &code, &[run]));
    reached.retain(|fault| fault.starts_with("no transfers that "));
    reached
}

/// The last word that collides, and the word beside it that does not.
#[test]
fn collisions_are_told_apart() {
    let check = |it: Collision, collision: &str| {
        let sizes = ["restore no word", "save no word"];
        let expected = sizes.map(|size| format!("no transfers that {size}, with {collision}"));
        assert_eq!(reached_of_transfers(&it), expected);
    };
    let nothing = "nothing touching";
    check(APART, nothing);
    for (s, collision) in [
        (165, "the saved stack over the target's record"),
        (166, nothing),
        (170, "the saved stack over the target's stack"),
        (171, nothing),
        (136, "the saved stack over the own record"),
        (137, nothing),
    ] {
        check(Collision { s, ..APART }, collision);
    }
    for (p, collision) in [
        (155, "the own record over the target's record"),
        (154, nothing),
    ] {
        check(Collision { p, ..APART }, collision);
    }
    for (stack, collision) in [
        (136, "the own record over the target's stack"),
        (137, nothing),
    ] {
        check(Collision { stack, ..APART }, collision);
    }
    for (word_c, collision) in [
        (165, "word c in the target's record"),
        (166, nothing),
        (170, "word c in the target's stack"),
        (171, nothing),
        (136, "word c in the own record"),
        (137, nothing),
        (150, "word c in the saved stack"),
        (151, nothing),
    ] {
        check(Collision { word_c, ..APART }, collision);
    }
    // A transfer to itself, and one that fails.
    for record in [131, 193] {
        let it = Collision { record, ..APART };
        assert_eq!(reached_of_transfers(&it), [""; 0]);
    }
}

/// How many words are restored and saved.
#[test]
fn sizes_of_transfers_are_told_apart() {
    let check = |saves: u8, goes_on: (u16, u8), sizes: [&str; 2]| {
        let it = Collision {
            saves,
            goes_on,
            s: 140,
            ..APART
        };
        let expected = sizes.map(|size| format!("no transfers that {size}, with nothing touching"));
        assert_eq!(reached_of_transfers(&it), expected);
    };
    check(0, (5, 1), ["restore 1 to 15 words", "save no word"]);
    check(0, (19, 15), ["restore 1 to 15 words", "save no word"]);
    check(14, (4, 0), ["restore no word", "save 14 words"]);
    check(14, (20, 16), ["restore 16 words", "save 14 words"]);
}

/// What an image reaches of A.3: ends of lines of the report.
fn expect_of_whole(modules: &[Source], expected: &[&str]) {
    let mut reached = reached(case_of_modules(modules, &[]));
    reached.retain(|fault| fault.starts_with("no images refused with "));
    reached.retain(|fault| !fault.contains("only for "));
    let expected = expected
        .iter()
        .map(|kind| format!("no images refused with {kind}"));
    assert_eq!(reached, expected.collect::<Vec<_>>(), "{modules:?}");
}

/// Each cause, and the opcode where several have it.
#[test]
fn causes_of_13_are_told_apart() {
    let check = |code: &[u8], expected: &[&str]| {
        expect_of_whole(&[Source::plain(code)], expected);
    };
    check(&[0o354], &[]);
    check(&[0o304], &["8 with whole code"]);
    check(&[0o021], &["13 for unlisted opcode"]);
    check(&[0o020], &["13 for operands outside the code"]);
    check(&[0o336], &["13 for next position outside the code"]);
    for (opcode, name) in [
        (0o027, "LEA"),
        (0o042, "LEW"),
        (0o043, "LED"),
        (0o062, "SEW"),
        (0o063, "SED"),
        (0o355, "CX"),
    ] {
        let at = format!("13 for no such module at {name}");
        check(&[opcode, 1, 0, 0o354], &["13 for no such module", &at]);
    }
    for (call, name) in [
        (&[0o355, 0, 1][..], "CX"),
        (&[0o356, 1], "CI"),
        (&[0o360, 1], "CL"),
        (&[0o361], "CL1"),
        (&[0o377], "CL1"),
    ] {
        let at = format!("13 for no such procedure at {name}");
        let code = [call, &[0o354]].concat();
        check(&code, &["13 for no such procedure", &at]);
    }
    for (opcode, name) in [
        (0o030, "JPC"),
        (0o031, "JP"),
        (0o032, "JPFC"),
        (0o033, "JPF"),
        (0o034, "JPBC"),
        (0o035, "JPB"),
        (0o036, "ORJP"),
        (0o037, "ANDJP"),
    ] {
        let at = format!("13 for a target outside at {name}");
        let code = [opcode, 100, 0o336, 0o354];
        check(&code, &["13 for jump to a target outside the code", &at]);
    }
}

/// Where the position is found that 13 names.
#[test]
fn places_of_13_are_told_apart() {
    const UNLISTED: &str = "13 for unlisted opcode";
    const QUEUE: &str = "13 below the first fault that a queue finds";
    const STACK: &str = "13 below the first fault that a stack finds";
    const OTHER: &str = "13 in a module other than 0";
    let check = |modules: &[Source], places: &[&str]| {
        expect_of_whole(modules, &[&[UNLISTED], places].concat());
    };
    let plain = Source::plain;
    let (good, unfit, fault) = (plain(&[0o354]), plain(&[0o304]), plain(&[0o021]));
    check(std::slice::from_ref(&fault), &[]);
    check(&[fault.clone(), good.clone()], &[]);
    check(&[fault.clone(), unfit.clone()], &[]);
    check(&[good.clone(), fault.clone()], &[OTHER]);
    let before = "13 before a module at fault at a lower position";
    let at_1 = plain(&[0o336, 0o021]);
    check(&[at_1.clone(), good.clone(), fault.clone()], &[before]);
    check(&[fault.clone(), good, at_1.clone()], &[]);
    check(&[at_1.clone(), at_1], &[]);
    let after = "13 after a module without depths that fit";
    check(&[unfit, fault], &[OTHER, after]);
    let far = |length: usize| plain(&[vec![0o336; length], vec![0o021]].concat());
    check(&[far(255)], &[]);
    check(&[far(256)], &["13 at a position above 255"]);
    // Entries in both orders: the lower fault at 0, the higher one at 1.
    let entries = |first, second| module_of(&[(first, 0, 0), (second, 0, 0)], &[0o021, 0o021]);
    check(&[entries(0, 1)], &[]);
    check(&[entries(1, 0)], &[QUEUE, STACK]);
    // LI1, JPFC to a fault at 7; else NOP and JPB to one at 0. A queue has the
    // short way first, a stack goes on.
    let code = [0o021, 0o001, 0o032, 4, 0o336, 0o035, 6, 0o021];
    check(&[module_of(&[(1, 0, 0)], &code)], &[QUEUE]);
    // Only behind another fault, and not below it: a fault of its own.
    let from_1 = |code: &[u8]| module_of(&[(1, 0, 0)], &[&[0o021], code].concat());
    let name = "13 only behind a load, store or address at fault";
    check(&[from_1(&[0o042, 1, 0, 0o035, 5])], &[name]);
    let call = "13 only behind a call at fault";
    check(&[from_1(&[0o355, 1, 0, 0o035, 5])], &[call]);
    check(&[from_1(&[0o355, 0, 1, 0o035, 5])], &[call]);
    check(&[from_1(&[0o361, 0o035, 3])], &[call]);
    let target = "13 only behind a jump to a target outside";
    check(&[from_1(&[0o032, 99, 0o035, 4])], &[target]);
    let next = "13 only behind a jump without a next position";
    check(&[from_1(&[0o001, 0o034, 3])], &[next]);
    // Behind two of them there are two reasons.
    let code = [0o042, 1, 0, 0o361, 0o035, 6];
    check(&[from_1(&code)], &[name, call]);
    // Not only: entry 4 is the jump back.
    let both = module_of(&[(1, 0, 0), (4, 0, 0)], &[0o021, 0o042, 1, 0, 0o035, 5]);
    check(&[both], &[QUEUE, STACK]);
    // Where no depths lead.
    let depth = "13 only without regard to depth";
    check(&[plain(&[0o270, 0o021])], &[depth]);
    check(&[plain(&[0o001, 0o021])], &[]);
    check(&[plain(&[0o001, 0o001, 0o270, 0o021])], &[]);
}

/// 7 comes before 13.
#[test]
fn a_short_map_is_told_apart() {
    let reached_with = |code: u8, map_length: usize| {
        let mut case = case_of_modules(&[Source::plain(&[code])], &[]);
        assert_eq!(case.image.len(), 5);
        case.map_length = map_length;
        let seven = "no images refused with 7 though the code is not whole".to_string();
        reached(case).contains(&seven)
    };
    assert!(reached_with(0o021, 4));
    assert!(!reached_with(0o021, 5));
    assert!(!reached_with(0o354, 4));
}

/// The generator's kinds of code that is not whole: without one of these,
/// something is missing.
#[test]
fn kinds_of_code_that_is_not_whole_are_needed() {
    let missing = |left_out: &dyn Fn(u64) -> bool| {
        // Two cases of a round are of such code, one kind of ten after another.
        let is_in = |&index: &u64| match index % ROUND {
            kind @ 0..=1 => !left_out((2 * (index / ROUND) + kind) % 10),
            _ => true,
        };
        let cases = (0..3008).filter(is_in);
        Coverage::of(cases.map(|index| gen::case(&SMALL, SEED, index))).faults()
    };
    let kinds = [
        (1, "7 though the code is not whole"),
        (5, "13 only behind a load, store or address at fault"),
        (6, "13 only behind a call at fault"),
        (7, "13 only behind a jump to a target outside"),
        (8, "13 only behind a jump without a next position"),
    ];
    for (kind, reached) in kinds {
        let expected = [format!("no images refused with {reached}")];
        assert_eq!(missing(&|other| other == kind), expected);
    }
    let all = missing(&|_| true);
    for (_, reached) in kinds {
        assert!(all.contains(&format!("no images refused with {reached}")));
    }
}

/// A pair that fails in one way does not cover the other: SSD0 at the last word
/// of the store, then at the word behind it.
#[test]
fn addresses_of_pairs_are_told_apart() {
    let missing = |address: u16| {
        let [high, low] = address.to_be_bytes();
        let code = [0o022, high, low, 0o001, 0o002, 0o222, 0o354];
        let case = Case {
            image: assemble::encode(&[Source::plain(&code)]),
            map_length: 11,
            store_length: 200,
            outputs: vec![0; 16],
            runs: vec![CaseRun {
                budget: 9,
                inputs: vec![0; 16],
                ..CaseRun::default()
            }],
            ..Case::default()
        };
        let mut faults = Coverage::of([case].into_iter()).faults();
        faults.retain(|fault| fault.starts_with("opcode 222 SSD0"));
        faults
    };
    let never = |what: &str| format!("opcode 222 SSD0 never {what}");
    let executed = "opcode 222 SSD0 was never executed".to_string();
    let first = never("stopped with 32 by its first address");
    let second = never("stopped with 32 by its second address alone");
    assert_eq!(missing(199), [executed.clone(), first.clone()]);
    assert_eq!(missing(200), [executed.clone(), second.clone()]);
    assert_eq!(missing(65_535), [executed, second.clone()]);
    assert_eq!(missing(198), [never("stopped with 32"), first, second]);
}

/// Images that load refuses with 13 for one reason: a LID cut off after each of
/// its bytes, or a module that 043 or 063 names and that is missing. Without
/// that reason it accepts them.
#[test]
fn double_words_at_fault_are_generated() {
    let number = |image: &[u8]| load(image, &mut vec![0; image.len()]).number;
    let (mut cut, mut missing) = ([0; 4], [0; 2]);
    for case in gen::cases(&SMALL, SEED, 3008) {
        let image = case.image;
        let Ok(program) = parse(&image) else {
            continue;
        };
        if number(&image) != 13 {
            continue;
        }
        for range in program.modules.iter().map(Module::code_range) {
            let code = &image[range.clone()];
            for operands in 0..4.min(code.len()) {
                let whole = completed(&image, range.clone(), operands);
                let is_lid = code[code.len() - 1 - operands] == 0o023;
                cut[operands] += u32::from(is_lid && number(&whole) == 0);
            }
        }
        for (opcode, count) in [0o043, 0o063].into_iter().zip(&mut missing) {
            let named = (1..image.len()).filter(|&position| image[position - 1] == opcode);
            for position in named {
                let mut right = image.clone();
                right[position] = 0;
                *count += u32::from(number(&right) == 0);
            }
        }
    }
    assert!(cut.iter().all(|&count| count > 0), "{cut:?}");
    assert!(missing.iter().all(|&count| count > 0), "{missing:?}");
}

/// An image with the missing operands of a LID and a TRAP behind a module's
/// code, whose length stands just before it.
fn completed(image: &[u8], code: Range<usize>, operands: usize) -> Vec<u8> {
    let mut rest = vec![0; 4 - operands];
    rest.push(0o304);
    let length = (code.len() + rest.len()) as u16;
    let mut whole = image.to_vec();
    whole[code.start - 2..code.start].copy_from_slice(&length.to_be_bytes());
    whole.splice(code.end..code.end, rest);
    whole
}

/// Sums that carry from the low words, from the high words, from both and from
/// none, and differences that borrow so.
#[test]
fn carries_and_borrows_are_generated() {
    let mut seen = [[0; 4]; 2];
    for case in gen::cases(&SMALL, SEED, 3008) {
        let Ok(program) = parse(&case.image) else {
            continue;
        };
        for machine in case.runs.iter().filter_map(|run| run.machine) {
            let Some(module) = program.modules.get(usize::from(machine.module)) else {
                continue;
            };
            let code = &case.image[module.code_range()];
            let sum = match code.get(usize::from(machine.pc)) {
                Some(0o210) => true,
                Some(0o211) => false,
                _ => continue,
            };
            let Some(words) = machine.stack.get(..usize::from(machine.depth)) else {
                continue;
            };
            let &[.., high, low, other_high, other_low] = words else {
                continue;
            };
            let lower = u32::from(high) << 16 | u32::from(low);
            let upper = u32::from(other_high) << 16 | u32::from(other_low);
            let (words, pairs) = if sum {
                (low.checked_add(other_low), lower.checked_add(upper))
            } else {
                (low.checked_sub(other_low), lower.checked_sub(upper))
            };
            let kind = usize::from(words.is_none()) + 2 * usize::from(pairs.is_none());
            seen[usize::from(sum)][kind] += 1;
        }
    }
    assert!(seen.iter().flatten().all(|&count| count > 0), "{seen:?}");
}

/// The cases of A.6 in four rounds: one for each operator, and one of sums that go
/// round.
fn cases_of_results(scale: &Scale, seed: u64) -> impl Iterator<Item = Case> + '_ {
    (0..4).map(move |round| gen::case(scale, seed, ROUND * round + 40))
}

/// What cases miss of A.6: three kinds of steps and three of stops of UADD, the
/// same of USUB and UMUL, two low words, and six sums.
fn missing_results(cases: impl Iterator<Item = Case>) -> Vec<String> {
    let mut missing = Coverage::of(cases).faults();
    let lines = ["no steps of U", "no stops of U", "no steps with a sum"];
    missing.retain(|fault| lines.iter().any(|line| fault.starts_with(line)));
    missing
}

/// They have every kind, whatever the seed.
#[test]
fn unsigned_results_are_generated() {
    let seeds = (1..=24).map(|seed| (&SMALL, seed));
    for (scale, seed) in seeds.chain([(&FULL, 1)]) {
        let missing = missing_results(cases_of_results(scale, seed));
        assert_eq!(missing, [""; 0], "seed {seed}");
    }
}

/// Without the runs of one kind, this kind alone is missing.
#[test]
fn unsigned_results_are_needed() {
    let all = missing_results([].into_iter());
    assert_eq!(all.len(), 3 * 6 + 2 + 6);
    let check = |round: usize, left_out: &[usize], expected: &[usize]| {
        let mut cases: Vec<Case> = cases_of_results(&SMALL, SEED).collect();
        let mut indices = 0..;
        let kept = |_: &CaseRun| indices.next().is_some_and(|i| !left_out.contains(&i));
        cases[round].runs.retain(kept);
        let expected: Vec<String> = expected.iter().map(|&kind| all[kind].clone()).collect();
        assert_eq!(missing_results(cases.into_iter()), expected, "{left_out:?}");
    };
    // The last run of UMUL is one more product between the first and the furthest,
    // with the low word 0.
    let runs: [&[usize]; 6] = [&[0], &[1], &[2], &[3], &[4, 6], &[5]];
    for operator in 0..3 {
        for (kind, left_out) in runs.iter().enumerate() {
            check(operator, left_out, &[6 * operator + kind]);
        }
    }
    check(2, &[3, 6], &[15, 18]);
    check(2, &[4, 5], &[17, 19]);
    // LGA, LEA, LLA, LSA, a literal, DADD, two literals, DSUB.
    for (run, sum) in [(2, 20), (0, 21), (3, 22), (1, 23), (5, 24), (8, 25)] {
        check(3, &[run], &[sum]);
    }
}

/// The cases of A.7 in so many rounds that each has had its turn, but for the hostile
/// ones and but for some, by their kind and what is left of the round divided by 3.
fn cases_of_lines<'a>(
    scale: &'a Scale,
    seed: u64,
    left_out: &'a [(u64, u64)],
) -> impl Iterator<Item = Case> + 'a {
    let indices = (0..27 * ROUND).filter(move |index| {
        let (kind, round) = (index % ROUND, index / ROUND);
        (41..=45).contains(&kind) && !left_out.contains(&(kind, round % 3))
    });
    indices.map(move |index| gen::case(scale, seed, index))
}

fn missing_lines(cases: impl Iterator<Item = Case>) -> Vec<String> {
    let mut missing = Coverage::of(cases).faults();
    missing.retain(|fault| is_of_lines(fault));
    missing
}

/// They have every kind, whatever the seed.
#[test]
fn lines_are_generated() {
    let seeds = (1..=24).map(|seed| (&SMALL, seed));
    for (scale, seed) in seeds.chain([(&FULL, 1)]) {
        let missing = missing_lines(cases_of_lines(scale, seed, &[]));
        assert_eq!(missing, [""; 0], "seed {seed}");
    }
}

/// Without the cases of one kind, something is missing.
#[test]
fn kinds_of_lines_are_needed() {
    let check = |left_out: &[(u64, u64)], expected: &[&str]| {
        let missing = missing_lines(cases_of_lines(&SMALL, SEED, left_out));
        for kind in expected {
            assert!(missing.contains(&format!("no {kind}")), "{missing:?}");
        }
    };
    let always = |kind: u64| [(kind, 0), (kind, 1), (kind, 2)];
    check(
        &always(41),
        &[
            "instructions with word 3 alone against line 15",
            "instructions without lines, with bit 7",
        ],
    );
    check(
        &always(42),
        &[
            "lines that save 16 words, with the saved stack over the own record",
            "lines that restore 16 words, with word 2i + 1 in the target's stack",
        ],
    );
    check(
        &[(43, 0)],
        &["steps of a line with a pending one that M masks"],
    );
    check(
        &[(43, 1)],
        &[
            "lower lines that could be taken, below one that stops with 35",
            "runs that take 3 lines or more",
            "runs with an open line that have budget 0",
            "steps of a line handed on by a refused run",
        ],
    );
    check(
        &[(43, 2)],
        &[
            "steps of a line with word 3 in the saved stack",
            "steps of a line with word 2j of an open one in the saved stack",
        ],
    );
    check(
        &[(44, 0)],
        &[
            "instructions that open a line by word 3",
            "instructions that open a line by M",
            "runs that take a line at first masked by M alone",
            "stops with 35 by a line behind instructions alone",
        ],
    );
    check(
        &[(44, 1), (44, 2)],
        &[
            "steps of a line before an end",
            "steps of a line with a target at word 0",
        ],
    );
    check(&[(45, 0)], &["runs with lines refused with 12"]);
    let back = ["interrupted process resumed by a transfer from another module"];
    check(&[(45, 1), (45, 2)], &back);
}

/// An expression that lines interrupt comes to its TRAP, in a run that has a line and
/// a transfer back in its midst.
#[test]
fn interrupted_expressions_come_to_their_end() {
    let mut ended = 0;
    for round in (0..64).filter(|round| round % 3 != 0) {
        let case = gen::case(&SMALL, SEED, ROUND * round + 45);
        let outcome = replay(&case, &mut ());
        let last = outcome.runs.last().unwrap();
        assert_eq!(last.answer.number, 40, "{round}");
        assert_eq!(last.taken().count_ones(), 1);
        assert_eq!(last.answer.machine.p, last.handed.p);
        ended += 1;
    }
    assert_eq!(ended, 42);
}

/// The cases of A.8 in so many rounds that each has had its turn, but for one kind.
fn cases_of_traps(
    scale: &Scale,
    seed: u64,
    left_out: Option<u64>,
) -> impl Iterator<Item = Case> + '_ {
    let indices = (0..20 * ROUND).filter(move |index| {
        let kind = index % ROUND;
        (47..=50).contains(&kind) && left_out != Some(kind)
    });
    indices.map(move |index| gen::case(scale, seed, index))
}

fn missing_traps(cases: impl Iterator<Item = Case>) -> Vec<String> {
    let mut missing = Coverage::of(cases).faults();
    missing.retain(|fault| is_of_traps(fault));
    missing
}

/// They have every kind, whatever the seed.
#[test]
fn traps_are_generated() {
    let seeds = (1..=24).map(|seed| (&SMALL, seed));
    for (scale, seed) in seeds.chain([(&FULL, 1)]) {
        let missing = missing_traps(cases_of_traps(scale, seed, None));
        assert_eq!(missing, [""; 0], "seed {seed}");
    }
}

/// Without the cases of one kind, something is missing.
#[test]
fn kinds_of_traps_are_needed() {
    let check = |left_out: u64, expected: &[&str]| {
        let missing = missing_traps(cases_of_traps(&SMALL, SEED, Some(left_out)));
        for kind in expected {
            assert!(missing.contains(&format!("no {kind}")), "{missing:?}");
        }
    };
    check(
        47,
        &[
            "caught 33",
            "caught of an opcode: 121 SGD with 32",
            "caught of an opcode: 377 CL15 with 33",
        ],
    );
    check(
        48,
        &[
            "caught traps that save 16 words, with the saved stack over the own record",
            "caught traps that restore 16 words, with word 15 in the target's stack",
            "caught traps with the number under a saved word",
            "caught traps with the number in the target's count",
            "caught traps with the number in word 14",
        ],
    );
    check(
        49,
        &[
            "caught 35 of a line, number 8",
            "caught traps in a run of a line that is taken then",
            "traps not caught, with word 14 of q, and k above 16",
            "traps not caught of a line, with word 14 of q, and G no base",
        ],
    );
    check(
        50,
        &[
            "caught traps in a run three times or more",
            "caught traps in a run in the trap process",
            "caught traps in a run before an end",
            "traps not made, with a good process in word 14, but a stop with 31",
            "trapped process resumed by a transfer, where depths are saved",
            "trapped process resumed by a line",
        ],
    );
}

/// Each trap of each opcode that a case was made for is caught, and is a stop without a
/// trap process.
#[test]
fn traps_are_caught_in_turn() {
    for round in 0..20 {
        let case = gen::case(&SMALL, SEED, ROUND * round + 47);
        let outcome = replay(&case, &mut ());
        for two in outcome.runs.chunks(2) {
            let caught = two[0].caught_alone().expect("it is caught");
            assert_eq!(caught.old, two[0].handed);
            assert_eq!(two[1].answer.number, caught.trap);
            assert_eq!((two[1].answer.count, two[1].handed), (0, caught.old));
        }
    }
}

/// An expression that a trap interrupts comes to its end, with the divisor that its trap
/// process has given it; also in one run.
#[test]
fn trapped_expressions_come_to_their_end() {
    for round in (0..64).filter(|round| round % 4 >= 2) {
        let case = gen::case(&SMALL, SEED, ROUND * round + 50);
        let outcome = replay(&case, &mut ());
        let [.., parts, whole] = &outcome.runs[..] else {
            panic!("{round}");
        };
        assert_eq!(whole.caught.len(), 1);
        for run in [parts, whole] {
            assert_eq!(run.answer.number, 31, "{round}");
            assert_eq!(run.outputs, whole.outputs);
        }
    }
}

/// A caught trap as the only step writes what A.8 says, in its order, and goes on with
/// what the record said before.
#[test]
fn caught_traps_are_as_the_paper_says() {
    let mut seen = 0;
    for case in gen::cases(&SMALL, SEED, 3008) {
        let outcome = replay(&case, &mut ());
        for run in &outcome.runs {
            let Some(caught) = run.caught_alone() else {
                continue;
            };
            seen += 1;
            let program = parse(&case.image).unwrap();
            let (old, new) = (&run.handed, &run.answer.machine);
            assert_eq!((old, new), (&caught.old, &caught.new));
            assert_eq!(run.answer.requests, run.requests);
            // Another trap behind it may have a code.
            assert!(run.answer.code == 0 || run.answer.number == 40);
            assert_eq!(run.after, written(&program, old, caught.trap, &run.before));
            let q = usize::from(run.before[14]);
            let [g, l, position, m, s, v] = run.before[q..q + 6] else {
                panic!("six words");
            };
            assert!(q != 0 && new.p == run.before[14] && new.p != old.p);
            assert_eq!(program.modules[usize::from(new.module)].base, g.into());
            assert_eq!((new.l, new.pc, new.m, new.h), (l, position, m, v - 24));
            let k = run.before[usize::from(s) - 1];
            assert_eq!((u16::from(new.depth), new.s), (k, s - 1 - k));
            let words = &run.before[usize::from(new.s)..usize::from(s) - 1];
            let stack = new.stack[..usize::from(k)].iter().rev();
            assert!(stack.eq(words));
        }
    }
    assert!(seen > 800, "{seen}");
}

/// The store behind a caught trap.
fn written(program: &Program, old: &Machine, trap: u8, before: &[u16]) -> Vec<u16> {
    let mut store = before.to_vec();
    let mut write = |address: usize, word: u16| store[address] = word;
    let (p, s, depth) = (
        usize::from(old.p),
        usize::from(old.s),
        usize::from(old.depth),
    );
    write(p + 6, trap.into());
    for i in 0..depth {
        write(s + i, old.stack[depth - 1 - i]);
    }
    write(s + depth, depth as u16);
    let base = program.modules[usize::from(old.module)].base as u16;
    let raised = (s + depth + 1) as u16;
    let record = [base, old.l, old.pc, old.m, raised, old.h + 24];
    for (i, word) in record.into_iter().enumerate() {
        write(p + i, word);
    }
    write(15, old.p);
    store
}

/// The cases of A.9 in so many rounds that each has had its turn, but for those where
/// this is left of the round divided by 4.
fn cases_of_channels(
    scale: &Scale,
    seed: u64,
    left_out: Option<u64>,
) -> impl Iterator<Item = Case> + '_ {
    let rounds = (0..36).filter(move |round| left_out != Some(round % 4));
    rounds.map(move |round| gen::case(scale, seed, ROUND * round + 51))
}

fn missing_channels(cases: impl Iterator<Item = Case>) -> Vec<String> {
    let mut missing = Coverage::of(cases).faults();
    missing.retain(|fault| is_of_channels(fault));
    missing
}

/// They have every kind, whatever the seed.
#[test]
fn channels_are_generated() {
    let seeds = (1..=24).map(|seed| (&SMALL, seed));
    for (scale, seed) in seeds.chain([(&FULL, 1)]) {
        let missing = missing_channels(cases_of_channels(scale, seed, None));
        assert_eq!(missing, [""; 0], "seed {seed}");
    }
}

/// Without the cases of one kind, something is missing.
#[test]
fn kinds_of_channels_are_needed() {
    let check = |left_out: u64, expected: &[&str]| {
        let missing = missing_channels(cases_of_channels(&SMALL, SEED, Some(left_out)));
        for kind in expected {
            assert!(missing.contains(&format!("no {kind}")), "{missing:?}");
        }
    };
    check(
        0,
        &[
            "READs of channel 0",
            "READs of channel 15",
            "READs stopped with 39 and an address outside",
            "READs caught with 39 and an address outside",
        ],
    );
    check(
        1,
        &[
            "READs into the return mark of a RTN that stops with 34",
            "READs into the count of a LODFW that stops with 34",
            "READs into the target of a TRA that stops with 35",
            "words of channels with 16 bits",
            "runs with a channel stopped with 33",
            "runs with a channel stopped with 40",
        ],
    );
    check(
        2,
        &[
            "READs behind a line",
            "READs behind a caught READ",
            "READs behind a line, and then behind a caught trap",
            "READs behind a caught trap, and then behind a line",
            "READs into word 3, before a line that it held",
            "READs into word 2i, before line i that fails",
            "READs into word 14, before a trap that is caught",
            "READs into the words of a process that catches a trap",
        ],
    );
    check(
        3,
        &[
            "runs behind one with a channel refused with 10",
            "runs behind one with a channel refused with 11",
            "runs behind one with a channel refused with 12",
        ],
    );
}

/// The outcomes of the cases of A.9 of a kind.
fn outcomes_of_channels(kind: u64) -> impl Iterator<Item = Vec<RunOutcome>> {
    let rounds = (0..36).filter(move |round| round % 4 == kind);
    rounds.map(|round| {
        let case = gen::case(&SMALL, SEED, ROUND * round + 51);
        replay(&case, &mut ()).runs
    })
}

/// The same stop and word, and what is left, also in parts; a program that is spent goes
/// on where it is.
fn assert_same_end(whole: &RunOutcome, parts: &[RunOutcome]) {
    let united = parts.iter().fold(0, |word, run| word | run.answer.channels);
    let last = &parts[parts.len() - 1];
    assert_eq!(united, whole.answer.channels);
    assert_eq!(last.answer.number, whole.answer.number);
    assert_eq!(last.answer.machine, whole.answer.machine);
    assert_eq!(last.after, whole.after);
}

/// Programs stop in turn with what their last READ decides, also with other inputs in
/// channels that they do not read, and in parts.
#[test]
fn programs_that_read_stop_in_turn() {
    let programs = outcomes_of_channels(1).flat_map(|runs| {
        let programs = runs.chunks(5).map(|runs| runs.to_vec());
        programs.collect::<Vec<_>>()
    });
    let stops = [30, 31, 32, 33, 34, 35, 36, 37, 38, 39, 40, 34];
    for (runs, stop) in programs.zip(stops.into_iter().cycle()) {
        assert_eq!(runs[0].answer.number, stop);
        assert_eq!(runs[0].answer, runs[1].answer);
        assert_same_end(&runs[0], &runs[1..2]);
        assert_same_end(&runs[0], &runs[2..]);
    }
}

/// Processes lead on by a line and by a trap to an end; not with another word 2i or 14.
#[test]
fn processes_that_read_lead_on() {
    for runs in outcomes_of_channels(2) {
        let whole = &runs[0];
        assert_eq!((whole.answer.number, whole.caught.len()), (31, 1));
        assert_eq!(whole.taken().count_ones(), 1);
        assert_eq!(whole.answer, runs[1].answer);
        assert_same_end(whole, &runs[1..2]);
        assert_eq!(runs[2].answer.number, 35);
        assert!(runs[2].failed().is_some() && runs[2].taken() == 0);
        assert!(matches!(runs[3].answer.number, 32 | 39));
        assert_eq!(runs[3].caught, []);
        assert_same_end(whole, &runs[4..]);
    }
}

/// The READs that an outcome keeps are those that were done, and their channels are the
/// word.
#[test]
fn reads_are_kept() {
    let (mut steps, mut kept) = (Steps::NONE, 0);
    for case in gen::cases(&SMALL, SEED, 3008) {
        for run in replay(&case, &mut steps).runs {
            let channels = run.reads.iter().map(|read| 1 << read.channel);
            let word = channels.fold(0, |word, bit: u16| word | bit);
            assert_eq!(word, run.answer.channels);
            kept += run.reads.len() as u64;
        }
    }
    assert_eq!(kept, steps.opcodes[0o240]);
}

/// The cases of A.10 in so many rounds that each has had its turn, but for some.
fn cases_of_modules<'a>(
    scale: &'a Scale,
    seed: u64,
    left_out: &'a [u64],
) -> impl Iterator<Item = Case> + 'a {
    let rounds = (0..29).filter(|round| !left_out.contains(round));
    rounds.map(move |round| gen::case(scale, seed, ROUND * round + 52))
}

fn missing_modules(cases: impl Iterator<Item = Case>) -> Vec<String> {
    let mut missing = Coverage::of(cases).faults();
    missing.retain(|fault| is_of_modules(fault));
    missing
}

/// They have every kind, whatever the seed.
#[test]
fn modules_are_generated() {
    let seeds = (1..=24).map(|seed| (&SMALL, seed));
    for (scale, seed) in seeds.chain([(&FULL, 1)]) {
        let missing = missing_modules(cases_of_modules(scale, seed, &[]));
        assert_eq!(missing, [""; 0], "seed {seed}");
    }
}

/// Without the cases of one turn or more, something is missing.
#[test]
fn kinds_of_modules_are_needed() {
    let missing = |left_out: &[u64]| missing_modules(cases_of_modules(&SMALL, SEED, left_out));
    // Steps there and back, and places behind; what names the module, and calls.
    let most = missing(&[0]);
    let beginning = |begin: &str| most.iter().filter(|it| it.starts_with(begin)).count();
    assert_eq!(beginning("no steps "), 6 + 5 + 5);
    assert_eq!(beginning("no runs of the most modules "), 3);
    assert_eq!(beginning("no images of the most modules accepted "), 6 + 2);
    let check = |left_out: &[u64], title: &str, kinds: &[&str]| {
        let expected = kinds.iter().map(|kind| format!("no {title} {kind}"));
        assert_eq!(missing(left_out), expected.collect::<Vec<_>>());
    };
    let in_turn = |first: u64, title: &str, kinds: &[&str]| {
        for (turn, kind) in (first..).zip(kinds) {
            check(&[turn], title, &[kind]);
        }
    };
    let only = "images refused with 2 only for one module too many by";
    check(&[1], only, &["load", "run"]);
    let alone = [
        "with 2 for 0",
        "with 2 for 22",
        "with 2 for 255",
        "with 3 for 21",
    ];
    in_turn(2, "images of one byte refused", &alone);
    let counts = "images refused with 2 for a count of";
    check(&[6], counts, &["0"]);
    in_turn(8, counts, &["23 to 254", "255"]);
    let before = "images of one module too many refused with 2 before";
    check(&[7, 10], before, &["3"]);
    in_turn(11, before, &["4", "5", "6", "7", "8", "13"]);
    let behind = "images of the most modules refused behind sound ones with";
    in_turn(17, behind, &["3", "4", "5", "6", "8"]);
    let next = "images of the most modules refused with 13 for the next one at";
    in_turn(23, next, &["LEA", "LEW", "LED", "SEW", "SED", "CX"]);
    // Other cases have these too.
    let too_many: Vec<u64> = [1, 7].into_iter().chain(10..=16).collect();
    assert!(missing(&too_many).contains(&format!("no {counts} 22")));
    let not_whole: Vec<u64> = (22..=28).collect();
    assert!(missing(&not_whole).contains(&format!("no {behind} 13")));
}

/// The main program goes to the last module and back by calls, step by step and in one
/// run; there is no module behind it.
#[test]
fn the_last_module_is_run() {
    for seed in 1..=24 {
        let case = gen::case(&SMALL, seed, 52);
        let outcome = replay(&case, &mut ());
        let program = parse(&case.image).unwrap();
        assert_eq!((program.modules.len(), outcome.load.number), (21, 0));
        let modules: Vec<u8> = outcome.runs.iter().map(|run| run.handed.module).collect();
        // Six steps and a call; another call; a return to the last module, and one from it.
        let callee = modules[8];
        assert_eq!(modules[..9], [0, 0, 0, 0, 0, 0, 0, 20, callee]);
        assert_eq!(modules[9..11], [20, 0]);
        assert!((1..20).contains(&callee));
        let (stepped, whole) = (&outcome.runs[9], &outcome.runs[10]);
        assert_eq!(whole.answer.machine, stepped.answer.machine);
        assert_eq!((whole.answer.number, whole.answer.count), (30, 10));
        // By a transfer, a line and a trap, there and back.
        let changes: Vec<[u8; 2]> = outcome.runs[11..17]
            .iter()
            .map(|run| [run.handed.module, run.answer.machine.module])
            .collect();
        assert_eq!(changes[..3], [[0, 20]; 3]);
        assert_eq!(changes[3..], [[20, 0]; 3]);
        let beyond: Vec<u8> = outcome.runs[17..]
            .iter()
            .map(|run| run.answer.number)
            .collect();
        assert_eq!(beyond, [11, 34, 35]);
    }
}

/// Nothing but the count is at fault: without the last of the modules an image is accepted.
#[test]
fn one_module_too_many_is_all() {
    for seed in 1..=24 {
        let mut case = gen::case(&SMALL, seed, ROUND + 52);
        let outcome = replay(&case, &mut ());
        let numbers = outcome.runs.iter().map(|run| run.answer.number);
        assert_eq!((outcome.load.number, outcome.start), (2, 2));
        assert_eq!(numbers.collect::<Vec<_>>(), [2, 2]);
        let program = parse_modules(&case.image, 22).unwrap();
        assert_eq!(case.image[0], 22);
        case.image.truncate(program.modules[20].code_range().end);
        case.image[0] = 21;
        let outcome = replay(&case, &mut ());
        assert_eq!((outcome.load.number, outcome.start), (0, 0));
    }
}

/// The cases of A.11 in so many rounds that each has had its turn, but for some.
fn cases_of_forms<'a>(
    scale: &'a Scale,
    seed: u64,
    left_out: &'a [u64],
) -> impl Iterator<Item = Case> + 'a {
    let rounds = (0..32).filter(|round| !left_out.contains(round));
    rounds.map(move |round| gen::case(scale, seed, ROUND * round + 53))
}

fn missing_forms(cases: impl Iterator<Item = Case>) -> Vec<String> {
    let mut missing = Coverage::of(cases).faults();
    missing.retain(|fault| is_of_forms(fault));
    missing
}

/// Cases of the largest sizes have these.
const LONG_FORMS: [&str; 2] = [
    "no forms written of 65535 bytes",
    "no forms written of over 32767 bytes, shorter than the image",
];

/// They have every kind but for long forms, whatever the seed.
#[test]
fn forms_are_generated() {
    let seeds = (1..=24).map(|seed| (&SMALL, seed));
    for (scale, seed) in seeds.chain([(&FULL, 1)]) {
        let missing = missing_forms(cases_of_forms(scale, seed, &[]));
        let others = missing.iter().filter(|it| !LONG_FORMS.contains(&&it[..]));
        assert_eq!(others.collect::<Vec<_>>(), [""; 0], "seed {seed}");
    }
}

/// Without the cases of one turn or more, something is missing.
#[test]
fn kinds_of_forms_are_needed() {
    let missing = |left_out: &[u64]| {
        let mut missing = missing_forms(cases_of_forms(&SMALL, SEED, left_out));
        missing.retain(|fault| !LONG_FORMS.contains(&&fault[..]));
        missing
    };
    let check = |left_out: &[u64], kinds: &[&str]| {
        let expected = kinds.iter().map(|kind| format!("no {kind}"));
        assert_eq!(missing(left_out), expected.collect::<Vec<_>>());
    };
    let needed = |left_out: &[u64], kinds: &[&str]| {
        let missing = missing(left_out);
        for kind in kinds {
            assert!(missing.contains(&format!("no {kind}")), "{missing:?}");
        }
    };
    // Fields with one another, and those with long code.
    let written = "modules written with the bit map";
    needed(&[0], &[&format!("{written} 2 for 6")]);
    needed(&[1], &[&format!("{written} 3 for 7")]);
    let procedures = "accepted images with a module whose procedures are";
    let entry = format!("{procedures} one with another entry by its high byte alone");
    needed(&[0, 1], &[&entry]);
    check(&[2], &[&format!("{procedures} 255")]);
    // Modules that are longer than in the form.
    let count = "images longer than their form with a module count of";
    check(&[3], &["forms written of 5 bytes", &format!("{count} 1")]);
    needed(&[7, 8, 9, 11], &[&format!("{count} 21")]);
    let by = "images longer than their form by";
    needed(&[4, 7], &[&format!("{by} the first module alone")]);
    needed(&[5, 8], &[&format!("{by} a module between alone")]);
    needed(&[6, 9], &[&format!("{by} the last module alone")]);
    needed(&[10, 11], &[&format!("{by} all of several modules")]);
    // Outputs.
    let to = "forms written to an output of";
    check(&[4], &[&format!("{to} one byte more")]);
    needed(&[4, 5], &[&format!("{to} more, and less than the image's")]);
    check(&[6], &[&format!("{to} the image's, which is more")]);
    check(&[7], &[&format!("{to} more than the image's")]);
    let short = "forms refused with 14 for an output of";
    let less = format!("{short} one byte less than the form");
    needed(&[8, 13], &[&less]);
    check(&[10], &[&format!("{short} 0")]);
    check(
        &[11],
        &[&format!("{short} 1 to two bytes less than the form")],
    );
    check(
        &[13],
        &["forms refused with 14 of an image that is its own form"],
    );
    // Refusals without an output and with a long one, and the maps of two of them.
    let refusals = ["1", "2", "3", "4", "5", "6", "7", "8", "13"];
    for (turn, number) in (14..).step_by(2).zip(refusals) {
        let refused = [
            ("without output", "a map of the image's length"),
            ("with a long output", "a longer map"),
        ];
        for (turn, (output, map)) in (turn..).zip(refused) {
            let output = format!("archive {output} refused with {number}");
            let map = format!("archive with {map} answers {number}");
            match number {
                "8" | "13" => check(&[turn], &[&output, &map]),
                _ => check(&[turn], &[&output]),
            }
        }
    }
}

/// Outputs of other cases: mostly as long as the form, and each of the others too.
#[test]
fn all_cases_have_an_output() {
    let (mut exact, mut others, mut fills) = (0, 0, [0; 256]);
    for case in gen::cases(&SMALL, SEED, 3008) {
        let outcome = replay(&case, &mut ());
        fills[usize::from(case.output_fill)] += 1;
        match outcome.archive.number {
            0 if outcome.archive.length == case.output_length => exact += 1,
            0 | 14 => others += 1,
            _ => {}
        }
    }
    assert!(others > 300 && exact > others, "{exact} {others}");
    // Bytes that fill it are of all kinds: what is written over shows.
    assert!(fills.iter().all(|&count| count < 40), "{fills:?}");
}

/// Any word 14 comes in cases of other kinds, and most traps of these are stops.
#[test]
fn other_cases_catch_few_traps() {
    let (mut caught, mut stops) = (0, 0);
    for (index, case) in gen::cases(&SMALL, SEED, 3008).enumerate() {
        if index as u64 % ROUND >= 47 {
            continue;
        }
        for run in replay(&case, &mut ()).runs {
            caught += run.caught.len();
            stops += usize::from(run.answer.number >= 32);
        }
    }
    assert!(caught > 50 && stops > 10 * caught, "{caught} {stops}");
}

/// 37 does not cut programs short: where UADD, USUB and UMUL are only the means,
/// most go on, and words that are saved and restored step by step come to their
/// TRAP.
#[test]
fn most_unsigned_results_are_inside() {
    let (mut steps, mut stops) = (Steps::NONE, 0);
    for (index, case) in gen::cases(&SMALL, SEED, 3008).enumerate() {
        let kind = index as u64 % ROUND;
        if !matches!(kind, 2..=6 | 16..=20 | 32..=36) {
            continue;
        }
        let outcome = replay(&case, &mut steps);
        let program = parse(&case.image).unwrap();
        for run in outcome.runs.iter().filter(|run| run.answer.number == 37) {
            let opcode = run.answer.machine.opcode(&program, &case.image);
            stops += u64::from((0o270..=0o272).contains(&opcode));
        }
        if kind == 36 {
            assert_eq!(outcome.runs.last().unwrap().answer.number, 40, "{index}");
        }
    }
    let steps: u64 = steps.opcodes[0o270..=0o272].iter().sum();
    assert!(stops > 0 && steps > 10 * stops, "{steps} {stops}");
}

#[test]
fn files_of_cases_are_read_back() {
    // Each kind of large cases.
    let cases: Vec<Case> = gen::cases(&FULL, 3, ROUND * 4 * 10).collect();
    let file = encode(&cases);
    assert_eq!(file.len() % 2, 0);
    assert_eq!(decode(&file).as_ref(), Ok(&cases));
    // Cut or with something behind.
    let small = encode(&cases[..2]);
    for length in [0, 1, 4, 7, 8, 9, small.len() - 1] {
        assert!(decode(&small[..length]).is_err(), "{length}");
    }
    assert!(decode(&[&small[..], &[0]].concat()).is_err());
}

/// The words of the output are the seventh to the ninth of a case without an image: at
/// most 65,600 bytes, and a byte.
#[test]
fn outputs_in_a_file_are_limited() {
    let case = Case {
        output_length: 65_600,
        output_fill: 255,
        ..Case::default()
    };
    let file = encode(std::slice::from_ref(&case));
    let words = |file: &[u8]| file[20..26].to_vec();
    assert_eq!(words(&file), [0, 1, 0, 64, 0, 255]);
    assert_eq!(decode(&file), Ok(vec![case]));
    for (at, byte, message) in [
        (23, 65, "65601 is above 65600 at 24"),
        (24, 1, "511 is above 255 at 26"),
    ] {
        let mut wrong = file.clone();
        wrong[at] = byte;
        assert_eq!(decode(&wrong), Err(message.to_string()));
    }
}

/// Files of the version before have no outputs.
#[test]
fn other_versions_are_refused() {
    let mut file = encode(&[Case::default()]);
    file[3] = 4;
    let message = "cases of version 4, not of 5";
    assert_eq!(decode(&file), Err(message.to_string()));
    file[0] = 0;
    assert_eq!(decode(&file), Err("this is no file of cases".to_string()));
}

#[test]
fn the_file_is_as_documented() {
    let machine = Machine {
        module: 1,
        pc: 2,
        depth: 3,
        p: 4,
        l: 5,
        s: 6,
        h: 7,
        m: 8,
        stack: std::array::from_fn(|i| if i < 13 { 0x100 + i as u16 } else { 0 }),
    };
    let case = Case {
        image: vec![0xAB, 0xCD, 0xEF],
        map_length: 4,
        map_fill: 0x1234_5678,
        output_length: 65_537,
        output_fill: 0xA9,
        store_length: 65_536,
        store_fill: 0x1234,
        outputs: vec![9, 10],
        runs: vec![
            CaseRun {
                budget: 0x0001_0002,
                requests: Some(0xA55A),
                inputs: vec![11],
                machine: Some(machine),
                map_patches: vec![(3, 0x9ABC_DEF0)],
                store_patches: vec![(12, 13), (14, 15)],
            },
            // The inputs of the run before, and none. Requests of its own that are
            // 0, and those of the run before.
            CaseRun {
                requests: Some(0),
                inputs: vec![11],
                ..CaseRun::default()
            },
            CaseRun::default(),
        ],
    };
    let mut expected: Vec<u16> = vec![0x4D43, 5, 0, 1];
    expected.extend([0, 3, 0xABCD, 0xEF00]);
    expected.extend([0, 4, 0x1234, 0x5678]);
    expected.extend([1, 1, 0xA9]);
    expected.extend([1, 0, 0x1234]);
    expected.extend([2, 9, 10]);
    expected.push(3);
    expected.extend([1, 2]);
    expected.extend([1, 0xA55A]);
    expected.extend([1, 1, 11]);
    expected.extend([1, 1, 2, 3, 4, 5, 6, 7, 8]);
    expected.push(13);
    expected.extend(0x100..0x10D);
    expected.extend([1, 3, 0x9ABC, 0xDEF0]);
    expected.extend([2, 12, 13, 14, 15]);
    expected.extend([0, 0, 1, 0, 0, 0, 0, 0]);
    expected.extend([0, 0, 0, 1, 0, 0, 0, 0]);
    let bytes: Vec<u8> = expected.iter().flat_map(|w| w.to_be_bytes()).collect();
    assert_eq!(encode(&[case]), bytes);
}

#[test]
fn checksums_are_as_documented() {
    assert_eq!(Checksum::of(&[]), Checksum(1, 1));
    assert_eq!(Checksum::of(&[5]), Checksum(36, 262));
    // 36 · 31 + 65,535 = 66,651; 262 · 257 + 65,535 = 132,869.
    assert_eq!(
        Checksum::of(&[5, 65_535]),
        Checksum(66_651 - 65_521, 132_869 - 2 * 65_519)
    );
    // A byte is a word; an entry is two, its high word first.
    assert_eq!(Checksum::of_bytes(&[]), Checksum(1, 1));
    assert_eq!(Checksum::of_bytes(&[5, 255]), Checksum::of(&[5, 255]));
    assert_eq!(Checksum::of_entries(&[]), Checksum(1, 1));
    assert_eq!(
        Checksum::of_entries(&[0x0005_FFFF, 7]),
        Checksum::of(&[5, 65_535, 0, 7])
    );
}

#[test]
fn an_outcome_is_printed_in_lines() {
    // The paper's example: its reading, but for the inputs and outputs.
    let case = Case {
        image: vec![0x01, 0x00, 0x00, 0x04, 0x02, 0x07, 0xA1, 0xEC],
        map_length: 8,
        output_length: 9,
        output_fill: 0x55,
        store_length: 167,
        outputs: vec![3; 16],
        runs: vec![
            CaseRun {
                budget: 1000,
                requests: Some(255),
                inputs: vec![0; 16],
                ..CaseRun::default()
            },
            CaseRun::default(),
        ],
        ..Case::default()
    };
    let text = replay(&case, &mut ()).to_string();
    let lines: Vec<&str> = text.lines().collect();
    assert_eq!(lines.len(), 4);
    // The image is its own form. A byte behind it is as it was.
    let output = Checksum::of(&[1, 0, 0, 4, 2, 7, 0xA1, 0xEC, 0x55]);
    let ones = [65_535; 8];
    let entries = Checksum::of(&[&ones[..], &[0, 0, 0, 1, 0, 2, 0, 0]].concat());
    let archived = format!("archive 0 length 8 output {output} map {entries}");
    assert_eq!(lines[0], archived);
    let lines = &lines[1..];
    let map = "ffffffffffffffffffffffffffffffff00000000000000010000000200000000";
    let loaded = format!("load 0 place 0 0 map {map} start 0 store ");
    assert!(lines[0].starts_with(&loaded), "{}", lines[0]);
    assert!(lines[0].ends_with(" machine 0 0 0 131 139 143 143 0 stack"));
    let outputs = "outputs 3 3 7 3 3 3 3 3 3 3 3 3 3 3 3 3 store ";
    let machine = "machine 0 3 0 131 139 143 143 0 stack";
    let stopped = format!("run 31 code 0 count 3 requests 255 channels 0 {machine} {outputs}");
    assert!(lines[1].starts_with(&stopped), "{}", lines[1]);
    let refused = format!("run 10 code 0 count 0 requests 255 channels 0 {machine} {outputs}");
    assert!(lines[2].starts_with(&refused), "{}", lines[2]);
}

/// For 13 with the place that load names.
#[test]
fn an_outcome_has_the_place() {
    // Module 0 returns; module 1 has a NOP and an unlisted opcode.
    let case = Case {
        image: vec![2, 0, 0, 1, 0o354, 0, 0, 2, 0o336, 0o021],
        map_length: 11,
        ..Case::default()
    };
    let text = replay(&case, &mut ()).to_string();
    let unmarked = "ffffffff".repeat(10);
    let loaded = format!("load 13 place 1 1 map {unmarked}00000000 start 9 ");
    let (archived, text) = text.split_once('\n').unwrap();
    assert!(text.starts_with(&loaded), "{text}");
    // Archive names none. Without an output its sums are those of nothing.
    let entries = Checksum::of(&[&[65_535; 20][..], &[0, 0]].concat());
    let expected = format!("archive 13 length 0 output 1 1 map {entries}");
    assert_eq!(archived, expected);
}

/// The stack is printed up to its last word that is not 0.
#[test]
fn a_stack_is_printed_without_its_last_zeros() {
    let mut machine = Machine::default();
    machine.stack[1] = 5;
    let case = Case {
        runs: vec![CaseRun {
            machine: Some(machine),
            ..CaseRun::default()
        }],
        ..Case::default()
    };
    let text = replay(&case, &mut ()).to_string();
    let run = "run 1 code 0 count 0 requests 0 channels 0 machine 0 0 0 0 0 0 0 0 stack 0 5 outputs store 1 1";
    assert!(text.contains(&format!("\n{run}\n")));
}

/// Small cases reach the largest sizes too.
#[test]
fn small_cases_have_the_largest_sizes() {
    let largest = |size: fn(&Case) -> usize| {
        let cases = gen::cases(&SMALL, SEED, 3008);
        cases.map(|case| size(&case)).max()
    };
    assert_eq!(largest(|case| case.image.len()), Some(65_536));
    assert_eq!(largest(|case| case.store_length), Some(65_536));
    let modules = |case: &Case| parse(&case.image).map_or(0, |program| program.modules.len());
    assert_eq!(largest(modules), Some(21));
    let code = |case: &Case| {
        let modules = parse(&case.image).map_or(Vec::new(), |program| program.modules);
        modules
            .iter()
            .map(|module| module.code_length)
            .max()
            .unwrap_or(0)
    };
    assert_eq!(largest(code), Some(32_767));
}

/// A case's buffers while it is replayed by the tests.
#[derive(Clone, PartialEq, Debug)]
struct State {
    machine: Machine,
    requests: u16,
    store: Vec<u16>,
    outputs: Vec<u16>,
}

impl State {
    fn run(&mut self, case: &Case, map: &[u32], inputs: &[u16], n: u32) -> RunAnswer {
        let buffers = Buffers {
            image: &case.image,
            map,
            store: &mut self.store,
            outputs: &mut self.outputs,
            inputs,
        };
        let answer = run(self.machine, buffers, self.requests, n);
        self.machine = answer.machine;
        self.requests = answer.requests;
        answer
    }
}

/// Replays cases and hands each run's state before it to a check.
fn for_each_run(cases: impl Iterator<Item = Case>, check: impl Fn(&Case, &[u32], &CaseRun, State)) {
    for case in cases {
        let mut map = vec![case.map_fill; case.map_length];
        load(&case.image, &mut map);
        let mut store = vec![case.store_fill; case.store_length];
        let (_, machine) = start(&case.image, &mut store);
        let mut state = State {
            machine,
            requests: 0,
            store,
            outputs: case.outputs.clone(),
        };
        for run in &case.runs {
            for &(offset, entry) in &run.map_patches {
                map[usize::from(offset)] = entry;
            }
            for &(address, word) in &run.store_patches {
                state.store[usize::from(address)] = word;
            }
            state.machine = run.machine.unwrap_or(state.machine);
            state.requests = run.requests.unwrap_or(state.requests);
            check(&case, &map, run, state.clone());
            state.run(&case, &map, &run.inputs, run.budget);
        }
    }
}

/// Lent maps with result counts of their own: marks beyond the fewest that fit,
/// and counts other than load's, which are all that does not fit.
#[test]
fn lent_result_counts_are_generated() {
    let (beyond, other) = (Cell::new(0), Cell::new(0));
    for_each_run(gen::cases(&SMALL, SEED, 3008), |case, map, _, _| {
        let mut loaded = vec![0; case.image.len()];
        if map.len() < loaded.len() || load(&case.image, &mut loaded).number != 0 {
            return;
        }
        let program = parse(&case.image).unwrap();
        let fit = fits(&program, &case.image, map);
        let mut mended = map.to_vec();
        for (entry, &least) in mended.iter_mut().zip(&loaded) {
            match (Mark::decode(*entry), Mark::decode(least)) {
                (Some(mark), None) if fit && mark.results > 0 => beyond.set(beyond.get() + 1),
                (Some(mark), Some(least)) => {
                    let results = least.results;
                    *entry = Mark { results, ..mark }.encode();
                }
                _ => {}
            }
        }
        if !fit && fits(&program, &case.image, &mended) {
            other.set(other.get() + 1);
        }
    });
    assert!(
        beyond.get() > 10 && other.get() > 10,
        "{beyond:?} {other:?}"
    );
}

/// "n + m where two runs are compared, m at least 1; their counts add." A.7:
/// "Running n and then m agrees with n + m if the second call gets the word the
/// first returned." A.9: "the two channel words are united".
#[test]
fn n_and_then_m_is_n_plus_m() {
    let cases = gen::cases(&FULL, 11, 700).chain(cases_of_channels(&SMALL, SEED, None));
    for_each_run(cases, |case, map, run, before| {
        let mut whole = before.clone();
        let total = whole.run(case, map, &run.inputs, run.budget);
        if total.number < 30 {
            return;
        }
        for n in [0, 1, run.budget / 2, run.budget.saturating_sub(1)] {
            if n >= run.budget {
                continue;
            }
            let mut parts = before.clone();
            let first = parts.run(case, map, &run.inputs, n);
            if first.number != 30 {
                // It stopped before n: the whole run stopped there too.
                assert_eq!(first, total);
                assert_eq!(parts, whole);
                continue;
            }
            assert_eq!(first.count, n);
            let second = parts.run(case, map, &run.inputs, run.budget - n);
            assert_eq!(first.count + second.count, total.count);
            assert_eq!((second.number, second.code), (total.number, total.code));
            assert_eq!(first.channels | second.channels, total.channels);
            assert_eq!(parts, whole);
        }
    });
}

/// Inputs with other words in these channels.
fn changed(inputs: &[u16], channels: u16) -> Vec<u16> {
    let words = inputs.iter().enumerate();
    words
        .map(|(channel, &word)| match channels >> channel & 1 {
            0 => word,
            _ => !word,
        })
        .collect()
}

/// Runs each run of cases that is not refused again, with other words in channels that
/// depend on its word. Answers how many of those with a word give the same answer, store
/// and outputs, and how many do not.
fn run_again(cases: impl Iterator<Item = Case>, channels: fn(u16) -> u16) -> [u32; 2] {
    let counts = Cell::new([0; 2]);
    for_each_run(cases, |case, map, run, before| {
        let mut first = before.clone();
        let answer = first.run(case, map, &run.inputs, run.budget);
        if answer.number < 30 || answer.channels == 0 {
            return;
        }
        let inputs = changed(&run.inputs, channels(answer.channels));
        let mut second = before.clone();
        let is_same = second.run(case, map, &inputs, run.budget) == answer && second == first;
        let mut count = counts.get();
        count[usize::from(!is_same)] += 1;
        counts.set(count);
    });
    counts.get()
}

/// Cases with many READs.
fn cases_that_read() -> impl Iterator<Item = Case> {
    let others = gen::cases(&FULL, 16, 900);
    others.chain(gen::cases(&SMALL, SEED, 3008))
}

/// "Two runs with the same image, map, budget, machine, store, outputs and requests, whose
/// inputs are 16 words each and agree on the channels of the first run's word, must give
/// the same stop, count, machine, store, outputs and words."
#[test]
fn channels_outside_the_word_play_no_part() {
    let [same, others] = run_again(cases_that_read(), |word| !word);
    assert!(same > 500 && others == 0, "{same} {others}");
    // And those of the word do, but for READs whose word is written over or is never
    // looked at.
    let [same, others] = run_again(cases_that_read(), |word| word);
    assert!(others > 500 && others > 20 * same, "{same} {others}");
}

/// The same where no channel is read: all inputs may be others.
#[test]
fn no_channel_plays_a_part_without_a_read() {
    for_each_run(gen::cases(&FULL, 17, 400), |case, map, run, before| {
        let mut first = before.clone();
        let answer = first.run(case, map, &run.inputs, run.budget);
        if answer.channels == 0 {
            let inputs = changed(&run.inputs, 65_535);
            let mut second = before.clone();
            assert_eq!(second.run(case, map, &inputs, run.budget), answer);
            assert_eq!(second, first);
        }
    });
}

/// "At each point the machine stands as demand 3 says": step by step the
/// machine is one, its instruction lies in the code, and the stack suffices. Each step has
/// the channel that it must have, and the run has all of them.
#[test]
fn every_point_of_a_run_is_a_machine() {
    let cases = gen::cases(&FULL, 12, 320).chain(cases_of_channels(&SMALL, SEED, None));
    for_each_run(cases, |case, map, run, before| {
        let mut whole = before.clone();
        let total = whole.run(case, map, &run.inputs, run.budget);
        if total.number < 30 {
            return;
        }
        let program = parse(&case.image).unwrap();
        let (mut stepped, mut channels) = (before.clone(), 0);
        for point in 0..=total.count.min(300) {
            let machine = stepped.machine;
            assert!(machine.is_machine(&program, map, stepped.store.len()));
            let module = &program.modules[usize::from(machine.module)];
            let pc = usize::from(machine.pc);
            let row = row(case.image[module.code_start + pc]);
            assert!(row.length > 0 && pc + usize::from(row.length) <= module.code_length);
            assert!(row.taken <= machine.depth && machine.depth - row.taken + row.left <= 16);
            if point < total.count {
                let State {
                    store, requests, ..
                } = &stepped;
                let expected = channels_of_step(&case.image, store, &machine, *requests);
                let answer = stepped.run(case, map, &run.inputs, 1);
                assert_eq!((answer.number, answer.count), (30, 1));
                assert_eq!(answer.channels, expected);
                channels |= expected;
            }
        }
        if total.count <= 300 {
            assert_eq!(stepped, whole);
            assert_eq!(channels, total.channels);
        }
    });
}

/// The opcodes, the lines and the caught traps that an observer is told are those
/// counted; each line clears its bit.
#[test]
fn an_observer_sees_the_steps_counted() {
    for_each_run(gen::cases(&FULL, 13, 200), |case, map, run, mut before| {
        let mut steps = Steps::NONE;
        let buffers = Buffers {
            image: &case.image,
            map,
            store: &mut before.store,
            outputs: &mut before.outputs,
            inputs: &run.inputs,
        };
        let (machine, requests) = (before.machine, before.requests);
        let answer = run_observed(machine, buffers, requests, run.budget, &mut steps);
        let instructions: u64 = steps.opcodes.iter().sum();
        let lines: u64 = steps.lines.iter().sum();
        let traps: u64 = steps.traps.iter().sum();
        assert_eq!(u64::from(answer.count), instructions + lines + traps);
        let taken = requests & !answer.requests;
        assert_eq!(u64::from(taken.count_ones()), lines);
    });
}

/// "left as it was: all", whatever the refusal.
#[test]
fn a_refused_run_leaves_everything() {
    for_each_run(gen::cases(&FULL, 14, 700), |case, map, run, before| {
        let mut after = before.clone();
        let answer = after.run(case, map, &run.inputs, run.budget);
        if answer.number < 30 {
            assert_eq!((answer.code, answer.count, answer.channels), (0, 0, 0));
            assert_eq!(after, before);
        }
    });
}

/// Refusals leave the map, but for 8 and 13, and start leaves the store.
#[test]
fn refused_loads_and_starts_leave_their_buffers() {
    for case in gen::cases(&FULL, 15, 1000) {
        let length = case.image.len();
        let mut map = vec![case.map_fill; case.map_length];
        match load(&case.image, &mut map).number {
            0 => {}
            8 | 13 => assert_eq!(map[..length], vec![FF; length]),
            _ => assert_eq!(map, vec![case.map_fill; case.map_length]),
        }
        if case.map_length > length {
            let past = &map[length..];
            assert!(past.iter().all(|&entry| entry == case.map_fill));
        }
        let mut store = vec![case.store_fill; case.store_length];
        let (number, machine) = start(&case.image, &mut store);
        if number != 0 {
            assert_eq!(machine, Machine::default());
            assert_eq!(store, vec![case.store_fill; case.store_length]);
        }
    }
}
