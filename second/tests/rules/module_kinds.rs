//! The kinds of A.10 in the coverage: each is told apart from what is near it.

use crate::generated::{case_of_modules, module_of, reached};
use second::assemble::Source;
use second::case::{Case, CaseRun};
use second::Machine;
use std::slice::from_ref;

const LEA: u8 = 0o027;
const JPB: u8 = 0o035;
const TRA: u8 = 0o256;
const TRAP: u8 = 0o304;
const NOP: u8 = 0o336;
const RTN: u8 = 0o354;
const CX: u8 = 0o355;

/// The instructions that name a module.
const NAMING: [(u8, &str); 6] = [
    (LEA, "LEA"),
    (0o042, "LEW"),
    (0o043, "LED"),
    (0o062, "SEW"),
    (0o063, "SED"),
    (CX, "CX"),
];

/// Beginnings of what is missing of A.10.
const BEGINNINGS: [&str; 8] = [
    "no images refused with 2 ",
    "no images of one byte ",
    "no images of one module too many ",
    "no images of the most modules ",
    "no steps with the last of the most modules ",
    "no steps to the last of the most modules ",
    "no steps from the last of the most modules ",
    "no runs of the most modules ",
];

pub fn is_of_modules(fault: &str) -> bool {
    BEGINNINGS.iter().any(|begin| fault.starts_with(begin))
}

/// What a case reaches with this title.
fn check(case: Case, title: &str, kinds: &[&str]) {
    let mut reached = reached(case);
    let title = format!("no {title} ");
    reached.retain(|fault| fault.starts_with(&title));
    let expected = kinds.iter().map(|kind| format!("{title}{kind}"));
    assert_eq!(reached, expected.collect::<Vec<_>>());
}

/// An image with a map of its length and a store of 300 words. No run is made.
fn image_case(image: &[u8]) -> Case {
    Case {
        image: image.to_vec(),
        map_length: image.len(),
        store_length: 300,
        outputs: vec![0; 16],
        ..Case::default()
    }
}

/// So many modules that return, of four bytes each; this one has another code.
fn modules(count: usize, other: Option<(usize, &[u8])>) -> Vec<Source> {
    let mut modules = vec![Source::plain(&[RTN]); count];
    if let Some((module, code)) = other {
        modules[module] = Source::plain(code);
    }
    modules
}

/// A case of modules, with a store of 300 words.
fn case_with(modules: &[Source], runs: &[CaseRun]) -> Case {
    Case {
        store_length: 300,
        ..case_of_modules(modules, runs)
    }
}

fn plain(count: usize) -> Case {
    case_with(&modules(count, None), &[])
}

/// A case with another byte in its image.
fn with_byte(mut case: Case, at: usize, byte: u8) -> Case {
    case.image[at] = byte;
    case
}

/// A case with an image of this length.
fn cut(mut case: Case, length: usize) -> Case {
    case.image.resize(length, 0);
    case
}

#[test]
fn counts_are_told_apart() {
    let check = |count: u8, length: usize, kinds: &[&str]| {
        let mut image = vec![0; length];
        image[0] = count;
        check(
            image_case(&image),
            "images refused with 2 for a count of",
            kinds,
        );
    };
    for length in [2, 90, 65_535] {
        check(0, length, &["0"]);
        for count in [1, 20, 21] {
            check(count, length, &[]);
        }
        check(22, length, &["22"]);
        for count in [23, 32, 33, 254] {
            check(count, length, &["23 to 254"]);
        }
        check(255, length, &["255"]);
    }
    // They are alone, or are refused with 1.
    for count in [0, 22, 100, 255] {
        check(count, 1, &[]);
        check(count, 65_536, &[]);
    }
    let nothing = reached(image_case(&[]));
    assert!(!nothing.iter().any(|fault| is_of_modules(fault)));
}

#[test]
fn bytes_alone_are_told_apart() {
    let title = "images of one byte refused";
    for (byte, kind) in [
        (0, "with 2 for 0"),
        (22, "with 2 for 22"),
        (255, "with 2 for 255"),
        (21, "with 3 for 21"),
    ] {
        check(image_case(&[byte]), title, &[kind]);
        check(image_case(&[byte, 0]), title, &[]);
    }
    for byte in [1, 20, 23, 254] {
        check(image_case(&[byte]), title, &[]);
    }
}

const ONLY: &str = "images refused with 2 only for one module too many by";

/// A run of 22 modules that only the count refuses: the marks, and a machine.
fn sound_run() -> CaseRun {
    let machine = Machine {
        p: 200,
        h: 276,
        ..Machine::default()
    };
    let is_code = |byte: u16| byte != 0 && byte.is_multiple_of(4);
    let entry = |byte: u16| (byte, if is_code(byte) { 0 } else { u32::MAX });
    CaseRun {
        machine: Some(machine),
        map_patches: (0..89).map(entry).collect(),
        ..CaseRun::default()
    }
}

#[test]
fn calls_that_only_the_count_refuses_are_told_apart() {
    let check = |case: Case, kinds: &[&str]| check(case, ONLY, kinds);
    check(plain(22), &["load", "start"]);
    for count in [1, 20, 21, 23, 255] {
        check(plain(count), &[]);
    }
    check(with_byte(plain(21), 0, 22), &[]);
    check(with_byte(plain(23), 0, 22), &[]);
    check(with_byte(plain(22), 0, 23), &[]);
    check(with_byte(plain(22), 0, 21), &[]);
    // The map, and code that start does not look at.
    let short = |map_length: usize| Case {
        map_length,
        ..plain(22)
    };
    check(short(88), &["start"]);
    check(short(90), &["load", "start"]);
    for code in [TRAP, NOP] {
        let unfit = case_with(&modules(22, Some((21, &[code]))), &[]);
        check(unfit, &["start"]);
    }
    // Z is 194, so that 230 words suffice.
    let store = |store_length: usize| Case {
        store_length,
        ..plain(22)
    };
    check(store(229), &["load"]);
    check(store(230), &["load", "start"]);
    check(store(65_535), &["load", "start"]);
    check(store(65_536), &["load"]);
}

#[test]
fn runs_that_only_the_count_refuses_are_told_apart() {
    let check = |spoil: fn(&mut Case), kinds: &[&str]| {
        let mut case = case_with(&modules(22, None), &[sound_run()]);
        spoil(&mut case);
        check(case, ONLY, kinds);
    };
    let others = ["load", "start"];
    check(|_| (), &["load", "start", "run"]);
    check(|case| case.runs[0].map_patches[88].1 = 1, &others);
    check(|case| case.runs[0].map_patches[0].1 = 0, &others);
    check(|case| case.runs[0].inputs.truncate(15), &others);
    check(|case| case.outputs.truncate(15), &others);
    check(|case| case.store_length = 229, &["load"]);
    // As many modules as there can be.
    check(|case| case.image[0] = 21, &[]);
}

/// The same with other machines.
#[test]
fn machines_that_only_the_count_refuses_are_told_apart() {
    let check = |change: fn(&mut Machine), is_so: bool| {
        let mut run = sound_run();
        change(run.machine.as_mut().unwrap());
        let kinds = ["load", "start", "run"];
        let kinds = &kinds[..2 + usize::from(is_so)];
        check(case_with(&modules(22, None), &[run]), ONLY, kinds);
    };
    check(|_| (), true);
    check(|machine| machine.module = 21, true);
    check(|machine| machine.module = 22, false);
    check(|machine| machine.pc = 1, false);
    check(|machine| machine.depth = 1, false);
}

/// Faults of a module: the number, the byte behind its bit map, and what is there then.
const FAULTS: [(&str, usize, u8); 4] = [("5", 0, 8), ("6", 2, 0), ("8", 3, TRAP), ("13", 3, NOP)];

#[test]
fn what_2_comes_before_is_told_apart() {
    let title = "images of one module too many refused with 2 before";
    let check = |case: Case, kinds: &[&str]| check(case, title, kinds);
    check(plain(22), &[]);
    for (number, offset, byte) in FAULTS {
        let at = |module: usize| with_byte(plain(22), 1 + 4 * module + offset, byte);
        for module in [0, 1, 20] {
            check(at(module), &[number]);
            check(with_byte(at(module), 0, 21), &[]);
            check(with_byte(at(module), 0, 23), &[]);
        }
        // Behind the modules that are not too many the code is judged all the same.
        let is_code = matches!(number, "8" | "13");
        let last = [number];
        check(at(21), if is_code { &last } else { &[] });
    }
    // Cut off in a module that is not too many, which ends before byte 85.
    for (length, kinds) in [
        (1, &[][..]),
        (2, &["3"]),
        (84, &["3"]),
        (85, &[]),
        (88, &[]),
        (89, &[]),
        (90, &["4"]),
        (93, &["4"]),
    ] {
        let mut case = cut(plain(22), length);
        case.map_length = 100;
        check(case, kinds);
    }
    let short = Case {
        map_length: 88,
        ..plain(22)
    };
    check(with_byte(short.clone(), 88, NOP), &["7"]);
    check(short, &["7"]);
}

#[test]
fn accepting_calls_are_told_apart() {
    let title = "images of the most modules accepted by";
    let check = |case: Case, kinds: &[&str]| check(case, title, kinds);
    check(plain(21), &["load", "start"]);
    for count in [1, 20, 22] {
        check(plain(count), &[]);
    }
    check(with_byte(plain(22), 0, 21), &[]);
    check(with_byte(plain(20), 0, 21), &[]);
    // Z is 191.
    let of = |map_length: usize, store_length: usize| Case {
        map_length,
        store_length,
        ..plain(21)
    };
    check(of(85, 227), &["load", "start"]);
    check(of(85, 226), &["load"]);
    check(of(84, 227), &["start"]);
    let unfit = case_with(&modules(21, Some((20, &[TRAP]))), &[]);
    check(unfit, &["start"]);
    let run = CaseRun::default();
    check(
        case_with(&modules(21, None), from_ref(&run)),
        &["load", "start", "run"],
    );
    let mut refused = case_with(&modules(21, None), &[run]);
    refused.runs[0].inputs.truncate(15);
    check(refused, &["load", "start"]);
}

#[test]
fn faults_behind_sound_modules_are_told_apart() {
    let title = "images of the most modules refused behind sound ones with";
    let check = |case: Case, kinds: &[&str]| check(case, title, kinds);
    check(plain(21), &[]);
    for (number, offset, byte) in FAULTS {
        let at = |module: usize| with_byte(plain(21), 1 + 4 * module + offset, byte);
        check(at(20), &[number]);
        check(at(19), &[]);
        check(at(0), &[]);
        // Two modules, of which the first one counts.
        check(with_byte(at(20), 1 + 4 * 19 + offset, byte), &[]);
        let mut fewer = at(20);
        fewer.image[0] = 22;
        check(fewer, &[]);
    }
    // Module 20 begins at byte 81.
    for (length, kinds) in [
        (1, &[][..]),
        (80, &[]),
        (81, &["3"]),
        (84, &["3"]),
        (85, &[]),
        (86, &["4"]),
        (89, &["4"]),
    ] {
        let mut case = cut(plain(21), length);
        case.map_length = 100;
        check(case, kinds);
    }
    let short = Case {
        map_length: 84,
        ..plain(21)
    };
    check(short, &[]);
}

/// An instruction with the words that it takes, and an endless jump behind it.
fn naming(opcode: u8, module: u8) -> Vec<u8> {
    let words = match opcode {
        0o062 => 1,
        0o063 => 2,
        _ => 0,
    };
    [vec![1; words], vec![opcode, module, 0, JPB, 1]].concat()
}

#[test]
fn names_of_the_last_module_are_told_apart() {
    let title = "images of the most modules accepted with the last one at";
    let check = |modules: &[Source], kinds: &[&str]| check(case_with(modules, &[]), title, kinds);
    check(&modules(21, None), &[]);
    for (opcode, name) in NAMING {
        let with = |count: usize, at: usize, module: u8| {
            let code = naming(opcode, module);
            modules(count, Some((at, &code)))
        };
        for at in [0, 7, 20] {
            check(&with(21, at, 20), &[name]);
            check(&with(21, at, 19), &[]);
            check(&with(21, at, 21), &[]);
        }
        check(&with(20, 0, 19), &[]);
        // Nothing leads there.
        let behind = [vec![RTN], naming(opcode, 20)].concat();
        check(&modules(21, Some((0, &behind))), &[]);
        // It is refused for another module.
        let mut unfit = with(21, 0, 20);
        unfit[1] = Source::plain(&[TRAP]);
        check(&unfit, &[]);
    }
    // The last operand is no module, and another opcode names none.
    check(&modules(21, Some((0, &[LEA, 19, 20, JPB, 1]))), &[]);
    check(&modules(21, Some((0, &[0o024, 20, JPB, 1]))), &[]);
}

#[test]
fn names_of_the_next_module_are_told_apart() {
    let title = "images of the most modules refused with 13 for the next one at";
    let check = |modules: &[Source], kinds: &[&str]| check(case_with(modules, &[]), title, kinds);
    for (opcode, name) in NAMING {
        let with = |count: usize, at: usize, module: u8| {
            let code = naming(opcode, module);
            modules(count, Some((at, &code)))
        };
        for at in [0, 7, 20] {
            check(&with(21, at, 21), &[name]);
            check(&with(21, at, 20), &[]);
            check(&with(21, at, 22), &[]);
            check(&with(21, at, 255), &[]);
        }
        check(&with(20, 0, 20), &[]);
        check(&with(20, 0, 21), &[]);
        check(&with(22, 0, 21), &[]);
        // Another place is named, or another cause.
        let mut other = with(21, 1, 21);
        other[0] = Source::plain(&[NOP]);
        check(&other, &[]);
        check(&modules(21, Some((0, &[opcode, 21]))), &[]);
    }
    // No such procedure of module 20.
    check(&modules(21, Some((0, &[CX, 20, 21, JPB, 1]))), &[]);
}

#[test]
fn steps_with_the_last_module_are_told_apart() {
    let title = "steps with the last of the most modules at";
    for (opcode, name) in NAMING {
        let check = |count: usize, module: u8, at: usize, budgets: &[u32], kinds: &[&str]| {
            let code = naming(opcode, module);
            let run = |&budget: &u32| CaseRun {
                budget,
                ..CaseRun::default()
            };
            let runs: Vec<CaseRun> = budgets.iter().map(run).collect();
            let modules = modules(count, Some((at, &code)));
            check(case_with(&modules, &runs), title, kinds);
        };
        let words = naming(opcode, 20).len() as u32 - 5;
        check(21, 20, 0, &[words, 1], &[name]);
        check(21, 19, 0, &[words, 1], &[]);
        check(20, 19, 0, &[words, 1], &[]);
        check(21, 20, 0, &[words], &[]);
        check(21, 20, 0, &[words, 2], &[]);
        check(21, 20, 0, &[words + 2, 1], &[]);
        // It is in a module that does not run.
        check(21, 20, 1, &[words, 1], &[]);
    }
}

/// A run of a step from a module, at a position with so many words. The stack names the
/// process that word 60 has, and word 61.
fn step_from(module: u8, pc: u16, depth: u8, patches: &[(u16, u16)]) -> CaseRun {
    let mut stack = [0; 16];
    stack[..2].copy_from_slice(&[61, 60]);
    stack[usize::from(depth)..].fill(0);
    let machine = Machine {
        module,
        pc,
        depth,
        p: 200,
        l: 220,
        s: 230,
        h: 276,
        m: 0,
        stack,
    };
    CaseRun {
        budget: 1,
        requests: Some(0),
        machine: Some(machine),
        store_patches: patches.to_vec(),
        ..CaseRun::default()
    }
}

/// The words of a process without words at position 0 of a module, with this G, and the
/// word that names it.
fn process(name: u16, g: u16) -> Vec<(u16, u16)> {
    let record = [g, 0, 0, 0, 261, 300];
    let mut patches: Vec<(u16, u16)> = (240..).zip(record).collect();
    patches.extend([(260, 0), (name, 240)]);
    patches
}

/// The base of a module.
fn base(module: u8) -> u16 {
    128 + 3 * u16::from(module)
}

/// 21 modules of the same code: a call of `callee`; LI0, LI0, TRA at 5; a TRAP at 8.
fn leading(count: usize, callee: u8) -> Vec<Source> {
    let code = [CX, callee, 1, 0, 0, TRA, 1, 0, TRAP, RTN];
    vec![module_of(&[(0, 0, 0), (9, 0, 0)], &code); count]
}

/// The run of each way from one module to another: by CX, RTN, TRA, a line and a trap.
fn ways(from: u8, to: u8) -> [(&'static str, CaseRun); 5] {
    let mut by_line = step_from(from, 0, 0, &process(30, base(to)));
    by_line.requests = Some(0x8000);
    let frame = [(220, base(to)), (221, 220), (222, 0x8000)];
    [
        ("CX", step_from(from, 0, 0, &[])),
        ("RTN", step_from(from, 9, 0, &frame)),
        ("TRA", step_from(from, 5, 2, &process(60, base(to)))),
        ("a line", by_line),
        (
            "a caught trap",
            step_from(from, 8, 1, &process(14, base(to))),
        ),
    ]
}

#[test]
fn steps_to_and_from_the_last_module_are_told_apart() {
    let check = |count: usize, from: u8, to: u8, kinds: [bool; 2]| {
        for (way, run) in ways(from, to) {
            let more = CaseRun {
                budget: 2,
                ..run.clone()
            };
            let titles = [
                "steps to the last of the most modules by",
                "steps from the last of the most modules by",
            ];
            for (title, is_so) in titles.into_iter().zip(kinds) {
                let modules = leading(count, to);
                let expected: &[&str] = if is_so { &[way] } else { &[] };
                check(case_with(&modules, from_ref(&run)), title, expected);
                check(case_with(&modules, from_ref(&more)), title, &[]);
            }
        }
    };
    check(21, 0, 20, [true, false]);
    check(21, 19, 20, [true, false]);
    check(21, 20, 0, [false, true]);
    check(21, 20, 19, [false, true]);
    check(21, 20, 20, [false, false]);
    check(21, 0, 19, [false, false]);
    check(20, 0, 19, [false, false]);
    check(20, 19, 0, [false, false]);
}

/// Z is 191.
#[test]
fn places_behind_the_last_module_are_told_apart() {
    let check = |run: CaseRun, kinds: &[&str]| {
        let case = case_with(&leading(21, 1), &[run]);
        check(case, "runs of the most modules", kinds);
    };
    let machine = "refused with 11 for the next module";
    check(step_from(21, 0, 0, &[]), &[machine]);
    check(step_from(20, 0, 0, &[]), &[]);
    check(step_from(22, 0, 0, &[]), &[]);
    // No module has a mark there.
    check(step_from(21, 1, 0, &[]), &[]);
    let link = "stopped with 34 by a link of Z";
    let frame = |g: u16, mark: u16| [(220, g), (221, 220), (222, mark)];
    check(step_from(0, 9, 0, &frame(191, 0x8000)), &[link]);
    check(step_from(20, 9, 0, &frame(191, 0x8009)), &[link]);
    check(step_from(0, 9, 0, &frame(188, 0x8000)), &[]);
    check(step_from(0, 9, 0, &frame(192, 0x8000)), &[]);
    // The link is not looked at, or the position has no such mark.
    check(step_from(0, 9, 0, &frame(191, 0)), &[]);
    check(step_from(0, 9, 0, &frame(191, 1)), &[]);
    check(step_from(0, 9, 0, &frame(191, 0x7FFF)), &[]);
    check(step_from(0, 9, 0, &frame(191, 0x8001)), &[]);
    let g = "stopped with 35 by a G of Z";
    check(step_from(0, 5, 2, &process(60, 191)), &[g]);
    check(step_from(20, 5, 2, &process(60, 191)), &[g]);
    check(step_from(0, 5, 2, &process(60, 188)), &[]);
    check(step_from(0, 5, 2, &process(60, 192)), &[]);
    // Something else is wrong with the process: its position, and its count.
    for other in [(242, 1), (260, 1)] {
        let patches = [process(60, 191), vec![other]].concat();
        check(step_from(0, 5, 2, &patches), &[]);
    }
    // A line fails.
    let mut line = step_from(0, 5, 2, &process(30, 191));
    line.requests = Some(0x8000);
    check(line, &[]);
}

/// The same with fewer modules.
#[test]
fn places_behind_fewer_modules_do_not_count() {
    // Z is 188.
    let frame = [(220, 188), (221, 220), (222, 0x8000)];
    let runs = [
        step_from(20, 0, 0, &[]),
        step_from(0, 9, 0, &frame),
        step_from(0, 5, 2, &process(60, 188)),
    ];
    let reached = reached(case_with(&leading(20, 1), &runs));
    assert!(!reached.iter().any(|fault| is_of_modules(fault)));
}
