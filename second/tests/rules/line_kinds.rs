//! The kinds of A.7 in the coverage: each is told apart from what is near it.

use crate::generated::{case_of_modules, module_of, reached};
use second::assemble::Source;
use second::case::{Case, CaseRun};
use second::Machine;

/// Beginnings of what is missing of A.7.
const BEGINNINGS: [&str; 14] = [
    "no steps of line ",
    "no steps with target P of line ",
    "no stops with 35 by ",
    "no instructions with ",
    "no lines that ",
    "no steps of a line ",
    "no lower lines ",
    "no interrupted process ",
    "no instructions without lines",
    "no runs with lines refused ",
    "no runs with an open line ",
    "no instructions that open ",
    "no runs that take ",
    "no runs with lines ",
];

pub fn is_of_lines(fault: &str) -> bool {
    BEGINNINGS.iter().any(|begin| fault.starts_with(begin))
}

/// Module 0: sixteen literals and a TRAP at 16; a NOP at 17 and a jump back to it; a
/// RTN at 20; STORE at 21, NOP at 22, STORE at 23, LI1, TRAP; LI3, LI0, SSW0 at 28, a
/// jump back; LI0, LI0, TRA 1 at 33, a jump back. Module 1: a NOP and a jump back.
pub fn modules() -> [Source; 2] {
    let code = [
        &[1; 16][..],
        &[0o304, 0o336, 0o035, 2, 0o354],
        &[0o262, 0o336, 0o262, 1, 0o304],
        &[3, 0, 0o160, 0o035, 4],
        &[0, 0, 0o256, 1, 0o035, 5],
    ]
    .concat();
    let entries = [0, 17, 20, 21, 26, 31].map(|entry| (entry, 0, 0));
    [
        module_of(&entries, &code),
        module_of(&[(0, 0, 0)], &[0o336, 0o035, 2]),
    ]
}

/// A place: module, position, depth.
pub type At = (u8, u16, u8);

pub const NOP: At = (0, 17, 0);
pub const STORED: At = (0, 22, 0);
const STORED_TWICE: At = (0, 24, 0);
pub const ELSEWHERE: At = (1, 0, 0);

/// A run from a machine, and a process that a line goes to.
#[derive(Clone, Copy)]
struct Scene {
    line: u16,
    requests: u16,
    m: u16,
    held: u16,
    budget: u32,
    at: At,
    word: u16,
    p: u16,
    s: u16,
    l: u16,
    q: u16,
    stack: u16,
    goes_on: At,
    new_m: u16,
}

/// Line 8 is taken, no word is saved or restored, and nothing touches. The bases are
/// 128 and 131.
const APART: Scene = Scene {
    line: 8,
    requests: 0x0100,
    m: 0,
    held: 0,
    budget: 1,
    at: (0, 0, 0),
    word: 1,
    p: 134,
    s: 145,
    l: 0,
    q: 165,
    stack: 172,
    goes_on: NOP,
    new_m: 0,
};

impl Scene {
    fn run(&self) -> CaseRun {
        let (module, pc, depth) = self.at;
        let mut machine = Machine {
            module,
            pc,
            depth,
            p: self.p,
            l: self.l,
            s: self.s,
            h: 176,
            m: self.m,
            stack: [0; 16],
        };
        machine.stack[..usize::from(depth)].fill(self.word);
        CaseRun {
            budget: self.budget,
            requests: Some(self.requests),
            machine: Some(machine),
            store_patches: self.process(),
            ..CaseRun::default()
        }
    }

    /// Its record, its count, the word that names it, and word 3.
    fn process(&self) -> Vec<(u16, u16)> {
        let (module, position, depth) = self.goes_on;
        let count = self.stack + u16::from(depth);
        let base = 128 + 3 * u16::from(module);
        let record = [base, 0, position, self.new_m, count + 1, 200];
        let mut patches: Vec<(u16, u16)> = (self.q..).zip(record).collect();
        let vector = (2 * self.line, self.q);
        patches.extend([(count, depth.into()), vector, (3, self.held)]);
        patches
    }
}

/// What runs reach of A.7.
fn reached_of(runs: &[CaseRun]) -> Vec<String> {
    reached_of_case(case_of_modules(&modules(), runs))
}

fn reached_of_case(case: Case) -> Vec<String> {
    let mut reached = reached(case);
    reached.retain(|fault| is_of_lines(fault));
    reached
}

/// What a scene reaches beyond the line itself and its sizes.
fn beyond(it: &Scene) -> Vec<String> {
    let mut reached = reached_of(&[it.run()]);
    let usual = ["no steps of line ", "no lines that "];
    reached.retain(|fault| !usual.iter().any(|begin| fault.starts_with(begin)));
    reached
}

fn check(it: Scene, title: &str, kinds: &[&str]) {
    let expected = kinds.iter().map(|kind| format!("no {title} {kind}"));
    assert_eq!(beyond(&it), expected.collect::<Vec<_>>());
}

const STEPS: &str = "steps of a line with";

#[test]
fn a_line_that_is_taken() {
    for line in 8..=15 {
        let it = Scene {
            line,
            requests: 1 << line,
            ..APART
        };
        let expected = [
            &format!("no steps of line {line}")[..],
            "no lines that restore no word, with nothing touching",
            "no lines that save no word, with nothing touching",
        ];
        assert_eq!(reached_of(&[it.run()]), expected);
        // Not the only step.
        check(Scene { budget: 2, ..it }, "", &[]);
        let to_itself = Scene { q: 134, ..it };
        let expected = format!("no steps with target P of line {line}");
        assert_eq!(reached_of(&[to_itself.run()]), [expected]);
    }
}

#[test]
fn a_line_that_fails_or_waits() {
    for line in 8..=15 {
        let it = Scene {
            line,
            requests: 1 << line,
            ..APART
        };
        // The record ends behind the store, or its position is not marked 0.
        for failed in [
            Scene { q: 193, ..it },
            Scene {
                goes_on: (0, 1, 0),
                ..it
            },
        ] {
            let mut run = failed.run();
            run.store_patches.retain(|&(address, _)| address < 200);
            let expected = [
                format!("no stops with 35 by line {line}"),
                "no stops with 35 by a line behind no step".to_string(),
            ];
            assert_eq!(reached_of(&[run]), expected);
        }
        let bit = 1 << line;
        let against = |m, held| beyond(&Scene { m, held, ..it });
        let masked = format!("no instructions with M alone against line {line}");
        assert_eq!(against(bit, 0), [masked]);
        let held = format!("no instructions with word 3 alone against line {line}");
        assert_eq!(against(0, bit), [held]);
        assert_eq!(against(bit, bit), [""; 0]);
    }
}

/// The last word that collides, and the word beside it that does not. Word 2i + 1 of
/// line 8 is 17.
#[test]
fn collisions_are_told_apart() {
    let check = |it: Scene, collision: &str| {
        let sizes = ["restore no word", "save no word"];
        let expected = sizes.map(|size| format!("no lines that {size}, with {collision}"));
        let mut reached = reached_of(&[it.run()]);
        reached.retain(|fault| fault.starts_with("no lines that "));
        assert_eq!(reached, expected);
    };
    let nothing = "nothing touching";
    for (s, collision) in [
        (170, "the saved stack over the target's record"),
        (171, nothing),
        (172, "the saved stack over the target's stack"),
        (173, nothing),
        (139, "the saved stack over the own record"),
        (140, nothing),
        (17, "word 2i + 1 in the saved stack"),
        (16, nothing),
        (18, nothing),
    ] {
        check(Scene { s, ..APART }, collision);
    }
    for (p, collision) in [
        (160, "the own record over the target's record"),
        (159, nothing),
        (12, "word 2i + 1 in the own record"),
        (11, nothing),
        (17, "word 2i + 1 in the own record"),
        (18, nothing),
    ] {
        check(Scene { p, ..APART }, collision);
    }
    for (stack, collision) in [
        (139, "the own record over the target's stack"),
        (140, nothing),
        (17, "word 2i + 1 in the target's stack"),
        (18, nothing),
    ] {
        check(Scene { stack, ..APART }, collision);
    }
    for (q, collision) in [(17, "word 2i + 1 in the target's record"), (18, nothing)] {
        check(Scene { q, ..APART }, collision);
    }
}

#[test]
fn sizes_are_told_apart() {
    let check = |saved: u8, restored: u8, sizes: [&str; 2]| {
        // The literals are at the positions of their depths.
        let it = Scene {
            at: (0, saved.into(), saved),
            goes_on: (0, restored.into(), restored),
            ..APART
        };
        let expected = sizes.map(|size| format!("no lines that {size}, with nothing touching"));
        let mut reached = reached_of(&[it.run()]);
        reached.retain(|fault| fault.starts_with("no lines that "));
        assert_eq!(reached, expected);
    };
    check(0, 1, ["restore 1 to 15 words", "save no word"]);
    check(1, 0, ["restore no word", "save 1 to 15 words"]);
    check(15, 15, ["restore 1 to 15 words", "save 1 to 15 words"]);
    check(16, 16, ["restore 16 words", "save 16 words"]);
}

/// Lines 15 and 8, of which one is taken.
#[test]
fn lines_beside_one_another() {
    let both = Scene {
        requests: 0x8100,
        ..APART
    };
    // The higher one is taken.
    let high = Scene { line: 15, ..both };
    let lower = "a lower one open";
    let spent = "no runs with an open line that are spent behind a line".to_string();
    let first = format!("no {STEPS} {lower}");
    assert_eq!(beyond(&high), [first, spent]);
    let masks = Scene {
        new_m: 0x0100,
        ..high
    };
    check(masks, STEPS, &[lower, "a pending one that M masks"]);
    // It lets the lower one pass.
    let opens = Scene { m: 0x0100, ..high };
    let spent = "no runs with an open line that are spent behind a line".to_string();
    let opened = format!("no {STEPS} a pending one that M opens");
    assert_eq!(beyond(&opens), [opened, spent]);
    let stays = Scene {
        m: 0x0100,
        held: 0x0100,
        ..high
    };
    check(stays, STEPS, &[]);
    // The lower one is taken.
    let waits = |m, held| Scene {
        m,
        held,
        new_m: 0x8000,
        ..both
    };
    let masked = "a higher one masked by M alone";
    check(waits(0x8000, 0), STEPS, &[masked]);
    let held = "a higher one held by word 3 alone";
    check(waits(0, 0x8000), STEPS, &[held]);
    check(waits(0x8000, 0x8000), STEPS, &[]);
}

/// What is saved lies over word 3. From S up there are the words and their count.
#[test]
fn word_3_that_is_saved_over() {
    let high = Scene {
        line: 15,
        requests: 0x8100,
        at: (0, 2, 2),
        new_m: 0,
        ..APART
    };
    let stack = "word 3 in the saved stack";
    let lower = "a lower one open";
    let holds = Scene {
        s: 2,
        word: 0x0100,
        ..high
    };
    let held = "a pending one that word 3 holds";
    check(holds, STEPS, &[lower, held, stack]);
    let masked = Scene {
        new_m: 0x0100,
        ..holds
    };
    check(masked, STEPS, &[lower, stack]);
    // The count is 2.
    let lets_go = Scene {
        s: 1,
        held: 0x0100,
        ..high
    };
    let let_go = "a pending one that word 3 lets go";
    let spent = "no runs with an open line that are spent behind a line".to_string();
    let mut expected: Vec<String> = [let_go, stack]
        .map(|kind| format!("no {STEPS} {kind}"))
        .into();
    expected.push(spent.clone());
    assert_eq!(beyond(&lets_go), expected);
    // From 0 up it is 2, from 4 up nothing.
    for s in [0, 4] {
        let it = Scene {
            s,
            requests: 0x8000,
            ..high
        };
        check(it, STEPS, &[]);
    }
    // The own record: M is its fourth word.
    for p in 0..=3 {
        let it = Scene {
            p,
            requests: 0x8000,
            ..high
        };
        check(it, STEPS, &["word 3 in the own record"]);
    }
    let it = Scene {
        p: 4,
        requests: 0x8000,
        ..high
    };
    check(it, STEPS, &[]);
}

/// What is saved lies over word 16, where line 8 is open.
#[test]
fn vectors_that_are_saved_over() {
    let high = Scene {
        line: 15,
        requests: 0x8100,
        ..APART
    };
    let with = |it: &Scene| {
        let mut reached = beyond(it);
        reached.retain(|fault| fault.contains("word 2j"));
        reached
    };
    let stack = format!("no {STEPS} word 2j of an open one in the saved stack");
    let record = format!("no {STEPS} word 2j of an open one in the own record");
    assert_eq!(with(&Scene { s: 16, ..high }), [&stack[..]]);
    for s in [15, 17] {
        assert_eq!(with(&Scene { s, ..high }), [""; 0]);
    }
    for p in [11, 16] {
        assert_eq!(with(&Scene { p, ..high }), [&record[..]]);
    }
    for p in [10, 17] {
        assert_eq!(with(&Scene { p, ..high }), [""; 0]);
    }
    // It is masked then, or not requested.
    let it = Scene { s: 16, ..high };
    assert_eq!(
        with(&Scene {
            new_m: 0x0100,
            ..it
        }),
        [""; 0]
    );
    assert_eq!(
        with(&Scene {
            requests: 0x8000,
            ..it
        }),
        [""; 0]
    );
}

#[test]
fn targets_are_told_apart() {
    let to = |at: At, goes_on: At, kinds: &[&str]| {
        check(
            Scene {
                at,
                goes_on,
                ..APART
            },
            STEPS,
            kinds,
        );
    };
    to(NOP, NOP, &[]);
    to(NOP, ELSEWHERE, &["a target in another module"]);
    to(ELSEWHERE, ELSEWHERE, &[]);
    to(STORED, NOP, &["saved depths, and none in the target"]);
    to(NOP, STORED, &["no saved depths, and some in the target"]);
    to(STORED, STORED, &[]);
    to(
        STORED,
        STORED_TWICE,
        &["saved depths, and others in the target"],
    );
    check(Scene { q: 0, ..APART }, STEPS, &["a target at word 0"]);
}

/// A RTN at the end, with L above H, and one that lands at position 0; a TRAP; a jump
/// back.
#[test]
fn instructions_that_a_line_comes_before() {
    let before = |at: At, l: u16, position: u16, kinds: &[&str]| {
        let mut run = Scene { at, l, ..APART }.run();
        run.store_patches.push((l + 2, position));
        let mut reached = reached_of(&[run]);
        reached.retain(|fault| fault.starts_with("no steps of a line "));
        let kinds = kinds
            .iter()
            .map(|kind| format!("no steps of a line before {kind}"));
        assert_eq!(reached, kinds.collect::<Vec<_>>());
    };
    let rtn = (0, 20, 0);
    before(rtn, 176, 0x7FFF, &["an end"]);
    before(rtn, 177, 0x7FFF, &["a trap"]);
    before(rtn, 176, 0, &[]);
    before((0, 16, 16), 40, 0, &["a trap"]);
    before((0, 18, 0), 40, 0, &["a jump back"]);
    before(NOP, 40, 0, &[]);
}

/// A run that goes on with what the run before returned.
fn next(budget: u32) -> CaseRun {
    CaseRun {
        budget,
        ..CaseRun::default()
    }
}

/// The process of line 8 beside that of line 15, at 180.
fn two_processes(requests: u16) -> CaseRun {
    let low = Scene {
        q: 180,
        stack: 176,
        ..APART
    };
    let high = Scene {
        line: 15,
        requests,
        ..APART
    };
    let mut run = high.run();
    run.store_patches.extend(low.process());
    run
}

#[test]
fn lower_lines_that_come_later() {
    let later = "no lower lines taken in the run after a higher one with which they were open";
    let hidden = "no lower lines that could be taken, below one that stops with 35";
    let lower = |runs: &[CaseRun]| {
        let mut reached = reached_of(runs);
        reached.retain(|fault| fault.starts_with("no lower lines "));
        reached
    };
    assert_eq!(lower(&[two_processes(0x8100), next(1)]), [later]);
    // A run between them, or a word of its own.
    let own = CaseRun {
        requests: Some(0x0100),
        ..next(1)
    };
    assert_eq!(lower(&[two_processes(0x8100), own]), [""; 0]);
    assert_eq!(lower(&[two_processes(0x8000), next(1)]), [""; 0]);
    // The higher one fails; the lower one could be taken, waits, or fails too.
    let mut failed = two_processes(0x8100);
    failed.store_patches.push((30, 65_535));
    assert_eq!(lower(std::slice::from_ref(&failed)), [hidden]);
    let mut held = failed.clone();
    held.store_patches.push((3, 0x0100));
    assert_eq!(lower(&[held]), [""; 0]);
    failed.store_patches.push((16, 65_535));
    assert_eq!(lower(&[failed]), [""; 0]);
}

/// Line 8 goes from a place to the TRA at 33 in module 0, or to another module, and a
/// transfer or line 9 goes back.
#[test]
fn processes_that_go_on() {
    let resumed = |runs: &[CaseRun]| {
        let mut reached = reached_of(runs);
        reached.retain(|fault| fault.starts_with("no interrupted process "));
        reached
    };
    let by = |kind: &str| format!("no interrupted process resumed by {kind}");
    let go = |at: At| {
        let mut run = Scene {
            at,
            goes_on: (0, 33, 2),
            ..APART
        }
        .run();
        // Words c and a: from 41, to the word 17 that has the old process.
        run.store_patches.extend([(172, 17), (173, 41)]);
        run
    };
    assert_eq!(resumed(&[go(NOP), next(1)]), [by("a transfer")]);
    let elsewhere = [by("a transfer"), by("a transfer from another module")];
    assert_eq!(resumed(&[go(ELSEWHERE), next(1)]), elsewhere);
    let saved = [by("a transfer"), by("a transfer, where depths are saved")];
    assert_eq!(resumed(&[go(STORED), next(1)]), saved);
    // Its record is changed meanwhile, or the transfer is not the only step.
    let changed = CaseRun {
        store_patches: vec![(135, 9)],
        ..next(1)
    };
    assert_eq!(resumed(&[go(NOP), changed]), [""; 0]);
    assert_eq!(resumed(&[go(NOP), next(2)]), [""; 0]);
    let line = CaseRun {
        requests: Some(0x0200),
        store_patches: vec![(18, 134)],
        ..next(1)
    };
    assert_eq!(resumed(&[go(NOP), line.clone()]), [by("a line")]);
    assert_eq!(resumed(&[go(NOP), next(0), line]), [by("a line")]);
}

#[test]
fn bits_that_are_no_lines() {
    for i in 0..8 {
        let bit = 1 << i;
        let alone = Scene {
            requests: bit,
            ..APART
        };
        let title = "instructions without lines, with bit";
        check(alone, title, &[&i.to_string()]);
        check(Scene { m: bit, ..alone }, title, &[]);
        check(Scene { held: bit, ..alone }, title, &[]);
        check(Scene { budget: 2, ..alone }, title, &[]);
        let with_line = Scene {
            requests: 0x0100 | bit,
            ..APART
        };
        check(with_line, "steps of a line with bit", &[&i.to_string()]);
    }
}

/// Its position lies outside the code.
const NO_MACHINE: Machine = Machine {
    module: 0,
    pc: 999,
    depth: 0,
    p: 0,
    l: 0,
    s: 0,
    h: 0,
    m: 0,
    stack: [0; 16],
};

#[test]
fn refused_runs() {
    let refused = |requests: u16, spoil: fn(&mut Case)| {
        let run = Scene { requests, ..APART }.run();
        let mut case = case_of_modules(&modules(), &[run]);
        spoil(&mut case);
        reached_of_case(case)
    };
    let check = |number: u8, spoil: fn(&mut Case)| {
        let expected = format!("no runs with lines refused with {number}");
        assert_eq!(refused(0x0100, spoil), [&expected[..]]);
        assert_eq!(refused(0x80FF, spoil), [expected]);
        assert_eq!(refused(0x00FF, spoil), [""; 0]);
    };
    check(1, |case| case.image.clear());
    check(2, |case| case.image[0] = 0);
    check(3, |case| case.image.truncate(9));
    check(4, |case| case.image.push(0));
    check(5, |case| case.image[1] |= 8);
    check(6, |case| case.image[2] = 0);
    check(7, |case| case.map_length = 5);
    check(9, |case| {
        case.store_length = 169;
        case.runs[0].store_patches.clear();
    });
    check(10, |case| case.outputs.clear());
    check(11, |case| case.runs[0].machine = Some(NO_MACHINE));
    check(12, |case| case.runs[0].map_patches = vec![(0, 0)]);
}

#[test]
fn open_lines_that_are_not_taken() {
    let title = "runs with an open line";
    let none = Scene { budget: 0, ..APART };
    check(none, title, &["that have budget 0"]);
    check(Scene { m: 0x0100, ..none }, title, &[]);
    check(
        Scene {
            held: 0x0100,
            ..none
        },
        title,
        &[],
    );
    // SSW0 with words 3 and 3.
    let writes = Scene {
        at: (0, 28, 2),
        word: 3,
        held: 0x0100,
        ..APART
    };
    let expected = [
        "no instructions with word 3 alone against line 8",
        "no runs with an open line that are spent behind an instruction",
        "no instructions that open a line by word 3",
    ];
    assert_eq!(beyond(&writes), expected);
    // It is masked too.
    check(
        Scene {
            m: 0x0100,
            ..writes
        },
        title,
        &[],
    );
    // TRA from word 40 to word 40, whose M lets line 8 pass.
    let mut transfer = Scene {
        at: (0, 33, 2),
        word: 40,
        m: 0x0100,
        ..APART
    };
    let opened = |it: &Scene| {
        let mut run = it.run();
        run.store_patches.push((40, 165));
        let mut reached = reached_of(&[run]);
        reached.retain(|fault| !fault.starts_with("no instructions with M alone"));
        reached
    };
    let expected = [
        "no runs with an open line that are spent behind an instruction",
        "no instructions that open a line by M",
    ];
    assert_eq!(opened(&transfer), expected);
    transfer.new_m = 0x0100;
    assert_eq!(opened(&transfer), [""; 0]);
}

#[test]
fn lines_that_wait_at_first() {
    let title = "runs that take a line at first";
    // LI3, LI0, SSW0, the line.
    let writes = Scene {
        at: (0, 26, 0),
        held: 0x0100,
        budget: 4,
        ..APART
    };
    check(writes, title, &["held by word 3 alone"]);
    check(
        Scene {
            budget: 3,
            ..writes
        },
        title,
        &[],
    );
    let mut run = Scene {
        at: (0, 33, 2),
        word: 40,
        m: 0x0100,
        budget: 2,
        ..APART
    }
    .run();
    run.store_patches.push((40, 165));
    let expected = format!("no {title} masked by M alone");
    assert_eq!(reached_of(&[run]), [expected]);
}

#[test]
fn several_lines_in_one_run() {
    let title = "runs that take";
    // All have the target P.
    let takes = |requests: u16, budget: u32| {
        let mut run = Scene {
            requests,
            budget,
            ..APART
        }
        .run();
        run.store_patches
            .extend((8..16).map(|line| (2 * line, 134)));
        let mut reached = reached_of(&[run]);
        reached.retain(|fault| fault.starts_with("no runs that take "));
        reached
    };
    assert_eq!(takes(0x0100, 9), [""; 0]);
    assert_eq!(takes(0x0300, 9), [format!("no {title} 2 lines")]);
    assert_eq!(takes(0xFF00, 2), [format!("no {title} 2 lines")]);
    assert_eq!(takes(0x0700, 9), [format!("no {title} 3 lines or more")]);
    assert_eq!(takes(0xFF00, 9), [format!("no {title} 3 lines or more")]);
}

#[test]
fn stops_behind_other_steps() {
    let behind = |it: Scene, patches: &[(u16, u16)]| {
        let mut run = it.run();
        run.store_patches.extend(patches);
        let mut reached = reached_of(&[run]);
        reached.retain(|fault| fault.starts_with("no stops with 35 by a line behind"));
        reached
    };
    let expected = |kind: &str| [format!("no stops with 35 by a line behind {kind}")];
    let it = Scene { budget: 9, ..APART };
    assert_eq!(behind(it, &[(16, 65_535)]), expected("no step"));
    let second = Scene {
        requests: 0x8100,
        ..it
    };
    assert_eq!(
        behind(second, &[(30, 134), (16, 65_535)]),
        expected("a line")
    );
    let writes = Scene {
        at: (0, 26, 0),
        held: 0x0100,
        ..it
    };
    let instructions = expected("instructions alone");
    assert_eq!(behind(writes, &[(16, 65_535)]), instructions);
}

#[test]
fn words_that_are_handed_on() {
    let handed = |runs: &[CaseRun]| {
        let mut reached = reached_of(runs);
        reached.retain(|fault| fault.starts_with("no steps of a line handed on "));
        reached
    };
    let by = |kind: &str| [format!("no steps of a line handed on by {kind}")];
    let runs = [two_processes(0x8100), next(1)];
    assert_eq!(handed(&runs), by("a run that takes a line"));
    let waits = Scene { budget: 0, ..APART };
    assert_eq!(handed(&[waits.run(), next(1)]), by("a run that takes none"));
    assert_eq!(handed(&[waits.run(), next(0), next(2)]), [""; 0]);
    let refused = CaseRun {
        machine: Some(NO_MACHINE),
        ..APART.run()
    };
    let after = CaseRun {
        requests: None,
        ..APART.run()
    };
    assert_eq!(handed(&[refused, after]), by("a refused run"));
    assert_eq!(handed(&[APART.run(), APART.run()]), [""; 0]);
}
