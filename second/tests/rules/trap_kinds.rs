//! The kinds of A.8 in the coverage: each is told apart from what is near it.

use crate::generated::{case_of_modules, reached};
use crate::line_kinds::{modules, At, ELSEWHERE, NOP, STORED};
use second::case::CaseRun;
use second::Machine;

/// Beginnings of what is missing of A.8.
const BEGINNINGS: [&str; 3] = ["no caught ", "no traps not ", "no trapped process "];

pub fn is_of_traps(fault: &str) -> bool {
    BEGINNINGS.iter().any(|begin| fault.starts_with(begin))
}

/// A RTN without words, a TRAP with 16, and one with a word where depths are saved.
const RTN: At = (0, 20, 0);
const TRAP_16: At = (0, 16, 16);
const TRAP_1: At = (0, 25, 1);
/// A literal with a word below it.
const LITERAL_1: At = (0, 1, 1);

/// A run from a machine, and the process in word 14.
#[derive(Clone)]
struct Scene {
    at: At,
    budget: u32,
    l: u16,
    p: u16,
    s: u16,
    m: u16,
    requests: u16,
    q: u16,
    stack: u16,
    goes_on: At,
    new_m: u16,
    /// Other words of the store.
    others: Vec<(u16, u16)>,
}

/// A RTN with L above H is caught, no word is saved or restored, and nothing touches. The
/// bases are 128 and 131.
const APART: Scene = Scene {
    at: RTN,
    budget: 1,
    l: 177,
    p: 134,
    s: 145,
    m: 0,
    requests: 0,
    q: 165,
    stack: 172,
    goes_on: NOP,
    new_m: 0,
    others: Vec::new(),
};

impl Scene {
    fn run(&self) -> CaseRun {
        let (module, pc, depth) = self.at;
        let mut machine = Machine {
            module,
            pc,
            depth,
            p: self.p,
            l: self.l,
            s: self.s,
            h: 176,
            m: self.m,
            stack: [0; 16],
        };
        machine.stack[..usize::from(depth)].fill(1);
        CaseRun {
            budget: self.budget,
            requests: Some(self.requests),
            machine: Some(machine),
            store_patches: [self.process(14), self.others.clone()].concat(),
            ..CaseRun::default()
        }
    }

    /// Its record, its count and the word that names it.
    fn process(&self, name: u16) -> Vec<(u16, u16)> {
        let (module, position, depth) = self.goes_on;
        let count = self.stack + u16::from(depth);
        let base = 128 + 3 * u16::from(module);
        let record = [base, 177, position, self.new_m, count + 1, 200];
        let mut patches: Vec<(u16, u16)> = (self.q..).zip(record).collect();
        patches.extend([(count, depth.into()), (name, self.q)]);
        patches
    }

    fn with(&self, others: &[(u16, u16)]) -> Scene {
        Scene {
            others: others.to_vec(),
            ..self.clone()
        }
    }
}

/// What runs reach of A.8.
fn reached_of(runs: &[CaseRun]) -> Vec<String> {
    let mut reached = reached(case_of_modules(&modules(), runs));
    reached.retain(|fault| is_of_traps(fault));
    reached
}

/// What a scene reaches with this title.
fn check(it: &Scene, title: &str, kinds: &[&str]) {
    let title = format!("no {title} ");
    let mut reached = reached_of(&[it.run()]);
    reached.retain(|fault| fault.starts_with(&title));
    let expected = kinds.iter().map(|kind| format!("{title}{kind}"));
    assert_eq!(reached, expected.collect::<Vec<_>>());
}

const WITH: &str = "caught traps with";
const IN_A_RUN: &str = "caught traps in a run";

#[test]
fn a_trap_that_is_caught() {
    let expected = [
        "no caught 34",
        "no caught of an opcode: 354 RTN with 34",
        "no caught traps that restore no word, with nothing touching",
        "no caught traps that save no word, with nothing touching",
        "no caught traps in a run as the only step, with budget 1",
    ];
    assert_eq!(reached_of(&[APART.run()]), expected);
    let of_40 = Scene {
        at: TRAP_16,
        ..APART
    };
    let expected = [
        "no caught 40",
        "no caught of an opcode: 304 TRAP with 40",
        "no caught traps that restore no word, with nothing touching",
        "no caught traps that save 16 words, with nothing touching",
        "no caught traps in a run as the only step, with budget 1",
    ];
    assert_eq!(reached_of(&[of_40.run()]), expected);
    // Without a budget, or as an instruction that does not trap.
    let title = "no traps not made, with a good process in word 14, but a stop with";
    for (at, budget, kind) in [(RTN, 0, "a trap"), (NOP, 1, "another instruction")] {
        let it = Scene {
            at,
            budget,
            ..APART
        };
        let expected = format!("{title} 30 before {kind}");
        assert_eq!(reached_of(&[it.run()]), [expected]);
    }
    // The end mark of L = 0.
    let end = Scene { l: 0, ..APART }.with(&[(2, 0x7FFF)]);
    assert_eq!(reached_of(&[end.run()]), [format!("{title} 31")]);
}

/// The number in word 140, and the words beside it.
#[test]
fn numbers_are_told_apart() {
    let saved = |at: At, s: u16| Scene { at, s, ..APART };
    check(&saved(RTN, 140), WITH, &["the number under the count"]);
    check(&saved(RTN, 139), WITH, &[]);
    check(&saved(RTN, 141), WITH, &[]);
    let depths = "saved depths, and none in the target";
    let over = "the number under a saved word";
    check(&saved(TRAP_1, 140), WITH, &[over, depths]);
    let count = "the number under the count";
    check(&saved(TRAP_1, 139), WITH, &[count, depths]);
    check(&saved(TRAP_1, 141), WITH, &[depths]);
    let own = |p: u16| Scene { p, ..APART };
    check(&own(7), WITH, &[]);
    check(&own(8), WITH, &["the number in word 14"]);
    let record = "word 14 in the own record";
    check(&own(9), WITH, &["the number under word 15", record]);
    check(&own(10), WITH, &[record]);
    check(&own(14), WITH, &[record]);
    check(&own(15), WITH, &[]);
    let stack = "word 14 in the saved stack";
    check(&saved(RTN, 14), WITH, &[stack]);
    check(&saved(RTN, 13), WITH, &[]);
    check(&saved(TRAP_1, 13), WITH, &[stack, depths]);
    let target = "the number in the target's record";
    for (q, kinds) in [
        (140, &[target][..]),
        (135, &[target]),
        (141, &[]),
        (128, &[]),
    ] {
        check(&Scene { q, ..APART }, WITH, kinds);
    }
    let restored = |goes_on: At, stack: u16| Scene {
        goes_on,
        stack,
        ..APART
    };
    check(
        &restored(NOP, 140),
        WITH,
        &["the number in the target's count"],
    );
    check(&restored(NOP, 141), WITH, &[]);
    let words = "the number in the target's words";
    check(&restored(LITERAL_1, 140), WITH, &[words]);
    let count = "the number in the target's count";
    check(&restored(LITERAL_1, 139), WITH, &[count]);
    check(&restored(LITERAL_1, 141), WITH, &[]);
}

/// The last word that collides, and the word beside it that does not.
#[test]
fn collisions_are_told_apart() {
    let check = |it: Scene, collision: &str| {
        let sizes = ["restore no word", "save no word"];
        let expected = sizes.map(|size| format!("no caught traps that {size}, with {collision}"));
        let mut reached = reached_of(&[it.run()]);
        reached.retain(|fault| fault.starts_with("no caught traps that "));
        assert_eq!(reached, expected);
    };
    let nothing = "nothing touching";
    for (s, collision) in [
        (170, "the saved stack over the target's record"),
        (171, nothing),
        (172, "the saved stack over the target's stack"),
        (139, "the saved stack over the own record"),
        (140, nothing),
        (15, "word 15 in the saved stack"),
        (16, nothing),
    ] {
        check(Scene { s, ..APART }, collision);
    }
    for (p, collision) in [
        (160, "the own record over the target's record"),
        (159, nothing),
        (10, "word 15 in the own record"),
        (9, nothing),
    ] {
        check(Scene { p, ..APART }, collision);
    }
    for (stack, collision) in [
        (139, "the own record over the target's stack"),
        (140, nothing),
        (15, "word 15 in the target's stack"),
    ] {
        check(Scene { stack, ..APART }, collision);
    }
    for (q, collision) in [(15, "word 15 in the target's record"), (16, nothing)] {
        check(Scene { q, ..APART }, collision);
    }
}

#[test]
fn places_are_told_apart() {
    let between = |at: At, goes_on: At| Scene {
        at,
        goes_on,
        ..APART
    };
    let another = "a target in another module";
    check(&between(RTN, ELSEWHERE), WITH, &[another]);
    let some = "no saved depths, and some in the target";
    check(&between(RTN, STORED), WITH, &[some]);
    let others = "saved depths, and others in the target";
    check(&between(TRAP_1, STORED), WITH, &[others]);
    // The same at both.
    check(&between(TRAP_1, (0, 24, 0)), WITH, &[]);
    // A line that fails in module 1.
    let failing = Scene {
        requests: 0x8000,
        ..between(ELSEWHERE, NOP)
    };
    let kinds = [
        "a trap in a module other than 0",
        another,
        "a failed line that stays open",
    ];
    check(&failing.with(&[(30, 65_535)]), WITH, &kinds);
}

/// Line 15 fails: it is caught, and tried again.
#[test]
fn failed_lines_are_told_apart() {
    let failing = Scene {
        at: NOP,
        requests: 0x8000,
        ..APART
    }
    .with(&[(30, 65_535)]);
    let expected = [
        "no caught 35",
        "no caught 35 of a line, number 15",
        "no caught traps that restore no word, with nothing touching",
        "no caught traps that save no word, with nothing touching",
        "no caught traps with a failed line that stays open",
        "no caught traps in a run as the only step, with budget 1",
    ];
    assert_eq!(reached_of(&[failing.run()]), expected);
    let masked = Scene {
        new_m: 0x8000,
        ..failing.clone()
    };
    let kinds = ["a pending line that M masks", "a failed line that M masks"];
    check(&masked, WITH, &kinds);
    // It fails again, and the trap process is P.
    let again = Scene {
        budget: 2,
        ..failing.clone()
    };
    let kinds = [
        "before one in the trap process that is not",
        "of a line that fails again",
    ];
    check(&again, IN_A_RUN, &kinds);
    // L is saved over word 30.
    let taken = Scene {
        p: 29,
        l: 165,
        ..again.clone()
    };
    let kinds = ["before a line", "of a line that is taken then"];
    check(&taken, IN_A_RUN, &kinds);
    // A line that waits is opened.
    let opened = Scene {
        m: 0x8000,
        requests: 0x8000,
        ..APART
    };
    check(&opened, WITH, &["a pending line that M opens"]);
    let not_opened = Scene {
        new_m: 0x8000,
        ..opened
    };
    check(&not_opened, WITH, &[]);
}

/// What word 14 is where a trap is not caught: of a RTN, and of a line that fails.
#[test]
fn words_14_are_told_apart() {
    let check = |others: &[(u16, u16)], kind: &str| {
        let run = |it: Scene| {
            let mut run = it.run();
            run.store_patches.retain(|&(address, _)| address < 200);
            reached_of(&[run])
        };
        let kind = format!("with word 14 of {kind}");
        assert_eq!(
            run(APART.with(others)),
            [format!("no traps not caught, {kind}")]
        );
        let failing = Scene {
            at: NOP,
            requests: 0x8000,
            ..APART
        };
        let others = [others, &[(30, 65_535)]].concat();
        let expected = format!("no traps not caught of a line, {kind}");
        assert_eq!(run(failing.with(&others)), [expected]);
    };
    check(&[(14, 0)], "0");
    // The record of a NOP at word 0.
    let record = [(0, 128), (2, 17), (4, 173), (5, 200), (14, 0)];
    check(&record, "0, and a good process there");
    check(&[(14, 134)], "P");
    check(&[(14, 193)], "q, and q + 8 above W");
    check(&[(170, 23)], "q, and v below 24");
    check(&[(170, 201)], "q, and v above W");
    check(&[(169, 0)], "q, and s of 0");
    check(&[(169, 201)], "q, and s above W");
    check(&[(172, 17)], "q, and k above 16");
    check(&[(169, 2), (1, 2)], "q, and k not below s");
    check(&[(170, 195)], "q, and s − 1 − k above v − 24");
    check(&[(165, 129)], "q, and G no base");
    check(&[(167, 19)], "q, and a position without a mark");
    check(&[(167, 1)], "q, and a position with another depth");
}

/// Processes at 165 and 180, at a RTN with L above H: both trap.
#[test]
fn runs_are_told_apart() {
    let check = |it: &Scene, kinds: &[&str]| check(it, IN_A_RUN, kinds);
    let first = "before one in the trap process that is not";
    let long = Scene {
        budget: 9,
        goes_on: RTN,
        ..APART
    };
    check(&long, &[first]);
    // The own record over word 14: L is 180 there, and the trap process's trap is caught
    // by that process.
    let second = Scene {
        q: 180,
        stack: 160,
        ..long.clone()
    };
    let name = [second.process(13), vec![(13, 0)]].concat();
    let chain = Scene {
        p: 13,
        l: 180,
        ..long.clone()
    }
    .with(&name);
    check(&chain, &["twice", "in the trap process", first]);
    let spent = |budget| Scene {
        budget,
        ..chain.clone()
    };
    check(&spent(1), &["as the only step, with budget 1"]);
    let last = "behind other steps, where the run is spent";
    check(&spent(2), &[last, "twice", "in the trap process"]);
    // Behind a line, which goes to the RTN at 180.
    let behind = Scene {
        at: NOP,
        requests: 0x8000,
        budget: 2,
        ..APART
    };
    let others = second.process(30);
    check(&behind.with(&others), &[last, "behind a line"]);
    // Before a line, that the new M lets go.
    let before = Scene {
        at: RTN,
        m: 0x8000,
        ..behind
    };
    check(&before.with(&others), &["before a line"]);
    // Before an end: L, in word 166, becomes 0, and word 2 is the end mark.
    let ends = long.with(&[(166, 0), (2, 0x7FFF)]);
    check(&ends, &["before an end"]);
}

/// A trap, and then a transfer from the trap process at 165 back to 134.
#[test]
fn resumed_processes_are_told_apart() {
    // LI0, LI0, TRA 1 at 33.
    let trapped = Scene {
        goes_on: (0, 31, 0),
        ..APART
    };
    let mut put = CaseRun {
        budget: 2,
        store_patches: vec![(0, 134)],
        ..CaseRun::default()
    };
    let back = CaseRun {
        budget: 1,
        ..CaseRun::default()
    };
    let resumed = |runs: &[CaseRun]| {
        let mut reached = reached_of(runs);
        reached.retain(|fault| fault.starts_with("no trapped "));
        reached
    };
    let title = "no trapped process resumed by";
    let runs = [trapped.run(), put.clone(), back.clone()];
    assert_eq!(resumed(&runs), [format!("{title} a transfer")]);
    // By line 15; and by a transfer where depths are saved.
    let line = CaseRun {
        requests: Some(0x8000),
        store_patches: vec![(30, 134)],
        ..back.clone()
    };
    assert_eq!(resumed(&[trapped.run(), line]), [format!("{title} a line")]);
    let saved = Scene {
        at: TRAP_1,
        ..trapped
    };
    let expected = ["a transfer", "a transfer, where depths are saved"];
    let expected = expected.map(|kind| format!("{title} {kind}"));
    assert_eq!(resumed(&[saved.run(), put.clone(), back.clone()]), expected);
    // To another process.
    let other = Scene {
        q: 180,
        stack: 160,
        ..APART
    };
    put.store_patches = other.process(0);
    assert_eq!(resumed(&[saved.run(), put, back]), [""; 0]);
}
