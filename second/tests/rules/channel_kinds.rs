//! The kinds of A.9 in the coverage: each is told apart from what is near it.

use crate::generated::{case_of_modules, module_of, reached};
use crate::line_kinds::At;
use second::assemble::Source;
use second::case::CaseRun;
use second::Machine;
use std::slice::from_ref;

/// Beginnings of what is missing of A.9.
const BEGINNINGS: [&str; 5] = [
    "no READs ",
    "no words of channels ",
    "no runs with a channel ",
    "no runs spent ",
    "no runs behind one ",
];

pub fn is_of_channels(fault: &str) -> bool {
    BEGINNINGS.iter().any(|begin| fault.starts_with(begin))
}

/// Both modules: LI0, LI0, READ; LI3, LI0, READ; LI0, TRAP. Module 0 goes on with STORE,
/// LI0, LI0, READ, LI0, LODFW, TRAP; LI0, LI0, READ, LI0, LI0, TRA; LI0, LI0, READ, RTN;
/// LI0, LI0, WRITE, RTN.
fn modules() -> [Source; 2] {
    let reads = [0, 0, 0o240, 3, 0, 0o240, 0, 0o304];
    let code = [
        &reads[..],
        &[0o262, 0, 0, 0o240, 0, 0o260, 0o304],
        &[0, 0, 0o240, 0, 0, 0o256, 1, 0o035, 1],
        &[0, 0, 0o240, 0o354],
        &[0, 0, 0o241, 0o354],
    ]
    .concat();
    let entries = [0, 8, 15, 24, 28].map(|entry| (entry, 0, 0));
    [module_of(&entries, &code), module_of(&[(0, 0, 0)], &reads)]
}

const READ: At = (0, 2, 2);
const LAST_READ: At = (0, 5, 2);
const READ_IN_1: At = (1, 2, 2);
const TRAP: At = (0, 7, 1);
const READ_SAVED: At = (0, 11, 2);
const READ_TRA: At = (0, 17, 2);
const READ_RTN: At = (0, 26, 2);
const WRITE: At = (0, 30, 2);

/// A run from a machine with these words. The bases are 128 and 131, P is 134, and the
/// frame at 150 has the end mark. Input i is 100 + i, but for those given.
fn run(at: At, words: &[u16], budget: u32, inputs: &[(usize, u16)]) -> CaseRun {
    let (module, pc, depth) = at;
    let mut machine = Machine {
        module,
        pc,
        depth,
        p: 134,
        l: 150,
        s: 155,
        h: 176,
        m: 0,
        stack: [0; 16],
    };
    machine.stack[..words.len()].copy_from_slice(words);
    let mut run = CaseRun {
        budget,
        requests: Some(0),
        inputs: (100..116).collect(),
        machine: Some(machine),
        store_patches: vec![(152, 0x7FFF)],
        ..CaseRun::default()
    };
    for &(channel, word) in inputs {
        run.inputs[channel] = word;
    }
    run
}

/// A run of one READ with this address and channel, and so many steps more.
fn read(address: u16, channel: u16, more: u32) -> CaseRun {
    run(READ, &[address, channel], 1 + more, &[])
}

/// The words of a process: its record at q, its stack behind it, the last word lowest,
/// and the word that names it.
fn process(name: u16, q: u16, at: At, words: &[u16]) -> Vec<(u16, u16)> {
    let (module, position, _) = at;
    let base = 128 + 3 * u16::from(module);
    let count = q + 6 + words.len() as u16;
    let record = [base, 150, position, 0, count + 1, 200];
    let stack = words.iter().rev().copied();
    let mut patches: Vec<(u16, u16)> = (q..).zip(record.into_iter().chain(stack)).collect();
    patches.extend([(count, words.len() as u16), (name, q)]);
    patches
}

/// A run with other words of the store, and requests.
fn with(mut run: CaseRun, requests: u16, patches: &[Vec<(u16, u16)>]) -> CaseRun {
    run.requests = Some(requests);
    run.store_patches.extend(patches.concat());
    run
}

/// What runs reach with this title.
fn check(runs: &[CaseRun], title: &str, kinds: &[&str]) {
    let mut reached = reached(case_of_modules(&modules(), runs));
    let title = format!("no {title} ");
    reached.retain(|fault| fault.starts_with(&title));
    let expected = kinds.iter().map(|kind| format!("{title}{kind}"));
    assert_eq!(reached, expected.collect::<Vec<_>>());
}

#[test]
fn a_read_alone() {
    let mut reached = reached(case_of_modules(&modules(), &[read(60, 5, 0)]));
    reached.retain(|fault| is_of_channels(fault));
    let expected = [
        "no READs of channel 5",
        "no words of channels with 1 bit",
        "no runs with a channel stopped with 30",
        "no runs spent behind a READ",
    ];
    assert_eq!(reached, expected);
    for channel in 0..16 {
        let name = channel.to_string();
        check(&[read(60, channel, 0)], "READs of channel", &[&name]);
        // It is not the only step.
        check(&[read(60, channel, 1)], "READs of channel", &[]);
    }
    check(&[run(WRITE, &[5, 5], 1, &[])], "READs", &[]);
}

#[test]
fn failing_reads_are_told_apart() {
    let check = |at: At, address: u16, channel: u16, kinds: &[&str]| {
        let stopped = run(at, &[address, channel], 9, &[]);
        check(from_ref(&stopped), "READs stopped with", kinds);
        check(from_ref(&stopped), "READs caught with", &[]);
        let caught = with(stopped, 0, &[process(14, 160, TRAP, &[7])]);
        check(from_ref(&caught), "READs stopped with", &[]);
        check(&[caught], "READs caught with", kinds);
    };
    check(READ, 200, 15, &["32"]);
    check(READ, 65_535, 0, &["32"]);
    check(READ, 199, 16, &["39 and an address in the store"]);
    check(READ, 200, 16, &["39 and an address outside"]);
    check(READ, 0, 65_535, &["39 and an address in the store"]);
    check(READ, 199, 15, &[]);
    check(WRITE, 16, 200, &[]);
    check(TRAP, 200, 0, &[]);
}

#[test]
fn words_and_stops_are_told_apart() {
    let title = "words of channels with";
    check(&[read(60, 5, 3)], title, &["2 to 15 bits"]);
    check(&[read(60, 0, 3)], title, &["1 bit"]);
    check(&[read(200, 5, 3)], title, &["no bit"]);
    // LIB 60, the channel, READ.
    let reads = (0..16).flat_map(|channel| [0o020, 60, channel, 0o240]);
    let code: Vec<u8> = reads.chain([0o354]).collect();
    for (budget, kind) in [(47, "2 to 15 bits"), (48, "16 bits")] {
        let module = module_of(&[(0, 0, 0)], &code);
        let run = CaseRun {
            budget,
            ..CaseRun::default()
        };
        let reached = reached(case_of_modules(&[module], &[run]));
        assert!(reached.contains(&format!("no {title} {kind}")));
    }
    let title = "runs with a channel stopped with";
    check(&[read(60, 5, 1)], title, &["30"]);
    check(&[run(READ_RTN, &[60, 5], 9, &[])], title, &["31"]);
    check(&[read(60, 5, 9)], title, &["40"]);
    check(&[run(TRAP, &[5], 9, &[])], title, &[]);
    check(&[read(200, 5, 9)], title, &[]);
}

#[test]
fn spent_runs_are_told_apart() {
    let title = "runs spent";
    let (behind, before) = ("behind a READ", "before a READ");
    check(&[run(READ, &[60, 5], 0, &[])], title, &[before]);
    check(&[run(READ, &[60, 16], 0, &[])], title, &[]);
    check(&[run(READ, &[200, 5], 0, &[])], title, &[]);
    check(&[run((0, 1, 1), &[60], 0, &[])], title, &[]);
    check(&[run((0, 1, 1), &[60], 1, &[])], title, &[before]);
    check(&[read(60, 5, 0)], title, &[behind]);
    check(&[read(60, 5, 1)], title, &[]);
    check(&[read(60, 5, 2)], title, &[before]);
    check(&[read(60, 5, 3)], title, &[behind]);
    check(&[read(60, 5, 4)], title, &[]);
    // Channel 0 is read before.
    check(&[read(60, 0, 2)], title, &[]);
    check(&[read(60, 0, 3)], title, &[]);
    // A line comes first.
    let line = with(run(READ, &[60, 5], 0, &[]), 0x8000, &[vec![(30, 134)]]);
    check(&[line], title, &[]);
    // The READ stops.
    check(&[run(READ_RTN, &[60, 5], 9, &[])], title, &[]);
}

#[test]
fn runs_behind_others_are_told_apart() {
    let title = "runs behind one that reads a channel";
    let next = |first: u16, second: u16, kinds: &[&str]| {
        check(&[read(60, first, 0), read(61, second, 0)], title, kinds);
    };
    next(5, 5, &["that read it too"]);
    next(5, 6, &["that do not read it", "that read another"]);
    next(5, 16, &["that do not read it"]);
    next(16, 5, &[]);
    check(&[read(60, 5, 0)], title, &[]);
    let title = "runs behind one with a channel refused with";
    let spoiled = |spoil: fn(&mut CaseRun)| {
        let mut spoiled = read(60, 5, 0);
        spoil(&mut spoiled);
        spoiled
    };
    let refused = [
        ("10", spoiled(|run| run.inputs.truncate(3))),
        ("11", spoiled(|run| run.machine.as_mut().unwrap().depth = 1)),
        ("12", spoiled(|run| run.map_patches = vec![(0, 0)])),
    ];
    for (number, run) in refused {
        check(&[read(60, 5, 0), run.clone()], title, &[number]);
        check(from_ref(&run), title, &[]);
        check(&[read(60, 16, 0), run.clone()], title, &[]);
        check(&[read(60, 5, 0), read(60, 16, 0), run.clone()], title, &[]);
        // Behind a refused one.
        let twice = [read(60, 5, 0), run.clone(), run];
        check(&twice, title, &[number]);
    }
}

/// Line 15 and word 14 name processes at 158 and 168.
#[test]
fn places_of_reads_are_told_apart() {
    let check = |run: CaseRun, kinds: &[&str]| {
        let title = "no READs ";
        let mut reached = reached(case_of_modules(&modules(), &[run]));
        let others = ["of channel ", "stopped ", "caught ", "into "];
        reached.retain(|fault| {
            let rest = fault.strip_prefix(title);
            rest.is_some_and(|rest| !others.iter().any(|it| rest.starts_with(it)))
        });
        let expected = kinds.iter().map(|kind| format!("{title}{kind}"));
        assert_eq!(reached, expected.collect::<Vec<_>>());
    };
    check(read(60, 5, 3), &[]);
    check(
        run(READ_IN_1, &[60, 5], 1, &[]),
        &["in a module other than 0"],
    );
    check(read(60, 0, 3), &["of a channel that is read again"]);
    check(read(60, 0, 2), &[]);
    // By line 15 to a READ.
    let (line, trap) = ("behind a line", "behind a caught trap");
    let by_line = |budget| {
        let to = process(30, 158, LAST_READ, &[60, 5]);
        with(run(READ, &[61, 6], budget, &[]), 0x8000, &[to])
    };
    check(by_line(1), &[]);
    check(by_line(2), &[line]);
    // By a trap to a READ; by a READ that fails.
    let to = |budget, at: At, words: &[u16]| {
        let process = process(14, 168, LAST_READ, &[60, 5]);
        with(run(at, words, budget, &[]), 0, &[process])
    };
    check(to(1, TRAP, &[7]), &[]);
    check(to(2, TRAP, &[7]), &[trap]);
    check(to(1, READ, &[60, 16]), &[]);
    check(to(2, READ, &[60, 16]), &[trap, "behind a caught READ"]);
    check(to(2, WRITE, &[16, 60]), &[trap]);
    // A line to READ and TRAP, and from there to a READ.
    let both = |budget| {
        let first = process(30, 158, LAST_READ, &[60, 5]);
        let second = process(14, 168, LAST_READ, &[61, 6]);
        let run = run(READ, &[61, 6], budget, &[]);
        with(run, 0x8000, &[first, second])
    };
    check(both(4), &[line]);
    let then = "behind a line, and then behind a caught trap";
    check(both(5), &[line, trap, then]);
    // A trap to a READ into word 3, which lets line 15 go to a READ.
    let both = |budget, held: u16| {
        let first = process(30, 158, LAST_READ, &[60, 5]);
        let second = process(14, 168, LAST_READ, &[3, 6]);
        let run = run(TRAP, &[7], budget, &[(6, held)]);
        with(run, 0x8000, &[first, second, vec![(3, 0x8000)]])
    };
    check(both(3, 0), &[trap]);
    let then = "behind a caught trap, and then behind a line";
    check(both(4, 0), &[line, trap, then]);
    check(both(4, 0x8000), &[trap]);
}

/// READs into words that decide lines: word 3 and word 2i.
#[test]
fn words_of_lines_are_told_apart() {
    let into = |address: u16, input: u16, budget: u32, patches: &[(u16, u16)]| {
        let run = run(READ, &[address, 5], budget, &[(5, input)]);
        let process = process(30, 160, TRAP, &[7]);
        with(run, 0x8000, &[process, patches.to_vec()])
    };
    let check = |run: CaseRun, kinds: &[&str]| check(&[run], "READs into", kinds);
    let held = (3, 0x8000);
    let lets_go = "word 3, before a line that it held";
    check(into(3, 0, 2, &[held]), &[lets_go]);
    check(into(3, 0, 1, &[held]), &[]);
    check(into(3, 0x8000, 2, &[held]), &[]);
    check(into(4, 0, 2, &[held]), &[]);
    // The line comes before the READ.
    check(into(3, 0, 2, &[]), &[]);
    // Word 30, and channel 0 to word 3, which lets the line go.
    let named = |address: u16, name: u16, held: u16| {
        let run = run(READ, &[address, 5], 5, &[(5, name), (0, held)]);
        let process = process(9, 160, TRAP, &[7]);
        with(run, 0x8000, &[process, vec![(3, 0x8000)]])
    };
    check(named(30, 160, 0), &[lets_go, "word 2i, before line i"]);
    check(named(30, 65_535, 0), &["word 2i, before line i that fails"]);
    check(named(30, 160, 0x8000), &[]);
    check(named(28, 160, 0), &[]);
}

/// READs into words that decide a trap: word 14, and the process that it names.
#[test]
fn words_of_traps_are_told_apart() {
    // The READ of channel 5, one of channel 0, and TRAP.
    let into = |address: u16, input: u16, patches: &[(u16, u16)]| {
        let run = run(READ, &[address, 5], 9, &[(5, input)]);
        let process = process(14, 160, LAST_READ, &[60, 6]);
        with(run, 0, &[process, patches.to_vec()])
    };
    let check = |run: CaseRun, kinds: &[&str]| check(&[run], "READs into", kinds);
    let (caught, not) = (
        "word 14, before a trap that is caught",
        "word 14, before a trap that is not",
    );
    check(into(14, 160, &[(14, 0)]), &[caught]);
    check(into(14, 0, &[]), &[not]);
    check(into(14, 134, &[]), &[not]);
    check(into(14, 65_535, &[]), &[not]);
    check(into(15, 160, &[]), &[]);
    // The record is at 160 to 165, its words at 166 and 167, the count at 168.
    let record = "the record of a process that catches a trap";
    check(into(160, 128, &[(160, 9)]), &[record]);
    check(into(165, 199, &[]), &[record]);
    check(into(159, 9, &[]), &[]);
    let words = "the words of a process that catches a trap";
    check(into(166, 6, &[]), &[words]);
    check(into(167, 60, &[]), &[words]);
    check(
        into(168, 2, &[(168, 9)]),
        &["the count of a process that catches a trap"],
    );
    check(into(169, 2, &[]), &[]);
    // It does not catch the trap.
    check(into(160, 129, &[]), &[]);
    check(into(168, 3, &[]), &[]);
    // Behind the trap.
    let behind = run(TRAP, &[7], 9, &[]);
    let process = process(14, 160, LAST_READ, &[165, 6]);
    check(with(behind, 0, &[process]), &[]);
}

/// READs into the return mark, a saved count and the target of a TRA.
#[test]
fn words_of_instructions_are_told_apart() {
    let into = |at: At, address: u16, input: u16| run(at, &[address, 5], 9, &[(5, input)]);
    let check = |run: CaseRun, kinds: &[&str]| check(&[run], "READs into", kinds);
    check(into(READ_RTN, 152, 0x7FFF), &["the return mark of an end"]);
    check(into(READ_RTN, 151, 0x7FFF), &[]);
    check(into(READ_RTN, 153, 0x7FFF), &[]);
    let mark = "the return mark of a RTN that stops with 34";
    check(into(READ_RTN, 152, 0xFFFF), &[mark]);
    // S is 155 behind the STORE, whose count is 0.
    let count = "the count of a LODFW that stops with 34";
    check(into(READ_SAVED, 154, 5), &[count]);
    check(into(READ_SAVED, 154, 0), &[]);
    check(into(READ_SAVED, 153, 5), &[]);
    // Word 0 is the target.
    let target = "the target of a TRA that stops with 35";
    check(into(READ_TRA, 0, 65_535), &[target]);
    check(into(READ_TRA, 1, 65_535), &[]);
}
