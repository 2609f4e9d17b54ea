//! What cases reach of A.8: traps that are caught and traps that are not.

use crate::case::{each_run, Case, CaseRun, Caught, Outcome, RunOutcome};
use crate::collisions::{Change, Collisions};
use crate::coverage::{named, traps_of_opcodes, Reached};
use crate::image::{parse, Program};
use crate::lines::Setting;
use crate::machine::Machine;
use crate::mark::Saved;
use crate::number::*;
use crate::opcode::{row, TRA};
use crate::request::*;
use std::collections::BTreeMap;

/// Counts of what was reached; each must be. A step is seen where it is the only one
/// of a run, but for the numbers, opcodes and lines of traps.
#[derive(Default)]
pub struct Traps {
    /// By trap.
    numbers: [u64; NUMBERS],
    /// By opcode and trap.
    opcodes: BTreeMap<(u8, u8), u64>,
    /// By line: its failed transfer.
    lines: [u64; LINE_COUNT],
    /// Of caught traps, as are the next two.
    collisions: Collisions<16>,
    /// By [`STEPS`].
    steps: [u64; STEPS.len()],
    /// By [`RUNS`].
    runs: [u64; RUNS.len()],
    /// By [`WORD_14`]: traps of an instruction that are not caught, and of a line.
    stops: [u64; WORD_14.len()],
    line_stops: [u64; WORD_14.len()],
    /// By [`NO_TRAPS`].
    no_traps: [u64; NO_TRAPS.len()],
    /// By [`RESUMED`].
    resumed: [u64; RESUMED.len()],
}

const NUMBERS: usize = (PROGRAM - ADDRESS) as usize + 1;
const LINE_COUNT: usize = (LAST - FIRST) as usize + 1;

/// How many words a caught trap restores and saves.
const TITLES: [&str; 6] = [
    "caught traps that restore no word, with",
    "caught traps that restore 1 to 15 words, with",
    "caught traps that restore 16 words, with",
    "caught traps that save no word, with",
    "caught traps that save 1 to 15 words, with",
    "caught traps that save 16 words, with",
];

/// A caught trap as the only step of a run.
struct Step<'a> {
    run: &'a RunOutcome,
    old: &'a Machine,
    new: &'a Machine,
    line: Option<u8>,
    /// The depths saved at the trap and where the target goes on.
    from: Saved,
    to: Saved,
}

/// Whether a step is of a kind.
type Test = fn(&Step) -> bool;

/// What is beside a caught trap. A pending line is in the requests that are left.
const STEPS: [(&str, Test); 18] = [
    ("the number under a saved word", |it| {
        let mut stack = it.change().saved_stack();
        stack.next_back();
        stack.contains(&it.number())
    }),
    ("the number under the count", |it| {
        it.change().saved_stack().next_back() == Some(it.number())
    }),
    ("the number under word 15", |it| {
        it.number() == Machine::TRAP_OLD
    }),
    ("the number in the target's record", |it| {
        it.change().target_record().contains(&it.number())
    }),
    ("the number in the target's words", |it| {
        let mut stack = it.change().target_stack();
        stack.next_back();
        stack.contains(&it.number())
    }),
    ("the number in the target's count", |it| {
        it.change().target_stack().next_back() == Some(it.number())
    }),
    ("the number in word 14", |it| {
        it.number() == Machine::TRAP_TARGET
    }),
    ("word 14 in the saved stack", |it| {
        it.change().saved_stack().contains(&Machine::TRAP_TARGET)
    }),
    ("word 14 in the own record", |it| {
        it.change().own_record().contains(&Machine::TRAP_TARGET)
    }),
    ("a trap in a module other than 0", |it| it.old.module != 0),
    ("a target in another module", |it| {
        it.old.module != it.new.module
    }),
    ("saved depths, and none in the target", |it| {
        it.from != Saved::NONE && it.to == Saved::NONE
    }),
    ("no saved depths, and some in the target", |it| {
        it.from == Saved::NONE && it.to != Saved::NONE
    }),
    ("saved depths, and others in the target", |it| {
        it.from != it.to && it.from != Saved::NONE && it.to != Saved::NONE
    }),
    ("a pending line that M opens", |it| {
        it.run.open_after() & !it.run.open_before() & it.old.m & !it.new.m != 0
    }),
    ("a pending line that M masks", |it| {
        it.run.open_before() & !it.run.open_after() & it.new.m & !it.old.m != 0
    }),
    ("a failed line that stays open", |it| {
        it.failed() & it.run.open_after() != 0
    }),
    ("a failed line that M masks", |it| {
        it.failed() & it.new.m != 0
    }),
];

impl Step<'_> {
    /// The address of the trap's number.
    fn number(&self) -> usize {
        usize::from(self.old.p) + Machine::TRAP_NUMBER
    }

    /// The bit of the line that failed, if one did.
    fn failed(&self) -> u16 {
        self.line.map_or(0, bit)
    }

    fn change(&self) -> Change<'_> {
        Change {
            old: self.old,
            new: self.new,
            saved: self.old.depth,
            word: Machine::TRAP_OLD as u16,
        }
    }
}

/// Whether a run is of a kind.
type RunTest = fn(&CaseRun, &RunOutcome) -> bool;

/// What runs do that catch a trap.
const RUNS: [(&str, RunTest); 11] = [
    ("as the only step, with budget 1", |run, made| {
        run.budget == 1 && made.caught_alone().is_some()
    }),
    ("behind other steps, where the run is spent", |_, made| {
        let answer = made.answer;
        let is_last = |it: &Caught| it.count > 0 && it.count + 1 == answer.count;
        answer.number == SPENT && made.caught.last().is_some_and(is_last)
    }),
    ("twice", |_, made| made.caught.len() == 2),
    ("three times or more", |_, made| made.caught.len() > 2),
    ("behind a line", |_, made| {
        made.caught.iter().any(|it| it.behind != 0)
    }),
    ("before a line", |_, made| {
        made.caught.iter().any(|it| made.taken() & !it.behind != 0)
    }),
    ("in the trap process", |_, made| {
        let mut pairs = made.caught.windows(2);
        pairs.any(|two| two[0].new.p == two[1].old.p)
    }),
    ("before one in the trap process that is not", |_, made| {
        let p = made.answer.machine.p;
        let is_last = made.caught.last().is_some_and(|it| it.new.p == p);
        is_last && made.answer.number >= ADDRESS && made.after[Machine::TRAP_TARGET] == p
    }),
    ("of a line that fails again", |_, made| {
        let line = made.failed();
        line.is_some() && made.caught.iter().any(|it| it.line == line)
    }),
    ("of a line that is taken then", |_, made| {
        let taken = |it: &Caught| it.line.map_or(0, bit) & made.taken() & !it.behind != 0;
        made.caught.iter().any(taken)
    }),
    ("before an end", |_, made| {
        !made.caught.is_empty() && made.answer.number == ENDED
    }),
];

/// What word 14 is where a trap is not caught: then the first rule of a transfer that
/// is broken.
const WORD_14: [&str; 14] = [
    "0",
    "0, and a good process there",
    "P",
    "q, and q + 8 above W",
    "q, and v below 24",
    "q, and v above W",
    "q, and s of 0",
    "q, and s above W",
    "q, and k above 16",
    "q, and k not below s",
    "q, and s − 1 − k above v − 24",
    "q, and G no base",
    "q, and a position without a mark",
    "q, and a position with another depth",
];

/// Stops that are no traps, with a good process in word 14.
const NO_TRAPS: [&str; 3] = ["30 before a trap", "30 before another instruction", "31"];

/// How a process goes on behind its trap.
const RESUMED: [&str; 4] = [
    "a transfer",
    "a transfer from another module",
    "a transfer, where depths are saved",
    "a line",
];

impl Traps {
    /// Adds a case and what came of it.
    pub fn add(&mut self, case: &Case, outcome: &Outcome) {
        let Ok(program) = parse(&case.image) else {
            return;
        };
        let program = &program;
        // The processes that have trapped.
        let mut trapped: Vec<Machine> = Vec::new();
        each_run(case, outcome, |run, made, map| {
            let setting = Setting { case, program, map };
            if made.answer.number < SPENT {
                return;
            }
            made.caught
                .iter()
                .for_each(|it| self.add_caught(&setting, it));
            for (count, (_, is_so)) in self.runs.iter_mut().zip(RUNS) {
                let is_so = !made.caught.is_empty() && is_so(run, made);
                *count += u64::from(is_so);
            }
            self.add_stop(&setting, made);
            if let Some(caught) = made.caught_alone() {
                self.add_step(&setting, made, caught);
                trapped.push(caught.old);
            } else if made.answer.count == 1 {
                self.add_resumed(&setting, made, &trapped);
            }
        });
    }

    /// A trap that is caught, anywhere in a run.
    fn add_caught(&mut self, setting: &Setting, caught: &Caught) {
        self.numbers[usize::from(caught.trap - ADDRESS)] += 1;
        if let Some(line) = caught.line {
            self.lines[usize::from(line - FIRST)] += 1;
        } else {
            let opcode = setting.opcode(&caught.old);
            *self.opcodes.entry((opcode, caught.trap)).or_default() += 1;
        }
    }

    /// The only step of a run.
    fn add_step(&mut self, setting: &Setting, run: &RunOutcome, caught: &Caught) {
        let it = Step {
            run,
            old: &caught.old,
            new: &caught.new,
            line: caught.line,
            from: setting.saved(&caught.old),
            to: setting.saved(&caught.new),
        };
        self.collisions.add(&it.change());
        for (count, (_, is_so)) in self.steps.iter_mut().zip(STEPS) {
            *count += u64::from(is_so(&it));
        }
    }

    /// A line or an instruction as the only step, which may go on with a process that
    /// has trapped.
    fn add_resumed(&mut self, setting: &Setting, run: &RunOutcome, trapped: &[Machine]) {
        let (old, new) = (&run.handed, &run.answer.machine);
        // The trap process may have changed the words that were saved.
        let same = |it: &Machine| {
            let (m, stack) = (new.m, new.stack);
            Machine { m, stack, ..*it } == *new
        };
        if old.p == new.p || !trapped.iter().any(same) {
            return;
        }
        if run.line().is_some() {
            self.resumed[3] += 1;
        } else if setting.opcode(old) == TRA {
            self.resumed[0] += 1;
            self.resumed[1] += u64::from(old.module != new.module);
            self.resumed[2] += u64::from(setting.saved(new) != Saved::NONE);
        }
    }

    /// A stop, with what word 14 is.
    fn add_stop(&mut self, setting: &Setting, run: &RunOutcome) {
        let reason = word_14(setting, run);
        match (run.answer.number, reason) {
            (SPENT, None) => {
                // Without the process it would stop.
                let mut store = run.after.clone();
                store[Machine::TRAP_TARGET] = 0;
                let next = setting.step(run.answer.machine, &store, 0);
                self.no_traps[usize::from(next.number < ADDRESS)] += 1;
            }
            (ENDED, None) => self.no_traps[2] += 1,
            (ADDRESS.., Some(reason)) if run.failed().is_some() => self.line_stops[reason] += 1,
            (ADDRESS.., Some(reason)) => self.stops[reason] += 1,
            _ => {}
        }
    }

    /// The lines of the report: what was reached, its kinds and their counts.
    pub fn reached(&self) -> Vec<Reached> {
        let traps: Vec<u8> = (ADDRESS..=PROGRAM).collect();
        let line_numbers: Vec<u8> = (FIRST..=LAST).collect();
        let mut lines = vec![
            ("caught", named(&traps, &self.numbers)),
            ("caught of an opcode:", self.reached_of_opcodes()),
            (
                "caught 35 of a line, number",
                named(&line_numbers, &self.lines),
            ),
        ];
        lines.extend(self.collisions.reached(TITLES, "word 15"));
        let steps = STEPS.map(|(name, _)| name);
        lines.push(("caught traps with", named(&steps, &self.steps)));
        let runs = RUNS.map(|(name, _)| name);
        lines.push(("caught traps in a run", named(&runs, &self.runs)));
        let title = "traps not caught, with word 14 of";
        lines.push((title, named(&WORD_14, &self.stops)));
        let title = "traps not caught of a line, with word 14 of";
        lines.push((title, named(&WORD_14, &self.line_stops)));
        let title = "traps not made, with a good process in word 14, but a stop with";
        lines.push((title, named(&NO_TRAPS, &self.no_traps)));
        let resumed = named(&RESUMED, &self.resumed);
        lines.push(("trapped process resumed by", resumed));
        lines
    }

    /// Each trap of each opcode.
    fn reached_of_opcodes(&self) -> Vec<(String, u64)> {
        let kind = |(opcode, trap): (u8, u8)| {
            let name = format!("{opcode:03o} {} with {trap}", row(opcode).mnemonic);
            let count = self.opcodes.get(&(opcode, trap));
            (name, count.copied().unwrap_or_default())
        };
        traps_of_opcodes().map(kind).collect()
    }
}

/// The index in [`WORD_14`] of what word 14 is behind a run, or None where a trap would
/// be caught there.
fn word_14(setting: &Setting, run: &RunOutcome) -> Option<usize> {
    let q = run.after[Machine::TRAP_TARGET];
    let broken = broken_rule(setting.program, setting.map, &run.after, q);
    match (q, broken) {
        (0, Some(_)) => Some(0),
        (0, None) => Some(1),
        _ if q == run.answer.machine.p => Some(2),
        _ => broken.map(|rule| 3 + rule),
    }
}

/// The first rule of a transfer to q that is broken, in the order of [`WORD_14`] behind
/// 0 and P.
fn broken_rule(program: &Program, map: &[u32], store: &[u16], q: u16) -> Option<usize> {
    let words = store.len();
    let q = usize::from(q);
    if q + Machine::RECORD > words {
        return Some(0);
    }
    let [s, v] = [4, 5].map(|offset| usize::from(store[q + offset]));
    let margin = usize::from(Machine::MARGIN);
    let k = store[..words.min(s)].last().map_or(0, |&k| usize::from(k));
    let rules = [
        v < margin,
        v > words,
        s == 0,
        s > words,
        k > 16,
        k >= s,
        (s + margin).saturating_sub(1 + k) > v,
    ];
    if let Some(rule) = rules.iter().position(|&is_broken| is_broken) {
        return Some(1 + rule);
    }
    let Some(module) = program.module_at(store[q]) else {
        return Some(8);
    };
    match program.mark(map, module, store[q + 2]) {
        None => Some(9),
        Some(mark) if usize::from(mark.depth) != k => Some(10),
        _ => None,
    }
}
