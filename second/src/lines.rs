//! What cases reach of A.7: lines that are taken, that wait and that fail, alone
//! and beside others, and the processes that they interrupt.

use crate::api::{self, Buffers, RunAnswer};
use crate::case::{each_run, Case, Outcome, RunOutcome};
use crate::collisions::{Change, Collisions};
use crate::coverage::{named, Reached};
use crate::image::{parse, Program};
use crate::machine::Machine;
use crate::mark::Saved;
use crate::number::*;
use crate::opcode::{ANDJP, JPC, TRA};
use crate::request::*;

/// Counts of what was reached; each must be. A step is seen where it is the only
/// one of a run.
#[derive(Default)]
pub struct ClockLines {
    /// By [`FATES`] and line.
    fates: [[u64; LINE_COUNT]; FATES.len()],
    /// Of lines that change the process, as are the next two.
    collisions: Collisions<16>,
    /// By [`STEPS`].
    steps: [u64; STEPS.len()],
    /// By [`BEFORE`].
    before: [u64; BEFORE.len()],
    /// By [`LATER`].
    later: [u64; LATER.len()],
    /// By [`RESUMED`].
    resumed: [u64; RESUMED.len()],
}

const LINE_COUNT: usize = (LAST - FIRST) as usize + 1;

/// What becomes of a line.
const FATES: [&str; 5] = [
    "steps of line",
    "steps with target P of line",
    "stops with 35 by line",
    "instructions with M alone against line",
    "instructions with word 3 alone against line",
];
const TAKEN: usize = 0;
const TO_ITSELF: usize = 1;
const FAILED: usize = 2;
const MASKED: usize = 3;
const HELD_BACK: usize = 4;

/// How many words a line restores and saves.
const TITLES: [&str; 6] = [
    "lines that restore no word, with",
    "lines that restore 1 to 15 words, with",
    "lines that restore 16 words, with",
    "lines that save no word, with",
    "lines that save 1 to 15 words, with",
    "lines that save 16 words, with",
];

/// A step of a line that changes the process.
struct Step<'a> {
    line: u8,
    run: &'a RunOutcome,
    old: &'a Machine,
    new: &'a Machine,
    /// The depths saved where the old process stands and where the target goes on.
    from: Saved,
    to: Saved,
}

/// Whether a step is of a kind.
type Test = fn(&Step) -> bool;

/// What is beside a line that is taken. A pending line is in the requests that are
/// left.
const STEPS: [(&str, Test); 16] = [
    ("a lower one open", |it| it.lower_open() != 0),
    ("a higher one masked by M alone", |it| {
        it.higher() & it.old.m & !it.held_before() != 0
    }),
    ("a higher one held by word 3 alone", |it| {
        it.higher() & it.held_before() & !it.old.m != 0
    }),
    ("a pending one that M opens", |it| {
        let held = it.held_before() | it.held_after();
        it.pending() & it.old.m & !it.new.m & !held != 0
    }),
    ("a pending one that M masks", |it| {
        it.run.open_before() & it.pending() & it.new.m & !it.held_after() != 0
    }),
    ("a pending one that word 3 lets go", |it| {
        let masks = it.old.m | it.new.m;
        it.pending() & it.held_before() & !it.held_after() & !masks != 0
    }),
    ("a pending one that word 3 holds", |it| {
        it.run.open_before() & it.pending() & it.held_after() & !it.new.m != 0
    }),
    ("word 3 in the saved stack", |it| {
        it.change().saved_stack().contains(&HELD)
    }),
    ("word 3 in the own record", |it| {
        it.change().own_record().contains(&HELD)
    }),
    ("word 2j of an open one in the saved stack", |it| {
        let stack = it.change().saved_stack();
        it.open_targets().any(|word| stack.contains(&word))
    }),
    ("word 2j of an open one in the own record", |it| {
        let record = it.change().own_record();
        it.open_targets().any(|word| record.contains(&word))
    }),
    ("a target in another module", |it| {
        it.old.module != it.new.module
    }),
    ("a target at word 0", |it| it.new.p == 0),
    ("saved depths, and none in the target", |it| {
        it.from != Saved::NONE && it.to == Saved::NONE
    }),
    ("no saved depths, and some in the target", |it| {
        it.from == Saved::NONE && it.to != Saved::NONE
    }),
    ("saved depths, and others in the target", |it| {
        it.from != it.to && it.from != Saved::NONE && it.to != Saved::NONE
    }),
];

impl Step<'_> {
    fn held_before(&self) -> u16 {
        self.run.before[HELD]
    }

    fn held_after(&self) -> u16 {
        self.run.after[HELD]
    }

    fn lower_open(&self) -> u16 {
        self.run.open_before() & (bit(self.line) - 1)
    }

    /// The lines above it that are requested.
    fn higher(&self) -> u16 {
        self.run.requests & !(bit(self.line) | (bit(self.line) - 1))
    }

    fn pending(&self) -> u16 {
        self.run.answer.requests & LINES
    }

    /// The words that name the targets of lines that are open after the step.
    fn open_targets(&self) -> impl Iterator<Item = usize> {
        lines(self.run.open_after()).map(|line| target_word(line).into())
    }

    fn change(&self) -> Change<'_> {
        Change {
            old: self.old,
            new: self.new,
            saved: self.old.depth,
            word: old_word(self.line),
        }
    }
}

/// The instruction that a line comes before.
const BEFORE: [&str; 3] = ["an end", "a trap", "a jump back"];

/// What is done with a line that was open beside a higher one.
const LATER: [&str; 2] = [
    "taken in the run after a higher one with which they were open",
    "that could be taken, below one that stops with 35",
];

/// How a process goes on that a line has interrupted.
const RESUMED: [&str; 4] = [
    "a transfer",
    "a transfer from another module",
    "a transfer, where depths are saved",
    "a line",
];

/// What is known of the runs before, in a case.
#[derive(Default)]
struct Past {
    /// Processes that a line has interrupted.
    interrupted: Vec<Machine>,
    /// The lines that were open when the run before took a higher one.
    open: u16,
}

/// What a run has to do with: its case, the program and the map that it was lent.
pub struct Setting<'a> {
    pub case: &'a Case,
    pub program: &'a Program,
    pub map: &'a [u32],
}

impl Setting<'_> {
    /// The depths saved where a machine stands.
    pub fn saved(&self, machine: &Machine) -> Saved {
        let mark = machine.mark(self.program, self.map);
        mark.expect("it stands at a mark").saved
    }

    pub fn opcode(&self, machine: &Machine) -> u8 {
        machine.opcode(self.program, &self.case.image)
    }

    /// What one step would make of a machine.
    pub fn step(&self, machine: Machine, store: &[u16], requests: u16) -> RunAnswer {
        let buffers = Buffers {
            image: &self.case.image,
            map: self.map,
            store: &mut store.to_vec(),
            outputs: &mut [0; 16],
            inputs: &[0; 16],
        };
        api::run(machine, buffers, requests, 1)
    }
}

impl ClockLines {
    /// Adds a case and what came of it.
    pub fn add(&mut self, case: &Case, outcome: &Outcome) {
        let Ok(program) = parse(&case.image) else {
            return;
        };
        let program = &program;
        let mut past = Past::default();
        each_run(case, outcome, |run, made, map| {
            let setting = Setting { case, program, map };
            if run.requests.is_some() {
                past.open = 0;
            }
            if let Some(line) = made.failed() {
                self.add_failed(&setting, made, line);
            }
            if let Some(line) = made.line() {
                self.add_step(&setting, made, line, &mut past);
            } else if made.is_instruction() {
                self.add_instruction(&setting, made, &past);
            }
        });
    }

    fn add_fate(&mut self, fate: usize, line: u8) {
        self.fates[fate][usize::from(line - FIRST)] += 1;
    }

    /// A stop with 35 by a line: it may hide a lower one.
    fn add_failed(&mut self, setting: &Setting, run: &RunOutcome, line: u8) {
        self.add_fate(FAILED, line);
        let others = run.answer.requests & !bit(line);
        let step = setting.step(run.answer.machine, &run.after, others);
        self.later[1] += u64::from(step.requests != others);
    }

    /// An instruction as the only step: the lines that wait, and a transfer back to
    /// a process that was interrupted.
    fn add_instruction(&mut self, setting: &Setting, run: &RunOutcome, past: &Past) {
        let (m, held) = (run.handed.m, run.before[HELD]);
        lines(run.requests & m & !held).for_each(|line| self.add_fate(MASKED, line));
        lines(run.requests & !m & held).for_each(|line| self.add_fate(HELD_BACK, line));
        let (old, new) = (&run.handed, &run.answer.machine);
        if setting.opcode(old) == TRA && past.has_interrupted(old, new) {
            let saved = setting.saved(new) != Saved::NONE;
            self.resumed[0] += 1;
            self.resumed[1] += u64::from(old.module != new.module);
            self.resumed[2] += u64::from(saved);
        }
    }

    /// A line as the only step.
    fn add_step(&mut self, setting: &Setting, run: &RunOutcome, line: u8, past: &mut Past) {
        let (old, new) = (&run.handed, &run.answer.machine);
        self.later[0] += u64::from(past.open & bit(line) != 0);
        past.open = run.open_before() & (bit(line) - 1);
        if old.p == new.p {
            return self.add_fate(TO_ITSELF, line);
        }
        self.add_fate(TAKEN, line);
        let it = Step {
            line,
            run,
            old,
            new,
            from: setting.saved(old),
            to: setting.saved(new),
        };
        self.collisions.add(&it.change());
        for (count, (_, is_so)) in self.steps.iter_mut().zip(STEPS) {
            *count += u64::from(is_so(&it));
        }
        if let Some(kind) = before(setting, run) {
            self.before[kind] += 1;
        }
        self.resumed[3] += u64::from(past.has_interrupted(old, new));
        past.interrupted.push(*old);
    }

    /// The lines of the report: what was reached, its kinds and their counts.
    pub fn reached(&self) -> Vec<Reached> {
        let numbers: Vec<u8> = (FIRST..=LAST).collect();
        let fates = FATES.iter().zip(&self.fates);
        let mut lines: Vec<Reached> = fates
            .map(|(title, counts)| (*title, named(&numbers, counts)))
            .collect();
        lines.extend(self.collisions.reached(TITLES, "word 2i + 1"));
        let steps = STEPS.map(|(name, _)| name);
        lines.push(("steps of a line with", named(&steps, &self.steps)));
        lines.push(("steps of a line before", named(&BEFORE, &self.before)));
        lines.push(("lower lines", named(&LATER, &self.later)));
        let resumed = named(&RESUMED, &self.resumed);
        lines.push(("interrupted process resumed by", resumed));
        lines
    }
}

impl Past {
    /// Whether a change of process goes on with one that was interrupted. What a
    /// transfer does with M is left open.
    fn has_interrupted(&self, old: &Machine, new: &Machine) -> bool {
        let same = |it: &Machine| Machine { m: new.m, ..*it } == *new;
        old.p != new.p && self.interrupted.iter().any(same)
    }
}

/// The index in [`BEFORE`] of the instruction before which a line was the only step.
fn before(setting: &Setting, run: &RunOutcome) -> Option<usize> {
    let without = setting.step(run.handed, &run.before, 0);
    let is_jump = (JPC..=ANDJP).contains(&setting.opcode(&run.handed));
    match without.number {
        ENDED => Some(0),
        ADDRESS.. => Some(1),
        _ if is_jump && without.machine.pc <= run.handed.pc => Some(2),
        _ => None,
    }
}
