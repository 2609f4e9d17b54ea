//! What cases reach of A.7: the word of requests, which is returned as given, or
//! with the bits of lines cleared, and handed on.

use crate::case::{Case, CaseRun, Outcome, RunOutcome};
use crate::coverage::{named, Reached, RUN};
use crate::number::SPENT;
use crate::request::{HELD, LINES};

/// Counts of what was reached; each must be. Steps are seen where they are the
/// only one of a run.
#[derive(Default)]
pub struct Requests {
    /// By bit, 0 to 7.
    low_bits_alone: [u64; 8],
    low_bits_with_line: [u64; 8],
    /// Refused runs, by [`RUN`].
    refused: [u64; RUN.len()],
    /// By [`OPEN`].
    open: [u64; OPEN.len()],
    /// By [`OPENED`].
    opened: [u64; OPENED.len()],
    /// By [`AT_FIRST`].
    at_first: [u64; AT_FIRST.len()],
    /// By [`SEVERAL`].
    several: [u64; SEVERAL.len()],
    /// By [`BEHIND`].
    behind: [u64; BEHIND.len()],
    /// By [`HANDED_ON`].
    handed_on: [u64; HANDED_ON.len()],
}

/// Runs that stop with 30 though a line is open.
const OPEN: [&str; 3] = [
    "that have budget 0",
    "that are spent behind a line",
    "that are spent behind an instruction",
];

/// How an instruction opens a line.
const OPENED: [&str; 2] = ["word 3", "M"];

/// Why a line was not open where the run began that takes it.
const AT_FIRST: [&str; 2] = ["masked by M alone", "held by word 3 alone"];

/// How many lines a run takes.
const SEVERAL: [&str; 2] = ["2 lines", "3 lines or more"];

/// What a run has done before a line stops it with 35.
const BEHIND: [&str; 3] = ["no step", "a line", "instructions alone"];

/// The run before, whose word is handed on.
const HANDED_ON: [&str; 3] = [
    "a run that takes a line",
    "a run that takes none",
    "a refused run",
];

impl Requests {
    /// Adds a case and what came of it.
    pub fn add(&mut self, case: &Case, outcome: &Outcome) {
        let mut last: Option<&RunOutcome> = None;
        for (run, made) in case.runs.iter().zip(&outcome.runs) {
            if made.answer.number < SPENT {
                self.add_refused(made);
            } else {
                self.add_run(run, made);
            }
            if let (Some(last), None, Some(_)) = (last, run.requests, made.line()) {
                self.handed_on[handed_on(last)] += 1;
            }
            last = Some(made);
        }
    }

    fn add_refused(&mut self, run: &RunOutcome) {
        for (count, number) in self.refused.iter_mut().zip(RUN) {
            let is_so = number == run.answer.number && run.requests & LINES != 0;
            *count += u64::from(is_so);
        }
    }

    /// A run that is not refused.
    fn add_run(&mut self, run: &CaseRun, made: &RunOutcome) {
        let taken = made.taken();
        match taken.count_ones() {
            0 | 1 => {}
            2 => self.several[0] += 1,
            _ => self.several[1] += 1,
        }
        let (m, held) = (made.handed.m, made.before[HELD]);
        self.at_first[0] += u64::from(taken & m & !held != 0);
        self.at_first[1] += u64::from(taken & held & !m != 0);
        if let (Some(behind), Some(_)) = (behind(made), made.failed()) {
            self.behind[behind] += 1;
        }
        self.open[0] += u64::from(run.budget == 0 && made.open_before() != 0);
        if made.line().is_some() || made.is_instruction() {
            self.add_step(made);
        }
    }

    /// A run of one step, a line or an instruction.
    fn add_step(&mut self, run: &RunOutcome) {
        let (m, held) = (run.handed.m, run.before[HELD]);
        let is_spent = run.answer.number == SPENT && run.open_after() != 0;
        if run.line().is_some() {
            self.open[1] += u64::from(is_spent);
            add_bits(&mut self.low_bits_with_line, run.requests);
            return;
        }
        self.open[2] += u64::from(is_spent);
        if run.requests & LINES == 0 {
            add_bits(&mut self.low_bits_alone, run.requests & !m & !held);
        }
        let (new_m, new_held) = (run.answer.machine.m, run.after[HELD]);
        let opened = run.open_after() & !run.open_before();
        self.opened[0] += u64::from(opened & held & !new_held & !m != 0);
        self.opened[1] += u64::from(opened & m & !new_m & !held != 0);
    }

    /// The lines of the report: what was reached, its kinds and their counts.
    pub fn reached(&self) -> Vec<Reached> {
        let bits: Vec<usize> = (0..8).collect();
        let alone = named(&bits, &self.low_bits_alone);
        let with_line = named(&bits, &self.low_bits_with_line);
        let handed_on = named(&HANDED_ON, &self.handed_on);
        vec![
            ("instructions without lines, with bit", alone),
            ("steps of a line with bit", with_line),
            ("runs with lines refused with", named(&RUN, &self.refused)),
            ("runs with an open line", named(&OPEN, &self.open)),
            (
                "instructions that open a line by",
                named(&OPENED, &self.opened),
            ),
            (
                "runs that take a line at first",
                named(&AT_FIRST, &self.at_first),
            ),
            ("runs that take", named(&SEVERAL, &self.several)),
            (
                "stops with 35 by a line behind",
                named(&BEHIND, &self.behind),
            ),
            ("steps of a line handed on by", handed_on),
        ]
    }
}

/// Adds to the counts of bits 0 to 7.
fn add_bits(counts: &mut [u64; 8], bits: u16) {
    for (i, count) in counts.iter_mut().enumerate() {
        *count += u64::from(bits >> i & 1);
    }
}

/// The index in [`BEHIND`] of what a run has done, if it has caught no trap.
fn behind(run: &RunOutcome) -> Option<usize> {
    match (run.answer.count, run.taken()) {
        _ if !run.caught.is_empty() => None,
        (0, _) => Some(0),
        (_, 0) => Some(2),
        _ => Some(1),
    }
}

/// The index in [`HANDED_ON`] of the run before.
fn handed_on(last: &RunOutcome) -> usize {
    match (last.answer.number, last.taken()) {
        (..SPENT, _) => 2,
        (_, 0) => 1,
        _ => 0,
    }
}
