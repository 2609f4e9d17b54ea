//! What cases reach of A.2: the result counts of marks, code that A.2 alone
//! refuses, and landings.

use crate::case::{each_run, Case, Outcome};
use crate::coverage::{named, Reached};
use crate::depths::{entry_marks, position_fits};
use crate::image::{parse, Procedure, Program};
use crate::machine::Machine;
use crate::mark::{Mark, Saved};
use crate::number::*;
use crate::opcode::RTN;

/// Counts of what was reached; each must be.
#[derive(Default)]
pub struct Results {
    /// Marks of accepted images, by result count.
    marks: [u64; 5],
    /// By [`NARROWER`].
    refused: [u64; 4],
    /// Landings of runs of one step, by [`LANDING`].
    landings: [u64; 2],
}

/// Why A.2 alone refuses an image with 8.
const NARROWER: [&str; 4] = [
    "a return with one word too many",
    "a return with another depth",
    "a shared entry with other counts",
    "shared code with other counts",
];

/// Where 354 lands: "A landing still compares the depth only."
const LANDING: [&str; 2] = [
    "a position with the same results",
    "a position with other results",
];

impl Results {
    /// Adds a case and what came of it.
    pub fn add(&mut self, case: &Case, outcome: &Outcome) {
        let Ok(program) = parse(&case.image) else {
            return;
        };
        self.add_load(&program, &case.image, outcome);
        each_run(case, outcome, |_, run, map| {
            let (from, to) = (&run.handed, &run.answer.machine);
            if run.is_instruction() && from.opcode(&program, &case.image) == RTN {
                let results = |machine: &Machine| {
                    let mark = machine.mark(&program, map);
                    mark.map(|mark| mark.results)
                };
                self.landings[usize::from(results(from) != results(to))] += 1;
            }
        });
    }

    /// The marks that load has made, or why it has made none.
    fn add_load(&mut self, program: &Program, image: &[u8], outcome: &Outcome) {
        match outcome.load.number {
            ACCEPTED => {
                let entries = outcome.map[..image.len()].iter().copied();
                for mark in entries.filter_map(Mark::decode) {
                    self.marks[usize::from(mark.results)] += 1;
                }
            }
            NO_DEPTHS => {
                if let Some(kind) = narrower(program, image) {
                    self.refused[kind] += 1;
                }
            }
            _ => {}
        }
    }

    /// The lines of the report: what was reached, its kinds and their counts.
    pub fn reached(&self) -> Vec<Reached> {
        vec![
            (
                "marks of accepted images with results",
                named(&["0", "1", "2", "3", "4"], &self.marks),
            ),
            (
                "images refused with 8 only for",
                named(&NARROWER, &self.refused),
            ),
            ("landings of 354 on", named(&LANDING, &self.landings)),
        ]
    }
}

/// The index in [`NARROWER`] of an image that load refuses with 8; None where
/// the rules without A.2 refuse it too.
fn narrower(program: &Program, image: &[u8]) -> Option<usize> {
    returns(program, image, |one, other| {
        (one.depth, one.saved) == (other.depth, other.saved)
    })?;
    let one_too_many = |mark: &Mark| mark.depth == mark.results + 1;
    match returns(program, image, |one, other| one == other) {
        Some(marks) if marks.iter().any(one_too_many) => Some(0),
        Some(_) => Some(1),
        None if has_shared_entry(program) => Some(2),
        None => Some(3),
    }
}

/// Whether two procedures of a module have one entry and other result counts.
fn has_shared_entry(program: &Program) -> bool {
    (0..program.modules.len()).any(|module| {
        let procedures = program.procedures(module);
        let differs = |one: &Procedure, other: &Procedure| {
            one.entry == other.entry && one.results != other.results
        };
        let shares = |one| procedures.iter().any(|other| differs(one, other));
        procedures.iter().any(shares)
    })
}

/// The marks of the returns that the entries reach, where a return fits at any
/// depth, if nothing is saved; None where the code does not fit. `agree` says which marks can be
/// those of one position.
fn returns(program: &Program, image: &[u8], agree: fn(Mark, Mark) -> bool) -> Option<Vec<Mark>> {
    let mut returns = Vec::new();
    for (index, module) in program.modules.iter().enumerate() {
        let code = &image[module.code_range()];
        let mut marks = vec![None; code.len()];
        let mut worklist = entry_marks(program, index);
        while let Some((position, mark)) = worklist.pop() {
            match marks[position] {
                Some(other) if agree(other, mark) => continue,
                Some(_) => return None,
                None => marks[position] = Some(mark),
            }
            let follow = |target: usize, mark: Mark| {
                worklist.push((target, mark));
                true
            };
            if code[position] == RTN && mark.saved == Saved::NONE {
                returns.push(mark);
            } else if !position_fits(program, index, code, position, mark, follow) {
                return None;
            }
        }
    }
    Some(returns)
}
