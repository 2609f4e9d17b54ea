//! What cases reach of transfers: words that collide.

use crate::case::{Case, Outcome};
use crate::collisions::{Change, Collisions};
use crate::coverage::Reached;
use crate::image::parse;
use crate::opcode::TRA;

/// Counts of what was reached; each must be. A transfer is seen where it is the
/// only step of a run and changes the process.
#[derive(Default)]
pub struct Transfers {
    collisions: Collisions<14>,
}

/// How many words a transfer restores and saves: at most 16, and 2 fewer.
const TITLES: [&str; 6] = [
    "transfers that restore no word, with",
    "transfers that restore 1 to 15 words, with",
    "transfers that restore 16 words, with",
    "transfers that save no word, with",
    "transfers that save 1 to 13 words, with",
    "transfers that save 14 words, with",
];

impl Transfers {
    /// Adds a case and what came of it.
    pub fn add(&mut self, case: &Case, outcome: &Outcome) {
        let Ok(program) = parse(&case.image) else {
            return;
        };
        for run in outcome.runs.iter().filter(|run| run.is_instruction()) {
            let (old, new) = (&run.handed, &run.answer.machine);
            if old.opcode(&program, &case.image) == TRA && old.p != new.p {
                let saved = old.depth - 2;
                // Word c.
                let word = old.stack[usize::from(saved)];
                self.collisions.add(&Change {
                    old,
                    new,
                    saved,
                    word,
                });
            }
        }
    }

    /// The lines of the report: what was reached, its kinds and their counts.
    pub fn reached(&self) -> Vec<Reached> {
        self.collisions.reached(TITLES, "word c")
    }
}
