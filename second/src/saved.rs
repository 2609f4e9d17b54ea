//! What cases reach of A.5: STORE and LODFW with their traps, calls and landings
//! at positions with saved depths, and images that A.5 alone refuses.

use crate::case::{each_run, Case, CaseRun, Outcome, RunOutcome};
use crate::coverage::{named, Reached};
use crate::depths::{entry_marks, first_marks};
use crate::image::{parse, Program};
use crate::lent::{only_rule, Rule};
use crate::machine::Machine;
use crate::mark::{Mark, Saved, UNMARKED};
use crate::number::*;
use crate::opcode::*;

/// Counts of what was reached; each must be. A step is seen where it is the only
/// one of a run.
#[derive(Default)]
pub struct Expressions {
    /// Marks of accepted images, by the number of saved depths.
    marks: [u64; 5],
    /// Images refused with 8, by [`Rule::ALL`].
    refused: [u64; Rule::ALL.len()],
    /// Steps of STORE, by [`SIZES`].
    stores: [u64; SIZES.len()],
    /// The same, by the number of saved depths.
    stores_at: [u64; 4],
    /// The same where S becomes H.
    stores_to_h: [u64; 1],
    /// Stops of STORE with 33, by [`SIZES`].
    limits: [u64; SIZES.len()],
    /// Steps of LODFW, by the front depth.
    restored: [u64; 16],
    /// The same, by the number of saved depths less 1.
    restored_at: [u64; 4],
    /// The same where S becomes 0.
    restored_to_0: [u64; 1],
    /// The same behind a STORE, by [`SINCE`].
    since: [u64; SINCE.len()],
    /// Stops of LODFW with 34, by [`WRONG`].
    wrong: [u64; WRONG.len()],
    /// LODFW at a position that load does not mark, by [`BEYOND`].
    beyond: [u64; BEYOND.len()],
    /// Calls where depths are saved, by [`CALLS`].
    calls: [u64; CALLS.len()],
    /// By [`LANDING`].
    landings: [u64; LANDING.len()],
}

/// The words that a STORE writes, without their count.
const SIZES: [&str; 3] = ["no word", "1 to 15 words", "16 words"];

/// The index in [`SIZES`].
fn size(depth: u8) -> usize {
    match depth {
        0 => 0,
        1..=15 => 1,
        _ => 2,
    }
}

/// What was done between a STORE and its LODFW.
const SINCE: [&str; 3] = [
    "nothing written over",
    "a word written over",
    "the count written over by its like",
];

/// Why LODFW stops.
const WRONG: [&str; 3] = ["the count alone", "S alone, with the right count", "S = 0"];

/// What comes of a LODFW whose front is that of a lent map alone.
const BEYOND: [&str; 2] = ["goes on", "stops with 34"];

/// The calls; CL1 stands for all up to CL15.
const CALLS: [u8; 4] = [CX, CI, CL, CL1];

/// Where 354 and 256 go on: they compare the depth only.
const LANDING: [&str; 4] = [
    "354 at a position with saved depths",
    "256 from saved depths to none",
    "256 from none to saved depths",
    "256 from saved depths to others",
];

/// What a STORE wrote, and what patches wrote over since.
struct Frame {
    s: u16,
    depth: u8,
    word_over: bool,
    count_over: bool,
}

impl Frame {
    fn patch(&mut self, address: u16) {
        let count = self.s + u16::from(self.depth);
        self.word_over |= (self.s..count).contains(&address);
        self.count_over |= address == count;
    }
}

/// What is where a machine stands.
struct At {
    opcode: u8,
    mark: Mark,
    /// Load does not mark it.
    beyond: bool,
}

impl Expressions {
    /// Adds a case and what came of it.
    pub fn add(&mut self, case: &Case, outcome: &Outcome) {
        let Ok(program) = parse(&case.image) else {
            return;
        };
        self.add_load(&program, &case.image, outcome);
        let mut frames: Vec<Frame> = Vec::new();
        each_run(case, outcome, |run, made, map| {
            for &(address, _) in &run.store_patches {
                frames.iter_mut().for_each(|frame| frame.patch(address));
            }
            let at = |machine: &Machine| At {
                opcode: machine.opcode(&program, &case.image),
                mark: machine.mark(&program, map).expect("it stands at a mark"),
                beyond: machine.mark(&program, &outcome.map).is_none(),
            };
            match (made.answer.number, made.answer.count) {
                (STACK_LIMIT | RETURN_MARK, count) => {
                    let known = (count == 0).then_some(run);
                    self.add_stop(&at(&made.answer.machine), made, known);
                }
                _ if made.is_instruction() => {
                    let [from, to] = [&made.handed, &made.answer.machine].map(at);
                    self.add_step(&from, &to, made, &mut frames);
                }
                _ => {}
            }
        });
    }

    /// The marks that load has made, or why it has made none.
    fn add_load(&mut self, program: &Program, image: &[u8], outcome: &Outcome) {
        if outcome.load.number == ACCEPTED {
            let entries = outcome.map[..image.len()].iter().copied();
            for mark in entries.filter_map(Mark::decode) {
                self.marks[mark.saved.depths().len()] += 1;
            }
        } else if outcome.load.number == NO_DEPTHS {
            let mut map = vec![UNMARKED; image.len()];
            for (index, module) in program.modules.iter().enumerate() {
                let code = &image[module.code_range()];
                let marks = first_marks(program, index, code, &entry_marks(program, index));
                map[module.code_range()].copy_from_slice(&marks);
            }
            if let Some(rule) = only_rule(program, image, &map) {
                self.refused[rule as usize] += 1;
            }
        }
    }

    /// A stop with 33 or 34. The run's patches are known to stand where it made
    /// no step.
    fn add_stop(&mut self, at: &At, run: &RunOutcome, known: Option<&CaseRun>) {
        if at.opcode == STORE {
            self.limits[size(at.mark.depth)] += 1;
        }
        let Some(front) = at.mark.saved.front().filter(|_| at.opcode == LODFW) else {
            return;
        };
        self.beyond[1] += u64::from(at.beyond);
        let s = run.answer.machine.s;
        let count = known.and_then(|run| {
            let mut patches = run.store_patches.iter().rev();
            patches.find(|(address, _)| Some(*address) == s.checked_sub(1))
        });
        if s > front.into() {
            self.wrong[0] += 1;
        } else if count.is_some_and(|&(_, word)| word == front.into()) {
            self.wrong[1] += 1;
        } else if s == 0 {
            self.wrong[2] += 1;
        }
    }

    /// The only step of a run. The frames are those of STOREs before it.
    fn add_step(&mut self, from: &At, to: &At, run: &RunOutcome, frames: &mut Vec<Frame>) {
        let (old, new) = (&run.handed, &run.answer.machine);
        let saved = from.mark.saved.depths().len();
        match from.opcode {
            STORE => {
                self.stores[size(old.depth)] += 1;
                self.stores_at[saved] += 1;
                self.stores_to_h[0] += u64::from(new.s == new.h);
                frames.push(Frame {
                    s: old.s,
                    depth: old.depth,
                    word_over: false,
                    count_over: false,
                });
            }
            LODFW => {
                self.restored[usize::from(new.depth) - 1] += 1;
                self.restored_at[saved - 1] += 1;
                self.restored_to_0[0] += u64::from(new.s == 0);
                self.beyond[0] += u64::from(from.beyond);
                let own = |it: &Frame| (it.s, it.depth) == (new.s, new.depth - 1);
                if let Some(frame) = frames.pop().filter(own) {
                    self.add_since(&frame);
                }
            }
            CX | CI | CL..=CL15 if saved > 0 => {
                let call = from.opcode.min(CL1);
                let calls = self.calls.iter_mut().zip(CALLS);
                calls.for_each(|(count, other)| *count += u64::from(other == call));
            }
            RTN => self.landings[0] += u64::from(to.mark.saved != Saved::NONE),
            TRA if old.p != new.p => self.add_restore(from.mark.saved, to.mark.saved),
            _ => {}
        }
    }

    fn add_since(&mut self, frame: &Frame) {
        self.since[0] += u64::from(!frame.word_over && !frame.count_over);
        self.since[1] += u64::from(frame.word_over);
        self.since[2] += u64::from(frame.count_over);
    }

    fn add_restore(&mut self, from: Saved, to: Saved) {
        let kind = match (from == Saved::NONE, to == Saved::NONE) {
            (false, true) => 1,
            (true, false) => 2,
            (false, false) if from != to => 3,
            _ => return,
        };
        self.landings[kind] += 1;
    }

    /// The lines of the report: what was reached, its kinds and their counts.
    pub fn reached(&self) -> Vec<Reached> {
        let numbers: Vec<usize> = (0..16).collect();
        let calls = CALLS.map(|opcode| row(opcode).mnemonic);
        vec![
            (
                "marks of accepted images with saved depths",
                named(&numbers, &self.marks),
            ),
            (
                "images refused with 8 only for",
                named(&Rule::ALL, &self.refused),
            ),
            ("steps of STORE with", named(&SIZES, &self.stores)),
            (
                "steps of STORE at saved depths",
                named(&numbers, &self.stores_at),
            ),
            (
                "steps of STORE that raise S",
                named(&["to H"], &self.stores_to_h),
            ),
            ("stops of STORE with 33 with", named(&SIZES, &self.limits)),
            ("steps of LODFW with front", named(&numbers, &self.restored)),
            (
                "steps of LODFW at saved depths",
                named(&numbers[1..], &self.restored_at),
            ),
            (
                "steps of LODFW that lower S",
                named(&["to 0"], &self.restored_to_0),
            ),
            (
                "steps of LODFW behind STORE with",
                named(&SINCE, &self.since),
            ),
            ("stops of LODFW with 34 by", named(&WRONG, &self.wrong)),
            (
                "LODFW beyond load's marks that",
                named(&BEYOND, &self.beyond),
            ),
            (
                "calls where depths are saved by",
                named(&calls, &self.calls),
            ),
            ("landings of", named(&LANDING, &self.landings)),
        ]
    }
}
