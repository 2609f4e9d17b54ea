//! What cases reach of A.10: images with the most modules, up to the last of them, and
//! images with more.

use crate::api::{admit_parsed, load_parsed, Buffers};
use crate::case::{each_run, Case, CaseRun, Outcome, RunOutcome};
use crate::coverage::{named, range_name, Reached};
use crate::depths::has_depths;
use crate::image::{parse, parse_modules, Program, MOST_MODULES};
use crate::lines::Setting;
use crate::machine::Machine;
use crate::mark::UNMARKED;
use crate::number::*;
use crate::opcode::{row, CX, NAMING, RTN, TRA};
use crate::walk::{self, Cause, Named};
use std::ops::RangeInclusive;

/// Counts of what was reached; each must be. Steps are seen where they are the only one
/// of a run.
#[derive(Default)]
pub struct Modules {
    /// By [`ALONE`].
    alone: [u64; ALONE.len()],
    /// By [`COUNTS`].
    counts: [u64; COUNTS.len()],
    /// By [`CALLS`]: images of one module too many, of which nothing else is at fault.
    only: [u64; CALLS.len()],
    /// By [`BEFORE`].
    before: [u64; BEFORE.len()],
    /// By [`CALLS`]: images of the most modules, as are all others.
    accepted: [u64; CALLS.len()],
    /// By [`BEHIND`].
    behind: [u64; BEHIND.len()],
    /// By [`NAMING`]: the last module in accepted images, the next one in refused images,
    /// the last one in steps.
    last: [u64; NAMING.len()],
    next: [u64; NAMING.len()],
    steps: [u64; NAMING.len()],
    /// By [`BY`]: steps to the last module, and from it.
    to: [u64; BY.len()],
    from: [u64; BY.len()],
    /// By [`BEYOND`].
    beyond: [u64; BEYOND.len()],
}

/// The last module, the next one, which is never there, and the least count that is
/// refused.
pub const LAST: usize = MOST_MODULES - 1;
pub const NEXT: usize = MOST_MODULES;
pub const TOO_MANY: usize = MOST_MODULES + 1;

/// Images of one byte, and what load answers.
pub const ALONE: [(u8, usize); 4] = [
    (MODULE_COUNT, 0),
    (MODULE_COUNT, TOO_MANY),
    (MODULE_COUNT, 255),
    (IMAGE_ENDS, MOST_MODULES),
];

/// Counts that are refused with 2, with something behind them.
pub const COUNTS: [RangeInclusive<usize>; 4] =
    [0..=0, TOO_MANY..=TOO_MANY, TOO_MANY + 1..=254, 255..=255];

const CALLS: [&str; 3] = ["load", "start", "run"];
const LOAD: usize = 0;
const START: usize = 1;
const RUN: usize = 2;

/// What load would answer to an image of one module too many, if that were accepted.
/// Where it is 3, 5 or 6, a module that is not too many is at fault, behind the count.
pub const BEFORE: [u8; 7] = [
    IMAGE_ENDS,
    BYTES_AFTER,
    BIT_MAP,
    FIELD_RANGE,
    MAP_SHORT,
    NO_DEPTHS,
    NOT_WHOLE,
];

/// What load answers to an image of the most modules, of which all before the last are
/// sound.
pub const BEHIND: [u8; 6] = [
    IMAGE_ENDS,
    BYTES_AFTER,
    BIT_MAP,
    FIELD_RANGE,
    NO_DEPTHS,
    NOT_WHOLE,
];

const NO_MODULE: Cause = Cause::NoSuch(Named::Module);

/// What leads to another module: instructions, and others.
const BY: [&str; 5] = ["CX", "RTN", "TRA", "a line", "a caught trap"];
const LEADING: [u8; 3] = [CX, RTN, TRA];
const BY_LINE: usize = 3;
const BY_TRAP: usize = 4;

/// A module, and a base, that is one too high. The last one in its place would do.
const BEYOND: [&str; 3] = [
    "refused with 11 for the next module",
    "stopped with 34 by a link of Z",
    "stopped with 35 by a G of Z",
];

impl Modules {
    /// Adds a case and what came of it.
    pub fn add(&mut self, case: &Case, outcome: &Outcome) {
        let Some(&byte) = case.image.first() else {
            return;
        };
        let (count, number) = (usize::from(byte), outcome.load.number);
        if case.image.len() == 1 {
            add_to(&mut self.alone, ALONE.map(|it| it == (number, count)));
        } else if number == MODULE_COUNT {
            let kinds = COUNTS.each_ref().map(|counts| counts.contains(&count));
            add_to(&mut self.counts, kinds);
        }
        match (count, number) {
            (TOO_MANY, MODULE_COUNT) => self.add_too_many(case, outcome),
            (MOST_MODULES, _) => self.add_most(case, outcome),
            _ => {}
        }
    }

    /// An image of one module too many.
    fn add_too_many(&mut self, case: &Case, outcome: &Outcome) {
        let image = &case.image;
        let number = match parse_modules(image, TOO_MANY) {
            Ok(program) => {
                self.add_only(case, outcome, &program);
                load_parsed(&program, image, &mut vec![UNMARKED; case.map_length]).number
            }
            Err(number) if image.len() == 1 || !is_at_fault(image, number) => return,
            Err(number) => number,
        };
        self.only[LOAD] += u64::from(number == ACCEPTED);
        add_to(&mut self.before, BEFORE.map(|it| it == number));
    }

    /// The same, with start and the runs of which nothing else is at fault.
    fn add_only(&mut self, case: &Case, outcome: &Outcome, program: &Program) {
        self.only[START] += u64::from(program.store_fits(case.store_length));
        each_run(case, outcome, |run, made, map| {
            let is_sound = would_run(program, case, run, made, map);
            self.only[RUN] += u64::from(is_sound);
        });
    }

    /// An image whose count is the most.
    fn add_most(&mut self, case: &Case, outcome: &Outcome) {
        let image = &case.image;
        let program = match parse(image) {
            Ok(program) => program,
            Err(number) => {
                // Nothing or something follows them.
                let before = parse_modules(image, LAST).err();
                if matches!(before, None | Some(BYTES_AFTER)) {
                    self.add_behind(number);
                }
                return;
            }
        };
        let program = &program;
        self.accepted[LOAD] += u64::from(outcome.load.number == ACCEPTED);
        self.accepted[START] += u64::from(outcome.start == ACCEPTED);
        self.add_code(case, outcome, program);
        each_run(case, outcome, |_, made, map| {
            let setting = Setting { case, program, map };
            if made.answer.number >= SPENT {
                self.accepted[RUN] += 1;
                self.add_step(&setting, made);
            }
            self.add_beyond(&setting, made);
        });
    }

    fn add_behind(&mut self, number: u8) {
        add_to(&mut self.behind, BEHIND.map(|it| it == number));
    }

    /// What load has made of the code.
    fn add_code(&mut self, case: &Case, outcome: &Outcome, program: &Program) {
        let (image, load) = (&case.image, &outcome.load);
        match load.number {
            ACCEPTED => self.add_names(case, outcome, program),
            NO_DEPTHS if (0..LAST).all(|module| has_depths(program, image, module)) => {
                self.add_behind(NO_DEPTHS);
            }
            NOT_WHOLE => {
                let (module, position) = (usize::from(load.module), usize::from(load.position));
                let code = &image[program.modules[module].code_range()];
                if walk::cause(program, module, code, position) == Some(NO_MODULE) {
                    add_name(&mut self.next, code, position, NEXT);
                }
                if module == LAST {
                    self.add_behind(NOT_WHOLE);
                }
            }
            _ => {}
        }
    }

    /// The marked positions of an accepted image.
    fn add_names(&mut self, case: &Case, outcome: &Outcome, program: &Program) {
        for range in program.modules.iter().map(|module| module.code_range()) {
            let (code, part) = (&case.image[range.clone()], &outcome.map[range]);
            let marked = (0..code.len()).filter(|&position| part[position] != UNMARKED);
            marked.for_each(|position| add_name(&mut self.last, code, position, LAST));
        }
    }

    /// A run that is not refused.
    fn add_step(&mut self, setting: &Setting, run: &RunOutcome) {
        let [old, new] = [&run.handed, &run.answer.machine].map(|it| usize::from(it.module));
        if run.is_instruction() {
            let code = &setting.case.image[setting.program.modules[old].code_range()];
            add_name(&mut self.steps, code, run.handed.pc.into(), LAST);
        }
        if let Some(by) = by(setting, run) {
            self.to[by] += u64::from(old != LAST && new == LAST);
            self.from[by] += u64::from(old == LAST && new != LAST);
        }
    }

    /// A run that stops, or is refused.
    fn add_beyond(&mut self, setting: &Setting, run: &RunOutcome) {
        let machine = &run.answer.machine;
        match run.answer.number {
            NOT_A_MACHINE => self.beyond[0] += u64::from(is_only_next(setting, machine)),
            RETURN_MARK if setting.opcode(machine) == RTN => {
                self.beyond[1] += u64::from(is_by_z(setting, run, machine.l));
            }
            PROCESS if run.failed().is_none() => {
                let word = machine.stack[usize::from(machine.depth) - 1];
                let q = run.after[usize::from(word)];
                self.beyond[2] += u64::from(is_by_z(setting, run, q));
            }
            _ => {}
        }
    }

    /// The lines of the report: what was reached, its kinds and their counts.
    pub fn reached(&self) -> Vec<Reached> {
        let alone = ALONE.map(|(number, byte)| format!("with {number} for {byte}"));
        let counts = COUNTS.each_ref().map(range_name);
        let opcodes = NAMING.map(|opcode| row(opcode).mnemonic);
        vec![
            ("images of one byte refused", named(&alone, &self.alone)),
            (
                "images refused with 2 for a count of",
                named(&counts, &self.counts),
            ),
            (
                "images refused with 2 only for one module too many by",
                named(&CALLS, &self.only),
            ),
            (
                "images of one module too many refused with 2 before",
                named(&BEFORE, &self.before),
            ),
            (
                "images of the most modules accepted by",
                named(&CALLS, &self.accepted),
            ),
            (
                "images of the most modules refused behind sound ones with",
                named(&BEHIND, &self.behind),
            ),
            (
                "images of the most modules accepted with the last one at",
                named(&opcodes, &self.last),
            ),
            (
                "images of the most modules refused with 13 for the next one at",
                named(&opcodes, &self.next),
            ),
            (
                "steps with the last of the most modules at",
                named(&opcodes, &self.steps),
            ),
            (
                "steps to the last of the most modules by",
                named(&BY, &self.to),
            ),
            (
                "steps from the last of the most modules by",
                named(&BY, &self.from),
            ),
            ("runs of the most modules", named(&BEYOND, &self.beyond)),
        ]
    }
}

/// Adds to the counts of the kinds that apply.
fn add_to<const N: usize>(counts: &mut [u64; N], kinds: [bool; N]) {
    for (count, is_so) in counts.iter_mut().zip(kinds) {
        *count += u64::from(is_so);
    }
}

/// Adds an instruction to the counts of [`NAMING`], if it names this module.
fn add_name(counts: &mut [u64; NAMING.len()], code: &[u8], position: usize, module: usize) {
    let names = |opcode| code[position] == opcode && usize::from(code[position + 1]) == module;
    add_to(counts, NAMING.map(names));
}

/// Whether a reader of the most modules finds this refusal too.
fn is_at_fault(image: &[u8], number: u8) -> bool {
    parse_modules(image, MOST_MODULES).err() == Some(number)
}

/// Whether run would make steps if the image were accepted.
fn would_run(
    program: &Program,
    case: &Case,
    run: &CaseRun,
    made: &RunOutcome,
    map: &[u32],
) -> bool {
    let buffers = Buffers {
        image: &case.image,
        map,
        store: &mut made.before.clone(),
        outputs: &mut case.outputs.clone(),
        inputs: &run.inputs,
    };
    admit_parsed(program, &made.handed, buffers).is_ok()
}

/// The index in [`BY`] of the only step of a run.
fn by(setting: &Setting, run: &RunOutcome) -> Option<usize> {
    let opcode = setting.opcode(&run.handed);
    match run.line() {
        Some(_) => Some(BY_LINE),
        None if run.caught_alone().is_some() => Some(BY_TRAP),
        None if run.is_instruction() => LEADING.iter().position(|&it| it == opcode),
        None => None,
    }
}

/// Whether it is no machine for its module alone, which is the next one.
fn is_only_next(setting: &Setting, machine: &Machine) -> bool {
    let with_last = Machine {
        module: LAST as u8,
        ..*machine
    };
    let words = setting.case.store_length;
    usize::from(machine.module) == NEXT && with_last.is_machine(setting.program, setting.map, words)
}

/// Whether a run is stopped by a word that is Z, where the last base would lead to the
/// last module.
fn is_by_z(setting: &Setting, run: &RunOutcome, address: u16) -> bool {
    let mut store = run.after.clone();
    let Some(word) = store.get_mut(usize::from(address)) else {
        return false;
    };
    let is_z = u32::from(*word) == setting.program.z;
    *word = setting.program.modules[LAST].base as u16;
    let step = setting.step(run.answer.machine, &store, 0);
    is_z && step.number == SPENT && usize::from(step.machine.module) == LAST
}
