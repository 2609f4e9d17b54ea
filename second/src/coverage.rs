//! What generated cases reach: opcodes, traps of opcodes, refusals, what A.2
//! makes of result counts, what A.3 makes of code that is not whole, what
//! collides in transfers, what A.5 makes of saved depths, what A.6 makes of
//! unsigned results, what A.7 makes of lines, what A.8 makes of traps, what A.9 makes
//! of READs, what A.10 makes of numbers of modules, and what A.11 makes of forms.

use crate::case::{replay, Case};
use crate::channels::Channels;
use crate::exec::Observer;
use crate::forms::Forms;
use crate::image::parse;
use crate::lent::LentMaps;
use crate::lines::ClockLines;
use crate::machine::Machine;
use crate::modules::Modules;
use crate::number::*;
use crate::opcode::{self, row, PAIRS};
use crate::pair::first_address;
use crate::request::{FIRST, LAST};
use crate::requests::Requests;
use crate::results::Results;
use crate::saved::Expressions;
use crate::transfers::Transfers;
use crate::traps::Traps;
use crate::unsigned::Unsigned;
use crate::whole::Whole;
use std::fmt::{Display, Write};
use std::ops::RangeInclusive;

/// Counts of what was reached.
pub struct Coverage {
    steps: Steps,
    /// Stops of each opcode, by number less 31: the end and the traps.
    stops: [[u64; 10]; 256],
    /// Stops with 32 of each load and store of a pair, by [`FAILING`].
    pairs: [[u64; 3]; 256],
    spent: u64,
    load: [u64; ANSWERS],
    start: [u64; ANSWERS],
    run: [u64; ANSWERS],
    archive: [u64; ANSWERS],
    results: Results,
    whole: Whole,
    transfers: Transfers,
    expressions: Expressions,
    lent_maps: LentMaps,
    unsigned: Unsigned,
    clock_lines: ClockLines,
    requests: Requests,
    traps: Traps,
    channels: Channels,
    modules: Modules,
    forms: Forms,
    cases: u64,
}

/// A line of the report: what was reached, its kinds and their counts.
pub type Reached = (&'static str, Vec<(String, u64)>);

/// The kinds of a line, with these names.
pub fn named<T: ToString>(names: &[T], counts: &[u64]) -> Vec<(String, u64)> {
    let names = names.iter().map(|name| name.to_string());
    names.zip(counts.iter().copied()).collect()
}

/// A number, or the first and the last of several.
pub fn range_name<T: Display + PartialEq>(range: &RangeInclusive<T>) -> String {
    let (first, last) = (range.start(), range.end());
    if first == last {
        first.to_string()
    } else {
        format!("{first} to {last}")
    }
}

/// Counts of steps.
#[derive(Clone, Copy)]
pub struct Steps {
    /// Of each opcode.
    pub opcodes: [u64; 256],
    /// Of each line.
    pub lines: [u64; 16],
    /// Of each trap that is caught.
    pub traps: [u64; PROGRAM as usize + 1],
}

impl Steps {
    pub const NONE: Steps = Steps {
        opcodes: [0; 256],
        lines: [0; 16],
        traps: [0; PROGRAM as usize + 1],
    };
}

impl Observer for Steps {
    fn done(&mut self, opcode: u8) {
        self.opcodes[usize::from(opcode)] += 1;
    }

    fn read(&mut self, _: u8, _: u16, _: u16) {}

    fn taken(&mut self, line: u8) {
        self.lines[usize::from(line)] += 1;
    }

    fn caught(&mut self, trap: u8, _: Option<u8>, _: &Machine, _: &Machine) {
        self.traps[usize::from(trap)] += 1;
    }
}

/// 0 and the refusals 1 to 14.
const ANSWERS: usize = 15;

/// Refusals that each call can answer, with 0 where it accepts.
const LOAD: [u8; 10] = [0, 1, 2, 3, 4, 5, 6, 7, 8, 13];
const START: [u8; 8] = [0, 1, 2, 3, 4, 5, 6, 9];
pub const RUN: [u8; 11] = [1, 2, 3, 4, 5, 6, 7, 9, 10, 11, 12];
const ARCHIVE: [u8; 11] = [0, 1, 2, 3, 4, 5, 6, 7, 8, 13, 14];

/// What fails where a pair stops with 32. The first two must be reached: the
/// second address alone fails where the high word is the store's last.
const FAILING: [&str; 3] = [
    "by its first address",
    "by its second address alone",
    "by neither address",
];

/// The index in [`FAILING`] of a pair at this first address.
fn failing(first: u16, words: usize) -> usize {
    match usize::from(first) {
        first if first >= words => 0,
        first if first + 1 == words => 1,
        _ => 2,
    }
}

/// The traps of opcodes: those of each that can trap.
pub fn traps_of_opcodes() -> impl Iterator<Item = (u8, u8)> {
    let of = |opcode: u8| {
        possible_stops(opcode)
            .iter()
            .map(move |&stop| (opcode, stop))
    };
    (0..=255).flat_map(of).filter(|&(_, stop)| stop != ENDED)
}

/// The end and the traps that an opcode can stop with. (102–117 and 122–137
/// cannot: a base and 15 more is below Z + 36.)
fn possible_stops(opcode: u8) -> &'static [u8] {
    match opcode {
        0o040 | 0o042 | 0o044..=0o057 | 0o060 | 0o062 | 0o064..=0o077 => &[ADDRESS],
        0o041 | 0o043 | 0o061 | 0o063 | 0o101 | 0o121 => &[ADDRESS],
        0o100 | 0o120 | 0o140..=0o177 => &[ADDRESS],
        0o200..=0o202 | 0o205 | 0o206 | 0o220..=0o222 | 0o225 | 0o226 => &[ADDRESS],
        0o240 => &[ADDRESS, CHANNEL],
        0o241 => &[CHANNEL],
        0o245 | 0o305 | 0o306 => &[CHECK],
        0o256 => &[ADDRESS, PROCESS],
        0o260 => &[RETURN_MARK],
        0o262 => &[STACK_LIMIT],
        0o270..=0o272 => &[RESULT_RANGE],
        0o273 | 0o274 => &[DIVISOR],
        0o304 => &[PROGRAM],
        0o316 | 0o317 | 0o330..=0o332 => &[RESULT_RANGE],
        0o333 => &[DIVISOR, RESULT_RANGE],
        0o350 | 0o351 => &[ADDRESS],
        0o353 | 0o355 | 0o356 | 0o360..=0o377 => &[STACK_LIMIT],
        0o354 => &[ENDED, RETURN_MARK],
        _ => &[],
    }
}

impl Coverage {
    /// Replays the cases.
    pub fn of(cases: impl Iterator<Item = Case>) -> Coverage {
        let mut coverage = Coverage {
            steps: Steps::NONE,
            stops: [[0; 10]; 256],
            pairs: [[0; 3]; 256],
            spent: 0,
            load: [0; ANSWERS],
            start: [0; ANSWERS],
            run: [0; ANSWERS],
            archive: [0; ANSWERS],
            results: Results::default(),
            whole: Whole::default(),
            transfers: Transfers::default(),
            expressions: Expressions::default(),
            lent_maps: LentMaps::default(),
            unsigned: Unsigned::default(),
            clock_lines: ClockLines::default(),
            requests: Requests::default(),
            traps: Traps::default(),
            channels: Channels::default(),
            modules: Modules::default(),
            forms: Forms::default(),
            cases: 0,
        };
        cases.for_each(|case| coverage.add(&case));
        coverage
    }

    fn add(&mut self, case: &Case) {
        self.cases += 1;
        let outcome = replay(case, &mut self.steps);
        self.load[usize::from(outcome.load.number)] += 1;
        self.start[usize::from(outcome.start)] += 1;
        self.archive[usize::from(outcome.archive.number)] += 1;
        self.results.add(case, &outcome);
        self.whole.add(case, &outcome);
        self.transfers.add(case, &outcome);
        self.expressions.add(case, &outcome);
        self.lent_maps.add(case, &outcome);
        self.unsigned.add(case, &outcome);
        self.clock_lines.add(case, &outcome);
        self.requests.add(case, &outcome);
        self.traps.add(case, &outcome);
        self.channels.add(case, &outcome);
        self.modules.add(case, &outcome);
        self.forms.add(case, &outcome);
        for run in outcome.runs {
            let answer = run.answer;
            match answer.number {
                SPENT => self.spent += 1,
                PROCESS if run.failed().is_some() => {}
                ENDED..=PROGRAM => self.add_stop(case, answer.number, &answer.machine),
                refusal => self.run[usize::from(refusal)] += 1,
            }
        }
    }

    /// A stop of the instruction at which the machine stands.
    fn add_stop(&mut self, case: &Case, stop: u8, machine: &Machine) {
        let program = parse(&case.image).expect("it was run");
        let opcode = usize::from(machine.opcode(&program, &case.image));
        self.stops[opcode][usize::from(stop - ENDED)] += 1;
        if stop == ADDRESS {
            if let Some(first) = first_address(&program, &case.image, machine) {
                self.pairs[opcode][failing(first, case.store_length)] += 1;
            }
        }
    }

    fn stop_count(&self, opcode: u8, stop: u8) -> u64 {
        self.stops[usize::from(opcode)][usize::from(stop - ENDED)]
    }

    /// What should have been reached and was not, and what cannot be and was.
    pub fn faults(&self) -> Vec<String> {
        let mut faults = Vec::new();
        for opcode in 0..=255 {
            let name = format!("opcode {opcode:03o} {}", row(opcode).mnemonic);
            // 304 always traps.
            let steps = opcode::row(opcode).length != 0 && opcode != opcode::TRAP;
            match (steps, self.steps.opcodes[usize::from(opcode)]) {
                (true, 0) => faults.push(format!("{name} was never executed")),
                (false, 1..) => faults.push(format!("{name} was executed")),
                _ => {}
            }
            for stop in ENDED..=PROGRAM {
                let possible = possible_stops(opcode).contains(&stop);
                match (possible, self.stop_count(opcode, stop)) {
                    (true, 0) => faults.push(format!("{name} never stopped with {stop}")),
                    (false, 1..) => faults.push(format!("{name} stopped with {stop}")),
                    _ => {}
                }
            }
        }
        faults.extend(self.pair_faults());
        faults.extend(self.missing_kinds());
        if self.spent == 0 {
            faults.push("no run stopped with 30".into());
        }
        for (call, counts, possible) in [
            ("load", &self.load, &LOAD[..]),
            ("start", &self.start, &START),
            ("run", &self.run, &RUN),
            ("archive", &self.archive, &ARCHIVE),
        ] {
            for (number, &count) in (0u8..).zip(counts) {
                match (possible.contains(&number), count) {
                    (true, 0) => faults.push(format!("{call} never answered {number}")),
                    (false, 1..) => faults.push(format!("{call} answered {number}")),
                    _ => {}
                }
            }
        }
        faults
    }

    /// What was reached of A.2, of A.3, of transfers, and of A.5 to A.11.
    fn kinds(&self) -> impl Iterator<Item = Reached> {
        let mut lines = self.results.reached();
        lines.extend(self.whole.reached());
        lines.extend(self.transfers.reached());
        lines.extend(self.expressions.reached());
        lines.extend(self.lent_maps.reached());
        lines.extend(self.unsigned.reached());
        lines.extend(self.clock_lines.reached());
        lines.extend(self.requests.reached());
        lines.extend(self.traps.reached());
        lines.extend(self.channels.reached());
        lines.extend(self.modules.reached());
        lines.extend(self.forms.reached());
        lines.into_iter()
    }

    fn missing_kinds(&self) -> Vec<String> {
        let mut faults = Vec::new();
        for (reached, kinds) in self.kinds() {
            let missing = kinds.iter().filter(|(_, count)| *count == 0);
            faults.extend(missing.map(|(kind, _)| format!("no {reached} {kind}")));
        }
        faults
    }

    /// The same for the addresses of pairs.
    fn pair_faults(&self) -> Vec<String> {
        let mut faults = Vec::new();
        for opcode in PAIRS {
            let name = format!("opcode {opcode:03o} {}", row(opcode).mnemonic);
            let [first, second, neither] = self.pairs[usize::from(opcode)];
            for (count, failing) in [first, second].into_iter().zip(FAILING) {
                if count == 0 {
                    faults.push(format!("{name} never stopped with 32 {failing}"));
                }
            }
            if neither != 0 {
                faults.push(format!("{name} stopped with 32 {}", FAILING[2]));
            }
        }
        faults
    }

    /// The tables, as text.
    pub fn report(&self) -> String {
        let mut text = format!("cases {}\n", self.cases);
        let mut line = |title: &str, counts: Vec<(String, u64)>| {
            let _ = write!(text, "{title}");
            for (name, count) in counts {
                let _ = write!(text, "  {name}:{count}");
            }
            text.push('\n');
        };
        let numbers = |possible: &[u8], counts: &[u64; ANSWERS]| {
            let pair = |&number: &u8| (number.to_string(), counts[usize::from(number)]);
            possible.iter().map(pair).collect()
        };
        line("load", numbers(&LOAD, &self.load));
        line("start", numbers(&START, &self.start));
        line("run refused", numbers(&RUN, &self.run));
        line("archive", numbers(&ARCHIVE, &self.archive));
        let mut stops = vec![("30".to_string(), self.spent)];
        for stop in ENDED..=PROGRAM {
            let count = (0..=255).map(|opcode| self.stop_count(opcode, stop)).sum();
            stops.push((stop.to_string(), count));
        }
        line("run stopped", stops);
        for (i, failing) in FAILING[..2].iter().enumerate() {
            let pair = |opcode: u8| {
                let count = self.pairs[usize::from(opcode)][i];
                (row(opcode).mnemonic.to_string(), count)
            };
            let title = format!("pairs stopped with 32 {failing}");
            line(&title, PAIRS.map(pair).to_vec());
        }
        for (reached, kinds) in self.kinds() {
            line(reached, kinds);
        }
        let listed: Vec<u8> = opcode::listed().collect();
        for opcodes in listed.chunks(8) {
            let pair = |&opcode: &u8| {
                let name = format!("{opcode:03o} {}", row(opcode).mnemonic);
                (name, self.steps.opcodes[usize::from(opcode)])
            };
            line("steps", opcodes.iter().map(pair).collect());
        }
        let pair = |number: u8| {
            let name = format!("line {number}");
            (name, self.steps.lines[usize::from(number)])
        };
        line("steps", (FIRST..=LAST).map(pair).collect());
        text
    }
}
