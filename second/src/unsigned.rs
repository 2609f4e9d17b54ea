//! What cases reach of A.6: UADD, USUB and UMUL with true results at both bounds
//! of 0 to 65,535, inside and outside, and sums that still go round.

use crate::case::{Case, Outcome};
use crate::coverage::{named, range_name, Reached};
use crate::exec::double;
use crate::image::{parse, Program};
use crate::machine::Machine;
use crate::number::RESULT_RANGE;
use crate::opcode::{row, DADD, DSUB, LEA, LGA, LLA, LSA, UADD, UMUL, USUB};
use crate::pair::address_sum;
use std::ops::RangeInclusive;

/// Counts of what was reached; each must be. An instruction is seen where it is
/// the only one of a run: its only step, or a stop with 37 before any step.
#[derive(Default)]
pub struct Unsigned {
    /// Steps, by [`OPERATORS`] and [`INSIDE`].
    steps: [[u64; INSIDE.len()]; OPERATORS.len()],
    /// Stops with 37, by [`OPERATORS`] and what is outside for each.
    stops: [[u64; 3]; OPERATORS.len()],
    /// Stops of UMUL with 37, by [`LOW_WORDS`].
    low_words: [u64; LOW_WORDS.len()],
    /// Steps where a sum goes round, by [`GO_ROUND`].
    round: [u64; GO_ROUND.len()],
}

/// True results from the first to the last.
pub type Interval = RangeInclusive<i64>;

/// The results that a word holds: the bounds and those between.
pub const INSIDE: [Interval; 3] = [0..=0, 1..=65_534, 65_535..=65_535];

/// An unsigned operator and its results.
pub struct Operator {
    pub opcode: u8,
    /// The true result of c and a.
    result: fn(i64, i64) -> i64,
    /// The first result outside, those between, and the furthest.
    pub outside: [Interval; 3],
    /// Titles in the report.
    steps: &'static str,
    stops: &'static str,
}

pub const OPERATORS: [Operator; 3] = [
    Operator {
        opcode: UADD,
        result: |c, a| c + a,
        outside: [65_536..=65_536, 65_537..=131_069, 131_070..=131_070],
        steps: "steps of UADD with the result",
        stops: "stops of UADD with 37 with the result",
    },
    Operator {
        opcode: USUB,
        result: |c, a| c - a,
        outside: [-1..=-1, -65_534..=-2, -65_535..=-65_535],
        steps: "steps of USUB with the result",
        stops: "stops of USUB with 37 with the result",
    },
    Operator {
        opcode: UMUL,
        result: |c, a| c * a,
        outside: [
            65_536..=65_536,
            65_537..=4_294_836_224,
            4_294_836_225..=4_294_836_225,
        ],
        steps: "steps of UMUL with the result",
        stops: "stops of UMUL with 37 with the result",
    },
];

/// The low words of products outside.
const LOW_WORDS: [&str; 2] = ["0", "other than 0"];

/// "Address sums and the two-word sums still go round.": those that are put.
const GO_ROUND: [u8; 6] = [LLA, LGA, LSA, LEA, DADD, DSUB];

/// The index of the instruction at which the machine stands, if it is one of these
/// and its sum goes round.
fn goes_round(program: &Program, image: &[u8], machine: &Machine) -> Option<usize> {
    let opcode = machine.opcode(program, image);
    let index = GO_ROUND.iter().position(|&it| it == opcode)?;
    let pair = |from_top: u8| {
        let high = usize::from(machine.depth - from_top);
        double(machine.stack[high], machine.stack[high + 1])
    };
    let inside = match opcode {
        DADD => pair(4).checked_add(pair(2)).is_some(),
        DSUB => pair(4).checked_sub(pair(2)).is_some(),
        _ => {
            let (base, offset) = address_sum(program, image, machine)?;
            base.checked_add(offset.into()).is_some()
        }
    };
    (!inside).then_some(index)
}

impl Unsigned {
    /// Adds a case and what came of it.
    pub fn add(&mut self, case: &Case, outcome: &Outcome) {
        let Ok(program) = parse(&case.image) else {
            return;
        };
        for run in &outcome.runs {
            let stopped = match (run.answer.number, run.answer.count) {
                (RESULT_RANGE, 0) => true,
                _ if run.is_instruction() => false,
                _ => continue,
            };
            let opcode = run.handed.opcode(&program, &case.image);
            let operator = OPERATORS.iter().position(|it| it.opcode == opcode);
            if let Some(operator) = operator {
                self.add_result(operator, &run.handed, stopped);
            }
            if let Some(sum) = goes_round(&program, &case.image, &run.handed) {
                self.round[sum] += 1;
            }
        }
    }

    /// The operator at which the machine stands: a step, or a stop with 37.
    fn add_result(&mut self, index: usize, machine: &Machine, stopped: bool) {
        let operator = &OPERATORS[index];
        let word = |from_top: u8| machine.stack[usize::from(machine.depth - from_top)].into();
        let result = (operator.result)(word(2), word(1));
        let (counts, kinds) = if stopped {
            (&mut self.stops[index], &operator.outside)
        } else {
            (&mut self.steps[index], &INSIDE)
        };
        for (count, kind) in counts.iter_mut().zip(kinds) {
            *count += u64::from(kind.contains(&result));
        }
        if stopped && operator.opcode == UMUL {
            self.low_words[usize::from(result % 65_536 != 0)] += 1;
        }
    }

    /// The lines of the report: what was reached, its kinds and their counts.
    pub fn reached(&self) -> Vec<Reached> {
        let mut lines = Vec::new();
        let kinds = |results: &[Interval; 3], counts: &[u64; 3]| {
            let names = results.each_ref().map(range_name);
            named(&names, counts)
        };
        for (i, operator) in OPERATORS.iter().enumerate() {
            lines.push((operator.steps, kinds(&INSIDE, &self.steps[i])));
            lines.push((operator.stops, kinds(&operator.outside, &self.stops[i])));
        }
        let low_words = named(&LOW_WORDS, &self.low_words);
        lines.push(("stops of UMUL with 37 with the low word", low_words));
        let names = GO_ROUND.map(|opcode| row(opcode).mnemonic);
        let round = named(&names, &self.round);
        lines.push(("steps with a sum that goes round at", round));
        lines
    }
}
