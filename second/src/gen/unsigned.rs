//! Cases of A.6: UADD, USUB and UMUL, with operands for a true result, and sums
//! that still go round.

use super::code::some_word;
use super::rng::Rng;
use super::state::World;
use super::{case_of, marks_in_a_row, opcode_shape, opcodes_with, plain_run, Scale};
use crate::api;
use crate::assemble::{encode, Source};
use crate::case::Case;
use crate::opcode::{DADD, DSUB, LEA, LGA, LLA, LSA, RTN, TRAP, UADD, UMUL, USUB};
use crate::unsigned::{Interval, Operator, INSIDE, OPERATORS};

/// The largest word.
const MOST: i64 = 65_535;

/// Each operator in turn, and then the sums that go round.
pub fn turn_case(rng: &mut Rng, scale: &Scale, round: usize) -> Case {
    match OPERATORS.get(round % (OPERATORS.len() + 1)) {
        Some(operator) => results_case(rng, scale, operator),
        None => sums_case(rng),
    }
}

/// One operator, with results of each kind, inside and outside.
fn results_case(rng: &mut Rng, scale: &Scale, operator: &Operator) -> Case {
    let opcodes = opcodes_with(rng, scale.state_opcodes, operator.opcode);
    let careful = rng.once_in(2);
    let shape = opcode_shape(rng, scale, opcodes, careful);
    let world = World::new(rng, &shape);
    let mut case = case_of(rng, world.image.clone(), world.words);
    for results in all_results(rng, operator) {
        let mut run = plain_run(rng, 1);
        world.set_state(rng, Some(operator.opcode), &mut run);
        let machine = run.machine.as_mut().expect("it was set");
        let top = usize::from(machine.depth);
        let (c, a) = operands(rng, operator.opcode, &results);
        machine.stack[top - 2..top].copy_from_slice(&[c, a]);
        case.runs.push(run);
    }
    case
}

/// Each instruction by itself, in a module near the end of one of the largest
/// stores. L and the words on the stack are so large that all sums go round, and
/// the words rise, so that the difference does.
fn sums_case(rng: &mut Rng) -> Case {
    // The base of module 1, behind 131 words and module 0's data.
    let base = rng.within(65_300, 65_480);
    let [a, b, c, d] = [0; 4].map(|_| rng.within(65_536 - base, 255) as u8);
    let code = [LGA, a, LEA, 1, b, LLA, c, LSA, d, 0, DADD, 0, 0, DSUB, TRAP];
    let before = Source {
        data_size: base as u16 - 131,
        ..Source::plain(&[RTN])
    };
    let words = rng.within(base + 39, 65_535);
    let mut case = case_of(rng, encode(&[before, Source::plain(&code)]), words);
    let (_, mut machine) = api::start(&case.image, &mut vec![0; words]);
    machine.module = 1;
    for (position, mark) in marks_in_a_row(&code, 0) {
        let depth = usize::from(mark.depth);
        let large = |i: usize| (65_480 + 11 * i + rng.below(11)) as u16;
        let rising: Vec<u16> = (0..5).map(large).collect();
        (machine.pc, machine.depth, machine.l) = (position as u16, mark.depth, rising[4]);
        machine.stack = [0; 16];
        machine.stack[..depth].copy_from_slice(&rising[..depth]);
        let mut run = plain_run(rng, 1);
        run.machine = Some(machine);
        case.runs.push(run);
    }
    case
}

/// Each kind of result; of a product also one further outside whose low word is 0.
fn all_results(rng: &mut Rng, operator: &Operator) -> Vec<Interval> {
    let mut results = [&INSIDE[..], &operator.outside].concat();
    if operator.opcode == UMUL {
        let product = 65_536 * rng.within(2, 32_767) as i64;
        results.push(product..=product);
    }
    results
}

/// Operands with a result inside.
pub fn operands_inside(rng: &mut Rng, opcode: u8) -> (u16, u16) {
    let results = &INSIDE[rng.below(INSIDE.len())];
    operands(rng, opcode, results)
}

/// Operands with a result of any kind.
pub fn any_operands(rng: &mut Rng, opcode: u8) -> (u16, u16) {
    let operator = OPERATORS.iter().find(|it| it.opcode == opcode);
    let results = all_results(rng, operator.expect("it is one of them"));
    let results = &results[rng.below(results.len())];
    operands(rng, opcode, results)
}

/// Words c and a of which the operator makes one of these results.
fn operands(rng: &mut Rng, opcode: u8, results: &Interval) -> (u16, u16) {
    loop {
        let c = some_word(rng);
        let (first, last) = words_for(opcode, c.into(), results);
        if first <= last {
            let any = rng.within(first as usize, last as usize) as u16;
            return (c, rng.pick(&[first as u16, last as u16, any]));
        }
    }
}

/// The first and the last word a that makes one of these results with c; the
/// last is below the first where none does.
fn words_for(opcode: u8, c: i64, results: &Interval) -> (i64, i64) {
    let (least, most) = (*results.start(), *results.end());
    let (first, last) = match opcode {
        UADD => (least - c, most - c),
        USUB => (c - most, c - least),
        // Products, which are not below 0; of 0 all are 0.
        _ if c > 0 => ((least + c - 1) / c, most / c),
        _ if results.contains(&0) => (0, MOST),
        _ => (MOST, 0),
    };
    (first.max(0), last.min(MOST))
}
