//! Cases of A.7: a process that a line interrupts in the midst of an expression, and
//! that goes on.

use super::lines::{step, two_lines, Process};
use super::rng::Rng;
use super::saved::add_nested;
use super::state::{Place, World};
use super::{case_of, plain_run};
use crate::api::{self, Buffers};
use crate::assemble::Source;
use crate::case::{Case, CaseRun};
use crate::image::parse;
use crate::machine::Machine;
use crate::mark::{Saved, MOST_SAVED};
use crate::number::SPENT;
use crate::opcode::{JPB, LIB, RTN, TRA};
use crate::request::*;

/// The words of the store, and where the other process is in it.
const WORDS: usize = 400;
const RECORD: u16 = 260;
const STACK: u16 = 280;

/// An expression in one module, which a line interrupts, and a process in another
/// that a line goes to. A transfer or another line goes back, in runs of one step;
/// then the expression is interrupted again and comes to its end in one run.
pub fn interrupted_case(rng: &mut Rng, round: usize) -> Case {
    let (line, other) = two_lines(rng);
    let (world, entry) = expression(rng, line);
    let mut case = case_of(rng, world.image.clone(), WORDS);
    let machine = first_machine(rng, &world, entry, bit(line) | bit(other));
    let moments = moments(&world, machine);
    let [first, second] = two_moments(rng, &moments);
    let handler = |place: &Place| place.module == 1 && place.position == 0;
    let process = Process {
        line,
        place: world.place_where(rng, handler).expect("it is an entry"),
        q: RECORD,
        lowest: STACK,
        m: rng.word() & !bit(other),
    };
    let mut patches = process.patches(rng, &world);
    patches.push((target_word(other), machine.p));
    let held = rng.word() & !(bit(line) | bit(other));
    let requests = rng.word() & !LINES;
    let run = step(rng, machine, requests, held, patches);
    let budget = first as u32;
    case.runs.push(CaseRun { budget, ..run });
    push(rng, &mut case, Some(bit(line)), 1);
    if round.is_multiple_of(2) {
        // LIB, LIB, TRA.
        push(rng, &mut case, None, 2);
        push(rng, &mut case, None, 1);
    } else {
        push(rng, &mut case, Some(bit(other)), 1);
    }
    push(rng, &mut case, None, second - first);
    push(rng, &mut case, Some(bit(line)), 300);
    case
}

/// Adds a run with the machine of the run before.
fn push(rng: &mut Rng, case: &mut Case, requests: Option<u16>, budget: usize) {
    let run = plain_run(rng, budget);
    case.runs.push(CaseRun { requests, ..run });
}

/// Module 0 nests STORE and LODFW. Module 1 transfers from word 2i to the process in
/// word 2i + 1, again and again. Also answers the expression's entry.
fn expression(rng: &mut Rng, line: u8) -> (World, u16) {
    let (to, from) = (target_word(line) as u8, old_word(line) as u8);
    let handler = [LIB, to, LIB, from, TRA, 1, JPB, 7];
    let mut modules = [Source::plain(&[RTN]), Source::plain(&handler)];
    let count = rng.within(1, MOST_SAVED);
    let entry = add_nested(rng, &mut modules[..1], count);
    let mut world = World::least(&modules);
    world.words = WORDS;
    (world, entry)
}

/// The first machine, at the expression's entry, with an M that lets lines pass.
fn first_machine(rng: &mut Rng, world: &World, entry: u16, lines: u16) -> Machine {
    let (_, machine) = api::start(&world.image, &mut [0; WORDS]);
    Machine {
        pc: entry,
        m: rng.word() & !lines,
        ..machine
    }
}

/// After how many steps of the expression depths are saved.
fn moments(world: &World, mut machine: Machine) -> Vec<usize> {
    let program = parse(&world.image).expect("it is well formed");
    let mut store = vec![0; WORDS];
    let mut moments = Vec::new();
    for moment in 0.. {
        let mark = machine.mark(&program, &world.map);
        if mark.is_some_and(|mark| mark.saved != Saved::NONE) {
            moments.push(moment);
        }
        let buffers = Buffers {
            image: &world.image,
            map: &world.map,
            store: &mut store,
            outputs: &mut [0; 16],
            inputs: &[0; 16],
        };
        let answer = api::run(machine, buffers, 0, 1);
        machine = answer.machine;
        if answer.number != SPENT {
            break;
        }
    }
    moments
}

/// Two of these, the first one not above the second.
fn two_moments(rng: &mut Rng, moments: &[usize]) -> [usize; 2] {
    let mut two = [rng.pick(moments), rng.pick(moments)];
    two.sort_unstable();
    two
}
