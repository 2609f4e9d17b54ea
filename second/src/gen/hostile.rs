//! Cases of A.7 to A.9: requests of all kinds, any word 14 and READs, where machines,
//! stores and programs were not made for them.

use super::code::{some_word, PROCESS_NAMES, PROCESS_NAME_COUNT};
use super::lines::{any_line, line_world};
use super::rng::Rng;
use super::state::{near, World};
use super::{case_of, plain_run, Scale};
use crate::case::{Case, CaseRun};
use crate::collisions::{record, saved_stack};
use crate::machine::Machine;
use crate::opcode::READ;
use crate::request::*;
use std::ops::Range;

/// Machines and stores as no program need have made them, with requests: words 2i and
/// word 14 name good and bad processes, which collide with these words, word 3, the own
/// record, the saved stack and one another. READs write to these words too.
pub fn hostile_case(rng: &mut Rng, scale: &Scale) -> Case {
    let world = line_world(rng, scale);
    let mut case = case_of(rng, world.image.clone(), world.words);
    for i in 0..scale.state_runs {
        let budget = rng.pick(&[0, 1, 1, 1, 1, 2, 3, 10]);
        let mut run = plain_run(rng, budget);
        if i == 0 || !rng.once_in(4) {
            let reads = rng.once_in(4);
            world.set_state(rng, reads.then_some(READ), &mut run);
            set_lines(rng, &world, reads, &mut run);
        }
        if rng.once_in(32) {
            run.inputs.truncate(rng.below(16));
        }
        case.runs.push(run);
    }
    case
}

/// Requests, and words of the store that decide what becomes of them. A READ mostly has
/// one of these words as its address.
fn set_lines(rng: &mut Rng, world: &World, reads: bool, run: &mut CaseRun) {
    let requests = any_requests(rng);
    run.requests = Some(requests);
    let mut machine = run.machine.expect("it was set");
    let vectors = usize::from(target_word(FIRST))..usize::from(old_word(LAST)) + 1;
    let traps = Machine::TRAP_TARGET..Machine::TRAP_OLD + 1;
    let low = match rng.below(6) {
        0 | 1 => HELD..HELD + 1,
        2 | 3 => traps,
        _ => vectors,
    };
    match rng.below(6) {
        0 => machine.p = near(rng, &low, 6) as u16,
        1 => machine.s = (near(rng, &low, 4) as u16).min(machine.h),
        _ => {}
    }
    if !rng.once_in(3) {
        machine.m = rng.word() & rng.word() & rng.word();
    }
    let own = record(machine.p);
    let saved = saved_stack(&machine, machine.depth);
    for line in lines(requests) {
        let word = hostile_target(rng, world, machine.p, &[&own, &saved, &low], run);
        run.store_patches.push((target_word(line), word));
    }
    if !rng.once_in(3) {
        let word = hostile_target(rng, world, machine.p, &[&own, &saved, &low], run);
        run.store_patches.push((TRAP_TARGET, word));
    }
    let (some, one) = (rng.word() & rng.word(), bit(any_line(rng)));
    let held = rng.pick(&[0, some, one]);
    run.store_patches.push((HELD as u16, held));
    if reads && !rng.once_in(4) {
        let range = rng.pick(&[&own, &saved, &low]);
        let depth = usize::from(machine.depth);
        machine.stack[depth - 2] = near(rng, range, 1) as u16;
    }
    run.machine = Some(machine);
}

/// A word that names a target: P, garbage, or a process, good or bad, which often
/// lies near one of the ranges.
fn hostile_target(
    rng: &mut Rng,
    world: &World,
    p: u16,
    ranges: &[&Range<usize>],
    run: &mut CaseRun,
) -> u16 {
    let last_record = world.words - Machine::RECORD;
    let q = match rng.below(8) {
        0 => return p,
        1 => return some_word(rng),
        2 | 3 => {
            let range = rng.pick(ranges);
            near(rng, range, 6)
        }
        _ => rng.below(last_record),
    };
    let q = q.min(last_record) as u16;
    let mut patches = world.process(rng, q, ranges);
    if rng.once_in(4) {
        world.spoil_process(rng, q, &mut patches);
    }
    let inside = |&&(address, _): &&(u16, u16)| usize::from(address) < world.words;
    run.store_patches.extend(patches.iter().filter(inside));
    q
}

/// Word 14.
pub const TRAP_TARGET: u16 = Machine::TRAP_TARGET as u16;

/// Gives a few runs any word 14: often one of the words that they patch, which may name
/// a process. Mostly it stays for that run alone.
pub fn give_word_14(rng: &mut Rng, runs: &mut [CaseRun], words: usize) {
    for i in 0..runs.len() {
        if words <= Machine::TRAP_OLD || !rng.once_in(24) {
            continue;
        }
        let mut word = some_word(rng);
        let patches = &mut runs[i].store_patches;
        if !patches.is_empty() && !rng.once_in(3) {
            word = rng.pick(patches).1;
        }
        patches.push((TRAP_TARGET, word));
        if let Some(next) = runs.get_mut(i + 1).filter(|_| !rng.once_in(8)) {
            next.store_patches.push((TRAP_TARGET, 0));
        }
    }
}

/// A word of requests of any kind: no line, one, some, all, with bits 0 to 7 or
/// without.
pub fn any_requests(rng: &mut Rng) -> u16 {
    let some = rng.word();
    let lines = match rng.below(8) {
        0 => 0,
        1..=3 => bit(any_line(rng)),
        4 => LINES,
        5 => some,
        _ => some & rng.word(),
    };
    let others = rng.word();
    lines & LINES | rng.pick(&[0, others, 255]) & !LINES
}

/// The processes that a program's transfers know.
fn known_processes(runs: &[CaseRun]) -> Vec<u16> {
    let names = PROCESS_NAMES..PROCESS_NAMES + PROCESS_NAME_COUNT;
    let patches = runs[0].store_patches.iter();
    let named = patches.filter(|(address, _)| names.contains(address));
    named.map(|&(_, q)| q).collect()
}

/// Makes one of the processes that a program's transfers know the trap process.
pub fn give_trap_process(rng: &mut Rng, runs: &mut [CaseRun]) {
    let process = rng.pick(&known_processes(runs));
    runs[0].store_patches.push((TRAP_TARGET, process));
}

/// Gives a program's runs lines that go to the processes which its transfers know,
/// and requests. Some runs go on with what is left of them.
pub fn give_lines(rng: &mut Rng, runs: &mut [CaseRun]) {
    let processes = known_processes(runs);
    let patches = &mut runs[0].store_patches;
    for line in FIRST..=LAST {
        patches.push((target_word(line), rng.pick(&processes)));
    }
    for run in runs {
        if !rng.once_in(3) {
            run.requests = Some(any_requests(rng));
        }
    }
}
