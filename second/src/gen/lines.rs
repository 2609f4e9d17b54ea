//! Cases of A.7: a line and the process that it goes to.

use super::code::{program, some_word, Shape};
use super::rng::Rng;
use super::saved::add_nested;
use super::state::{Place, World};
use super::{add_procedure, any_shape, case_of, literals, plain_run, Scale};
use crate::assemble::Source;
use crate::case::{Case, CaseRun};
use crate::collisions::record;
use crate::image::{Procedure, ONLY_PROCEDURE};
use crate::machine::Machine;
use crate::mark::{Saved, MOST, MOST_SAVED};
use crate::opcode::{JPB, NOP, READ, RTN, SSW0, TRA, TRAP};
use crate::request::*;
use std::ops::Range;

/// The words behind Z that the cases use, one part after another, and their number.
const OWN_RECORD: usize = 0;
const SAVED_STACK: usize = 30;
pub const FRAME: usize = 55;
/// The record of a process, and its stack behind it; of as many as there are.
const PROCESSES: usize = 65;
const STACK: usize = 15;
const PROCESS: usize = 48;
pub const ROOM: usize = PROCESSES + 3 * PROCESS;

/// A random line.
pub fn any_line(rng: &mut Rng) -> u8 {
    rng.within(FIRST.into(), LAST.into()) as u8
}

/// Two lines, the higher one first.
pub fn two_lines(rng: &mut Rng) -> (u8, u8) {
    let high = rng.within(usize::from(FIRST) + 1, LAST.into()) as u8;
    (high, rng.within(FIRST.into(), usize::from(high) - 1) as u8)
}

/// A program of two modules or more, with places of every depth, some where depths
/// are saved, and those of [`add_places`]; and a store with room.
pub fn line_world(rng: &mut Rng, scale: &Scale) -> World {
    let shape = any_shape(rng, scale);
    let shape = Shape {
        modules: shape.modules.max(2),
        ..shape
    };
    let mut modules = program(rng, &shape);
    let count = rng.within(2, MOST_SAVED);
    add_nested(rng, &mut modules, count);
    let at = rng.below(modules.len());
    add_places(rng, &mut modules[at]);
    let mut world = World::least(&modules);
    world.words += ROOM + rng.below(100);
    world
}

/// More procedures: 16 literals and a TRAP; a jump back; a RTN; one that clears
/// word 3 again and again; a transfer; and a READ.
pub fn add_places(rng: &mut Rng, module: &mut Source) {
    let steps = [literals(rng, MOST.into()), vec![TRAP]].concat();
    let codes: [&[u8]; 6] = [
        &steps,
        &[NOP, JPB, 2],
        &[RTN],
        &[3, 0, SSW0, JPB, 4],
        &[0, 0, TRA, 1, JPB, 5],
        &[3, 0, READ, JPB, 4],
    ];
    for code in codes {
        let entry = module.code.len() as u16;
        module.code.extend(code);
        let procedure = Procedure {
            entry,
            ..ONLY_PROCEDURE
        };
        add_procedure(module, procedure);
    }
}

/// A place that satisfies a condition; one does.
pub fn place(rng: &mut Rng, world: &World, condition: impl Fn(&Place) -> bool) -> Place {
    let place = world.place_where(rng, condition);
    place.expect("the program has one")
}

/// A literal, which never stops.
pub fn literal(rng: &mut Rng, world: &World) -> Place {
    place(rng, world, |place| place.opcode < 16)
}

/// A place with no word on the stack, with some, or with the most.
pub fn place_of_size(rng: &mut Rng, world: &World, size: usize) -> Place {
    place(rng, world, |place| match place.mark.depth {
        0 => size == 0,
        MOST => size == 2,
        _ => size == 1,
    })
}

/// A machine at a place, with the registers that leave room.
pub fn machine(rng: &mut Rng, world: &World, place: Place) -> Machine {
    let z = world.z();
    let p = z + OWN_RECORD + rng.below(8);
    let s = z + SAVED_STACK + rng.below(8);
    let h = world.words - usize::from(Machine::MARGIN) - rng.below(30);
    Machine {
        p: p as u16,
        l: (z + FRAME) as u16,
        s: s as u16,
        h: h as u16,
        ..world.machine_at(rng, place)
    }
}

/// A process that a line goes to: where it goes on, its record, the lowest word of
/// its stack, and its M.
#[derive(Clone, Copy)]
pub struct Process {
    pub line: u8,
    pub place: Place,
    pub q: u16,
    pub lowest: u16,
    pub m: u16,
}

impl Process {
    /// The first, the second or the third one, apart from everything else.
    pub fn new(rng: &mut Rng, world: &World, number: usize, line: u8, place: Place) -> Process {
        let q = world.z() + PROCESSES + number * PROCESS + rng.below(8);
        let lowest = q + STACK + rng.below(STACK / 3);
        Process {
            line,
            place,
            q: q as u16,
            lowest: lowest as u16,
            m: rng.word(),
        }
    }

    pub fn stack(&self) -> Range<usize> {
        let lowest = usize::from(self.lowest);
        lowest..lowest + usize::from(self.place.mark.depth) + 1
    }

    /// The store words that make it: its record of six words, its stack, its count,
    /// and the word that names it, which stays where it lies over another.
    pub fn patches(&self, rng: &mut Rng, world: &World) -> Vec<(u16, u16)> {
        let count = self.lowest + u16::from(self.place.mark.depth);
        let least = usize::from(self.lowest + Machine::MARGIN);
        let any = rng.within(least, world.words);
        let v = rng.pick(&[least, any, world.words]);
        let base = world.base(self.place.module);
        let (l, position) = (some_word(rng), self.place.position);
        let record = [base, l, position, self.m, count + 1, v as u16];
        let mut patches: Vec<(u16, u16)> = (self.q..).zip(record).collect();
        patches.extend((self.lowest..count).map(|address| (address, some_word(rng))));
        patches.push((count, count - self.lowest));
        patches.push((target_word(self.line), self.q));
        patches
    }
}

/// Spoils the words of a process, so that a line to it fails.
pub fn spoil(rng: &mut Rng, world: &World, patches: &mut [(u16, u16)]) {
    let words = world.words as u16;
    let last = patches.len() - 1;
    match rng.below(5) {
        0 => patches[0].1 += 1,
        1 => patches[4].1 = rng.pick(&[0, words + 1, 65_535]),
        2 => patches[5].1 = rng.pick(&[0, 23, words + 1, 65_535]),
        3 => patches[last - 1].1 = rng.pick(&[17, 255, 65_535]),
        _ => patches[last].1 = rng.pick(&[words - 7, words, 65_535]),
    }
}

/// A run of one step from a machine, with these requests, word 3 and other words of
/// the store.
pub fn step(
    rng: &mut Rng,
    machine: Machine,
    requests: u16,
    held: u16,
    mut patches: Vec<(u16, u16)>,
) -> CaseRun {
    // Word 3 stays where it lies over another.
    patches.push((HELD as u16, held));
    CaseRun {
        requests: Some(requests),
        machine: Some(machine),
        store_patches: patches,
        ..plain_run(rng, 1)
    }
}

/// A run with this line alone open. Others wait, and bits 0 to 7 are anything.
pub fn line_run(
    rng: &mut Rng,
    mut machine: Machine,
    line: u8,
    patches: Vec<(u16, u16)>,
) -> CaseRun {
    machine.m &= !bit(line);
    let held = rng.word() & !bit(line);
    let waiting = rng.word() & rng.word() & (machine.m | held | !LINES);
    step(rng, machine, waiting | bit(line), held, patches)
}

/// Each line in turn: it is taken, has the target P, fails, is masked, and is held.
/// And each of bits 0 to 7 in turn: with a line, and without.
pub fn fates_case(rng: &mut Rng, scale: &Scale, round: usize) -> Case {
    let world = line_world(rng, scale);
    let line = FIRST + (round % 8) as u8;
    let low = 1 << (round % 8);
    let mut case = case_of(rng, world.image.clone(), world.words);
    case.runs = taken_runs(rng, &world, line);
    case.runs[0].requests = case.runs[0].requests.map(|requests| requests | low);
    for (masked, held) in [(bit(line), 0), (0, bit(line)), (0, 0)] {
        let at = literal(rng, &world);
        let mut machine = machine(rng, &world, at);
        let bits = bit(line) | low;
        machine.m = machine.m & !bits | masked;
        let held = rng.word() & !bits | held;
        let requests = match bits & (machine.m | held) {
            0 => rng.word() & !LINES | low,
            _ => rng.word() & (machine.m | held) | bit(line),
        };
        case.runs.push(step(rng, machine, requests, held, vec![]));
    }
    case
}

/// A line that is taken, one with the target P, and one that fails.
fn taken_runs(rng: &mut Rng, world: &World, line: u8) -> Vec<CaseRun> {
    let mut runs = Vec::new();
    for fate in 0..3 {
        let [at, to] = [0; 2].map(|_| world.place_to_resume(rng));
        let machine = machine(rng, world, at);
        let process = Process::new(rng, world, 0, line, to);
        let mut patches = process.patches(rng, world);
        match fate {
            1 => patches = vec![(target_word(line), machine.p)],
            2 => spoil(rng, world, &mut patches),
            _ => {}
        }
        runs.push(line_run(rng, machine, line, patches));
    }
    runs
}

/// What lies over what, in turn; with no word, some and 16 words saved, and 16, some
/// and no word restored.
pub fn collisions_case(rng: &mut Rng, scale: &Scale, round: usize) -> Case {
    let world = line_world(rng, scale);
    let mut case = case_of(rng, world.image.clone(), world.words);
    for size in 0..3 {
        let at = place_of_size(rng, &world, size);
        let to = place_of_size(rng, &world, 2 - size);
        let mut machine = machine(rng, &world, at);
        let line = any_line(rng);
        let mut process = Process::new(rng, &world, 0, line, to);
        collide(rng, round % 10, &mut machine, &mut process);
        let patches = process.patches(rng, &world);
        case.runs.push(line_run(rng, machine, line, patches));
    }
    case
}

/// Moves a machine's registers or a process so that two of their parts collide.
pub fn collide(rng: &mut Rng, collision: usize, machine: &mut Machine, process: &mut Process) {
    let saved = usize::from(machine.depth) + 1;
    let old = usize::from(old_word(process.line));
    let old = old..old + 1;
    let target = record(process.q);
    match collision {
        0 => machine.s = over(rng, &target, saved),
        1 => machine.s = over(rng, &process.stack(), saved),
        2 => machine.s = over(rng, &record(machine.p), saved),
        // Beside the record that it would be.
        3 => machine.p = process.q + rng.within(1, 5) as u16,
        4 => machine.p = over(rng, &process.stack(), 6),
        // Word 2i becomes L or M, or is outside.
        5 => process.q = old_word(process.line) - rng.pick(&[0, 2, 4]),
        // Word 2i may be a word of the stack; it is never the count.
        6 => process.lowest = over(rng, &old, process.stack().len()),
        7 => machine.p = over(rng, &old, 6),
        8 => machine.s = over(rng, &old, saved),
        _ => {}
    }
}

/// The first of so many words that lie over a range.
pub fn over(rng: &mut Rng, range: &Range<usize>, length: usize) -> u16 {
    rng.within(range.start.saturating_sub(length - 1), range.end - 1) as u16
}

/// A line before an end, a trap and a jump back; where depths are saved, where the
/// target has some, and both; to another module; and to a record at word 0.
pub fn places_case(rng: &mut Rng, scale: &Scale) -> Case {
    let world = line_world(rng, scale);
    let mut case = case_of(rng, world.image.clone(), world.words);
    let any = |_: &Place| true;
    for opcode in [RTN, TRAP, JPB] {
        let at = place(rng, &world, |place| place.opcode == opcode);
        let mut run = run_between(rng, &world, at, any);
        let end = (world.z() + FRAME + 2) as u16;
        run.store_patches.push((end, Machine::END_MARK));
        case.runs.push(run);
    }
    let none = |place: &Place| place.mark.saved == Saved::NONE;
    let some = |place: &Place| place.mark.saved != Saved::NONE;
    let [without, with] = [place(rng, &world, none), place(rng, &world, some)];
    case.runs.push(run_between(rng, &world, with, none));
    case.runs.push(run_between(rng, &world, without, some));
    let others = |place: &Place| some(place) && place.mark.saved != with.mark.saved;
    case.runs.push(run_between(rng, &world, with, others));
    let elsewhere = |place: &Place| place.module != with.module;
    case.runs.push(run_between(rng, &world, with, elsewhere));
    let at = world.any_place(rng);
    case.runs.push(run_to_0(rng, &world, at));
    case
}

/// A run of a line at a place, to one that satisfies a condition.
fn run_between(
    rng: &mut Rng,
    world: &World,
    at: Place,
    condition: impl Fn(&Place) -> bool,
) -> CaseRun {
    let machine = machine(rng, world, at);
    let line = any_line(rng);
    let to = place(rng, world, condition);
    let process = Process::new(rng, world, 0, line, to);
    let patches = process.patches(rng, world);
    line_run(rng, machine, line, patches)
}

/// The same to the record at word 0: word 3 is its M.
fn run_to_0(rng: &mut Rng, world: &World, at: Place) -> CaseRun {
    let machine = machine(rng, world, at);
    let line = any_line(rng);
    let to = world.place_to_resume(rng);
    let process = Process::new(rng, world, 0, line, to);
    let patches = Process { q: 0, ..process }.patches(rng, world);
    line_run(rng, machine, line, patches)
}
