//! Cases of A.8: each trap of each opcode, words that collide where one is caught, and
//! traps that are not.

use super::lines::{
    add_places, any_line, collide, line_run, line_world, literal, machine, over, place,
    place_of_size, step, Process, ROOM,
};
use super::rng::Rng;
use super::saved::add_nested;
use super::state::{Place, World};
use super::{add_procedure, case_of, literals, Scale};
use crate::assemble::Source;
use crate::case::{Case, CaseRun};
use crate::coverage::traps_of_opcodes;
use crate::image::{Procedure, ONLY_PROCEDURE};
use crate::machine::Machine;
use crate::mark::{MOST, MOST_SAVED};
use crate::number::*;
use crate::opcode::*;
use crate::request::*;

/// "as for a line, with words 14 and 15": those of a line 7.
pub const LINE: u8 = 7;

/// Traps of opcodes in turn, each as the only step, with a process in another module;
/// and the same without one, which stop.
pub fn opcodes_case(rng: &mut Rng, scale: &Scale, round: usize) -> Case {
    let count = scale.state_runs;
    let turns: Vec<Turn> = (round * count..).take(count).map(Turn::new).collect();
    let trapping = rng.below(2) as u8;
    let world = trap_world(rng, &turns, trapping);
    let mut case = case_of(rng, world.image.clone(), world.words);
    for turn in turns {
        let right = |place: &Place| place.opcode == turn.opcode && place.module == trapping;
        let at = place(rng, &world, right);
        let mut setting = Setting {
            machine: machine(rng, &world, at),
            rng,
            world: &world,
            at,
            patches: Vec::new(),
        };
        setting.set_trap(turn);
        let (machine, patches) = (setting.machine, setting.patches);
        let to = world.place_to_resume(rng);
        let process = Process::new(rng, &world, 0, LINE, to);
        let with = [process.patches(rng, &world), patches.clone()].concat();
        case.runs.push(trap_run(rng, machine, with));
        let without = [&patches[..], &[(target_word(LINE), 0)]].concat();
        case.runs.push(trap_run(rng, machine, without));
    }
    case
}

/// A trap of an opcode. A pair that traps with 32 is cut by the store's end, or outside.
#[derive(Clone, Copy)]
struct Turn {
    opcode: u8,
    trap: u8,
    cut: bool,
}

/// A run of one step from a machine that traps, without lines.
pub fn trap_run(rng: &mut Rng, machine: Machine, patches: Vec<(u16, u16)>) -> CaseRun {
    let (requests, held) = (rng.word() & !LINES, rng.word());
    step(rng, machine, requests, held, patches)
}

/// A module with these opcodes, and one with places to go on at. The store is so short
/// that a base and 255 more is outside.
fn trap_world(rng: &mut Rng, traps: &[Turn], trapping: u8) -> World {
    let mut one = Source {
        procedures: vec![ONLY_PROCEDURE; 16],
        ..Source::plain(&[RTN])
    };
    for turn in traps {
        add_code(rng, &mut one, turn, trapping);
    }
    let mut other = Source::plain(&[RTN]);
    add_places(rng, &mut other);
    let mut modules = match trapping {
        0 => [one, other],
        _ => [other, one],
    };
    let count = rng.within(1, MOST_SAVED);
    add_nested(rng, &mut modules, count);
    let mut world = World::least(&modules);
    world.words = WORDS;
    world
}

/// Behind two modules without data.
const WORDS: usize = 128 + 2 * 3 + Machine::LEAST_BEYOND_Z + ROOM;

/// One more procedure, with this opcode and what it takes, in the module of this number.
fn add_code(rng: &mut Rng, module: &mut Source, turn: &Turn, number: u8) {
    let opcode = turn.opcode;
    let entry = module.code.len() as u16;
    let row = row(opcode);
    let room = MOST - row.taken.max(row.left);
    let below = rng.below(usize::from(room) + 1);
    let depth = match opcode {
        // A call's depth is what the callee takes.
        RTN | CX | CL..=CL15 => 0,
        CI => 1,
        LODFW => below,
        _ => below + usize::from(row.taken),
    };
    module.code.extend(literals(rng, depth));
    if opcode == LODFW {
        module.code.extend([STORE, rng.below(16) as u8]);
    }
    module.code.push(opcode);
    module.code.extend(operands(rng, turn, number));
    if !matches!(opcode, RTN | TRAP) {
        module.code.extend([JPB, 1]);
    }
    let procedure = Procedure {
        entry,
        ..ONLY_PROCEDURE
    };
    add_procedure(module, procedure);
}

/// Operand bytes with which the opcode can trap in this module.
fn operands(rng: &mut Rng, turn: &Turn, number: u8) -> Vec<u8> {
    let opcode = turn.opcode;
    let other = rng.below(2) as u8;
    match opcode {
        LEW | SEW => vec![other, 255],
        LED | SED => vec![other, turn.pair_offset(other)],
        0o100 | 0o120 => vec![255],
        LGD | SGD => vec![turn.pair_offset(number)],
        CX => vec![other, 0],
        CI | CL => vec![rng.below(16) as u8],
        0o350 | 0o353 => vec![rng.within(1, 255) as u8],
        _ => (1..row(opcode).length).map(|_| rng.byte()).collect(),
    }
}

impl Turn {
    /// One after another, again and again.
    fn new(index: usize) -> Turn {
        let traps: Vec<(u8, u8)> = traps_of_opcodes().collect();
        let (opcode, trap) = traps[index % traps.len()];
        let cut = (index / traps.len()).is_multiple_of(2);
        Turn { opcode, trap, cut }
    }

    /// The offset from a module's base to the pair.
    fn pair_offset(&self, module: u8) -> u8 {
        let last = WORDS - 1 - (128 + 3 * usize::from(module));
        if self.cut {
            last as u8
        } else {
            255
        }
    }
}

/// A machine at an opcode, and store words.
struct Setting<'a> {
    rng: &'a mut Rng,
    world: &'a World,
    at: Place,
    machine: Machine,
    patches: Vec<(u16, u16)>,
}

impl Setting<'_> {
    /// Sets the word so many places from the top.
    fn set(&mut self, from_top: usize, word: u16) {
        self.machine.stack[usize::from(self.machine.depth) - from_top] = word;
    }

    /// An address outside the store, less the operand byte or the offset in the opcode.
    fn outside(&mut self, turn: Turn) -> u16 {
        let opcode = turn.opcode;
        let offset = match opcode {
            0o044..=0o057 | 0o064..=0o077 | 0o140..=0o177 => opcode & 15,
            0o350 | TRA => 0,
            _ if row(opcode).length == 2 => self.world.code(self.at)[1],
            _ => 0,
        };
        let address = match turn.cut && PAIRS.contains(&opcode) {
            true => self.world.words - 1,
            false => self.world.words + self.rng.below(3),
        };
        (address - usize::from(offset)) as u16
    }

    /// Makes the instruction trap.
    fn set_trap(&mut self, turn: Turn) {
        let opcode = turn.opcode;
        match turn.trap {
            ADDRESS => self.set_address(turn),
            STACK_LIMIT => self.set_limit(opcode),
            RETURN_MARK if opcode == RTN => self.machine.l = self.machine.h + 1,
            RETURN_MARK => {
                // Another count than the front.
                let front = self.at.mark.saved.front().unwrap_or_default();
                let count = u16::from(front) + self.rng.within(1, 3) as u16;
                self.patches.push((self.machine.s - 1, count));
            }
            PROCESS => {
                let to = self.machine.l;
                let words = self.world.words as u16;
                self.set(1, to);
                self.set(2, to + 1);
                let q = self.rng.pick(&[words - 7, words, 65_535]);
                self.patches.push((to, q));
            }
            DIVISOR => self.set(1, 0),
            RESULT_RANGE => self.set_result(opcode),
            CHECK => self.set_check(opcode),
            CHANNEL => {
                let channel = self.rng.pick(&[16, 17, 255, 65_535]);
                self.set(if opcode == 0o240 { 1 } else { 2 }, channel);
            }
            // 40, with any code.
            _ => {}
        }
    }

    fn set_address(&mut self, turn: Turn) {
        let opcode = turn.opcode;
        let mut outside = self.outside(turn);
        match opcode {
            0o040 | LLD | 0o044..=0o057 | 0o060 | SLD | 0o064..=0o077 | 0o350 | 0o351 => {
                self.machine.l = outside
            }
            0o140..=0o157 | 0o200 | LSD | LSD0 => self.set(1, outside),
            0o160..=0o177 | 0o220 => self.set(2, outside),
            SSD | SSD0 => self.set(3, outside),
            0o205 | 0o206 | 0o225 | 0o226 => {
                let index = self.rng.below(100) as u16;
                outside -= if opcode & 1 == 1 { index / 2 } else { index };
                let taken = usize::from(row(opcode).taken);
                self.set(taken, outside);
                self.set(taken - 1, index);
            }
            0o240 => {
                let channel = self.rng.below(16) as u16;
                self.set(1, channel);
                self.set(2, outside);
            }
            TRA => {
                let inside = self.machine.l;
                let addresses = [(outside, inside), (inside, outside), (outside, outside)];
                let (to, from) = self.rng.pick(&addresses);
                self.set(1, to);
                self.set(2, from);
            }
            // A base and 255.
            _ => {}
        }
    }

    fn set_limit(&mut self, opcode: u8) {
        let more = match opcode {
            0o353 => u16::from(self.world.code(self.at)[1]),
            STORE => u16::from(self.machine.depth) + 1,
            _ => 4,
        };
        // Just above H, where S is below it.
        let above = self.rng.within(1, 3).min(more.into()) as u16;
        self.machine.s = self.machine.h + above - more;
    }

    fn set_result(&mut self, opcode: u8) {
        let (c, a) = match opcode {
            UADD => (65_535, 1),
            USUB => (0, 1),
            UMUL => (256, 256),
            0o330 => (0x7FFF, 1),
            0o331 => (0x8000, 1),
            0o332 => (300, 110),
            0o333 => (0x8000, 0xFFFF),
            // 316 and 317 take one.
            _ => return self.set(1, 0x8000),
        };
        self.set(1, a);
        self.set(2, c);
    }

    fn set_check(&mut self, opcode: u8) {
        if opcode == 0o306 {
            self.set(1, 5);
            return self.set(2, 6);
        }
        self.set(1, 7);
        self.set(2, 6);
        let e = self.rng.pick(&[5, 8]);
        self.set(3, e);
    }
}

/// A machine that traps with no word on the stack, with some, or with the most: 34 of a
/// RTN with L above H, or 40.
pub fn trapping(rng: &mut Rng, world: &World, size: usize) -> Machine {
    let opcode = if size == 0 { RTN } else { TRAP };
    let at = place(rng, world, |place| {
        let depth = place.mark.depth;
        let right = match size {
            0 => depth == 0,
            1 => depth > 0 && depth < MOST,
            _ => depth == MOST,
        };
        place.opcode == opcode && right
    });
    let mut machine = machine(rng, world, at);
    if opcode == RTN {
        machine.l = machine.h + rng.within(1, 9) as u16;
    }
    machine
}

/// The same of any size, with a process apart from everything else.
pub fn trapping_with_process(rng: &mut Rng, world: &World) -> (Machine, Process) {
    let size = rng.below(3);
    let machine = trapping(rng, world, size);
    let to = world.place_to_resume(rng);
    (machine, Process::new(rng, world, 0, LINE, to))
}

/// What lies over what, in turn; with no word, some and 16 words saved, and 16, some
/// and no word restored. Then the number of the trap, in turn.
pub fn collisions_case(rng: &mut Rng, scale: &Scale, round: usize) -> Case {
    let world = line_world(rng, scale);
    let mut case = case_of(rng, world.image.clone(), world.words);
    for size in 0..3 {
        let mut machine = trapping(rng, &world, size);
        let to = place_of_size(rng, &world, 2 - size);
        let mut process = Process::new(rng, &world, 0, LINE, to);
        collide(rng, round % 10, &mut machine, &mut process);
        let patches = process.patches(rng, &world);
        case.runs.push(trap_run(rng, machine, patches));
    }
    for kind in 0..3 {
        let (machine, process) = with_number(rng, &world, (3 * round + kind) % 8);
        let patches = process.patches(rng, &world);
        case.runs.push(trap_run(rng, machine, patches));
    }
    case
}

/// A machine that traps, and a process, so that the number in word P + 6 is written over
/// or lies over what was read; or that word 14 is saved over.
fn with_number(rng: &mut Rng, world: &World, kind: usize) -> (Machine, Process) {
    let size = rng.within(1, 2);
    let mut machine = trapping(rng, world, size);
    let to = place_of_size(rng, world, 3 - size);
    let process = Process::new(rng, world, 0, LINE, to);
    let depth = u16::from(machine.depth);
    let restored = u16::from(to.mark.depth);
    let number = machine.p + 6;
    match kind {
        // A saved word and the count.
        0 => machine.s = number - rng.below(depth.into()) as u16,
        1 => machine.s = number - depth,
        // Words 15 and 14.
        2 => machine.p = 9,
        3 => machine.p = 8,
        // The target's record, its words and their count.
        4 => machine.p = process.q + rng.below(6) as u16 - 6,
        5 => machine.p = process.lowest + rng.below(restored.into()) as u16 - 6,
        6 => machine.p = process.lowest + restored - 6,
        _ => machine.s = over(rng, &(14..15), machine.depth.into()),
    }
    (machine, process)
}

/// What word 14 is where a trap is not caught, in turn, at an instruction and at a line
/// that fails. And a line that fails and is caught.
pub fn fates_case(rng: &mut Rng, scale: &Scale, round: usize) -> Case {
    let world = line_world(rng, scale);
    let mut case = case_of(rng, world.image.clone(), world.words);
    for i in 0..3 {
        for by_line in [false, true] {
            let (machine, process) = trapping_with_process(rng, &world);
            let flaw = (3 * round + i) % FLAWS;
            let patches = flawed(rng, &world, &machine, process, flaw);
            case.runs.push(if by_line {
                let line = any_line(rng);
                failing_run(rng, &world, machine, line, patches)
            } else {
                trap_run(rng, machine, patches)
            });
        }
    }
    let line = FIRST + (round % 8) as u8;
    for m in [0, 65_535] {
        let (_, process) = trapping_with_process(rng, &world);
        let patches = Process { m, ..process }.patches(rng, &world);
        let at = world.any_place(rng);
        let machine = machine(rng, &world, at);
        let mut run = failing_run(rng, &world, machine, line, patches);
        // It fails again where it is open.
        run.budget += rng.below(2) as u32;
        case.runs.push(run);
    }
    case.runs.push(taken_then(rng, &world, line));
    case
}

/// A run of one step from a machine, where this line fails.
fn failing_run(
    rng: &mut Rng,
    world: &World,
    machine: Machine,
    line: u8,
    mut patches: Vec<(u16, u16)>,
) -> CaseRun {
    let words = world.words as u16;
    let q = rng.pick(&[words - 7, words, 65_535]);
    patches.push((target_word(line), q));
    line_run(rng, machine, line, patches)
}

/// A line that fails, and is taken behind the trap: L, saved over the word that names
/// its target, is a good process.
fn taken_then(rng: &mut Rng, world: &World, line: u8) -> CaseRun {
    let (_, process) = trapping_with_process(rng, world);
    let to = literal(rng, world);
    let other = Process::new(rng, world, 1, line, to);
    let mut patches = Process { m: 0, ..process }.patches(rng, world);
    patches.extend(other.patches(rng, world));
    let mut machine = machine(rng, world, to);
    (machine.p, machine.l) = (target_word(line) - 1, other.q);
    let mut run = failing_run(rng, world, machine, line, patches);
    run.budget = rng.within(2, 3) as u32;
    // Word 3 lets it go.
    run.store_patches.push((HELD as u16, 0));
    run
}

/// How many kinds of word 14 catch no trap.
const FLAWS: usize = 14;

/// The words of a process with a flaw: word 14 is 0 or P, or one of the rules of a
/// transfer is broken.
fn flawed(
    rng: &mut Rng,
    world: &World,
    machine: &Machine,
    mut process: Process,
    flaw: usize,
) -> Vec<(u16, u16)> {
    match flaw {
        // A good process at word 0, or P.
        0 => process.q = 0,
        1 => process.q = machine.p,
        _ => {}
    }
    let mut patches = process.patches(rng, world);
    let words = world.words as u16;
    let vector = patches.len() - 1;
    let depth = process.place.mark.depth;
    match flaw {
        2 => patches[vector].1 = rng.pick(&[words - 7, words, 65_528, 65_535]),
        3 => patches[5].1 = rng.pick(&[0, 1, 23]),
        4 => patches[5].1 = rng.pick(&[words + 1, 65_535]),
        5 => patches[4].1 = 0,
        6 => patches[4].1 = rng.pick(&[words + 1, 65_535]),
        7 => patches[vector - 1].1 = rng.pick(&[17, 255, 65_535]),
        8 => {
            // Word 1 is the count.
            patches[4].1 = 2;
            patches.push((1, rng.within(2, 16) as u16));
        }
        9 => patches[5].1 = process.lowest + Machine::MARGIN - 1,
        10 => patches[0].1 = patches[0].1.wrapping_add(rng.pick(&[1, 2, 65_535])),
        11 => patches[2].1 = rng.pick(&[0x7FFF, 0x8000 | process.place.position]),
        12 => {
            let module = process.place.module;
            let other = |place: &Place| place.module == module && place.mark.depth != depth;
            let other = world.place_where(rng, other);
            patches[2].1 = other.map_or(0x7FFF, |place| place.position);
        }
        13 => patches[vector].1 = 0,
        _ => {}
    }
    patches
}
