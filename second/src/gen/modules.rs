//! Cases of A.10: images with the most modules, and images with more.

use super::lines::{any_line, line_run, machine, place, Process, ROOM};
use super::rng::Rng;
use super::state::{Place, World};
use super::traps::{trap_run, LINE};
use super::{add_procedure, case_of, literals, plain_run};
use crate::api;
use crate::assemble::{encode, Source};
use crate::case::{Case, CaseRun};
use crate::depths::assign;
use crate::image::{parse_modules, Procedure, MOST_MODULES, ONLY_PROCEDURE};
use crate::machine::{set_up, Machine};
use crate::mark::UNMARKED;
use crate::modules::{ALONE, BEFORE, BEHIND, COUNTS, LAST, NEXT, TOO_MANY};
use crate::number::*;
use crate::opcode::*;
use crate::request::*;

/// How many cases there are in turn.
const TURNS: usize = 29;

/// The cases that come in turn.
pub fn turn_case(rng: &mut Rng, round: usize) -> Case {
    match round % TURNS {
        0 => most_case(rng),
        1 => only_count_case(rng),
        turn @ 2..=5 => image_case(rng, vec![ALONE[turn - 2].1 as u8]),
        turn @ 6..=9 => count_case(rng, turn - 6),
        turn @ 10..=16 => too_many_case(rng, BEFORE[turn - 10]),
        turn @ 17..=22 => behind_case(rng, BEHIND[turn - 17]),
        turn => next_case(rng, NAMING[turn - 23]),
    }
}

/// The words of a store that holds the modules.
const WORDS: usize = 500;

/// An image, and a run, which reads it afresh.
pub fn image_case(rng: &mut Rng, image: Vec<u8>) -> Case {
    let mut case = case_of(rng, image, WORDS);
    case.runs = vec![plain_run(rng, 10)];
    case
}

/// So many modules of one byte of code or two, some of them with data.
pub fn plain_modules(rng: &mut Rng, count: usize) -> Vec<Source> {
    const CODES: [&[u8]; 3] = [&[RTN], &[RTN], &[NOP, RTN]];
    let module = |_| Source {
        data_size: rng.pick(&[0, 0, 0, 1, 9]),
        ..Source::plain(rng.pick(&CODES))
    };
    (0..count).map(module).collect()
}

/// A count that is refused, before modules that are sound.
fn count_case(rng: &mut Rng, kind: usize) -> Case {
    let modules = rng.pick(&[1, MOST_MODULES, TOO_MANY]);
    let mut image = encode(&plain_modules(rng, modules));
    let (first, last) = (*COUNTS[kind].start(), *COUNTS[kind].end());
    image[0] = rng.within(first, last) as u8;
    image_case(rng, image)
}

/// One module too many, and nothing else at fault, with the map and the machine that run
/// would accept.
fn only_count_case(rng: &mut Rng) -> Case {
    let image = encode(&plain_modules(rng, TOO_MANY));
    let program = parse_modules(&image, TOO_MANY).expect("they are sound");
    let mut map = vec![UNMARKED; image.len()];
    assert!(assign(&program, &image, &mut map), "depths fit");
    let marks = (0..).zip(map).filter(|&(_, entry)| entry != UNMARKED);
    let mut run = plain_run(rng, 10);
    run.map_patches = marks.collect();
    run.machine = Some(set_up(&program, &mut [0; WORDS]));
    let mut case = image_case(rng, image);
    case.map_fill = UNMARKED;
    case.runs.push(run);
    case
}

/// One module too many, where load would answer this number if that were accepted.
fn too_many_case(rng: &mut Rng, number: u8) -> Case {
    let at = rng.below(MOST_MODULES);
    let image = spoiled(rng, TOO_MANY, at, number);
    let mut case = image_case(rng, image);
    if number == MAP_SHORT {
        case.map_length = rng.below(case.image.len());
    }
    case
}

/// The most modules, of which the last is at fault, or what is behind it.
fn behind_case(rng: &mut Rng, number: u8) -> Case {
    let image = spoiled(rng, MOST_MODULES, LAST, number);
    image_case(rng, image)
}

/// An image of so many modules that is at fault in this one, or behind the last.
fn spoiled(rng: &mut Rng, count: usize, at: usize, number: u8) -> Vec<u8> {
    let modules = plain_modules(rng, count);
    spoil(rng, modules, at, number)
}

/// The same of these modules, which have entry 0 alone.
pub fn spoil(rng: &mut Rng, mut modules: Vec<Source>, at: usize, number: u8) -> Vec<u8> {
    match number {
        FIELD_RANGE => spoil_field(rng, &mut modules[at]),
        NO_DEPTHS => modules[at].code = vec![TRAP],
        NOT_WHOLE => modules[at].code = vec![NOP],
        _ => {}
    }
    let mut image = encode(&modules);
    let [begin, end] = [at, at + 1].map(|count| encode(&modules[..count]).len());
    match number {
        // The count is not alone.
        IMAGE_ENDS => image.truncate(rng.within(begin.max(2), end - 1)),
        // A module, or less of it.
        BYTES_AFTER => image.extend(&[0, 0, 1, RTN][..rng.within(1, 4)]),
        BIT_MAP => image[begin] |= 1 << rng.within(3, 7),
        _ => {}
    }
    image
}

/// Lets a field of a module be out of range.
fn spoil_field(rng: &mut Rng, module: &mut Source) {
    let mut procedure = ONLY_PROCEDURE;
    match rng.below(4) {
        0 => return module.code.clear(),
        1 => procedure.entry = module.code.len() as u16,
        2 => procedure.parameters = 17,
        _ => procedure.results = 5,
    }
    module.procedures = vec![procedure];
}

/// The most modules. An instruction of one of them names the next one.
fn next_case(rng: &mut Rng, opcode: u8) -> Case {
    let mut modules = plain_modules(rng, MOST_MODULES);
    let before = rng.below(3);
    let naming = [opcode, NEXT as u8, rng.byte(), RTN];
    modules[rng.below(MOST_MODULES)].code = [&literals(rng, before), &naming[..]].concat();
    image_case(rng, encode(&modules))
}

/// The most modules, all of them sound. The main program names the last one, calls it and
/// comes back, step by step and in one run; other steps lead there and back; and there is
/// none behind it.
fn most_case(rng: &mut Rng) -> Case {
    let world = most_world(rng);
    let mut case = case_of(rng, world.image.clone(), world.words);
    for _ in 0..STEPS {
        case.runs.push(plain_run(rng, 1));
    }
    // The copies of the bases are only data.
    let copy = (Machine::BASE_COPY + LAST) as u16;
    case.runs[0].store_patches = vec![(copy, rng.word()), (copy + 1, world.z() as u16)];
    let (_, machine) = api::start(&world.image, &mut vec![0; world.words]);
    case.runs.push(CaseRun {
        machine: Some(machine),
        ..plain_run(rng, STEPS)
    });
    for (from, to) in [(0, LAST), (LAST, 0)] {
        case.runs.extend(changes(rng, &world, from, to));
    }
    case.runs.extend(beyond(rng, &world));
    case
}

/// The steps of the main program: LEA, LEW, LED, SED, two SEWs and CX; then another CX
/// and two RTNs.
const STEPS: usize = 10;

/// Modules of which the first names and calls the last one, which calls another one. Both
/// have code to transfer and to trap.
fn most_world(rng: &mut Rng) -> World {
    let mut modules = plain_modules(rng, MOST_MODULES);
    let last = LAST as u8;
    let mut code = Vec::new();
    for opcode in [LEA, LEW, LED, SED, SEW, SEW] {
        code.extend([opcode, last, rng.below(40) as u8]);
    }
    code.extend([CX, last, 0, JPB, 1]);
    modules[0].code = code;
    let callee = rng.within(1, LAST - 1);
    modules[callee].code = vec![RTN];
    modules[LAST].code = vec![CX, callee as u8, 0, RTN];
    for module in [0, LAST] {
        let entry = modules[module].code.len() as u16;
        modules[module].code.extend([0, 0, TRA, 1, 0, TRAP]);
        let procedure = Procedure {
            entry,
            ..ONLY_PROCEDURE
        };
        add_procedure(&mut modules[module], procedure);
    }
    let mut world = World::least(&modules);
    world.words += ROOM + rng.below(100);
    world
}

/// A machine at an opcode in a module.
fn machine_at(rng: &mut Rng, world: &World, module: usize, opcode: u8) -> Machine {
    let is_so = |place: &Place| usize::from(place.module) == module && place.opcode == opcode;
    let at = place(rng, world, is_so);
    machine(rng, world, at)
}

/// A machine at a TRA in a module, with the words of a line.
fn transferring(rng: &mut Rng, world: &World, module: usize, line: u8) -> Machine {
    let mut machine = machine_at(rng, world, module, TRA);
    machine.stack[..2].copy_from_slice(&[old_word(line), target_word(line)]);
    machine
}

/// The words of a process in a module, which this line goes to.
fn process(rng: &mut Rng, world: &World, module: usize, line: u8) -> Vec<(u16, u16)> {
    let to = place(rng, world, |place| usize::from(place.module) == module);
    Process::new(rng, world, 0, line, to).patches(rng, world)
}

/// From one module to another: by a transfer, by a line and by a trap.
fn changes(rng: &mut Rng, world: &World, from: usize, to: usize) -> [CaseRun; 3] {
    let line = any_line(rng);
    let transferring = transferring(rng, world, from, line);
    let [calling, trapping] = [CX, TRAP].map(|opcode| machine_at(rng, world, from, opcode));
    let [first, second, third] = [line, line, LINE].map(|line| process(rng, world, to, line));
    [
        trap_run(rng, transferring, first),
        line_run(rng, calling, line, second),
        trap_run(rng, trapping, third),
    ]
}

/// A machine in the module behind the last one; and Z, where the next base would be, as
/// the link of a return and as the G of a process.
fn beyond(rng: &mut Rng, world: &World) -> [CaseRun; 3] {
    let (line, z) = (any_line(rng), world.z() as u16);
    let no_machine = Machine {
        module: NEXT as u8,
        ..machine_at(rng, world, LAST, TRAP)
    };
    let returning = machine_at(rng, world, LAST, RTN);
    let l = returning.l;
    let frame = vec![(l, z), (l + 1, rng.word()), (l + 2, Machine::FAR)];
    let transferring = transferring(rng, world, 0, line);
    let mut record = process(rng, world, LAST, line);
    record[0].1 = z;
    let no_trap_process = (target_word(LINE), 0);
    [
        (no_machine, vec![]),
        (returning, frame),
        (transferring, record),
    ]
    .map(|(machine, mut patches)| {
        patches.push(no_trap_process);
        trap_run(rng, machine, patches)
    })
}
