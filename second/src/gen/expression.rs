//! Cases of A.5: words that are saved and restored, and what is refused of
//! them.

use super::code::{program, some_word};
use super::rng::Rng;
use super::saved::{
    add_nested, add_unfit, flawed_code, flawed_entry, some_depths, unfit, NESTED_OPERATORS,
};
use super::state::{set_saved, World};
use super::{add_procedure, any_shape, case_of, plain_run, positions_in_a_row, Scale};
use crate::api::{self, Buffers, RunAnswer};
use crate::assemble::{encode, Source};
use crate::case::{Case, CaseRun};
use crate::depths::first_marks;
use crate::image::{parse, Procedure};
use crate::lent::{Rule, DEPTH, FLAWS};
use crate::machine::Machine;
use crate::mark::{Mark, Saved, MOST_SAVED, UNMARKED};
use crate::number::RESULT_RANGE;
use crate::opcode::{JPB, LODFW, RTN, TRAP};

/// The words of a small store.
const WORDS: usize = 400;

fn rule_in_turn(round: usize) -> Rule {
    Rule::ALL[round % Rule::ALL.len()]
}

/// A program with a procedure that A.5 alone refuses.
pub fn unfit_case(rng: &mut Rng, scale: &Scale, round: usize) -> Case {
    let shape = any_shape(rng, scale);
    let mut modules = program(rng, &shape);
    let module = rng.below(modules.len());
    add_unfit(rng, &mut modules[module], rule_in_turn(round));
    let mut case = case_of(rng, encode(&modules), 1000);
    case.runs = vec![plain_run(rng, 10)];
    case
}

/// Maps with entries that are no marks: in place of a mark, and beyond load's
/// marks, where they lead to one another alone. Two flaws come in turn.
pub fn flawed_entries_case(rng: &mut Rng, scale: &Scale, round: usize) -> Case {
    let shape = any_shape(rng, scale);
    let mut modules = program(rng, &shape);
    add_nested(rng, &mut modules, MOST_SAVED);
    let last = modules.len() - 1;
    let mut lent = Vec::new();
    for flaw in [2 * round, 2 * round + 1].map(|flaw| flaw % FLAWS.len()) {
        let (code, mark) = flawed_code(rng, flaw);
        lent.push((flaw, mark, modules[last].code.len(), code.clone()));
        modules[last].code.extend(code);
    }
    let world = World::of(rng, &shape, &modules);
    let end = world.image.len() - modules[last].code.len();
    let mut case = case_of(rng, world.image.clone(), world.words);
    for (flaw, mark, begin, code) in lent {
        let (offset, replaced) = world.mark_for(rng, mark.saved);
        let entry = flawed_entry(rng, replaced, flaw);
        add_lent_map(rng, &mut case, &world.map, &[(offset as u16, entry)]);
        // A TRAP leaves 16 words of 17.
        let entry = match flaw {
            DEPTH => flawed_entry(rng, mark, flaw) & !0x1F | 17,
            _ => flawed_entry(rng, mark, flaw),
        };
        let positions = positions_in_a_row(&code);
        let patch = |position: &usize| ((end + begin + position) as u16, entry);
        let patches: Vec<(u16, u32)> = positions.iter().map(patch).collect();
        add_lent_map(rng, &mut case, &world.map, &patches);
    }
    case
}

/// A run with a map that is altered, and one with the map as load left it.
fn add_lent_map(rng: &mut Rng, case: &mut Case, map: &[u32], patches: &[(u16, u32)]) {
    let undo = |&(offset, _): &(u16, u32)| (offset, map[usize::from(offset)]);
    for map_patches in [patches.to_vec(), patches.iter().map(undo).collect()] {
        let run = plain_run(rng, 5);
        case.runs.push(CaseRun { map_patches, ..run });
    }
}

/// Code behind a RTN, under a map whose marks break one rule of A.5.
pub fn unfit_marks_case(rng: &mut Rng, round: usize) -> Case {
    let mark = Mark {
        depth: 0,
        results: rng.below(5) as u8,
        saved: Saved::NONE,
    };
    let (code, entry) = unfit(rng, rule_in_turn(round), mark.results);
    let mut module = Source::plain(&[&[RTN], &code[..]].concat());
    if let Some(entry) = entry {
        let procedure = Procedure {
            entry: 1 + entry as u16,
            parameters: 0,
            results: mark.results,
        };
        add_procedure(&mut module, procedure);
    }
    let mut case = case_of(rng, encode(&[module]), WORDS);
    let mut map = vec![UNMARKED; case.image.len()];
    api::load(&case.image, &mut map);
    let patches = marks_from(&case.image, 1, mark);
    add_lent_map(rng, &mut case, &map, &patches);
    case
}

/// The patches that mark module 0's code from a position on.
fn marks_from(image: &[u8], position: usize, mark: Mark) -> Vec<(u16, u32)> {
    let program = parse(image).expect("it is well formed");
    let range = program.modules[0].code_range();
    let marks = first_marks(&program, 0, &image[range.clone()], &[(position, mark)]);
    let patches = range.zip(marks).filter(|&(_, entry)| entry != UNMARKED);
    patches
        .map(|(place, entry)| (place as u16, entry))
        .collect()
}

/// A LODFW behind a RTN, under maps that mark it with one list after another.
pub fn lent_fronts_case(rng: &mut Rng) -> Case {
    let module = Source::plain(&[RTN, LODFW, JPB, 1]);
    let mut case = case_of(rng, encode(&[module]), WORDS);
    let (_, mut machine) = api::start(&case.image, &mut [0; WORDS]);
    (machine.pc, machine.depth) = (1, 1);
    let results = rng.below(5) as u8;
    for _ in 0..3 {
        let count = rng.within(1, MOST_SAVED);
        let mark = Mark {
            depth: 1,
            results,
            saved: Saved::of(&some_depths(rng, count)),
        };
        let budget = rng.pick(&[1, 1, 3]);
        let mut run = plain_run(rng, budget);
        run.map_patches = marks_from(&case.image, 1, mark);
        machine.s = rng.within(0, machine.h.into()) as u16;
        machine.stack[0] = some_word(rng);
        set_saved(rng, mark.saved, &mut machine, &mut run);
        run.machine = Some(machine);
        case.runs.push(run);
    }
    case
}

/// Words are saved and restored step by step. Before a LODFW they, their count
/// or S may be altered. Where that makes a result outside 0 to 65,535, it goes on
/// with 0 in place of the top word.
pub fn saved_words_case(rng: &mut Rng) -> Case {
    let mut modules = [Source::plain(&[RTN])];
    let count = rng.within(1, MOST_SAVED);
    let entry = add_nested(rng, &mut modules, count);
    let mut case = case_of(rng, encode(&modules), WORDS);
    let program = parse(&case.image).expect("it is well formed");
    let (mut map, mut store) = (vec![0; case.image.len()], vec![0; WORDS]);
    api::load(&case.image, &mut map);
    let (_, mut machine) = api::start(&case.image, &mut store);
    machine.pc = entry;
    let mut handed = Some(machine);
    for _ in 0..40 {
        let rest = &modules[0].code[usize::from(machine.pc)..];
        let mut run = plain_run(rng, plain_steps(rest).max(1));
        run.machine = handed.take();
        let mark = machine.mark(&program, &map).expect("it stands at a mark");
        let moved = rest[0] == LODFW && alter_saved(rng, &store, mark.saved, machine, &mut run);
        let answer = make(&case.image, &map, &mut store, machine, &run);
        case.runs.push(run);
        let stopped = answer.number == RESULT_RANGE;
        if !moved {
            machine = answer.machine;
        }
        if stopped {
            machine.stack[usize::from(machine.depth) - 1] = 0;
        }
        handed = (moved || stopped).then_some(machine);
        if rest[0] == TRAP {
            break;
        }
    }
    case
}

/// The literals and operators at the beginning of a code.
fn plain_steps(code: &[u8]) -> usize {
    let plain = |opcode: &&u8| **opcode < 16 || NESTED_OPERATORS.contains(opcode);
    code.iter().take_while(plain).count()
}

/// Makes a run.
fn make(
    image: &[u8],
    map: &[u32],
    store: &mut [u16],
    machine: Machine,
    run: &CaseRun,
) -> RunAnswer {
    for &(address, word) in &run.store_patches {
        store[usize::from(address)] = word;
    }
    let machine = run.machine.unwrap_or(machine);
    let (mut outputs, inputs) = ([0; 16], [0; 16]);
    let buffers = Buffers {
        image,
        map,
        store,
        outputs: &mut outputs,
        inputs: &inputs,
    };
    api::run(machine, buffers, 0, run.budget)
}

/// Alters what a LODFW will find, or nothing; a count that is wrong is set right
/// again. Answers whether S is altered, which the next run has to set right.
fn alter_saved(
    rng: &mut Rng,
    store: &[u16],
    saved: Saved,
    machine: Machine,
    run: &mut CaseRun,
) -> bool {
    let front = u16::from(saved.front().unwrap_or_default());
    let count = machine.s - 1;
    let mut patch = |address: u16, word: u16| run.store_patches.push((address, word));
    match rng.below(8) {
        _ if store[usize::from(count)] != front => patch(count, front),
        0 | 1 if front > 0 => {
            let below = rng.within(1, front.into()) as u16;
            patch(count - below, some_word(rng));
        }
        2 => patch(count, front),
        3 => patch(count, front + 1),
        4 => {
            let s = rng.pick(&[machine.s + 1, count, front, 0]);
            run.machine = Some(Machine { s, ..machine });
            return true;
        }
        _ => {}
    }
    false
}
