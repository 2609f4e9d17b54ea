//! The seeded generator of cases. Case `index` of a seed is always the same.

mod caught;
mod channels;
mod code;
mod expression;
mod fault;
mod forms;
mod hostile;
mod interrupted;
mod lines;
mod modules;
mod requests;
pub mod rng;
mod saved;
mod state;
mod traps;
mod unsigned;

use crate::api;
use crate::assemble::{encode, Source};
use crate::case::{Case, CaseRun};
use crate::image::{Procedure, MOST_MODULES, ONLY_PROCEDURE};
use crate::lent::FLAWS;
use crate::machine::Machine;
use crate::mark::{Mark, Saved, MOST, MOST_RESULTS, MOST_SAVED, UNMARKED};
use crate::opcode::{
    self, CL, DADD, DSUB, JP, LED, LGD, LID, LODFW, PAIRS, RTN, SED, SGD, STORE, TRA, TRAP,
};
use code::{program, program_with_wrong_return, some_word, Shape};
use fault::{add_fault, Kind, FORMS, KINDS};
use rng::Rng;
use saved::{add_nested, flawed_entry, other_saved, some_depths, stores};
use state::{Place, World};

/// How large cases are, and how many runs they have.
pub struct Scale {
    modules: usize,
    procedures: usize,
    statements: [usize; 4],
    /// One program in so many holds every listed opcode.
    full_programs: usize,
    /// The most runs of a program from its start on.
    program_runs: usize,
    /// The opcodes in the main program of a case of states.
    state_opcodes: usize,
    state_runs: usize,
    /// Alterations of a map, with two runs each.
    alterations: usize,
    machine_runs: usize,
    /// Of the stores and codes that could be too large or nearly so, one in so
    /// many is.
    large_parts: usize,
    /// Rounds of cases from one of the largest sizes to the next.
    large_rounds: u64,
    /// One run in so many has inputs of its own.
    own_inputs: usize,
}

/// For as much as can be in one case.
pub const FULL: Scale = Scale {
    modules: 4,
    procedures: 5,
    statements: [2, 6, 12, 24],
    full_programs: 4,
    program_runs: 5,
    state_opcodes: 256,
    state_runs: 24,
    alterations: 8,
    machine_runs: 16,
    large_parts: 1,
    large_rounds: 4,
    own_inputs: 1,
};

/// For many cases in a short file.
pub const SMALL: Scale = Scale {
    modules: 2,
    procedures: 3,
    statements: [1, 2, 3, 5],
    full_programs: 60,
    program_runs: 3,
    state_opcodes: 6,
    state_runs: 7,
    alterations: 2,
    machine_runs: 4,
    large_parts: 20,
    large_rounds: 6,
    own_inputs: 8,
};

/// The cases of a round, each of a kind of its own or one of several.
pub const ROUND: u64 = 54;

/// One case of a seed.
pub fn case(scale: &Scale, seed: u64, index: u64) -> Case {
    let rng = &mut Rng::for_case(seed, index);
    let round = index / ROUND;
    let mut case = match index % ROUND {
        kind @ 0..=1 => fault_case(rng, scale, 2 * round + kind),
        2..=6 => program_case(rng, scale),
        7 => wrong_return_case(rng, scale),
        8 => shared_code_case(rng, scale, round.is_multiple_of(4)),
        9 => {
            let opcode = any_double(rng);
            state_case(rng, scale, opcode)
        }
        kind @ 10..=15 => states_case(rng, scale, (6 * round + kind) as usize),
        16..=18 => state_case(rng, scale, TRA),
        19..=20 => state_case(rng, scale, RTN),
        21..=22 => mutant_case(rng, scale),
        23 => double_depth_case(rng, scale),
        24..=25 => header_case(rng, scale),
        26 => depth_case(rng, scale),
        27 => broken_map_case(rng, scale),
        28 => lent_marks_case(rng),
        29 => broken_machine_case(rng, scale),
        30 if round.is_multiple_of(scale.large_rounds) => {
            large_case(rng, round / scale.large_rounds)
        }
        32..=33 => state_case(rng, scale, STORE),
        34..=35 => state_case(rng, scale, LODFW),
        31 => expression::lent_fronts_case(rng),
        36 => expression::saved_words_case(rng),
        37 => expression::unfit_case(rng, scale, round as usize),
        38 => expression::flawed_entries_case(rng, scale, round as usize),
        39 => expression::unfit_marks_case(rng, round as usize),
        40 => unsigned::turn_case(rng, scale, round as usize),
        41 => lines::fates_case(rng, scale, round as usize),
        42 => lines::collisions_case(rng, scale, round as usize),
        kind @ 43..=45 => line_case(rng, scale, kind, round as usize),
        46 => hostile::hostile_case(rng, scale),
        47 => traps::opcodes_case(rng, scale, round as usize),
        48 => traps::collisions_case(rng, scale, round as usize),
        49 => traps::fates_case(rng, scale, round as usize),
        50 => caught::turn_case(rng, scale, round as usize),
        51 => channels::turn_case(rng, scale, round as usize),
        52 => modules::turn_case(rng, round as usize),
        53 => forms::turn_case(rng, round as usize),
        _ => sizes_case(rng, scale),
    };
    // The others are made run by run.
    if matches!(index % ROUND, 0..=30 | 32..=35) {
        give_requests(rng, &mut case.runs);
        hostile::give_word_14(rng, &mut case.runs, case.store_length);
    }
    // Those of READs have inputs that were made for them.
    if index % ROUND != 51 {
        keep_inputs(rng, scale, &mut case.runs);
    }
    // Those of forms have an output that was made for them.
    if index % ROUND != 53 {
        forms::give_output(rng, &mut case);
    }
    case
}

/// The cases of A.7 that come in turn.
fn line_case(rng: &mut Rng, scale: &Scale, kind: u64, round: usize) -> Case {
    match (kind, round % 3) {
        (43, 0) => requests::both_case(rng, scale),
        (43, 1) => requests::failing_case(rng, scale),
        (43, _) => requests::over_case(rng, scale, round / 3),
        (44, 0) => requests::opened_case(rng, scale),
        (44, _) => lines::places_case(rng, scale),
        (_, 0) => requests::refused_case(rng, round / 3),
        _ => interrupted::interrupted_case(rng, round / 3),
    }
}

/// Gives a few runs of other kinds requests. What is left of them is handed on to
/// the next run at most.
fn give_requests(rng: &mut Rng, runs: &mut [CaseRun]) {
    for i in 0..runs.len() {
        if runs[i].requests.is_none() && rng.once_in(24) {
            runs[i].requests = Some(hostile::any_requests(rng));
            let behind = i + 1 + usize::from(rng.once_in(4));
            if let Some(run) = runs.get_mut(behind) {
                run.requests = Some(0);
            }
        }
    }
}

/// Gives most runs the inputs of the run before, if there are 16.
fn keep_inputs(rng: &mut Rng, scale: &Scale, runs: &mut [CaseRun]) {
    for i in 1..runs.len() {
        let usual = runs[i - 1].inputs.len() == 16 && runs[i].inputs.len() == 16;
        if !rng.once_in(scale.own_inputs) && usual {
            runs[i].inputs = runs[i - 1].inputs.clone();
        }
    }
}

/// The first cases of a seed.
pub fn cases(scale: &Scale, seed: u64, count: u64) -> impl Iterator<Item = Case> + '_ {
    (0..count).map(move |index| case(scale, seed, index))
}

fn any_shape(rng: &mut Rng, scale: &Scale) -> Shape {
    Shape {
        modules: rng.within(1, scale.modules),
        procedures: rng.within(1, scale.procedures),
        statements: rng.pick(&scale.statements),
        data: rng.pick(&[0, 5, 40]),
        opcodes: Vec::new(),
        careful: !rng.once_in(3),
        large_stores: scale.large_parts,
    }
}

/// Some of the listed opcodes in any order, and this one.
fn opcodes_with(rng: &mut Rng, count: usize, opcode: u8) -> Vec<u8> {
    let mut opcodes: Vec<u8> = opcode::listed().collect();
    rng.shuffle(&mut opcodes);
    opcodes.truncate(count);
    opcodes.push(opcode);
    opcodes
}

/// So many of the listed opcodes, each in turn.
fn opcodes_in_turn(turn: usize, count: usize) -> Vec<u8> {
    let mut opcodes: Vec<u8> = opcode::listed().collect();
    let first = turn * count % opcodes.len();
    opcodes.rotate_left(first);
    opcodes.truncate(count);
    opcodes
}

/// These opcodes in the main program, and enough procedures to be called.
fn opcode_shape(rng: &mut Rng, scale: &Scale, opcodes: Vec<u8>, careful: bool) -> Shape {
    let called = |opcode: &u8| usize::from(opcode.saturating_sub(CL));
    let highest = opcodes.iter().map(called).max().unwrap_or_default();
    Shape {
        modules: rng.within(2, 3),
        procedures: highest + rng.within(1, 3),
        statements: scale.statements[0],
        data: 20,
        opcodes,
        careful,
        large_stores: scale.large_parts,
    }
}

/// An opcode of double words, mostly a load or a store, and often one that a
/// module's base addresses: those reach the store's end least.
fn any_double(rng: &mut Rng) -> u8 {
    match rng.below(12) {
        0 => rng.pick(&[LID, DADD, DSUB]),
        1..=6 => rng.pick(&[LGD, LED, SGD, SED]),
        _ => rng.pick(&PAIRS),
    }
}

/// A case with the ordinary buffers and no runs.
fn case_of(rng: &mut Rng, image: Vec<u8>, store_length: usize) -> Case {
    let past = rng.pick(&[0, 0, 1, 7]);
    Case {
        map_length: image.len() + past,
        map_fill: rng.bits() as u32,
        store_length,
        store_fill: rng.word(),
        outputs: words(rng, 16),
        image,
        runs: Vec::new(),
        ..Case::default()
    }
}

fn words(rng: &mut Rng, count: usize) -> Vec<u16> {
    (0..count).map(|_| some_word(rng)).collect()
}

fn plain_run(rng: &mut Rng, budget: usize) -> CaseRun {
    CaseRun {
        budget: budget as u32,
        inputs: words(rng, 16),
        ..CaseRun::default()
    }
}

/// A few runs in a row, with the same machine all along.
fn plain_runs(rng: &mut Rng, scale: &Scale) -> Vec<CaseRun> {
    (0..rng.within(1, scale.program_runs))
        .map(|_| {
            let most = rng.pick(&[1, 3, 20, 300, 2000]);
            let budget = rng.within(0, most);
            plain_run(rng, budget)
        })
        .collect()
}

/// An accepted program from its start on, with processes to transfer to.
fn program_case(rng: &mut Rng, scale: &Scale) -> Case {
    let shape = if rng.once_in(scale.full_programs) {
        let careful = rng.once_in(2);
        opcode_shape(rng, scale, opcode::listed().collect(), careful)
    } else {
        any_shape(rng, scale)
    };
    let world = World::new(rng, &shape);
    let mut case = case_of(rng, world.image.clone(), world.words);
    case.runs = plain_runs(rng, scale);
    case.runs[0].store_patches = world.processes(rng);
    if rng.once_in(4) {
        hostile::give_lines(rng, &mut case.runs);
    }
    if rng.once_in(4) {
        hostile::give_trap_process(rng, &mut case.runs);
    }
    case
}

/// A program with one return that does not carry what the procedure promised.
fn wrong_return_case(rng: &mut Rng, scale: &Scale) -> Case {
    let shape = any_shape(rng, scale);
    let image = encode(&program_with_wrong_return(rng, &shape));
    let mut case = case_of(rng, image, 1000);
    case.runs = vec![plain_run(rng, 10)];
    case
}

/// An accepted program, and one more procedure that shares code with another, in turn at
/// its entry.
fn shared_code_case(rng: &mut Rng, scale: &Scale, at_entry: bool) -> Case {
    let shape = any_shape(rng, scale);
    let mut modules = program(rng, &shape);
    let world = World::of(rng, &shape, &modules);
    let place = world.place_to_share(rng, at_entry);
    share(
        rng,
        &mut modules[usize::from(place.module)],
        place,
        at_entry,
    );
    let mut case = case_of(rng, encode(&modules), world.words);
    case.runs = plain_runs(rng, scale);
    case
}

/// One more procedure, which begins at the place or, if it may, jumps to it. It
/// mostly has other results: then A.2 alone refuses the code.
fn share(rng: &mut Rng, module: &mut Source, place: Place, at_entry: bool) {
    let Mark { depth, results, .. } = place.mark;
    let mut procedure = Procedure {
        entry: place.position,
        parameters: depth,
        results: match rng.below(4) {
            0 => results,
            _ => other_results(rng, results),
        },
    };
    if !at_entry && rng.once_in(2) {
        procedure.entry = module.code.len() as u16;
        procedure.parameters = rng.within(0, depth.into()) as u8;
        let missing = depth - procedure.parameters;
        module.code.extend(literals(rng, missing.into()));
        let operand = module.code.len() as u16 + 1;
        let [high, low] = place.position.wrapping_sub(operand).to_be_bytes();
        module.code.extend([JP, high, low]);
    }
    add_procedure(module, procedure);
}

/// One more procedure: transfers with 2 words on the stack and with 16, often
/// where others are saved.
fn add_transfers(rng: &mut Rng, module: &mut Source) {
    let entry = module.code.len() as u16;
    let count = rng.below(3);
    let depths = some_depths(rng, count);
    module.code.extend(stores(rng, &depths));
    for depth in [2, MOST] {
        module.code.extend(literals(rng, depth.into()));
        module.code.extend([TRA, rng.below(3) as u8]);
    }
    module.code.push(TRAP);
    let procedure = Procedure {
        entry,
        ..ONLY_PROCEDURE
    };
    add_procedure(module, procedure);
}

/// One more procedure.
fn add_procedure(module: &mut Source, procedure: Procedure) {
    if module.procedures.is_empty() {
        module.procedures.push(ONLY_PROCEDURE);
    }
    module.procedures.push(procedure);
}

/// Another result count.
fn other_results(rng: &mut Rng, results: u8) -> u8 {
    let more = rng.within(1, MOST_RESULTS.into()) as u8;
    (results + more) % (MOST_RESULTS + 1)
}

/// A program whose code is not whole. Kinds and forms come in turn, each kind
/// with one form after another.
fn fault_case(rng: &mut Rng, scale: &Scale, round: u64) -> Case {
    let round = round as usize;
    let kind = KINDS[round % KINDS.len()];
    let form = FORMS[(round + round / KINDS.len()) % FORMS.len()];
    let shape = any_shape(rng, scale);
    let mut modules = program(rng, &shape);
    add_fault(rng, &mut modules, kind, form);
    let mut case = case_of(rng, encode(&modules), 1000);
    if kind == Kind::ShortMap {
        let shorter = rng.below(case.image.len());
        case.map_length = rng.pick(&[case.image.len() - 1, shorter]);
    }
    case.runs = vec![plain_run(rng, 10)];
    case
}

/// Single steps, or a few, from machines at marked positions of several opcodes
/// in turn.
fn states_case(rng: &mut Rng, scale: &Scale, turn: usize) -> Case {
    let opcodes = opcodes_in_turn(turn, scale.state_opcodes);
    let careful = rng.once_in(2);
    let shape = opcode_shape(rng, scale, opcodes, careful);
    let world = World::new(rng, &shape);
    let mut case = case_of(rng, world.image.clone(), world.words);
    for i in 0..scale.state_runs {
        let opcode = shape.opcodes[(turn * scale.state_runs + i) % shape.opcodes.len()];
        add_state(rng, &world, opcode, &mut case);
    }
    case
}

/// The same of one opcode.
fn state_case(rng: &mut Rng, scale: &Scale, opcode: u8) -> Case {
    let opcodes = opcodes_with(rng, scale.state_opcodes, opcode);
    // Pairs are to reach the store's end.
    let careful = rng.once_in(2) && !PAIRS.contains(&opcode);
    let shape = opcode_shape(rng, scale, opcodes, careful);
    let mut modules = program(rng, &shape);
    if opcode == TRA {
        add_transfers(rng, &mut modules[0]);
    }
    if matches!(opcode, STORE | LODFW | TRA | RTN) {
        let count = rng.within(1, MOST_SAVED);
        add_nested(rng, &mut modules, count);
    }
    let mut world = World::of(rng, &shape, &modules);
    world.end_at_pair(rng, opcode);
    let mut case = case_of(rng, world.image.clone(), world.words);
    for _ in 0..scale.state_runs {
        add_state(rng, &world, opcode, &mut case);
    }
    case
}

/// A run from a machine at an opcode.
fn add_state(rng: &mut Rng, world: &World, opcode: u8, case: &mut Case) {
    let budget = rng.pick(&[1, 1, 1, 2, 5, 30]);
    let mut run = plain_run(rng, budget);
    world.set_state(rng, Some(opcode), &mut run);
    case.runs.push(run);
}

/// An accepted image with a few bytes changed, cut off or appended.
fn mutant_case(rng: &mut Rng, scale: &Scale) -> Case {
    let shape = any_shape(rng, scale);
    let mut image = encode(&program(rng, &shape));
    for _ in 0..rng.within(1, 3) {
        let position = rng.below(image.len());
        match rng.below(6) {
            0 => image[position] ^= 1 << rng.below(8),
            1 => image[position] = rng.byte(),
            2 => {
                let header = rng.below(image.len().min(12));
                image[header] = image[header].wrapping_add(rng.pick(&[1, 255, 4]));
            }
            3 => image.truncate(position.max(1)),
            4 => image.extend((0..rng.within(1, 3)).map(|_| rng.byte())),
            _ => {
                image.insert(position, rng.byte());
            }
        }
    }
    let mut case = case_of(rng, image, 1000);
    case.runs = plain_runs(rng, scale);
    case
}

/// Headers with one fault or more, mostly at a known place.
fn header_case(rng: &mut Rng, scale: &Scale) -> Case {
    let shape = any_shape(rng, scale);
    let mut modules = program(rng, &shape);
    let at = rng.below(modules.len());
    let module = &mut modules[at];
    let length = module.code.len() as u16;
    let fault = rng.below(12);
    match fault {
        0 => module.code.clear(),
        1 if rng.once_in(scale.large_parts) => {
            module.code.resize(rng.pick(&[32_768, 40_000]), 0o336)
        }
        2..=5 => {
            if module.procedures.is_empty() {
                module.procedures.push(ONLY_PROCEDURE);
            }
            let number = rng.below(module.procedures.len());
            let procedure = &mut module.procedures[number];
            match fault {
                2 => procedure.entry = rng.pick(&[length, length + 1, 65_535]),
                3 => procedure.parameters = rng.pick(&[17, 1, 255]),
                4 => procedure.results = rng.pick(&[5, 255]),
                _ => procedure.parameters = 1,
            }
        }
        _ => {}
    }
    let mut image = encode(&modules);
    match fault {
        6 => image[0] = rng.pick(&[0, MOST_MODULES + 1, MOST_MODULES, 255]) as u8,
        7 => image[1] |= 1 << rng.within(3, 7),
        8 => image.truncate(rng.below(image.len().min(24))),
        9 => image.push(0),
        10 => image = (0..rng.below(30)).map(|_| rng.byte() & 7).collect(),
        11 if image[1] & 2 != 0 => {
            let count = 2 + 2 * usize::from(image[1] & 1);
            image[count] = 0;
            image.truncate(rng.within(count + 1, image.len()));
        }
        _ => {}
    }
    let mut case = case_of(rng, image, 1000);
    case.runs = vec![plain_run(rng, 10)];
    case
}

/// Code of listed opcodes in no order: most fits no depths.
fn depth_case(rng: &mut Rng, scale: &Scale) -> Case {
    const FRIENDLY: [u8; 12] = [
        0o000, 0o001, 0o003, 0o032, 0o033, 0o034, 0o035, 0o036, 0o265, 0o270, 0o336, 0o354,
    ];
    let modules: Vec<Source> = (0..rng.within(1, 3))
        .map(|_| {
            let mut code: Vec<u8> = (0..rng.within(1, 12))
                .map(|_| match rng.below(4) {
                    0 => rng.byte(),
                    _ => rng.pick(&FRIENDLY),
                })
                .collect();
            code.push(rng.pick(&[RTN, RTN, TRAP]));
            let procedure = Procedure {
                results: rng.below(3) as u8,
                ..ONLY_PROCEDURE
            };
            Source {
                procedures: vec![procedure],
                ..Source::plain(&code)
            }
        })
        .collect();
    let mut case = case_of(rng, encode(&modules), 400);
    case.runs = plain_runs(rng, scale);
    case
}

/// Double words that just fit, or just do not, in one of the modules.
fn double_depth_case(rng: &mut Rng, scale: &Scale) -> Case {
    let count = rng.within(1, 3);
    let mut modules = vec![Source::plain(&[RTN]); count];
    modules[rng.below(count)] = Source::plain(&double_code(rng, count, 0));
    let mut case = case_of(rng, encode(&modules), 400);
    case.runs = plain_runs(rng, scale);
    case
}

/// Code under a map that marks it with one result count, and then with another.
/// Mostly it stands behind an RTN: no entry reaches it, so that it may have any
/// count, and another one all along if it does not return. The machines stand
/// at its beginning.
fn lent_marks_case(rng: &mut Rng) -> Case {
    let count = rng.within(1, 2);
    let mut modules = vec![Source::plain(&[RTN]); count];
    let reached = rng.once_in(4);
    let results = match rng.below(4) {
        _ if reached => 0,
        // Entries that never fit, though they agree with one another.
        0 => rng.within(5, 7) as u8,
        _ => rng.below(5) as u8,
    };
    let code = if rng.once_in(2) {
        double_code(rng, count, results)
    } else {
        let depth = rng.below(7);
        [literals(rng, depth), ending(rng, depth, results.into())].concat()
    };
    if reached {
        modules[0].code.clear();
    }
    let begin = modules[0].code.len() as u16;
    modules[0].code.extend(&code);
    let mut case = case_of(rng, encode(&modules), 400);
    let (_, mut machine) = api::start(&case.image, &mut [0; 400]);
    machine.pc = begin;
    case.runs = vec![plain_run(rng, 5)];
    for results in [results, other_results(rng, results)] {
        let mut run = plain_run(rng, 30);
        run.machine = Some(machine);
        run.map_patches = lent_marks(rng, &code, results, 4 + begin);
        case.runs.push(run);
    }
    case
}

/// The patches that mark a code which begins at this image byte, one in three
/// times with an altered one.
fn lent_marks(rng: &mut Rng, code: &[u8], results: u8, begin: u16) -> Vec<(u16, u32)> {
    let marks = marks_in_a_row(code, results);
    let mut patches: Vec<(u16, u32)> = marks
        .iter()
        .map(|&(position, mark)| (begin + position as u16, mark.encode()))
        .collect();
    if rng.once_in(3) {
        let altered = rng.below(marks.len());
        patches[altered].1 = altered_entry(rng, marks[altered].1);
    }
    patches
}

/// An entry that is not the mark's: another depth, another result count, other
/// saved depths, or no mark at all.
fn altered_entry(rng: &mut Rng, mark: Mark) -> u32 {
    let altered = match rng.below(4) {
        0 => Mark {
            depth: (mark.depth + rng.pick(&[1, MOST])) % (MOST + 1),
            ..mark
        },
        1 => Mark {
            results: other_results(rng, mark.results),
            ..mark
        },
        2 => other_saved(rng, mark),
        _ => {
            let flaw = rng.below(FLAWS.len());
            return flawed_entry(rng, mark, flaw);
        }
    };
    altered.encode()
}

/// The positions of a code, one behind the other.
fn positions_in_a_row(code: &[u8]) -> Vec<usize> {
    let next = |&position: &usize| {
        let length = opcode::row(code[position]).length;
        Some(position + usize::from(length)).filter(|&next| next < code.len())
    };
    std::iter::successors(Some(0), next).collect()
}

/// The positions of a code without jumps, with the depths of their words.
fn marks_in_a_row(code: &[u8], results: u8) -> Vec<(usize, Mark)> {
    let mut depth = 0;
    let mark = |position: usize| {
        let saved = Saved::NONE;
        let mark = Mark {
            depth,
            results,
            saved,
        };
        let row = opcode::row(code[position]);
        depth = (depth + row.left).saturating_sub(row.taken).min(MOST);
        (position, mark)
    };
    positions_in_a_row(code).into_iter().map(mark).collect()
}

/// Literals, and an instruction of double words that is narrow in some way, for
/// a procedure with so many results.
fn double_code(rng: &mut Rng, modules: usize, results: u8) -> Vec<u8> {
    let opcode = match rng.below(4) {
        0 => return cut_literal(rng),
        1 => rng.pick(&[LED, SED]),
        _ => any_double(rng),
    };
    double_near_limits(rng, opcode, modules, results)
}

/// So many of 000–017.
fn literals(rng: &mut Rng, count: usize) -> Vec<u8> {
    (0..count).map(|_| rng.below(16) as u8).collect()
}

/// A LID whose operands the code's end cuts off.
fn cut_literal(rng: &mut Rng) -> Vec<u8> {
    let depth = rng.below(15);
    let mut code = literals(rng, depth);
    code.push(LID);
    code.extend((0..rng.below(4)).map(|_| rng.byte()));
    code
}

/// An instruction with enough words below it or one too few, with room above
/// or too little, and with a module that exists or not.
fn double_near_limits(rng: &mut Rng, opcode: u8, modules: usize, results: u8) -> Vec<u8> {
    let row = opcode::row(opcode);
    let least = usize::from(row.taken);
    let depth = rng.pick(&[least.saturating_sub(1), least, least, 14, 15, 16]);
    let mut code = literals(rng, depth);
    code.push(opcode);
    if matches!(opcode, LED | SED) {
        code.push(rng.pick(&[0, modules - 1, modules, 255]) as u8);
    }
    code.resize_with(depth + usize::from(row.length), || rng.byte());
    let depth = (depth + usize::from(row.left)).saturating_sub(least);
    code.extend(ending(rng, depth, results.into()));
    code
}

/// Behind so many words: a return, with the words that are missing put before
/// it, or a TRAP where there are too many.
fn ending(rng: &mut Rng, depth: usize, results: usize) -> Vec<u8> {
    let mut code = literals(rng, results.saturating_sub(depth));
    code.push(if depth > results { TRAP } else { RTN });
    code
}

/// Maps that somebody has altered, one run after another.
fn broken_map_case(rng: &mut Rng, scale: &Scale) -> Case {
    let shape = any_shape(rng, scale);
    let world = World::new(rng, &shape);
    let mut case = case_of(rng, world.image.clone(), world.words);
    for _ in 0..scale.alterations {
        let mut run = plain_run(rng, 5);
        let (offset, entry) = alteration(rng, &world);
        run.map_patches.push((offset as u16, entry));
        case.runs.push(run);
        let mut good = plain_run(rng, 3);
        good.map_patches.push((offset as u16, world.map[offset]));
        case.runs.push(good);
    }
    case
}

/// An offset in a program's map, and another entry for it.
fn alteration(rng: &mut Rng, world: &World) -> (usize, u32) {
    let offset = rng.below(world.image.len());
    match rng.below(6) {
        0 => (offset, rng.bits() as u32),
        1 => (offset, UNMARKED),
        2 => (
            offset,
            rng.pick(&[0, 1, 16, 17, 0x100, 0x7FFF_FFFF, 0xFFFF_FFFE]),
        ),
        // One that may fit where it was unmarked, before the next mark.
        3 => {
            let next = world.map[offset..].iter().copied().find_map(Mark::decode);
            let mark = Mark {
                depth: rng.below(4) as u8,
                results: next.map_or(0, |mark| mark.results),
                saved: Saved::NONE,
            };
            (offset, mark.encode())
        }
        _ => {
            let (offset, mark) = world.any_mark(rng);
            (offset, altered_entry(rng, mark))
        }
    }
}

/// Machines that are none, for one reason or more.
fn broken_machine_case(rng: &mut Rng, scale: &Scale) -> Case {
    let shape = any_shape(rng, scale);
    let world = World::new(rng, &shape);
    let mut case = case_of(rng, world.image.clone(), world.words);
    let words = world.words as u16;
    for _ in 0..scale.machine_runs {
        let mut run = plain_run(rng, 3);
        world.set_state(rng, None, &mut run);
        let mut machine = run.machine.unwrap_or_default();
        for _ in 0..rng.pick(&[0, 1, 1, 1, 2]) {
            break_machine(rng, &mut machine, words);
        }
        run.machine = Some(machine);
        case.runs.push(run);
    }
    case
}

fn break_machine(rng: &mut Rng, machine: &mut Machine, words: u16) {
    match rng.below(8) {
        0 => machine.module = rng.byte(),
        1 => machine.pc = machine.pc.wrapping_add(rng.pick(&[1, 2, 65_535, 300])),
        2 => machine.depth = rng.pick(&[0, 1, 16, 17, 255, machine.depth.wrapping_add(1)]),
        3 => machine.s = machine.h.wrapping_add(rng.pick(&[0, 1, 2])),
        4 => machine.h = words.wrapping_sub(rng.pick(&[24, 23, 0])),
        5 => machine.p = words.wrapping_sub(rng.pick(&[8, 7, 0])),
        6 => machine.stack[rng.below(16)] = rng.word(),
        _ => machine.h = rng.word(),
    }
}

/// Stores, maps, inputs and outputs of other lengths.
fn sizes_case(rng: &mut Rng, scale: &Scale) -> Case {
    let shape = any_shape(rng, scale);
    let world = World::new(rng, &shape);
    let least = world.least_words();
    let words = match rng.below(5) {
        0 => rng.below(least),
        1 => least - 1,
        2 => least,
        3 if rng.once_in(scale.large_parts) => rng.pick(&[65_534, 65_535, 65_536]),
        _ => world.words,
    };
    let mut case = case_of(rng, world.image.clone(), words);
    if rng.once_in(3) {
        case.map_length = rng.below(case.image.len());
    }
    if rng.once_in(3) {
        let count = rng.pick(&[0, 1, 15, 17]);
        case.outputs = self::words(rng, count);
    }
    for _ in 0..3 {
        let mut run = plain_run(rng, 20);
        if rng.once_in(2) {
            let count = rng.pick(&[0, 1, 15, 17]);
            run.inputs = self::words(rng, count);
        }
        case.runs.push(run);
    }
    case
}

/// The largest sizes, one kind after another.
fn large_case(rng: &mut Rng, kind: u64) -> Case {
    let filled = |length: usize| {
        let mut code = vec![0o336; length];
        code[length - 1] = 0o354;
        Source::plain(&code)
    };
    let many = |rng: &mut Rng, modules, procedures, data| {
        let shape = Shape {
            modules,
            procedures,
            statements: 3,
            data,
            opcodes: Vec::new(),
            careful: rng.once_in(2),
            large_stores: 1,
        };
        program(rng, &shape)
    };
    let (image, store_length) = match kind % 10 {
        // The most modules in the largest store.
        0 => (encode(&many(rng, MOST_MODULES, 3, 2900)), 65_535),
        // One code of 32,767 bytes, with all fields spelled out.
        1 => {
            let mut module = filled(32_767);
            forms::spell_all_out(&mut module);
            (encode(&[module]), 4_096)
        }
        // 65,535 bytes: 1 + 3 + 32,767 + 3 + 32,761.
        2 => (encode(&[filled(32_767), filled(32_761)]), 65_535),
        // One byte more.
        3 => (encode(&[filled(32_767), filled(32_762)]), 65_535),
        // Data sizes that no store holds.
        4 => {
            let mut modules = many(rng, 3, 2, 10);
            for module in &mut modules {
                module.data_size = rng.within(21_000, 65_535) as u16;
            }
            (encode(&modules), 65_535)
        }
        // 255 procedures in several modules.
        5 => (encode(&many(rng, 4, 255, 50)), 4_096),
        // A long code of statements.
        6 => {
            let mut modules = many(rng, 2, 200, 50);
            modules[1] = filled(20_000);
            (encode(&modules), 8_192)
        }
        // One code too long by a byte.
        7 => (encode(&[filled(32_768)]), 4_096),
        // A store too long by a word.
        8 => (encode(&many(rng, 1, 1, 10)), 65_536),
        // A fault at the last position that there is.
        _ => {
            let mut module = filled(32_767);
            module.code[32_766] = 0o021;
            (encode(&[module]), 4_096)
        }
    };
    let mut case = case_of(rng, image, store_length);
    for budget in [0, 100, 40_000] {
        case.runs.push(plain_run(rng, budget));
    }
    case
}
