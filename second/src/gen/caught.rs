//! Cases of A.8: several caught traps in a run, traps beside lines, stops that are no
//! traps, and a process that goes on behind its trap.

use super::lines::{any_line, line_world, literal, machine, place, step, Process, FRAME};
use super::rng::Rng;
use super::state::World;
use super::traps::{trapping_with_process, LINE};
use super::{case_of, plain_run, Scale};
use crate::api;
use crate::assemble::{encode, Source};
use crate::case::{Case, CaseRun};
use crate::machine::Machine;
use crate::mark::MOST_SAVED;
use crate::opcode::*;
use crate::request::*;

/// The cases that come in turn.
pub fn turn_case(rng: &mut Rng, scale: &Scale, round: usize) -> Case {
    match round % 4 {
        0 => chain_case(rng, round / 4),
        1 => lines_case(rng, scale),
        _ => resumed_case(rng, round % 4 == 2),
    }
}

/// The words of the store, and where the other processes are in it.
const WORDS: usize = 400;
const RECORDS: [u16; 2] = [260, 300];
const STACK: u16 = 20;

/// LIW, LIW and SSW0, which write a word of the store.
fn write(address: u16, word: u16) -> [u8; 7] {
    let ([a, b], [c, d]) = (address.to_be_bytes(), word.to_be_bytes());
    [LIW, a, b, LIW, c, d, SSW0]
}

/// The words of a process without words at a record, at the beginning of a module.
fn process(rng: &mut Rng, record: u16, base: u16, l: u16) -> Vec<(u16, u16)> {
    let s = record + STACK + rng.below(9) as u16;
    let m = rng.word();
    let words = [base, l, 0, m, s + 1, WORDS as u16];
    let mut patches: Vec<(u16, u16)> = (record..).zip(words).collect();
    patches.push((s, 0));
    patches
}

/// Instructions that trap, and how many there are before the last.
const TRAPS: [(&[u8], usize); 6] = [
    (&[3, TRAP], 1),
    (&[5, 0, UDIV, JPB, 1], 2),
    (&[LIW, 255, 255, LSW0, JPB, 1], 1),
    (&[LIB, 16, 1, WRITE, JPB, 1], 2),
    (&[6, 5, CHKZ, JPB, 1], 2),
    (&[LIW, 128, 0, ABS, JPB, 1], 1),
];

/// Three processes, each in a module of its own. The first ones name the next and trap.
/// The last one names the first and traps, so that this traps again; or it ends. All in
/// one run, and then in parts: spent behind the first trap.
fn chain_case(rng: &mut Rng, round: usize) -> Case {
    let first = 128 + 3 * 3;
    let ends = round.is_multiple_of(2);
    // Steps before the first trap: a word written, and others.
    let mut before = 3;
    let modules = [RECORDS[0], RECORDS[1], first].map(|next| {
        let (trap, steps) = rng.pick(&TRAPS);
        if next == RECORDS[0] {
            before += steps;
        }
        match next {
            _ if ends && next == first => Source::plain(&[RTN]),
            _ => Source::plain(&[&write(14, next), trap].concat()),
        }
    });
    let mut case = case_of(rng, encode(&modules), WORDS);
    for budgets in [&[99][..], &[before + 1, 4, 1, 5, 99]] {
        push_chain(rng, &mut case, budgets);
    }
    case
}

/// Runs of the three processes from the start on.
fn push_chain(rng: &mut Rng, case: &mut Case, budgets: &[usize]) {
    let (_, machine) = api::start(&case.image, &mut [0; WORDS]);
    let begin = case.runs.len();
    for &budget in budgets {
        push(rng, case, None, budget);
    }
    let run = &mut case.runs[begin];
    run.machine = Some(machine);
    for (record, base) in RECORDS.into_iter().zip([131, 134]) {
        // L is the frame that start sets, where the end mark is.
        let patches = process(rng, record, base, machine.l);
        run.store_patches.extend(patches);
    }
}

/// A trap behind a line, and a line behind a trap, in one run; a line that M opens; and
/// an end and spent runs, which are no traps.
fn lines_case(rng: &mut Rng, scale: &Scale) -> Case {
    let world = line_world(rng, scale);
    let mut case = case_of(rng, world.image.clone(), world.words);
    let line = any_line(rng);
    case.runs.push(behind_line(rng, &world, line));
    for budget in [1, 2, 3] {
        let run = before_line(rng, &world, line);
        case.runs.push(CaseRun { budget, ..run });
    }
    for kind in 0..3 {
        case.runs.push(no_trap(rng, &world, kind));
    }
    case
}

/// To a TRAP by the line, and from there to a literal.
fn behind_line(rng: &mut Rng, world: &World, line: u8) -> CaseRun {
    let [at, to] = [0; 2].map(|_| literal(rng, world));
    let trap = place(rng, world, |place| place.opcode == TRAP);
    let mut first = Process::new(rng, world, 0, line, trap);
    first.m = 65_535;
    let second = Process::new(rng, world, 1, LINE, to);
    let patches = [first, second].map(|it| it.patches(rng, world)).concat();
    let mut machine = machine(rng, world, at);
    machine.m = 0;
    let run = step(rng, machine, bit(line), 0, patches);
    let budget = rng.within(2, 3) as u32;
    CaseRun { budget, ..run }
}

/// From a trap to another place, and from there to a literal by the line.
fn before_line(rng: &mut Rng, world: &World, line: u8) -> CaseRun {
    let (mut machine, mut process) = trapping_with_process(rng, world);
    machine.m |= bit(line);
    process.m = 0;
    let to = literal(rng, world);
    let other = Process::new(rng, world, 1, line, to);
    let patches = [process, other].map(|it| it.patches(rng, world)).concat();
    step(rng, machine, bit(line), 0, patches)
}

/// A good process, and an end; no step before a trap; or a literal.
fn no_trap(rng: &mut Rng, world: &World, kind: usize) -> CaseRun {
    let (trapping, process) = trapping_with_process(rng, world);
    let mut patches = process.patches(rng, world);
    let end = (world.z() + FRAME + 2) as u16;
    patches.push((end, Machine::END_MARK));
    let at = match kind {
        0 => place(rng, world, |it| it.opcode == RTN && it.mark.depth == 0),
        _ => literal(rng, world),
    };
    let (machine, budget) = match kind {
        1 => (trapping, 0),
        _ => (machine(rng, world, at), 1),
    };
    let run = step(rng, machine, 0, 0, patches);
    CaseRun { budget, ..run }
}

/// A division by 0 where depths are saved. The trap process, in another module, writes
/// another divisor where the 0 was saved, and goes back by a transfer, or by a line; the
/// expression comes to its end. Then the same in one run.
fn resumed_case(rng: &mut Rng, by_transfer: bool) -> Case {
    let count = rng.within(1, MOST_SAVED);
    let modules = [expression(rng, count), handler(rng, count)];
    let mut case = case_of(rng, encode(&modules), WORDS);
    let (_, machine) = api::start(&case.image, &mut [0; WORDS]);
    let (line, l, m) = (any_line(rng), rng.word(), rng.word());
    let mut first = plain_run(rng, 2 * count + 2);
    first.machine = Some(machine);
    first.store_patches = process(rng, RECORDS[0], 131, l);
    // The line is open in the trap process, and goes to the first one.
    first.store_patches.extend([
        (RECORDS[0] + 3, m & !bit(line)),
        (HELD as u16, 0),
        (target_word(line), machine.p),
        (14, RECORDS[0]),
    ]);
    let whole = CaseRun {
        budget: 300,
        ..first.clone()
    };
    case.runs.push(first);
    // The trap, and the divisor.
    push(rng, &mut case, None, 1);
    push(rng, &mut case, None, 3);
    if by_transfer {
        push(rng, &mut case, None, 2);
        push(rng, &mut case, None, 1);
    } else {
        push(rng, &mut case, Some(bit(line)), 1);
    }
    push(rng, &mut case, None, 99);
    case.runs.push(whole);
    case
}

/// Adds a run with the machine of the run before.
fn push(rng: &mut Rng, case: &mut Case, requests: Option<u16>, budget: usize) {
    let run = plain_run(rng, budget);
    case.runs.push(CaseRun { requests, ..run });
}

/// A channel and other words, each of them saved; a quotient, whose divisor is 0; the
/// words restored and added to it; the sum to the output.
fn expression(rng: &mut Rng, count: usize) -> Source {
    let mut code = Vec::new();
    for _ in 0..count {
        code.extend([rng.below(16) as u8, STORE]);
    }
    code.extend([rng.below(16) as u8, 0, UDIV]);
    for _ in 1..count {
        code.extend([LODFW, UADD]);
    }
    code.extend([LODFW, WRITE, RTN]);
    Source::plain(&code)
}

/// Writes the divisor and transfers to the process in word 15, again and again. The 0 is
/// saved behind the words and their counts.
fn handler(rng: &mut Rng, count: usize) -> Source {
    let s = 128 + 2 * 3 + 12 + 2 * count as u16;
    let divisor = rng.within(1, 9) as u16;
    let mut code = write(s, divisor).to_vec();
    code.extend([LIB, 14, LIB, 15, TRA, 1]);
    let back = code.len() as u8 + 1;
    code.extend([JPB, back]);
    Source::plain(&code)
}
