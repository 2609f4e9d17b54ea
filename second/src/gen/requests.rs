//! Cases of A.7: several lines in a word of requests, and the word handed on from
//! one run to the next.

use super::lines::{
    any_line, line_world, literal, machine, over, place, spoil, step, two_lines, Process,
};
use super::rng::Rng;
use super::state::{Place, World};
use super::{case_of, plain_run, words, Scale};
use crate::api;
use crate::assemble::{encode, Source};
use crate::case::{Case, CaseRun};
use crate::image::MOST_MODULES;
use crate::machine::Machine;
use crate::opcode::{RTN, SSW0, TRA};
use crate::request::*;

/// Two lines and their processes, both at a literal.
struct Both {
    world: World,
    high: Process,
    low: Process,
    case: Case,
}

impl Both {
    /// A case with both processes, and a run without a budget that sets them up.
    fn new(rng: &mut Rng, scale: &Scale) -> Both {
        let world = line_world(rng, scale);
        let (high, low) = two_lines(rng);
        let case = case_of(rng, world.image.clone(), world.words);
        let [high, low] = [(0, high), (1, low)].map(|(number, line)| {
            let place = literal(rng, &world);
            Process::new(rng, &world, number, line, place)
        });
        let mut both = Both {
            world,
            high,
            low,
            case,
        };
        let lines = both.lines();
        both.high.m &= !lines;
        both.low.m &= !lines;
        let mut run = plain_run(rng, 0);
        run.store_patches = both.patches(rng).concat();
        both.case.runs.push(run);
        both
    }

    fn patches(&self, rng: &mut Rng) -> [Vec<(u16, u16)>; 2] {
        [self.high, self.low].map(|process| process.patches(rng, &self.world))
    }

    /// The bits of both lines.
    fn lines(&self) -> u16 {
        bit(self.high.line) | bit(self.low.line)
    }

    /// A machine at a literal, with an M that has these of both lines.
    fn machine(&self, rng: &mut Rng, masked: u16) -> Machine {
        let at = literal(rng, &self.world);
        let machine = machine(rng, &self.world, at);
        let m = machine.m & !self.lines() | masked;
        Machine { m, ..machine }
    }

    /// Adds a run of one step with both lines requested, some of them masked and
    /// some held.
    fn add(&mut self, rng: &mut Rng, masked: u16, held: u16) -> &mut CaseRun {
        let machine = self.machine(rng, masked);
        let requests = self.lines() | rng.word() & !LINES;
        let held = rng.word() & !self.lines() | held;
        let run = step(rng, machine, requests, held, vec![]);
        self.push(run)
    }

    /// Adds a run with what the run before returned.
    fn add_next(&mut self, rng: &mut Rng, budget: usize) -> &mut CaseRun {
        let run = plain_run(rng, budget);
        self.push(run)
    }

    fn push(&mut self, run: CaseRun) -> &mut CaseRun {
        self.case.runs.push(run);
        self.last()
    }

    fn last(&mut self) -> &mut CaseRun {
        self.case.runs.last_mut().expect("there is one")
    }

    /// A machine with four words or more, all the same, which are saved over word 3 or
    /// over the word that names the lower one's target; and what word 3 has of that
    /// line. `other` is a target too.
    fn machine_over(&self, rng: &mut Rng, kind: usize, other: u16) -> (Machine, u16) {
        let deep = |place: &Place| place.opcode < 16 && place.mark.depth >= 4;
        let at = place(rng, &self.world, deep);
        let mut machine = machine(rng, &self.world, at);
        machine.m &= !self.lines();
        let low = bit(self.low.line);
        let target = usize::from(target_word(self.low.line));
        let most = usize::from(machine.depth) - 1;
        let (mut word, mut held) = (other, 0);
        match kind {
            // A word holds the lower line.
            0 => (machine.s, word) = (rng.below(4) as u16, rng.word() | low),
            // A word lets it go.
            1 => (machine.s, word, held) = (rng.below(4) as u16, low - 1, low),
            2 => (machine.p, held) = (rng.below(4) as u16, rng.pick(&[0, low])),
            3 => machine.s = (target - rng.within(0, most)) as u16,
            // L is the word.
            4 => (machine.p, machine.l) = (target as u16 - 1, other),
            _ => machine.p = over(rng, &(target..target + 1), 6),
        }
        machine.stack[..=most].fill(word);
        (machine, held)
    }

    /// Names both targets again in the last run.
    fn set_vectors(&mut self) {
        let vectors = [self.high, self.low].map(|it| (target_word(it.line), it.q));
        self.last().store_patches.extend(vectors);
    }

    /// A place where this code is.
    fn place_of(&self, rng: &mut Rng, code: &[u8]) -> Place {
        place(rng, &self.world, |&place| {
            self.world.code(place).starts_with(code)
        })
    }

    /// A run with the lower line masked or held, from a place with these words on
    /// top.
    fn add_waiting(
        &mut self,
        rng: &mut Rng,
        at: Place,
        top: &[u16],
        (masked, held): (u16, u16),
        budget: usize,
    ) {
        let mut machine = machine(rng, &self.world, at);
        machine.m = machine.m & !self.lines() | masked;
        let depth = usize::from(machine.depth);
        machine.stack[depth - top.len()..depth].copy_from_slice(top);
        let requests = bit(self.low.line) | rng.word() & !LINES;
        let held = rng.word() & !self.lines() | held;
        let run = step(rng, machine, requests, held, vec![]);
        self.push(run).budget = budget as u32;
    }
}

/// Two lines at once: the higher one is taken and then the lower one; the higher one
/// is masked or held; M that a line brings opens or masks the lower one.
pub fn both_case(rng: &mut Rng, scale: &Scale) -> Case {
    let mut both = Both::new(rng, scale);
    let (high, low) = (bit(both.high.line), bit(both.low.line));
    both.add(rng, 0, 0);
    both.add_next(rng, 1);
    both.add(rng, 0, 0).budget = rng.within(2, 4) as u32;
    both.add(rng, high, 0);
    both.add(rng, 0, high);
    both.add(rng, low, 0);
    both.add_next(rng, 1);
    // The M of the higher one's process masks the lower one, until another machine
    // takes the word over.
    let masks = (both.high.q + 3, rng.word() | low);
    both.add(rng, 0, 0).store_patches.push(masks);
    both.add_next(rng, 1);
    let machine = both.machine(rng, 0);
    both.add_next(rng, 1).machine = Some(machine);
    both.case
}

/// Two lines at once: without a budget; in a refused run, whose word the next one
/// takes; with all others, and P as each one's target; the higher one fails; and the
/// lower one fails behind it.
pub fn failing_case(rng: &mut Rng, scale: &Scale) -> Case {
    let mut both = Both::new(rng, scale);
    both.add(rng, 0, 0).budget = 0;
    let count = rng.pick(&[0, 1, 15, 17]);
    both.add(rng, 0, 0).inputs = words(rng, count);
    both.add_next(rng, 1);
    let budget = rng.within(3, 12) as u32;
    let run = both.add(rng, 0, 0);
    let p = run.machine.expect("it was set").p;
    let vectors = (FIRST..=LAST).map(|line| (target_word(line), p));
    run.store_patches.extend(vectors);
    run.requests = run.requests.map(|requests| requests | LINES);
    run.budget = budget;
    for spoiled in 0..2 {
        let mut patches = both.patches(rng);
        spoil(rng, &both.world, &mut patches[spoiled]);
        let budget = rng.within(2, 9) as u32;
        let run = both.add(rng, 0, 0);
        run.store_patches.extend(patches.concat());
        run.budget = budget;
    }
    both.case
}

/// What the higher line saves lies over word 3 or over the word that names the lower
/// one's target. Both are steps of one run, or of two.
pub fn over_case(rng: &mut Rng, scale: &Scale, round: usize) -> Case {
    let mut both = Both::new(rng, scale);
    // Another process for the lower one.
    let place = literal(rng, &both.world);
    let other = Process::new(rng, &both.world, 2, both.low.line, place);
    let patches = other.patches(rng, &both.world);
    both.case.runs[0].store_patches.splice(0..0, patches);
    for kind in 0..6 {
        let (machine, held) = both.machine_over(rng, kind, other.q);
        both.add(rng, 0, held).machine = Some(machine);
        both.set_vectors();
        if round.is_multiple_of(2) {
            both.add_next(rng, 1);
        } else {
            both.last().budget += 1;
        }
    }
    both.case
}

/// A line that waits until an instruction writes word 3 or a transfer changes M, in
/// one run or more; and one that fails then.
pub fn opened_case(rng: &mut Rng, scale: &Scale) -> Case {
    let mut both = Both::new(rng, scale);
    let low = bit(both.low.line);
    // SSW0 with 3 and 0, then the line.
    let at = place(rng, &both.world, |place| place.opcode == SSW0);
    both.add_waiting(rng, at, &[3, 0], (0, low), 1);
    both.add_next(rng, 1);
    // LI3, LI0, SSW0, the line.
    let begin = both.place_of(rng, &[3, 0, SSW0]);
    let budget = rng.within(4, 6);
    both.add_waiting(rng, begin, &[], (0, low), budget);
    both.add_waiting(rng, begin, &[], (0, low), budget);
    let garbage = (target_word(both.low.line), 65_535);
    both.last().store_patches.push(garbage);
    // TRA from M that masks the line to the higher one's process.
    let at = both.place_of(rng, &[TRA, 1]);
    let vector = target_word(both.high.line);
    for budget in [1, 2] {
        both.add_waiting(rng, at, &[vector + 1, vector], (low, 0), budget);
        both.set_vectors();
    }
    both.case
}

/// Runs that are refused, one number after another, with lines requested.
pub fn refused_case(rng: &mut Rng, turn: usize) -> Case {
    const WORDS: usize = 167;
    let kind = turn % 9;
    let mut image = encode(&[Source::plain(&[RTN])]);
    match kind {
        0 => image.clear(),
        1 => image[0] = rng.pick(&[0, MOST_MODULES + 1, 255]) as u8,
        2 => image.truncate(rng.within(1, 4)),
        3 => image.push(rng.byte()),
        4 => image[1] |= 1 << rng.within(3, 7),
        5 => image[3] = 0,
        _ => {}
    }
    let mut case = case_of(rng, image, WORDS);
    match kind {
        6 => case.map_length = rng.below(case.image.len()),
        7 => case.store_length = rng.within(1, WORDS - 1),
        _ => {}
    }
    case.runs = match kind {
        8 => lent_runs(rng, WORDS, &case.image),
        _ => vec![plain_run(rng, 5), plain_run(rng, 5)],
    };
    let lines = rng.word() | bit(any_line(rng));
    case.runs[0].requests = Some(lines);
    case
}

/// Runs refused with 10, 11 and 12, and one that is not, of an image whose code begins at
/// byte 4, with no marks at 1 and 2.
pub fn lent_runs(rng: &mut Rng, words: usize, image: &[u8]) -> Vec<CaseRun> {
    let mut runs = vec![plain_run(rng, 5); 4];
    runs[0].inputs.truncate(rng.below(16));
    let (_, machine) = api::start(image, &mut vec![0; words]);
    let pc = rng.within(1, 2) as u16;
    runs[1].machine = Some(Machine { pc, ..machine });
    runs[2].machine = Some(machine);
    // Position 0, at byte 4.
    runs[2].map_patches = vec![(4, 1)];
    runs[3].map_patches = vec![(4, 0)];
    runs
}
