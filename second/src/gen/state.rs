//! Machines and stores that no program need have made: every register and
//! every word that decides something is set by hand.

use super::code::{program, some_double, some_word, Shape, PROCESS_NAMES, PROCESS_NAME_COUNT};
use super::rng::Rng;
use super::unsigned::any_operands;
use crate::api;
use crate::assemble::{encode, Source};
use crate::case::CaseRun;
use crate::collisions::{record, saved_stack};
use crate::image::{parse, Program};
use crate::machine::Machine;
use crate::mark::{Mark, Saved, MOST};
use crate::opcode::{self, *};
use crate::pair::first_address;
use std::ops::Range;

/// An accepted program and the length of its store.
pub struct World {
    pub image: Vec<u8>,
    pub map: Vec<u32>,
    pub words: usize,
    program: Program,
    places: Vec<Place>,
}

/// A marked position.
#[derive(Clone, Copy)]
pub struct Place {
    pub module: u8,
    pub position: u16,
    pub mark: Mark,
    pub opcode: u8,
}

impl World {
    /// A random program.
    pub fn new(rng: &mut Rng, shape: &Shape) -> World {
        let modules = program(rng, shape);
        World::of(rng, shape, &modules)
    }

    /// A program of this shape.
    pub fn of(rng: &mut Rng, shape: &Shape, modules: &[Source]) -> World {
        let mut world = World::least(modules);
        let least = world.words;
        world.words = match rng.below(8) {
            // A careful program wants room for its frames.
            1.. if shape.careful && shape.opcodes.is_empty() => least + rng.within(500, 4000),
            0 | 1 => least,
            2..=4 => least + rng.below(80),
            5 if rng.once_in(shape.large_stores) => 65_535,
            _ => least + rng.within(200, 2000),
        };
        world
    }

    /// A program with the least store that start accepts. Panics if load does not
    /// accept it: the generator would be wrong.
    pub fn least(modules: &[Source]) -> World {
        let image = encode(modules);
        let mut map = vec![0; image.len()];
        let number = api::load(&image, &mut map).number;
        assert_eq!(number, 0, "the generator wrote a program that load refuses");
        let program = parse(&image).expect("load has parsed it");
        let places = places(&program, &image, &map);
        World {
            image,
            map,
            words: program.z as usize + Machine::LEAST_BEYOND_Z,
            program,
            places,
        }
    }

    /// Lets the store end at a pair of this opcode that a module's base
    /// addresses, if there is one: mostly inside it, else before or after it.
    pub fn end_at_pair(&mut self, rng: &mut Rng, opcode: u8) {
        let least = self.least_words();
        let beyond = |place: &Place| self.fixed_pair(place).is_some_and(|first| first >= least);
        let place = self.place_where(rng, |place| place.opcode == opcode && beyond(place));
        if let Some(first) = place.and_then(|place| self.fixed_pair(&place)) {
            self.words = first + rng.pick(&[0, 0, 1, 1, 1, 2]);
        }
    }

    /// The first address of the pair at a place, where a module's base and the
    /// operands alone decide it.
    fn fixed_pair(&self, place: &Place) -> Option<usize> {
        let machine = Machine {
            module: place.module,
            pc: place.position,
            ..Machine::default()
        };
        match place.opcode {
            LGD | LED | SGD | SED => first_address(&self.program, &self.image, &machine),
            _ => None,
        }
        .map(usize::from)
    }

    /// "Z is the word after the last module."
    pub fn z(&self) -> usize {
        self.program.z as usize
    }

    /// The least store that start accepts.
    pub fn least_words(&self) -> usize {
        self.z() + Machine::LEAST_BEYOND_Z
    }

    /// An entry, a TRAP or any marked position, for another procedure to share.
    pub fn place_to_share(&self, rng: &mut Rng, at_entry: bool) -> Place {
        let is_entry = |place: &Place| {
            let mut procedures = self.program.procedures(place.module.into()).iter();
            procedures.any(|procedure| procedure.entry == place.position)
        };
        let place = match rng.below(4) {
            _ if at_entry => self.place_where(rng, is_entry),
            0 => self.place_where(rng, is_entry),
            1 => self.place_where(rng, |place| place.opcode == TRAP),
            _ => None,
        };
        place.unwrap_or_else(|| self.any_place(rng))
    }

    /// The offset of a marked position in the map, and its mark.
    pub fn any_mark(&self, rng: &mut Rng) -> (usize, Mark) {
        self.mark_at(self.any_place(rng))
    }

    /// The same of a position with as many saved depths as these, if there is
    /// one.
    pub fn mark_for(&self, rng: &mut Rng, saved: Saved) -> (usize, Mark) {
        let count = saved.depths().len();
        let place = self.place_where(rng, |place| place.mark.saved.depths().len() == count);
        self.mark_at(place.unwrap_or_else(|| self.any_place(rng)))
    }

    fn mark_at(&self, place: Place) -> (usize, Mark) {
        let module = &self.program.modules[usize::from(place.module)];
        (module.code_start + usize::from(place.position), place.mark)
    }

    pub fn any_place(&self, rng: &mut Rng) -> Place {
        rng.pick(&self.places)
    }

    /// A place that satisfies the condition, if there is one.
    pub fn place_where(&self, rng: &mut Rng, condition: impl Fn(&Place) -> bool) -> Option<Place> {
        let found: Vec<Place> = self.places.iter().copied().filter(condition).collect();
        (!found.is_empty()).then(|| rng.pick(&found))
    }

    /// The code of a place's module from the place on.
    pub fn code(&self, place: Place) -> &[u8] {
        let range = self.program.modules[usize::from(place.module)].code_range();
        &self.image[range][usize::from(place.position)..]
    }

    pub fn base(&self, module: u8) -> u16 {
        self.program.modules[usize::from(module)].base as u16
    }

    /// An address of the store, seldom none.
    fn address(&self, rng: &mut Rng) -> u16 {
        match rng.below(12) {
            0 => (self.words + rng.below(3)) as u16,
            1 => (self.words - 1) as u16,
            2 => some_word(rng),
            _ => rng.below(self.words) as u16,
        }
    }

    /// The same for an operand: more often none.
    fn operand_address(&self, rng: &mut Rng) -> u16 {
        match rng.below(3) {
            0 => (self.words + rng.below(3)) as u16,
            _ => self.address(rng),
        }
    }

    /// Sets a run's machine at a marked position, of this opcode or of any
    /// listed one, and store words to go with it.
    pub fn set_state(&self, rng: &mut Rng, opcode: Option<u8>, run: &mut CaseRun) {
        let opcode = opcode.unwrap_or_else(|| self.any_opcode(rng));
        let right = |place: &Place| place.opcode == opcode;
        // A pair that the store's end cuts is preferred.
        let cut = |place: &Place| right(place) && self.fixed_pair(place) == Some(self.words - 1);
        let place = self
            .place_where(rng, cut)
            .filter(|_| rng.once_in(2))
            .or_else(|| self.place_where(rng, right))
            .unwrap_or_else(|| self.any_place(rng));
        let mut machine = self.machine_at(rng, place);
        for _ in 0..rng.below(4) {
            // The base copy is only data.
            let address = match rng.below(4) {
                0 => Machine::BASE_COPY + rng.below(3),
                _ => rng.below(self.words),
            };
            run.store_patches.push((address as u16, some_word(rng)));
        }
        match place.opcode {
            opcode::TRA => self.set_transfer(rng, &mut machine, run),
            opcode::RTN => self.set_return(rng, &mut machine, run),
            opcode::STORE => set_limit(rng, &mut machine),
            opcode::LODFW => set_saved(rng, place.mark.saved, &mut machine, run),
            opcode if PAIRS.contains(&opcode) => self.set_pair(rng, opcode, &mut machine, run),
            opcode => self.set_operands(rng, opcode, &mut machine),
        }
        run.machine = Some(machine);
    }

    fn any_opcode(&self, rng: &mut Rng) -> u8 {
        loop {
            let opcode = rng.byte();
            if opcode::row(opcode).length != 0 {
                return opcode;
            }
        }
    }

    pub fn machine_at(&self, rng: &mut Rng, place: Place) -> Machine {
        let highest = self.words - usize::from(Machine::MARGIN);
        let h = match rng.below(3) {
            0 => rng.within(0, highest),
            _ => highest,
        };
        let s = match rng.below(3) {
            0 | 1 => h - rng.below(8).min(h),
            _ => rng.within(0, h),
        };
        let p = match rng.below(3) {
            0 => rng.within(0, self.words - Machine::RECORD),
            1 => self.words - Machine::RECORD,
            _ => self.program.z as usize,
        };
        let l = match rng.below(8) {
            0 => self.address(rng),
            1..=3 => (self.words + rng.below(30)) as u16,
            4 => h as u16,
            _ => rng.within(0, h) as u16,
        };
        let mut machine = Machine {
            module: place.module,
            pc: place.position,
            depth: place.mark.depth,
            p: p as u16,
            l,
            s: s as u16,
            h: h as u16,
            m: rng.word(),
            stack: [0; 16],
        };
        for word in &mut machine.stack[..usize::from(place.mark.depth)] {
            *word = some_word(rng);
        }
        machine
    }

    /// A pair, and words where it lies.
    fn set_pair(&self, rng: &mut Rng, opcode: u8, machine: &mut Machine, run: &mut CaseRun) {
        let first = |machine: &Machine| {
            first_address(&self.program, &self.image, machine).unwrap_or_default()
        };
        let by = self.pair_address(rng).wrapping_sub(first(machine));
        let move_it = |base: &mut u16| *base = base.wrapping_add(by);
        let depth = usize::from(machine.depth);
        match opcode {
            LLD | SLD => move_it(&mut machine.l),
            LSD | LSD0 => move_it(&mut machine.stack[depth - 1]),
            SSD | SSD0 => move_it(&mut machine.stack[depth - 3]),
            // A module's base stays.
            _ => {}
        }
        let first = first(machine);
        for address in [first, first.wrapping_add(1)] {
            if usize::from(address) < self.words {
                run.store_patches.push((address, rng.word()));
            }
        }
    }

    /// An address of a pair, often at the store's end.
    fn pair_address(&self, rng: &mut Rng) -> u16 {
        let end = self.words as u16;
        match rng.below(8) {
            // The last pair, and the one that the end cuts.
            0 => end - 2,
            1 | 2 => end - 1,
            3 | 4 => rng.pick(&[end, 65_534, 65_535]),
            // A sum that has wrapped.
            5 => rng.below(4) as u16,
            _ => self.address(rng),
        }
    }

    /// Mostly good words for an opcode that takes some.
    fn set_operands(&self, rng: &mut Rng, opcode: u8, machine: &mut Machine) {
        let depth = usize::from(machine.depth);
        let mut set = |from_top: usize, word: u16| machine.stack[depth - from_top] = word;
        if rng.once_in(4) {
            return;
        }
        match opcode {
            0o140..=0o157 | 0o200 => set(1, self.operand_address(rng)),
            0o160..=0o177 | 0o220 => set(2, self.operand_address(rng)),
            0o205 | 0o206 => {
                let index = some_word(rng);
                let words = if opcode == 0o205 { index / 2 } else { index };
                set(1, index);
                set(2, self.operand_address(rng).wrapping_sub(words));
            }
            0o225 | 0o226 => {
                let index = some_word(rng);
                let words = if opcode == 0o225 { index / 2 } else { index };
                set(2, index);
                set(3, self.operand_address(rng).wrapping_sub(words));
            }
            0o240 => {
                set(1, channel(rng));
                set(2, self.operand_address(rng));
            }
            0o241 => set(2, channel(rng)),
            0o245 | 0o305 => {
                let low = some_word(rng);
                let high = low.wrapping_add(rng.below(50) as u16);
                set(1, high);
                set(2, low);
                set(3, low.wrapping_add(rng.below(60) as u16).wrapping_sub(4));
            }
            0o306 => {
                let high = some_word(rng);
                set(1, high);
                set(2, high.wrapping_add(rng.below(5) as u16).wrapping_sub(3));
            }
            UADD | USUB | UMUL => {
                let (c, a) = any_operands(rng, opcode);
                set(1, a);
                set(2, c);
            }
            0o273 | 0o274 => set(1, rng.pick(&[0, 0, 1, 2])),
            0o330..=0o333 => {
                let (c, a) = signed_operands(rng, opcode);
                set(1, a);
                set(2, c);
            }
            0o275..=0o277 => set(1, rng.below(20) as u16),
            0o310..=0o315 | 0o252..=0o255 => {
                let word = some_word(rng);
                set(1, word);
                set(2, word.wrapping_add(rng.pick(&[0, 1, 65_535, 0x8000])));
            }
            0o316 | 0o317 => set(1, rng.pick(&[0x8000, 0x8000, 0x8000, 0x7FFF, 0xFFFF, 5])),
            DADD | DSUB => {
                let lower = some_double(rng);
                let any = some_double(rng);
                // Others make a sum or a difference of nearly 0.
                let upper = rng.pick(&[any, any, lower, lower.wrapping_neg()]);
                let upper = upper.wrapping_add(rng.pick(&[0, 1, u32::MAX]));
                set(1, upper as u16);
                set(2, (upper >> 16) as u16);
                set(3, lower as u16);
                set(4, (lower >> 16) as u16);
            }
            _ => {}
        }
    }

    /// Return marks: good ones here and far, the end, and each bad kind.
    fn set_return(&self, rng: &mut Rng, machine: &mut Machine, run: &mut CaseRun) {
        if rng.once_in(12) {
            // L above H, or anywhere.
            let anywhere = some_word(rng);
            machine.l = rng.pick(&[machine.h.wrapping_add(1), 65_535, anywhere]);
        } else {
            machine.l = rng.within(0, usize::from(machine.h)) as u16;
        }
        if usize::from(machine.l) + 3 > self.words {
            return;
        }
        let same_depth = |place: &Place| place.mark.depth == machine.depth;
        let place = match rng.below(3) {
            0 => Some(self.any_place(rng)),
            1 => self.place_where(rng, |place| {
                same_depth(place) && place.module == machine.module
            }),
            _ => self.place_where(rng, same_depth),
        };
        let place = place.unwrap_or_else(|| self.any_place(rng));
        let base = self.base(place.module);
        let far = place.position | Machine::FAR;
        let (base, position) = match rng.below(12) {
            0 => (base, Machine::END_MARK),
            1 => (some_word(rng), some_word(rng)),
            2 => (base.wrapping_add(1), far),
            3 => (base, far.wrapping_add(1)),
            4 => (base, 0xFFFF),
            5 | 6 => (some_word(rng), place.position),
            7 if machine.module == place.module => (base, place.position),
            _ => (base, far),
        };
        let l = machine.l;
        let link = self.address(rng);
        run.store_patches
            .extend([(l, base), (l + 1, link), (l + 2, position)]);
    }

    /// Processes to transfer to, good and bad, and words that collide.
    fn set_transfer(&self, rng: &mut Rng, machine: &mut Machine, run: &mut CaseRun) {
        let last_record = self.words - Machine::RECORD;
        let saved = saved_stack(machine, machine.depth - 2);
        if rng.once_in(6) {
            machine.p = near(rng, &saved, 6).min(last_record) as u16;
        }
        let own = record(machine.p);
        let q = match rng.below(8) {
            0 => machine.p.into(),
            1 => near(rng, &own, 6),
            2 => near(rng, &saved, 6),
            3 => last_record,
            _ => rng.below(last_record),
        }
        .min(last_record) as u16;
        let mut patches = self.process(rng, q, &[&own, &saved]);
        let stack = usize::from(patches[6].0)..usize::from(patches[4].1);
        if rng.once_in(3) {
            self.spoil_process(rng, q, &mut patches);
        }
        let to = self.address(rng);
        let from = match rng.below(8) {
            0 => near(rng, &own, 1) as u16,
            1 => near(rng, &saved, 1) as u16,
            2 => near(rng, &record(q), 1) as u16,
            3 => near(rng, &stack, 1) as u16,
            4 => to,
            _ => self.address(rng),
        };
        let depth = usize::from(machine.depth);
        machine.stack[depth - 1] = to;
        machine.stack[depth - 2] = from;
        // The name of the process mostly comes last, so that it stays.
        let named = if rng.once_in(16) {
            self.address(rng)
        } else {
            q
        };
        let index = if rng.once_in(6) { 0 } else { patches.len() };
        patches.insert(index, (to, named));
        let inside = |&(address, _): &(u16, u16)| usize::from(address) < self.words;
        run.store_patches
            .extend(patches.iter().filter(|p| inside(p)));
    }

    /// A place to go on at, often one without words, with the most, or where
    /// others are saved.
    pub fn place_to_resume(&self, rng: &mut Rng) -> Place {
        let place = match rng.below(6) {
            0 | 1 => self.place_where(rng, |place| place.mark.depth == 0),
            2 | 3 => self.place_where(rng, |place| place.mark.depth == MOST),
            4 => self.place_where(rng, |place| place.mark.saved != Saved::NONE),
            _ => None,
        };
        place.unwrap_or_else(|| self.any_place(rng))
    }

    /// The store words of a good process: its record of six words, then its
    /// stack, which often lies over one of the ranges given.
    pub fn process(&self, rng: &mut Rng, q: u16, over: &[&Range<usize>]) -> Vec<(u16, u16)> {
        let place = self.place_to_resume(rng);
        let highest = self.words - usize::from(Machine::MARGIN);
        let depth = usize::from(place.mark.depth);
        let lowest = match over {
            [_, ..] if rng.once_in(3) => {
                let range = rng.pick(over);
                near(rng, range, depth + 1).min(highest)
            }
            _ => rng.within(0, highest),
        };
        let between = rng.within(lowest, highest);
        let h = rng.pick(&[lowest, highest, between]);
        let s = lowest + depth + 1;
        let v = h + usize::from(Machine::MARGIN);
        let record = [
            self.base(place.module),
            self.address(rng),
            place.position,
            rng.word(),
            s as u16,
            v as u16,
        ];
        let mut patches: Vec<(u16, u16)> = (q..=u16::MAX).zip(record).collect();
        // The words below the count may lie over the record; that is random
        // enough. The count is the last, so that it stays.
        for i in 0..depth {
            patches.push(((lowest + i) as u16, some_word(rng)));
        }
        patches.push(((s - 1) as u16, depth as u16));
        patches
    }

    /// Breaks one of the conditions of trap 35.
    pub fn spoil_process(&self, rng: &mut Rng, q: u16, patches: &mut Vec<(u16, u16)>) {
        let words = self.words as u16;
        let (s, v) = (patches[4].1, patches[5].1);
        let count = patches.len() - 1;
        match rng.below(10) {
            0 => patches[0].1 = patches[0].1.wrapping_add(1),
            1 => patches[2].1 = patches[2].1.wrapping_add(1),
            2 => patches[2].1 = rng.word(),
            3 => patches[4].1 = rng.pick(&[0, words.wrapping_add(1), 65_535]),
            4 => patches[5].1 = rng.pick(&[0, 23, words.wrapping_add(1), 65_535]),
            // s − 1 − k is just above v − 24.
            5 => patches[5].1 = (s - 1 - patches[count].1) + Machine::MARGIN - 1,
            6 => patches[count].1 = rng.pick(&[17, 255, 65_535, patches[count].1 + 1]),
            // k is s or more.
            7 => {
                patches[4].1 = 3;
                patches.push((2, 3));
            }
            8 => patches[5].1 = v.wrapping_sub(1),
            _ => {
                // The record is cut off by the store's end.
                let shift = words.wrapping_sub(7).wrapping_sub(q);
                patches.iter_mut().take(6).for_each(|(address, _)| {
                    *address = address.wrapping_add(shift);
                });
            }
        }
    }

    /// Store words that name processes for the transfers of a program.
    pub fn processes(&self, rng: &mut Rng) -> Vec<(u16, u16)> {
        let mut patches = Vec::new();
        for name in 0..4 {
            let record = PROCESS_NAMES + PROCESS_NAME_COUNT + 8 * name;
            let q = match rng.below(5) {
                0 => self.program.z as u16,
                1 => some_word(rng),
                _ => {
                    patches.extend(self.process(rng, record, &[]));
                    record
                }
            };
            patches.push((PROCESS_NAMES + name, q));
        }
        patches
    }
}

/// Words c and a for a signed operator: often a zero divisor, or a result outside.
fn signed_operands(rng: &mut Rng, opcode: u8) -> (u16, u16) {
    const LIMITS: [u16; 9] = [0x8000, 0x7FFF, 0xFFFF, 1, 0, 2, 0x8001, 180, 0xFF00];
    let (c, a) = (rng.pick(&LIMITS), rng.pick(&LIMITS));
    let outside = match opcode {
        0o330 => [(0x7FFF, 1), (0x8000, 0xFFFF)],
        0o331 => [(0x8000, 1), (0x7FFF, 0xFFFF)],
        0o332 => [(0x8000, 0xFFFF), (0x7FFF, 0x7FFF)],
        _ => [(0x8000, 0xFFFF); 2],
    };
    match rng.below(3) {
        0 => (c, 0),
        1 => rng.pick(&outside),
        _ => (c, a),
    }
}

/// A channel, or seldom the first number above them.
fn channel(rng: &mut Rng) -> u16 {
    match rng.below(4) {
        0 => 16,
        _ => rng.below(16) as u16,
    }
}

/// S often just below H, for a STORE.
fn set_limit(rng: &mut Rng, machine: &mut Machine) {
    let words = u16::from(machine.depth) + 1;
    let below = words + rng.pick(&[0, 0, 1]) - rng.pick(&[0, 0, 1]);
    if rng.once_in(2) {
        machine.s = machine.h.saturating_sub(below);
    }
}

/// Saved words for a LODFW. Seldom there is another count, or S is too low, or
/// just high enough.
pub fn set_saved(rng: &mut Rng, saved: Saved, machine: &mut Machine, run: &mut CaseRun) {
    let front = u16::from(saved.front().unwrap_or_default());
    let s = match rng.below(8) {
        0 => rng.within(0, front.into()) as u16,
        1 => front + 1,
        _ if machine.s <= front => rng.within(0, machine.h.into()) as u16,
        _ => machine.s,
    };
    machine.s = s.min(machine.h);
    let Some(count) = machine.s.checked_sub(1) else {
        return;
    };
    let other = rng.pick(&[front + 1, front.wrapping_sub(1), front | 0x100, 16, 17, 0]);
    let word = if rng.once_in(6) { other } else { front };
    let lowest = count.saturating_sub(front);
    let words = (lowest..count).map(|address| (address, some_word(rng)));
    run.store_patches.extend(words);
    run.store_patches.push((count, word));
}

/// The first of so many words that lie over a range, or just beside it.
pub fn near(rng: &mut Rng, range: &Range<usize>, length: usize) -> usize {
    rng.within(range.start.saturating_sub(length), range.end)
}

fn places(program: &Program, image: &[u8], map: &[u32]) -> Vec<Place> {
    let mut places = Vec::new();
    for (number, module) in program.modules.iter().enumerate() {
        for position in 0..module.code_length {
            if let Some(mark) = Mark::decode(map[module.code_start + position]) {
                places.push(Place {
                    module: number as u8,
                    position: position as u16,
                    mark,
                    opcode: image[module.code_start + position],
                });
            }
        }
    }
    places
}
