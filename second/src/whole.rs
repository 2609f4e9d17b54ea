//! What cases reach of A.3: why code is not whole, where that is found, and the
//! place of 13 between 7 and 8.

use crate::case::{Case, Outcome};
use crate::coverage::{named, Reached};
use crate::depths::{entry_marks, first_marks, has_depths};
use crate::image::{parse, Program};
use crate::mark::UNMARKED;
use crate::number::*;
use crate::opcode::*;
use crate::walk::{self, first_fault, lowest_fault, successors, Cause, Fault, Named, Way};
use std::collections::VecDeque;

/// Counts of what was reached; each must be.
#[derive(Default)]
pub struct Whole {
    /// Images refused with 13, by [`Cause::ALL`].
    causes: [u64; Cause::ALL.len()],
    /// The same, by [`OPCODES`].
    opcodes: [[u64; 8]; OPCODES.len()],
    /// The same, by [`PLACES`].
    places: [u64; PLACES.len()],
    /// Other images, by [`BESIDE`].
    beside: [u64; BESIDE.len()],
}

const NO_MODULE: Cause = Cause::NoSuch(Named::Module);
const NO_PROCEDURE: Cause = Cause::NoSuch(Named::Procedure);
const NO_TARGET: Cause = Cause::SuccessorOutside(Way::Target);
const NO_NEXT: Cause = Cause::SuccessorOutside(Way::Next);

/// The causes that belong to a few opcodes, and these; and two of those that can
/// lack a next position. CL1 stands for all calls from it up to CL15.
const OPCODES: [(&str, Cause, &[u8]); 4] = [
    (
        "images refused with 13 for no such module at",
        NO_MODULE,
        &NAMING,
    ),
    (
        "images refused with 13 for no such procedure at",
        NO_PROCEDURE,
        &[CX, CI, CL, CL1],
    ),
    (
        "images refused with 13 for a target outside at",
        NO_TARGET,
        &[JPC, JP, JPFC, JPF, JPBC, JPB, ORJP, ANDJP],
    ),
    (
        "images refused with 13 for a next position outside at",
        NO_NEXT,
        &[STORE, LODFW],
    ),
];

/// Whether a refused image is of a kind.
type Test = fn(&NotWhole) -> bool;

/// Where 13 finds its position.
const PLACES: [(&str, Test); 11] = [
    ("in a module other than 0", |it| it.fault.module > 0),
    ("at a position above 255", |it| it.fault.position > 255),
    ("before a module at fault at a lower position", |it| {
        let mut later = it.fault.module + 1..it.program.modules.len();
        later.any(|module| {
            lowest_fault(it.program, it.image, module)
                .is_some_and(|other| other.position < it.fault.position)
        })
    }),
    ("after a module without depths that fit", |it| {
        (0..it.fault.module).any(|module| !has_depths(it.program, it.image, module))
    }),
    ("below the first fault that a queue finds", |it| {
        it.is_below_the_first(Order::Queue)
    }),
    ("below the first fault that a stack finds", |it| {
        it.is_below_the_first(Order::Stack)
    }),
    ("only behind a load, store or address at fault", |it| {
        it.is_only_behind(|opcode, cause| cause == NO_MODULE && opcode != CX)
    }),
    ("only behind a call at fault", |it| {
        it.is_only_behind(|opcode, cause| match cause {
            Cause::NoSuch(_) => opcode == CX || cause == NO_PROCEDURE,
            _ => false,
        })
    }),
    ("only behind a jump to a target outside", |it| {
        it.is_only_behind(|_, cause| cause == NO_TARGET)
    }),
    ("only behind a jump without a next position", |it| {
        it.is_only_behind(|_, cause| cause == NO_NEXT)
    }),
    ("only without regard to depth", |it| {
        it.is_reached(|_, _| true) && !it.is_reached_with_depths()
    }),
];

/// The refusals between which 13 stands.
const BESIDE: [&str; 2] = ["7 though the code is not whole", "8 with whole code"];

impl Whole {
    /// Adds a case and what load answered.
    pub fn add(&mut self, case: &Case, outcome: &Outcome) {
        let Ok(program) = parse(&case.image) else {
            return;
        };
        let fault = first_fault(&program, &case.image);
        match (outcome.load.number, fault) {
            (MAP_SHORT, Some(_)) => self.beside[0] += 1,
            (NO_DEPTHS, None) => self.beside[1] += 1,
            (NOT_WHOLE, Some(fault)) => self.add_fault(&NotWhole {
                program: &program,
                image: &case.image,
                code: &case.image[program.modules[fault.module].code_range()],
                fault,
            }),
            _ => {}
        }
    }

    fn add_fault(&mut self, it: &NotWhole) {
        for (count, cause) in self.causes.iter_mut().zip(Cause::ALL) {
            *count += u64::from(cause == it.fault.cause);
        }
        let opcode = match it.code[it.fault.position] {
            CL1..=CL15 => CL1,
            opcode => opcode,
        };
        for (counts, (_, cause, opcodes)) in self.opcodes.iter_mut().zip(OPCODES) {
            for (count, &other) in counts.iter_mut().zip(opcodes) {
                *count += u64::from((cause, other) == (it.fault.cause, opcode));
            }
        }
        for (count, (_, is_so)) in self.places.iter_mut().zip(PLACES) {
            *count += u64::from(is_so(it));
        }
    }

    /// The lines of the report: what was reached, its kinds and their counts.
    pub fn reached(&self) -> Vec<Reached> {
        let causes = Cause::ALL.map(|cause| cause.to_string());
        let places = PLACES.map(|(name, _)| name);
        let mut lines = vec![("images refused with 13 for", named(&causes, &self.causes))];
        for ((title, _, opcodes), counts) in OPCODES.iter().zip(&self.opcodes) {
            let names: Vec<&str> = opcodes.iter().map(|&opcode| row(opcode).mnemonic).collect();
            lines.push((title, named(&names, counts)));
        }
        lines.push(("images refused with 13", named(&places, &self.places)));
        lines.push(("images refused with", named(&BESIDE, &self.beside)));
        lines
    }
}

/// An image whose code is not whole.
struct NotWhole<'a> {
    program: &'a Program,
    image: &'a [u8],
    /// That of the module at fault.
    code: &'a [u8],
    fault: Fault,
}

/// The order in which a worklist is visited, from entry 0 on.
#[derive(Clone, Copy, PartialEq)]
enum Order {
    Queue,
    Stack,
}

impl NotWhole<'_> {
    fn cause(&self, position: usize) -> Option<Cause> {
        walk::cause(self.program, self.fault.module, self.code, position)
    }

    /// The positions that the entries lead to, as they are visited. Nothing is
    /// followed behind an opcode and a cause that end the way.
    fn visited(&self, order: Order, ends: impl Fn(u8, Cause) -> bool) -> Vec<usize> {
        let procedures = self.program.procedures(self.fault.module).iter();
        let mut worklist: VecDeque<usize> = procedures
            .map(|procedure| usize::from(procedure.entry))
            .collect();
        if order == Order::Stack {
            worklist.make_contiguous().reverse();
        }
        let take = |worklist: &mut VecDeque<usize>| match order {
            Order::Queue => worklist.pop_front(),
            Order::Stack => worklist.pop_back(),
        };
        let mut seen = vec![false; self.code.len()];
        let mut visited = Vec::new();
        while let Some(position) = take(&mut worklist) {
            if std::mem::replace(&mut seen[position], true) {
                continue;
            }
            visited.push(position);
            let ended = |cause: Cause| ends(self.code[position], cause);
            if !self.cause(position).is_some_and(ended) {
                worklist.extend(successors(self.code, position).into_iter().flatten());
            }
        }
        visited
    }

    /// Whether the entries lead to the position named.
    fn is_reached(&self, ends: impl Fn(u8, Cause) -> bool) -> bool {
        let visited = self.visited(Order::Queue, ends);
        visited.contains(&self.fault.position)
    }

    /// Whether they lead to it only behind another one, of such an opcode and
    /// with such a cause. That one is higher, as the lowest is named.
    fn is_only_behind(&self, others: impl Fn(u8, Cause) -> bool) -> bool {
        !self.is_reached(others)
    }

    /// Whether another fault is found before it, neither of them behind one.
    fn is_below_the_first(&self, order: Order) -> bool {
        let visited = self.visited(order, |_, _| true);
        let is_fault = |position: &&usize| self.cause(**position).is_some();
        visited.contains(&self.fault.position)
            && visited.iter().find(is_fault) != Some(&self.fault.position)
    }

    /// Whether the depth rules lead to it, if each position has the first mark
    /// that it gets.
    fn is_reached_with_depths(&self) -> bool {
        let module = self.fault.module;
        let entries = entry_marks(self.program, module);
        first_marks(self.program, module, self.code, &entries)[self.fault.position] != UNMARKED
    }
}
