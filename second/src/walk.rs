//! A.3: "Follow code from the entries without regard to depth." What is so
//! reached, and what is at fault there.

use crate::depths::jump_target;
use crate::image::Program;
use crate::opcode::{self, *};
use std::fmt;

/// Why a position is at fault. Where several causes apply, it is the first.
#[derive(Clone, Copy, Debug, PartialEq, Eq)]
pub enum Cause {
    /// "an unlisted opcode"
    UnlistedOpcode,
    /// "operands outside the code"
    OperandsOutside,
    /// "a missing module or procedure"
    NoSuch(Named),
    /// "a successor outside the code"
    SuccessorOutside(Way),
}

/// What an operand names.
#[derive(Clone, Copy, Debug, PartialEq, Eq)]
pub enum Named {
    Module,
    Procedure,
}

/// How an instruction leads to a successor.
#[derive(Clone, Copy, Debug, PartialEq, Eq)]
pub enum Way {
    /// To the target of a jump.
    Target,
    /// To the next position.
    Next,
}

impl Cause {
    /// Every cause, in the paper's order.
    pub const ALL: [Cause; 6] = [
        Cause::UnlistedOpcode,
        Cause::OperandsOutside,
        Cause::NoSuch(Named::Module),
        Cause::NoSuch(Named::Procedure),
        Cause::SuccessorOutside(Way::Target),
        Cause::SuccessorOutside(Way::Next),
    ];
}

impl fmt::Display for Cause {
    fn fmt(&self, f: &mut fmt::Formatter) -> fmt::Result {
        f.write_str(match self {
            Cause::UnlistedOpcode => "unlisted opcode",
            Cause::OperandsOutside => "operands outside the code",
            Cause::NoSuch(Named::Module) => "no such module",
            Cause::NoSuch(Named::Procedure) => "no such procedure",
            Cause::SuccessorOutside(Way::Target) => "jump to a target outside the code",
            Cause::SuccessorOutside(Way::Next) => "next position outside the code",
        })
    }
}

/// A position at fault.
#[derive(Clone, Copy, Debug, PartialEq, Eq)]
pub struct Fault {
    pub module: usize,
    pub position: usize,
    pub cause: Cause,
}

/// Where the code is not whole: "the first such module and the lowest position
/// in it".
pub fn first_fault(program: &Program, image: &[u8]) -> Option<Fault> {
    (0..program.modules.len()).find_map(|module| lowest_fault(program, image, module))
}

/// The lowest position at fault in a module.
pub fn lowest_fault(program: &Program, image: &[u8], module: usize) -> Option<Fault> {
    let code = &image[program.modules[module].code_range()];
    let reached = reached(program, image, module);
    let fault = |position: usize| {
        let cause = cause(program, module, code, position)?;
        Some(Fault {
            module,
            position,
            cause,
        })
    };
    let mut positions = (0..code.len()).filter(|&position| reached[position]);
    positions.find_map(fault)
}

/// The positions of a module's code that its entries lead to. Each is listed
/// once, so the time is linear in the code.
pub fn reached(program: &Program, image: &[u8], module: usize) -> Vec<bool> {
    let code = &image[program.modules[module].code_range()];
    let mut reached = vec![false; code.len()];
    let mut worklist = Vec::new();
    let entries = program.procedures(module).iter();
    for entry in entries.map(|procedure| usize::from(procedure.entry)) {
        reach(&mut reached, &mut worklist, entry);
    }
    while let Some(position) = worklist.pop() {
        for successor in successors(code, position).into_iter().flatten() {
            reach(&mut reached, &mut worklist, successor);
        }
    }
    reached
}

/// Lists a position the first time.
fn reach(reached: &mut [bool], worklist: &mut Vec<usize>, position: usize) {
    if !reached[position] {
        reached[position] = true;
        worklist.push(position);
    }
}

/// The successors of a position that lie in the code: "A listed instruction at
/// fault whose operands lie in the code is still followed to its successors
/// there."
pub fn successors(code: &[u8], position: usize) -> [Option<usize>; 2] {
    let Ok(next) = next_position(code, position) else {
        return [None, None];
    };
    let inside = |to: &usize| *to < code.len();
    ways(code, position, next).map(|way| way.filter(inside))
}

/// What is wrong at a position, whatever its depth.
pub fn cause(program: &Program, module: usize, code: &[u8], position: usize) -> Option<Cause> {
    let next = match next_position(code, position) {
        Ok(next) => next,
        Err(cause) => return Some(cause),
    };
    if let Some(named) = no_such(program, module, code, position) {
        return Some(Cause::NoSuch(named));
    }
    let outside = |to: Option<usize>| to.is_some_and(|to| to >= code.len());
    match ways(code, position, next).map(outside) {
        [true, _] => Some(Cause::SuccessorOutside(Way::Target)),
        [false, true] => Some(Cause::SuccessorOutside(Way::Next)),
        [false, false] => None,
    }
}

/// The position behind an instruction and its operands, where it is listed and
/// they lie in the code.
fn next_position(code: &[u8], position: usize) -> Result<usize, Cause> {
    let length = usize::from(opcode::row(code[position]).length);
    if length == 0 {
        Err(Cause::UnlistedOpcode)
    } else if position + length > code.len() {
        Err(Cause::OperandsOutside)
    } else {
        Ok(position + length)
    }
}

/// What the operands of an instruction name that does not exist.
fn no_such(program: &Program, module: usize, code: &[u8], position: usize) -> Option<Named> {
    let opcode = code[position];
    let byte = |offset: usize| usize::from(code[position + offset]);
    let (module, number) = match opcode {
        LEA | LEW | LED | SEW | SED => (byte(1), None),
        CX => (byte(1), Some(byte(2))),
        CI | CL => (module, Some(byte(1))),
        CL1..=CL15 => (module, Some(usize::from(opcode - CL))),
        _ => return None,
    };
    if module >= program.modules.len() {
        return Some(Named::Module);
    }
    let missing = |number: usize| program.procedure(module, number).is_none();
    number.is_some_and(missing).then_some(Named::Procedure)
}

/// Where an instruction leads, in the code or not: the target of a jump, and
/// the next position. A call leads to its next position; the callee's entry is
/// followed as an entry.
fn ways(code: &[u8], position: usize, next: usize) -> [Option<usize>; 2] {
    let target = || Some(jump_target(code, position));
    match code[position] {
        // "RTN and TRAP have no successor."
        RTN | TRAP => [None, None],
        JP | JPF | JPB => [target(), None],
        JPC | JPFC | JPBC | ORJP | ANDJP => [target(), Some(next)],
        _ => [None, Some(next)],
    }
}
