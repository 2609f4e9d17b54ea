//! A.3 and the fewest assignment once more, naively and from the paper's
//! sentences alone: positions are added to a set, or marks to a map, one sweep
//! after another, until nothing changes.

use crate::rig::{entry_of, FF};
use second::image::{Procedure, Program};
use std::collections::BTreeSet;

/// The bytes of an opcode's operands, or None where it is not listed.
pub fn operands(opcode: u8) -> Option<i64> {
    match opcode {
        0o023 => Some(4),
        0o022 | 0o027 | 0o030 | 0o031 | 0o042 | 0o043 | 0o062 | 0o063 | 0o355 => Some(2),
        0o020 | 0o024..=0o026 | 0o032..=0o037 => Some(1),
        0o040 | 0o041 | 0o060 | 0o061 | 0o100 | 0o101 | 0o120 | 0o121 => Some(1),
        0o200 | 0o201 | 0o220 | 0o221 | 0o256 | 0o350 | 0o353 | 0o356 | 0o360 => Some(1),
        0o000..=0o017 | 0o044..=0o057 | 0o064..=0o077 => Some(0),
        0o102..=0o117 | 0o122..=0o137 | 0o140..=0o177 => Some(0),
        0o202 | 0o205 | 0o206 | 0o210 | 0o211 | 0o222 | 0o225 | 0o226 => Some(0),
        0o240 | 0o241 | 0o245 | 0o252..=0o255 | 0o260 | 0o262 | 0o265 => Some(0),
        0o270..=0o277 => Some(0),
        0o304..=0o306 | 0o310..=0o317 | 0o320..=0o323 | 0o327..=0o333 | 0o336 => Some(0),
        0o351 | 0o354 | 0o361..=0o377 => Some(0),
        _ => None,
    }
}

/// An instruction's bytes, where it is listed and they lie in the code.
fn instruction(code: &[u8], position: i64) -> Option<&[u8]> {
    let rest = code.get(usize::try_from(position).ok()?..)?;
    let length = 1 + operands(*rest.first()?)?;
    rest.get(..length as usize)
}

/// The successors of an instruction, in the code or not.
fn successors(instruction: &[u8], position: i64) -> Vec<i64> {
    let operand = position + 1;
    let next = position + instruction.len() as i64;
    let byte = instruction.get(1).map_or(0, |&byte| i64::from(byte));
    let word = match instruction {
        [_, high, low] => i64::from(i16::from_be_bytes([*high, *low])),
        _ => 0,
    };
    match instruction[0] {
        0o030 => vec![operand + word, next],
        0o031 => vec![operand + word],
        0o032 | 0o036 | 0o037 => vec![operand + byte, next],
        0o033 => vec![operand + byte],
        0o034 => vec![operand - byte, next],
        0o035 => vec![operand - byte],
        0o304 | 0o354 => vec![],
        _ => vec![next],
    }
}

/// Whether the module and the procedure that an instruction names exist.
fn names_exist(program: &Program, module: usize, instruction: &[u8]) -> bool {
    let procedure_exists = |module: usize, number: u8| {
        module < program.modules.len() && usize::from(number) < program.procedures(module).len()
    };
    match *instruction {
        [0o027 | 0o042 | 0o043 | 0o062 | 0o063, m, _] => usize::from(m) < program.modules.len(),
        [0o355, m, n] => procedure_exists(m.into(), n),
        [0o356 | 0o360, n] => procedure_exists(module, n),
        [opcode @ 0o361..=0o377] => procedure_exists(module, opcode - 0o360),
        _ => true,
    }
}

/// The positions that a module's entries lead to, in the code or not.
pub fn reached(program: &Program, image: &[u8], module: usize) -> BTreeSet<i64> {
    let code = &image[program.modules[module].code_range()];
    let procedures = program.procedures(module).iter();
    let mut set: BTreeSet<i64> = procedures.map(|procedure| procedure.entry.into()).collect();
    loop {
        let before = set.len();
        for position in 0..code.len() as i64 {
            if set.contains(&position) {
                if let Some(instruction) = instruction(code, position) {
                    set.extend(successors(instruction, position));
                }
            }
        }
        if set.len() == before {
            return set;
        }
    }
}

/// The first module with a position at fault, and the lowest such position.
pub fn first_fault(program: &Program, image: &[u8]) -> Option<(u8, u16)> {
    for (number, module) in program.modules.iter().enumerate() {
        let code = &image[module.code_range()];
        let inside = 0..code.len() as i64;
        let is_fault = |position: i64| match instruction(code, position) {
            None => true,
            Some(instruction) => {
                let to = successors(instruction, position);
                !names_exist(program, number, instruction)
                    || to.iter().any(|successor| !inside.contains(successor))
            }
        };
        let reached = reached(program, image, number);
        let mut faults = reached.range(inside.clone()).filter(|&&p| is_fault(p));
        if let Some(&position) = faults.next() {
            return Some((number as u8, position as u16));
        }
    }
    None
}

/// A mark: depth, results, saved depths from the front.
type Mark = (i32, i32, Vec<i32>);

/// The fewest assignment of a code, for a few opcodes alone, as map entries.
pub fn fewest(code: &[u8], procedures: &[Procedure]) -> Option<Vec<u32>> {
    let mut marks: Vec<Option<Mark>> = vec![None; code.len()];
    for it in procedures {
        let mark = (it.parameters.into(), it.results.into(), vec![]);
        put(&mut marks, it.entry.into(), mark)?;
    }
    loop {
        let before = marks.clone();
        for p in 0..code.len() {
            if let Some(mark) = marks[p].clone() {
                for (target, mark) in next_marks(code, procedures, p, &mark)? {
                    put(&mut marks, target, mark)?;
                }
            }
        }
        if marks == before {
            return Some(marks.iter().map(entry).collect());
        }
    }
}

/// Sets a mark, where the position has none or this one.
fn put(marks: &mut [Option<Mark>], target: i32, mark: Mark) -> Option<()> {
    let place = marks.get_mut(usize::try_from(target).ok()?)?;
    if !(0..=16).contains(&mark.0) || mark.2.len() > 4 {
        return None;
    }
    let other = place.get_or_insert_with(|| mark.clone());
    (*other == mark).then_some(())
}

fn entry(mark: &Option<Mark>) -> u32 {
    mark.as_ref().map_or(FF, |(depth, results, saved)| {
        let saved: Vec<u32> = saved.iter().map(|&depth| depth as u32).collect();
        entry_of(*depth as u32, *results as u32, &saved)
    })
}

/// The successors of a position, with their marks.
fn next_marks(
    code: &[u8],
    procedures: &[Procedure],
    p: usize,
    (d, results, saved): &Mark,
) -> Option<Vec<(i32, Mark)>> {
    let d = *d;
    let b = code.get(p + 1).map(|&b| i32::from(b));
    let at = p as i32 + 1;
    let callee = procedures.get(1).filter(|it| i32::from(it.parameters) == d);
    let depths = match code[p] {
        0o262 => {
            let list = [&[d], &saved[..]].concat();
            return Some(vec![(at, (0, *results, list))]);
        }
        0o260 => {
            let (front, rest) = saved.split_first()?;
            let fits = d == 1 && *front <= 15;
            return fits.then(|| vec![(at, (front + 1, *results, rest.to_vec()))]);
        }
        0o354 => return (d == *results && saved.is_empty()).then(Vec::new),
        0o000..=0o017 => vec![(at, d + 1)],
        0o032 => vec![(at + b?, d - 1), (at + 1, d - 1)],
        0o033 => vec![(at + b?, d)],
        0o034 => vec![(at - b?, d - 1), (at + 1, d - 1)],
        0o035 => vec![(at - b?, d)],
        0o036 | 0o037 => vec![(at + b?, d), (at + 1, d - 1)],
        0o270 if d >= 2 => vec![(at, d - 1)],
        0o265 if d >= 1 => vec![(at, d + 1)],
        0o023 if p + 5 <= code.len() => vec![(at + 4, d + 2)],
        0o202 if d >= 1 => vec![(at, d + 1)],
        0o222 if d >= 3 => vec![(at, d - 3)],
        0o210 if d >= 4 => vec![(at, d - 2)],
        0o336 => vec![(at, d)],
        0o361 => vec![(at, callee?.results.into())],
        0o304 if d >= 1 => vec![],
        _ => return None,
    };
    let with_list = |(to, depth)| (to, (depth, *results, saved.clone()));
    Some(depths.into_iter().map(with_list).collect())
}
