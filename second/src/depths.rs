//! "Depths": the rules of a fitting assignment, load's fewest one, and run's
//! test of a map lent by anybody. Since A.2 "a return must carry what the
//! procedure promised", and since A.5 a position has a list of saved depths.

use crate::image::Program;
use crate::mark::{Mark, Saved, MOST, UNMARKED};
use crate::opcode::{self, *};

/// "LODFW removes the front one, which must be at most 15".
pub const MOST_RESTORED: u8 = 15;

/// The rules of one marked position, for load and for run alike: it "holds a
/// listed opcode whose operands lie in the code, takes no more than the depth,
/// leaves at most 16, and every successor lies in the code, marked with the
/// resulting depth". A.2: "a successor has its predecessor's" result count. A.5:
/// "Every other instruction passes its list on, a call to the next position."
/// `follow` is told each successor that lies in the code, with the mark that it
/// must have, and says whether it can have it.
pub fn position_fits(
    program: &Program,
    module: usize,
    code: &[u8],
    position: usize,
    mark: Mark,
    mut follow: impl FnMut(usize, Mark) -> bool,
) -> bool {
    let code_byte = code[position];
    let row = opcode::row(code_byte);
    let next = position + usize::from(row.length);
    if row.length == 0 || next > code.len() || row.taken > mark.depth {
        return false;
    }
    let rest = mark.depth - row.taken;
    let left = rest + row.left;
    if left > MOST {
        return false;
    }
    let mut successor = |target: usize, mark: Mark| target < code.len() && follow(target, mark);
    let with = |depth: u8| Mark { depth, ..mark };
    let byte = |offset: usize| usize::from(code[position + offset]);
    let target = || jump_target(code, position);
    // "At a call the depth (after CI's link) equals the callee's parameters,
    // and the next position has its results" as its depth, and the caller's own
    // result count. The callee must exist.
    let mut call = |callee_module: usize, number: usize| {
        let callee = program.procedure(callee_module, number);
        let callee = callee.filter(|callee| callee.parameters == rest);
        callee.is_some_and(|callee| successor(next, with(callee.results)))
    };
    match code_byte {
        // "RTN and TRAP have no successor." A.2: "RTN needs a depth equal to
        // it", the result count. A.5: "RTN needs none" saved.
        RTN => mark.depth == mark.results && mark.saved == Saved::NONE,
        TRAP => true,
        STORE => stored(mark).is_some_and(|mark| successor(next, mark)),
        LODFW => restored(mark).is_some_and(|mark| successor(next, mark)),
        CX => call(byte(1), byte(2)),
        CI | CL => call(module, byte(1)),
        CL1..=CL15 => call(module, usize::from(code_byte - CL)),
        JP | JPF | JPB => successor(target(), with(left)),
        JPC | JPFC | JPBC => successor(target(), with(left)) && successor(next, with(left)),
        // "1 left, which holds where they jump; else 0 are left"
        ORJP | ANDJP => successor(target(), with(left)) && successor(next, with(rest)),
        // "Module and procedure operands must exist."
        LEA | LEW | LED | SEW | SED if byte(1) >= program.modules.len() => false,
        _ => successor(next, with(left)),
    }
}

/// Behind STORE: "STORE adds its depth to the front" and "The depth is then 0."
/// None where four are saved already.
fn stored(mark: Mark) -> Option<Mark> {
    let saved = mark.saved.with(mark.depth)?;
    Some(Mark {
        depth: 0,
        saved,
        ..mark
    })
}

/// Behind LODFW, which "needs depth 1": the front depth and the result. None
/// where nothing is saved, or 16 words, beside which the result finds no room.
fn restored(mark: Mark) -> Option<Mark> {
    let front = mark.saved.front().filter(|&front| front <= MOST_RESTORED)?;
    (mark.depth == 1).then(|| Mark {
        depth: front + 1,
        saved: mark.saved.without_front(),
        ..mark
    })
}

/// "Jumps, from the operand's first byte"; a target below 0 becomes one past
/// any code.
pub fn jump_target(code: &[u8], position: usize) -> usize {
    let origin = position + 1;
    let byte = usize::from(code[origin]);
    match code[position] {
        JP | JPC => {
            let offset = i16::from_be_bytes([code[origin], code[origin + 1]]);
            origin.wrapping_add_signed(isize::from(offset))
        }
        JPB | JPBC => origin.wrapping_sub(byte),
        _ => origin + byte,
    }
}

/// Marks the fewest positions of an image, or none at all: false is refusal 8,
/// where the code is whole. Writes every one of the map's first `image.len()`
/// entries and no other.
pub fn assign(program: &Program, image: &[u8], map: &mut [u32]) -> bool {
    let map = &mut map[..image.len()];
    map.fill(UNMARKED);
    let mut worklist = Vec::new();
    for (index, module) in program.modules.iter().enumerate() {
        let range = module.code_range();
        let part = &mut map[range.clone()];
        if !assign_module(program, index, &image[range], part, &mut worklist) {
            map.fill(UNMARKED);
            return false;
        }
    }
    true
}

/// Whether depths fit in one module.
pub fn has_depths(program: &Program, image: &[u8], module: usize) -> bool {
    let code = &image[program.modules[module].code_range()];
    let mut part = vec![UNMARKED; code.len()];
    assign_module(program, module, code, &mut part, &mut Vec::new())
}

/// "Load hands the depth check each module's part of the map, to be filled
/// there." Every mark made is forced by an entry or by a mark made before, so
/// the first conflict shows that nothing fits.
fn assign_module(
    program: &Program,
    module: usize,
    code: &[u8],
    part: &mut [u32],
    worklist: &mut Vec<(usize, Mark)>,
) -> bool {
    worklist.clear();
    for (entry, mark) in entry_marks(program, module) {
        if !mark_once(part, worklist, entry, mark) {
            return false;
        }
    }
    while let Some((position, mark)) = worklist.pop() {
        let follow = |target: usize, mark: Mark| mark_once(part, worklist, target, mark);
        if !position_fits(program, module, code, position, mark, follow) {
            return false;
        }
    }
    true
}

/// Marks a position, and lists it the first time; false where it has another
/// mark. A.2: "Code shared by procedures with other counts does not fit."
fn mark_once(
    part: &mut [u32],
    worklist: &mut Vec<(usize, Mark)>,
    position: usize,
    mark: Mark,
) -> bool {
    if part[position] == UNMARKED {
        part[position] = mark.encode();
        worklist.push((position, mark));
    }
    part[position] == mark.encode()
}

/// The marks of a module's entries.
pub fn entry_marks(program: &Program, module: usize) -> Vec<(usize, Mark)> {
    let procedures = program.procedures(module).iter();
    procedures
        .map(|procedure| (usize::from(procedure.entry), Mark::entry(procedure)))
        .collect()
}

/// What the rules make of a module's code from these marks on, whether it fits
/// or not: each position has the first mark that it gets.
pub fn first_marks(
    program: &Program,
    module: usize,
    code: &[u8],
    from: &[(usize, Mark)],
) -> Vec<u32> {
    let mut part = vec![UNMARKED; code.len()];
    let mut worklist = Vec::new();
    for &(position, mark) in from {
        mark_once(&mut part, &mut worklist, position, mark);
    }
    while let Some((position, mark)) = worklist.pop() {
        let follow = |target: usize, mark: Mark| {
            mark_once(&mut part, &mut worklist, target, mark);
            true
        };
        position_fits(program, module, code, position, mark, follow);
    }
    part
}

/// "Run believes no map: it tests one lent by anybody against these rules.
/// There, an image byte outside the code must have" all ones since A.5, "and
/// marks beyond the fewest are allowed." Entries past the image are not looked
/// at.
pub fn fits(program: &Program, image: &[u8], map: &[u32]) -> bool {
    let mut outside = 0;
    for (index, module) in program.modules.iter().enumerate() {
        let range = module.code_range();
        if map[outside..range.start].iter().any(|&e| e != UNMARKED) {
            return false;
        }
        outside = range.end;
        if !module_fits(program, index, &image[range.clone()], &map[range]) {
            return false;
        }
    }
    // No byte follows the last module: refusal 4 comes before.
    true
}

fn module_fits(program: &Program, module: usize, code: &[u8], part: &[u32]) -> bool {
    let has = |position: usize, mark: Mark| part[position] == mark.encode();
    let entries = entry_marks(program, module);
    let entries_fit = entries.into_iter().all(|(entry, mark)| has(entry, mark));
    let marked_fit = |(position, &entry): (usize, &u32)| {
        entry == UNMARKED
            || Mark::decode(entry)
                .is_some_and(|mark| position_fits(program, module, code, position, mark, has))
    };
    entries_fit && part.iter().enumerate().all(marked_fit)
}
