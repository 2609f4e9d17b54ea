//! The address sums of pairs and of 024 to 027, for the generator and the coverage.

use crate::image::Program;
use crate::machine::Machine;
use crate::opcode::*;

/// The base and the offset that the instruction at which the machine stands adds:
/// a load or a store of a pair, or one of 024 to 027; None for any other. "Each
/// addresses as its one-word form does, LSD0 and SSD0 with offset 0".
pub fn address_sum(program: &Program, image: &[u8], machine: &Machine) -> Option<(u16, u8)> {
    let base = |module: u8| program.modules[usize::from(module)].base as u16;
    let word = |from_top: u8| machine.stack[usize::from(machine.depth - from_top)];
    let code = &image[program.modules[usize::from(machine.module)].code_range()];
    let instruction = &code[usize::from(machine.pc)..];
    Some(match instruction[0] {
        LLA | LLD | SLD => (machine.l, instruction[1]),
        LGA | LGD | SGD => (base(machine.module), instruction[1]),
        LEA | LED | SED => (base(instruction[1]), instruction[2]),
        LSA | LSD => (word(1), instruction[1]),
        LSD0 => (word(1), 0),
        SSD => (word(3), instruction[1]),
        SSD0 => (word(3), 0),
        _ => return None,
    })
}

/// The first address of such an instruction.
pub fn first_address(program: &Program, image: &[u8], machine: &Machine) -> Option<u16> {
    let (base, offset) = address_sum(program, image, machine)?;
    Some(base.wrapping_add(offset.into()))
}
