//! The proved engine's machines, from the second interpreter's.

use cembuxola::MACHINE_WORDS;
use second::Machine;

/// A machine of the second interpreter as the proved one's words.
pub fn words(machine: &Machine) -> [u16; MACHINE_WORDS] {
    let mut words = [0; MACHINE_WORDS];
    words[..8].copy_from_slice(&[
        u16::from(machine.module),
        machine.pc,
        u16::from(machine.depth),
        machine.p,
        machine.l,
        machine.s,
        machine.h,
        machine.m,
    ]);
    words[8..].copy_from_slice(&machine.stack);
    words
}
