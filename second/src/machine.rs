//! The machine: its registers, what start sets, and what refusal 11 tests.

use crate::image::Program;
use crate::mark::Mark;

/// The registers, the program counter and the operand stack. `stack[0]` is
/// the bottom and `stack[depth - 1]` the top.
#[derive(Clone, Copy, Debug, Default, PartialEq, Eq)]
pub struct Machine {
    /// The number of the module whose base is G.
    pub module: u8,
    /// Program counter, a code position of that module.
    pub pc: u16,
    /// Words on the operand stack.
    pub depth: u8,
    /// Process register.
    pub p: u16,
    /// Local segment address.
    pub l: u16,
    /// Stack pointer.
    pub s: u16,
    /// Stack limit.
    pub h: u16,
    /// Mask.
    pub m: u16,
    pub stack: [u16; 16],
}

impl Machine {
    /// "the base copy at word 32"
    pub const BASE_COPY: usize = 32;
    /// "the first module at word 128"
    pub const FIRST_MODULE: u32 = 128;
    /// "A module takes 3 + data size words."
    pub const MODULE_WORDS: u32 = 3;
    /// "limit H = W − 24"
    pub const MARGIN: u16 = 24;
    /// Words of a process record.
    pub const RECORD: usize = 8;
    /// "W below Z + 36" is refused.
    pub const LEAST_BEYOND_Z: usize = 36;
    /// The return mark that ends a run.
    pub const END_MARK: u16 = 0x7FFF;
    /// Added to the return mark of an external call.
    pub const FAR: u16 = 0x8000;
    /// A.8: "as for a line, with words 14 and 15": the target of a trap, and the old
    /// process.
    pub const TRAP_TARGET: usize = 14;
    pub const TRAP_OLD: usize = 15;
    /// "write their number to word P + 6"
    pub const TRAP_NUMBER: usize = 6;

    /// The opcode at which it stands. Its position lies in the code.
    pub fn opcode(&self, program: &Program, image: &[u8]) -> u8 {
        let module = &program.modules[usize::from(self.module)];
        image[module.code_start + usize::from(self.pc)]
    }

    /// The mark of the position at which it stands, in a tested map.
    pub fn mark(&self, program: &Program, map: &[u32]) -> Option<Mark> {
        program.mark(map, usize::from(self.module), self.pc)
    }

    /// "A machine has a loaded module, a position marked with its depth,
    /// S ≤ H, H + 24 ≤ W, P + 8 ≤ W, and zeros above its depth." The map is
    /// one that fits, the store one that is accepted.
    pub fn is_machine(&self, program: &Program, map: &[u32], words: usize) -> bool {
        program.is_marked(map, usize::from(self.module), self.pc, self.depth)
            && self.s <= self.h
            && usize::from(self.h) + usize::from(Machine::MARGIN) <= words
            && usize::from(self.p) + Machine::RECORD <= words
            && self.stack[usize::from(self.depth)..]
                .iter()
                .all(|&word| word == 0)
    }
}

/// "W words, all cleared by start." Sets the store and answers the machine
/// that begins "at procedure 0 of module 0". The store is one that is accepted.
pub fn set_up(program: &Program, store: &mut [u16]) -> Machine {
    store.fill(0);
    // "Word 32 + m is set to module m's base, but instructions use the
    // image's bases."
    for (copy, module) in store[Machine::BASE_COPY..].iter_mut().zip(&program.modules) {
        *copy = module.base as u16;
    }
    // "Words Z+8, Z+9, Z+10 are 0, 0, 7FFF hex."
    store[program.z as usize + 10] = Machine::END_MARK;
    let z = program.z as u16;
    Machine {
        module: 0,
        pc: program.procedures(0)[0].entry,
        depth: 0,
        p: z,
        l: z + 8,
        s: z + 12,
        h: store.len() as u16 - Machine::MARGIN,
        m: 0,
        stack: [0; 16],
    }
}
