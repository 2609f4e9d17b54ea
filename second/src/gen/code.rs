//! Programs that load accepts: code is written with its depth kept in mind.
//!
//! Jumps are relative and calls name procedures, so a piece of code means the
//! same wherever it is put: a block is written first, and the jump over it or
//! back to its start is put where it belongs.

use super::rng::Rng;
use super::unsigned::operands_inside;
use crate::assemble::Source;
use crate::depths::MOST_RESTORED;
use crate::image::{Procedure, ONLY_PROCEDURE};
use crate::mark::{Saved, MOST, MOST_SAVED};
use crate::opcode::{self, *};

/// Words 64 to 79 name processes for TRANSFER: no module lies there.
pub const PROCESS_NAMES: u16 = 64;
pub const PROCESS_NAME_COUNT: u16 = 16;

/// How large a program is.
pub struct Shape {
    pub modules: usize,
    /// Procedures of each module.
    pub procedures: usize,
    /// Statements of each procedure.
    pub statements: usize,
    /// The largest data size.
    pub data: usize,
    /// What module 0's main program holds, if not statements.
    pub opcodes: Vec<u8>,
    /// Most instructions get operands that do not trap, and frames and data
    /// are large enough for the offsets used.
    pub careful: bool,
    /// Of the stores that could have 65,535 words, one in so many has.
    pub large_stores: usize,
}

/// A random program.
pub fn program(rng: &mut Rng, shape: &Shape) -> Vec<Source> {
    write_program(rng, shape, None)
}

/// A random program in which one procedure returns with another number of words
/// than its results. All else fits, so that A.2 alone refuses it.
pub fn program_with_wrong_return(rng: &mut Rng, shape: &Shape) -> Vec<Source> {
    let wrong = (rng.below(shape.modules), rng.below(shape.procedures));
    write_program(rng, shape, Some(wrong))
}

fn write_program(rng: &mut Rng, shape: &Shape, wrong: Option<(usize, usize)>) -> Vec<Source> {
    let signatures: Vec<Vec<Procedure>> = (0..shape.modules)
        .map(|module| {
            (0..shape.procedures)
                .map(|number| signature(rng, (module, number) == (0, 0)))
                .collect()
        })
        .collect();
    (0..shape.modules)
        .map(|module| {
            let wrong = wrong.filter(|wrong| wrong.0 == module);
            write_module(rng, shape, &signatures, module, wrong.map(|wrong| wrong.1))
        })
        .collect()
}

fn signature(rng: &mut Rng, main: bool) -> Procedure {
    let parameters = match rng.below(8) {
        _ if main => 0,
        0 => rng.within(5, 16),
        1 => 16,
        _ => rng.below(4),
    };
    Procedure {
        entry: 0,
        parameters: parameters as u8,
        results: rng.below(5) as u8,
    }
}

fn write_module(
    rng: &mut Rng,
    shape: &Shape,
    signatures: &[Vec<Procedure>],
    module: usize,
    wrong: Option<usize>,
) -> Source {
    let mut code = Vec::new();
    let mut procedures = signatures[module].clone();
    let mut order: Vec<usize> = (0..procedures.len()).collect();
    rng.shuffle(&mut order);
    for number in order {
        procedures[number].entry = code.len() as u16;
        let results = procedures[number].results;
        let returned = match wrong {
            Some(wrong) if wrong == number => other_depth(rng, results),
            _ => results,
        };
        let mut writer = Writer {
            rng,
            signatures,
            module,
            procedure: number,
            returned,
            careful: shape.careful,
            code: Vec::new(),
            depth: procedures[number].parameters,
            saved: Saved::NONE,
        };
        if !shape.opcodes.is_empty() && (module, number) == (0, 0) {
            writer.each_of(&shape.opcodes);
        } else {
            writer.procedure(shape.statements);
        }
        code.append(&mut writer.code);
    }
    if procedures == [ONLY_PROCEDURE] && rng.once_in(2) {
        procedures.clear();
    }
    Source {
        data_size: (rng.below(shape.data + 1) + 48 * usize::from(shape.careful)) as u16,
        procedures,
        name: rng.once_in(3).then(|| rng.bits().to_be_bytes()),
        code,
        ..Source::default()
    }
}

/// A depth that is not the results: mostly one word too many.
fn other_depth(rng: &mut Rng, results: u8) -> u8 {
    match rng.below(4) {
        0 if results > 0 => rng.below(results.into()) as u8,
        1 => rng.within(usize::from(results) + 2, 16) as u8,
        _ => results + 1,
    }
}

struct Writer<'a> {
    rng: &'a mut Rng,
    /// Parameters and results of every procedure; the entries are not yet.
    signatures: &'a [Vec<Procedure>],
    module: usize,
    procedure: usize,
    /// The depth at which the procedure returns: its results, unless it is to be
    /// wrong.
    returned: u8,
    careful: bool,
    code: Vec<u8>,
    depth: u8,
    saved: Saved,
}

impl Writer<'_> {
    /// One procedure: a frame, statements, a return.
    fn procedure(&mut self, statements: usize) {
        let frame = self.rng.below(16) as u8 + 40 * u8::from(self.careful);
        self.emit(&[0o353, frame]);
        for _ in 0..self.rng.within(statements / 2 + 1, statements + 1) {
            self.statement(3);
        }
        match self.rng.below(16) {
            0 if !self.careful => {
                self.between(1, 0);
                self.emit(&[TRAP]);
            }
            // For ever.
            1 if !self.careful => {
                self.emit(&[0o336]);
                self.code.extend([JPB, 2]);
            }
            _ => self.give_back(),
        }
    }

    /// "A return must carry what the procedure promised", and what is saved must
    /// be restored before it. Where 16 words are saved there is no way back.
    fn give_back(&mut self) {
        while let Some(front) = self.saved.front() {
            if front > MOST_RESTORED {
                self.between(1, 0);
                return self.emit(&[TRAP]);
            }
            self.restore();
        }
        self.set_depth(self.returned);
        self.emit(&[RTN]);
    }

    /// Each of these opcodes at least once.
    fn each_of(&mut self, opcodes: &[u8]) {
        let mut opcodes = opcodes.to_vec();
        self.rng.shuffle(&mut opcodes);
        for opcode in opcodes {
            self.instruction(opcode, 0);
        }
        self.give_back();
    }

    fn statement(&mut self, fuel: u32) {
        const CONTROL: [u8; 20] = [
            JPC, JP, JPFC, JPF, JPBC, JPB, ORJP, ANDJP, CX, CX, CI, CL, CL1, 0o362, 0o363, TRA,
            TRAP, RTN, STORE, LODFW,
        ];
        let opcode = match self.rng.below(12) {
            0..=3 => self.rng.pick(&CONTROL),
            4 => return self.counter(),
            5 if self.rng.once_in(2) => READ,
            _ => self.listed(),
        };
        self.instruction(opcode, fuel);
    }

    fn listed(&mut self) -> u8 {
        loop {
            let opcode = self.rng.byte();
            if opcode::row(opcode).length != 0 {
                return opcode;
            }
        }
    }

    /// Appends an instruction that is no jump and no call.
    fn emit(&mut self, bytes: &[u8]) {
        let row = opcode::row(bytes[0]);
        self.depth = self.depth - row.taken + row.left;
        self.code.extend(bytes);
    }

    /// Puts or stores words until so many are on the stack.
    fn set_depth(&mut self, depth: u8) {
        while self.depth < depth {
            self.put();
        }
        while self.depth > depth {
            self.take();
        }
    }

    /// Leaves room for `more` words, and has at least `least`.
    fn between(&mut self, least: u8, more: u8) {
        let depth = self.depth.clamp(least, 16 - more);
        self.set_depth(depth);
    }

    /// Writes a block that leaves the depth as it was, apart from the code.
    fn block(&mut self, fuel: u32) -> Vec<u8> {
        let depth = self.depth;
        let start = self.code.len();
        if fuel > 0 {
            for _ in 0..self.rng.below(4) {
                self.statement(fuel - 1);
            }
        }
        self.set_depth(depth);
        self.code.split_off(start)
    }

    /// Puts one word, in any way.
    fn put(&mut self) {
        match self.rng.below(9) {
            0 => self.address(),
            1 => self.plain(0o040),
            2 => self.plain(0o100),
            3 => self.plain(0o042),
            4 => {
                let n = self.rng.within(4, 15) as u8;
                self.emit(&[0o040 + n]);
            }
            5 => {
                let n = self.rng.within(2, 15) as u8;
                self.emit(&[0o100 + n]);
            }
            _ => {
                let word = some_word(self.rng);
                self.literal(word);
            }
        }
    }

    /// Puts a pair of words, in any way.
    fn put_pair(&mut self) {
        match self.rng.below(6) {
            0 => self.plain(LLD),
            1 => self.plain(LGD),
            2 => self.plain(LED),
            3 => {
                self.put();
                self.put();
            }
            _ => self.plain(LID),
        }
    }

    /// A counter of two words goes up or down: it is loaded, another pair put,
    /// and the sum or the difference stored.
    fn counter(&mut self) {
        // An address and two pairs.
        self.between(0, 5);
        let m = self.rng.below(self.signatures.len()) as u8;
        let b = self.offset();
        let (load, store) = match self.rng.below(5) {
            0 => (vec![LLD, b], vec![SLD, b]),
            1 => (vec![LGD, b], vec![SGD, b]),
            2 => (vec![LED, m, b], vec![SED, m, b]),
            3 => (vec![LSD, b], vec![SSD, b]),
            _ => (vec![LSD0], vec![SSD0]),
        };
        if matches!(load[0], LSD | LSD0) {
            // The address once for the load, once for the store.
            self.address();
            self.emit(&[0o265]);
        }
        self.emit(&load);
        self.put_pair();
        let operator = self.rng.pick(&[DADD, DSUB]);
        self.emit(&[operator]);
        self.emit(&store);
    }

    /// Stores one word away, in any way.
    fn take(&mut self) {
        match self.rng.below(5) {
            0 => self.plain_as_it_is(0o060),
            1 => self.plain_as_it_is(0o120),
            2 => self.plain_as_it_is(0o062),
            3 => {
                let n = self.rng.within(4, 15) as u8;
                self.emit(&[0o060 + n]);
            }
            _ => {
                let n = self.rng.within(2, 15) as u8;
                self.emit(&[0o120 + n]);
            }
        }
    }

    fn literal(&mut self, word: u16) {
        let [high, low] = word.to_be_bytes();
        match word {
            0..=15 => self.emit(&[low]),
            16..=255 => self.emit(&[0o020, low]),
            _ => self.emit(&[0o022, high, low]),
        }
    }

    /// Puts an address, mostly of a word of the program's own.
    fn address(&mut self) {
        match self.rng.below(6) {
            0 | 1 => self.plain(0o024),
            2 => self.plain(0o025),
            3 => self.plain(0o027),
            _ if self.careful => {
                let address = self.rng.within(112, 127) as u16;
                self.literal(address);
            }
            4 => {
                let address = self.rng.below(600) as u16;
                self.literal(address);
            }
            _ => {
                let address = some_word(self.rng);
                self.literal(address);
            }
        }
    }

    /// Any listed opcode with what belongs to it.
    fn instruction(&mut self, opcode: u8, fuel: u32) {
        match opcode {
            JPC | JPFC => self.skip_if_zero(opcode, fuel),
            JP | JPF => self.jump_over(opcode),
            JPBC => self.repeat(fuel),
            JPB => self.repeat_while(fuel),
            ORJP | ANDJP => self.short_circuit(opcode, fuel),
            TRAP | RTN => self.leave(opcode),
            STORE | LODFW if self.saved.depths().len() == MOST_SAVED => self.emit(&[0o336]),
            STORE if self.rng.once_in(8) => self.leave(opcode),
            STORE | LODFW => self.call_inside(fuel),
            CX | CI | CL | CL1..=CL15 => self.call(opcode),
            TRA => self.transfer(),
            _ => self.plain(opcode),
        }
    }

    /// A plain instruction, with words of its own put before it.
    fn plain(&mut self, opcode: u8) {
        let row = opcode::row(opcode);
        if self.rng.once_in(6) && !self.careful {
            self.between(row.taken, row.left.saturating_sub(row.taken));
        } else {
            self.between(0, row.taken.max(row.left));
            self.operands(opcode);
        }
        self.plain_as_it_is(opcode);
    }

    /// Puts the words that the opcode takes, mostly good ones.
    fn operands(&mut self, opcode: u8) {
        let most = if self.careful { 12 } else { 100 };
        let small = |rng: &mut Rng| rng.below(most) as u16;
        match opcode {
            // An address; and a value or an index.
            0o140..=0o157 | 0o200 | LSD | LSD0 => self.address(),
            0o160..=0o177 | 0o220 => {
                self.address();
                self.put();
            }
            SSD | SSD0 => {
                self.address();
                self.put_pair();
            }
            SLD | SED | SGD => self.put_pair(),
            DADD | DSUB => {
                self.put_pair();
                self.put_pair();
            }
            0o205 | 0o206 | 0o225 | 0o226 => {
                self.address();
                let index = small(self.rng);
                self.literal(index);
                if opcode >= 0o225 {
                    self.put();
                }
            }
            // Channels.
            0o240 => {
                self.address();
                let channel = self.rng.below(16) as u16;
                self.literal(channel);
            }
            0o241 => {
                let channel = self.rng.below(16) as u16;
                self.literal(channel);
                self.put();
            }
            // A value, a low and a high limit.
            0o245 | 0o305 => {
                let value = small(self.rng);
                let (low, high) = (value - value / 3, value + small(self.rng));
                self.literal(value);
                self.literal(low);
                self.literal(high);
            }
            0o306 => {
                let value = small(self.rng);
                self.literal(value);
                self.literal(value + 1);
            }
            // Results inside 0 to 65,535, but for any words now and then.
            UADD | USUB | UMUL if self.careful || !self.rng.once_in(8) => {
                let (c, a) = operands_inside(self.rng, opcode);
                self.literal(c);
                self.literal(a);
            }
            // Small numbers for the signed ones and the divisions.
            0o273 | 0o274 | 0o316 | 0o317 | 0o330..=0o333 => {
                for _ in 0..opcode::row(opcode).taken {
                    let value = 1 + small(self.rng);
                    self.literal(value);
                }
            }
            _ => {
                for _ in 0..opcode::row(opcode).taken {
                    self.put();
                }
            }
        }
    }

    /// The opcode and its operand bytes.
    fn plain_as_it_is(&mut self, opcode: u8) {
        let mut bytes = vec![opcode];
        match opcode {
            0o022 => bytes.extend(some_word(self.rng).to_be_bytes()),
            LID => bytes.extend(some_double(self.rng).to_be_bytes()),
            0o027 | 0o042 | 0o062 => {
                bytes.push(self.rng.below(self.signatures.len()) as u8);
                bytes.push(self.offset());
            }
            LED | SED => {
                bytes.push(self.rng.below(self.signatures.len()) as u8);
                bytes.push(self.far_offset());
            }
            LGD | SGD => bytes.push(self.far_offset()),
            // A store over the own return mark is rare.
            0o060 | SLD if self.careful || !self.rng.once_in(20) => {
                bytes.push(self.rng.within(4, 20) as u8)
            }
            0o350 => bytes.push(self.rng.below(4) as u8),
            0o353 => bytes.push(self.rng.below(6) as u8),
            _ if opcode::row(opcode).length == 2 => bytes.push(self.offset()),
            _ => {}
        }
        self.emit(&bytes);
    }

    fn offset(&mut self) -> u8 {
        match self.rng.below(12) {
            0 if !self.careful => self.rng.byte(),
            1 if !self.careful => 255,
            _ => self.rng.within(4, 20) as u8,
        }
    }

    /// Often one beyond the modules, where a store may end.
    fn far_offset(&mut self) -> u8 {
        if self.careful || self.rng.once_in(4) {
            self.offset()
        } else {
            self.rng.within(100, 255) as u8
        }
    }

    /// A forward jump over a block, taken where the word is 0.
    fn skip_if_zero(&mut self, opcode: u8, fuel: u32) {
        self.between(0, 1);
        self.condition();
        self.depth -= 1;
        let block = self.block(fuel);
        self.jump_with(opcode, &block);
    }

    /// A jump over bytes that nothing reaches: they may be anything.
    fn jump_over(&mut self, opcode: u8) {
        let dead: Vec<u8> = (0..self.rng.below(5)).map(|_| self.rng.byte()).collect();
        self.jump_with(opcode, &dead);
    }

    /// A forward jump to the end of the block, in the long form where the
    /// opcode has one, or where the short form does not reach.
    fn jump_with(&mut self, opcode: u8, block: &[u8]) {
        let long = match opcode {
            JPC | JPFC => JPC,
            _ => JP,
        };
        if opcode == long || block.len() > 254 {
            let [high, low] = (2 + block.len() as u16).to_be_bytes();
            self.code.extend([long, high, low]);
        } else {
            self.code.extend([opcode, 1 + block.len() as u8]);
        }
        self.code.extend(block);
    }

    /// A jump back to the start of the block, or the long form.
    fn jump_back(&mut self, short: u8, long: u8, length: usize) {
        if length > 254 || self.rng.once_in(3) {
            let [high, low] = (-1 - length as i16).to_be_bytes();
            self.code.extend([long, high, low]);
        } else {
            self.code.extend([short, 1 + length as u8]);
        }
    }

    /// A block that comes again while a word behind it is 0.
    fn repeat(&mut self, fuel: u32) {
        self.between(0, 1);
        let start = self.code.len();
        let block = self.block(fuel);
        self.code.extend(block);
        self.put();
        self.depth -= 1;
        let length = self.code.len() - start;
        self.jump_back(JPBC, JPC, length);
    }

    /// A block that comes again until a word before it is 0.
    fn repeat_while(&mut self, fuel: u32) {
        self.between(0, 1);
        let start = self.code.len();
        self.condition();
        self.depth -= 1;
        let mut block = self.block(fuel);
        // The jump over the block goes over the jump back too.
        let head = self.code.len() - start + 3 + block.len();
        let rest = self.code.len();
        self.jump_back(JPB, JP, head);
        block.append(&mut self.code.split_off(rest));
        self.jump_with(JPC, &block);
    }

    /// 036 and 037: the code between puts the word that the jump has put.
    fn short_circuit(&mut self, opcode: u8, fuel: u32) {
        self.between(0, 1);
        self.condition();
        self.depth -= 1;
        let mut block = self.block(fuel);
        let start = self.code.len();
        self.put();
        block.append(&mut self.code.split_off(start));
        if block.len() <= 254 {
            self.code.extend([opcode, 1 + block.len() as u8]);
            self.code.extend(block);
        } else {
            // Too long for its jump: the condition is stored away, and one word put.
            self.code.extend([0o064]);
            self.depth -= 1;
            self.put();
        }
    }

    /// Mostly 0.
    fn condition(&mut self) {
        if self.rng.once_in(3) {
            self.put();
        } else {
            let word = u16::from(self.rng.once_in(3));
            self.literal(word);
        }
    }

    /// A way out that is mostly jumped over.
    fn leave(&mut self, opcode: u8) {
        self.between(0, 1);
        let often = self.rng.once_in(if self.careful { 100 } else { 8 });
        self.literal(u16::from(often));
        self.depth -= 1;
        let (depth, saved) = (self.depth, self.saved);
        let start = self.code.len();
        if opcode == STORE {
            self.set_depth(MOST);
            self.store();
        }
        if opcode == RTN {
            self.give_back();
        } else {
            self.put();
            self.emit(&[TRAP]);
        }
        (self.depth, self.saved) = (depth, saved);
        let block = self.code.split_off(start);
        self.jump_with(JPFC, &block);
    }

    /// Saves the stack. The list has room.
    fn store(&mut self) {
        self.code.push(STORE);
        self.saved = self.saved.with(self.depth).expect("at most three saved");
        self.depth = 0;
    }

    /// Restores the stack below one word. At most 15 words are saved.
    fn restore(&mut self) {
        self.set_depth(1);
        self.code.push(LODFW);
        self.depth += self.saved.front().unwrap_or_default();
        self.saved = self.saved.without_front();
    }

    /// A call inside an expression, or other statements there, or nothing: what
    /// is on the stack is saved before and restored after it.
    fn call_inside(&mut self, fuel: u32) {
        self.between(0, 1);
        self.store();
        if !self.rng.once_in(3) {
            let opcode = self.rng.pick(&[CX, CI, CL, CL1]);
            self.call(opcode);
        }
        for _ in 0..self.rng.below(3).min(fuel as usize) {
            self.statement(fuel - 1);
        }
        self.restore();
    }

    /// A call of a later procedure, seldom of any.
    fn call(&mut self, opcode: u8) {
        let any = self.rng.once_in(if self.careful { 200 } else { 30 });
        let here = (self.module, self.procedure);
        let mut callees = Vec::new();
        for (module, signatures) in self.signatures.iter().enumerate() {
            for (number, signature) in signatures.iter().enumerate() {
                let right = match opcode {
                    CX => true,
                    CI => module == self.module && signature.parameters < 16,
                    CL => module == self.module,
                    _ => module == self.module && number == usize::from(opcode - CL),
                };
                if right && (any || (module, number) > here) {
                    callees.push((module, number, *signature));
                }
            }
        }
        if callees.is_empty() {
            return self.emit(&[0o336]);
        }
        let (module, number, signature) = self.rng.pick(&callees);
        self.set_depth(signature.parameters);
        match opcode {
            CX => self.emit(&[CX, module as u8, number as u8]),
            CI => {
                self.address();
                self.emit(&[CI, number as u8]);
            }
            CL => self.emit(&[CL, number as u8]),
            _ => self.emit(&[opcode]),
        }
        self.depth = signature.results;
    }

    /// A transfer between two of the named processes, seldom of any words.
    fn transfer(&mut self) {
        self.between(0, 2);
        if self.rng.once_in(8) && !self.careful {
            self.address();
            self.address();
        } else {
            for _ in 0..2 {
                let name = PROCESS_NAMES + self.rng.below(4) as u16;
                self.literal(name);
            }
        }
        let b = u8::from(self.rng.once_in(2)) * self.rng.byte();
        self.emit(&[TRA, b]);
    }
}

/// Words at which something changes, and others.
pub fn some_word(rng: &mut Rng) -> u16 {
    match rng.below(6) {
        0 => rng.word(),
        1 | 2 => rng.below(300) as u16,
        3 => rng.below(20) as u16,
        4 => rng.below(5000) as u16,
        _ => rng.pick(&[
            0, 1, 2, 15, 16, 17, 255, 256, 0x7FFE, 0x7FFF, 0x8000, 0x8001, 0xFFFE, 0xFFFF,
        ]),
    }
}

/// Numbers of 32 bits at which a word carries or borrows, and others.
pub fn some_double(rng: &mut Rng) -> u32 {
    match rng.below(4) {
        0 => rng.bits() as u32,
        1 => u32::from(some_word(rng)),
        2 => u32::from(some_word(rng)) << 16 | u32::from(some_word(rng)),
        _ => rng.pick(&[
            0,
            1,
            0x0000_FFFE,
            0x0000_FFFF,
            0x0001_0000,
            0x0001_FFFF,
            0x7FFF_FFFF,
            0x8000_0000,
            0xFFFF_0000,
            0xFFFF_FFFE,
            0xFFFF_FFFF,
        ]),
    }
}
