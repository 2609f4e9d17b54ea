//! Code that is not whole: accepted programs with a procedure more, or two,
//! that lead to a fault.

use super::rng::Rng;
use super::{add_procedure, literals};
use crate::assemble::Source;
use crate::image::{Procedure, MOST_MODULES};
use crate::opcode::{self, *};
use crate::walk::{Cause, Named, Way};

/// How the fault is found.
#[derive(Clone, Copy, PartialEq)]
pub enum Kind {
    /// From the entry on.
    Plain,
    /// The same; the map is to be too short.
    ShortMap,
    /// In each of two modules.
    TwoModules,
    /// In a module after one that is whole and has no depths.
    UnfitModule,
    /// Below another fault, at the entry of a later procedure.
    LaterEntry,
    /// Below another fault and behind it: a missing module of a load, a store
    /// or an address.
    BehindModule,
    /// Or a call of a missing module or procedure.
    BehindCall,
    /// Or a jump to a target outside the code.
    BehindTarget,
    /// Or a jump that the code ends with, and whose next position it lacks.
    BehindEnd,
    /// Behind an instruction that no depth fits.
    BehindUnfit,
}

pub const KINDS: [Kind; 10] = [
    Kind::Plain,
    Kind::ShortMap,
    Kind::TwoModules,
    Kind::UnfitModule,
    Kind::LaterEntry,
    Kind::BehindModule,
    Kind::BehindCall,
    Kind::BehindTarget,
    Kind::BehindEnd,
    Kind::BehindUnfit,
];

/// A cause, and the opcode at fault; [`ANY`] where the cause leaves it open.
pub type Form = (Cause, u8);

const ANY: u8 = 0;
const UNLISTED: Form = (Cause::UnlistedOpcode, ANY);
const NO_MODULE: Cause = Cause::NoSuch(Named::Module);
const NO_PROCEDURE: Cause = Cause::NoSuch(Named::Procedure);
const NO_TARGET: Cause = Cause::SuccessorOutside(Way::Target);
const NO_NEXT: Cause = Cause::SuccessorOutside(Way::Next);

pub const FORMS: [Form; 23] = [
    (NO_NEXT, STORE),
    (NO_NEXT, LODFW),
    UNLISTED,
    (Cause::OperandsOutside, ANY),
    (NO_NEXT, ANY),
    (NO_MODULE, LEA),
    (NO_MODULE, LEW),
    (NO_MODULE, LED),
    (NO_MODULE, SEW),
    (NO_MODULE, SED),
    (NO_MODULE, CX),
    (NO_PROCEDURE, CX),
    (NO_PROCEDURE, CI),
    (NO_PROCEDURE, CL),
    // Or any other up to CL15.
    (NO_PROCEDURE, CL1),
    (NO_TARGET, JPC),
    (NO_TARGET, JP),
    (NO_TARGET, JPFC),
    (NO_TARGET, JPF),
    (NO_TARGET, JPBC),
    (NO_TARGET, JPB),
    (NO_TARGET, ORJP),
    (NO_TARGET, ANDJP),
];

/// Adds a fault of this kind and form to a program.
pub fn add_fault(rng: &mut Rng, modules: &mut Vec<Source>, kind: Kind, form: Form) {
    let two = matches!(kind, Kind::TwoModules | Kind::UnfitModule);
    if two && modules.len() < 2 {
        modules.push(Source::plain(&[RTN]));
    }
    let at = rng.within(usize::from(two), modules.len() - 1);
    let parts = match kind {
        Kind::TwoModules => vec![
            (rng.below(at), Kind::Plain, form),
            (at, Kind::Plain, rng.pick(&FORMS)),
        ],
        Kind::UnfitModule => vec![(rng.below(at), kind, form), (at, Kind::Plain, form)],
        _ => vec![(at, kind, form)],
    };
    // All procedures come first, so that no call finds one that was missing.
    for &(module, kind, _) in &parts {
        for _ in 0..procedures(kind) {
            add_procedure(&mut modules[module], any_procedure(rng));
        }
    }
    let counts: Vec<usize> = modules.iter().map(|m| m.procedures.len().max(1)).collect();
    for (module, kind, form) in parts {
        let mut yard = Yard {
            rng,
            counts: &counts,
            module,
            front: matches!(form.1, JPB | JPBC) && kind != Kind::BehindEnd,
            code: Vec::new(),
            outside: Vec::new(),
        };
        let entries = yard.write(kind, form);
        yard.put(&mut modules[module], &entries);
    }
}

/// How many procedures lead to the fault.
fn procedures(kind: Kind) -> usize {
    1 + usize::from(kind == Kind::LaterEntry)
}

/// Its entry is set when the code is written.
fn any_procedure(rng: &mut Rng) -> Procedure {
    Procedure {
        entry: 0,
        parameters: rng.below(2) as u8,
        results: rng.below(3) as u8,
    }
}

/// Code that is put before or behind a module's other code.
struct Yard<'a> {
    rng: &'a mut Rng,
    /// Procedures of each module.
    counts: &'a [usize],
    module: usize,
    /// It comes before the other code, so that short jumps back can leave it.
    /// Else it comes behind, so that short jumps forward can, and the code can
    /// end too early.
    front: bool,
    code: Vec<u8>,
    /// Jumps to targets outside the code, whose operands are still missing.
    outside: Vec<usize>,
}

impl Yard<'_> {
    /// Writes the code; answers the entries of the added procedures.
    fn write(&mut self, kind: Kind, form: Form) -> Vec<usize> {
        match kind {
            Kind::Plain | Kind::ShortMap | Kind::TwoModules => {
                let count = self.rng.pick(&[0, 0, 1, 4, 300]);
                self.nothing(if self.front { count % 300 } else { count });
                self.fault(form, true);
                vec![0]
            }
            // The first one of the two.
            Kind::UnfitModule => {
                self.unfit();
                self.stop();
                vec![0]
            }
            Kind::LaterEntry => {
                self.fault(form, false);
                let higher = self.code.len();
                let other = self.rng.pick(&FORMS);
                self.fault(other, true);
                vec![higher, 0]
            }
            Kind::BehindModule | Kind::BehindCall | Kind::BehindTarget | Kind::BehindEnd => {
                self.fault(form, false);
                let entry = self.code.len();
                let count = self.rng.below(3);
                self.nothing(count);
                self.lead_back(kind);
                vec![entry]
            }
            Kind::BehindUnfit => {
                self.unfit();
                self.fault(form, true);
                vec![0]
            }
        }
    }

    /// An instruction at fault, and a jump back behind it; or one that is both.
    fn lead_back(&mut self, kind: Kind) {
        let other = match kind {
            Kind::BehindEnd => {
                let conditional = self.rng.pick(&[JPBC, JPC]);
                return self.jump_to_start(conditional);
            }
            Kind::BehindTarget => {
                let opcode = self.rng.pick(&[JPC, JPFC, JPBC, ORJP, ANDJP]);
                (NO_TARGET, opcode)
            }
            Kind::BehindCall => {
                let no_procedure = (NO_PROCEDURE, self.rng.pick(&[CX, CI, CL, CL1]));
                self.rng
                    .pick(&[(NO_MODULE, CX), no_procedure, no_procedure])
            }
            _ => (NO_MODULE, self.rng.pick(&[LEA, LEW, LED, SEW, SED])),
        };
        self.instruction(other);
        let always = self.rng.pick(&[JPB, JP]);
        self.jump_to_start(always);
    }

    /// So many NOPs.
    fn nothing(&mut self, count: usize) {
        self.code.extend(vec![0o336; count]);
    }

    /// An instruction that takes more words than there are, or puts too many.
    fn unfit(&mut self) {
        let code = match self.rng.below(3) {
            0 => literals(self.rng, 17),
            _ => vec![self.rng.pick(&[0o160, 0o245, 0o270, DADD])],
        };
        self.code.extend(code);
    }

    /// An instruction without a next position.
    fn stop(&mut self) {
        const STOPS: [&[u8]; 3] = [&[RTN], &[TRAP], &[JPB, 1]];
        self.code.extend(self.rng.pick(&STOPS));
    }

    /// An instruction at fault, behind which there is nothing to be found. Some
    /// forms are for the code's end alone.
    fn fault(&mut self, form: Form, last: bool) {
        let at_end = matches!(form.0, Cause::OperandsOutside | NO_NEXT);
        if at_end && last && !self.front {
            self.instruction(form);
        } else {
            self.instruction(if at_end { UNLISTED } else { form });
            self.stop();
        }
    }

    /// An instruction at fault.
    fn instruction(&mut self, (cause, opcode): Form) {
        match cause {
            Cause::UnlistedOpcode => {
                let opcode = self.any_opcode(|length| length == 0);
                self.code.push(opcode);
            }
            Cause::OperandsOutside => self.cut(),
            NO_MODULE => {
                let count = self.counts.len();
                let beyond = [count, count, count + 1, MOST_MODULES, 255];
                let module = self.rng.pick(&beyond) as u8;
                let other = self.rng.byte();
                self.code.extend([opcode, module, other]);
            }
            NO_PROCEDURE => self.call(opcode),
            NO_TARGET => self.jump_outside(opcode),
            NO_NEXT if opcode != ANY => self.code.push(opcode),
            NO_NEXT => self.run_off(),
        }
    }

    /// An opcode whose length in the table is one of these.
    fn any_opcode(&mut self, length: impl Fn(u8) -> bool) -> u8 {
        loop {
            let opcode = self.rng.byte();
            if length(opcode::row(opcode).length) {
                return opcode;
            }
        }
    }

    /// An instruction that lacks some of its operands.
    fn cut(&mut self) {
        let opcode = self.any_opcode(|length| length > 1);
        self.code.push(opcode);
        let operands = self.rng.below(usize::from(opcode::row(opcode).length) - 1);
        self.code.extend((0..operands).map(|_| self.rng.byte()));
    }

    /// A call of a missing procedure.
    fn call(&mut self, opcode: u8) {
        let module = match opcode {
            CX => self.rng.below(self.counts.len()),
            _ => self.module,
        };
        let count = self.counts[module];
        let number = self.rng.pick(&[count, count, count + 1, 255]).min(255) as u8;
        match opcode {
            CX => self.code.extend([CX, module as u8, number]),
            CL1 if count <= 15 => {
                let number = self.rng.within(count, 15) as u8;
                self.code.push(CL + number);
            }
            CL1 => self.code.extend([CL, number]),
            _ => self.code.extend([opcode, number]),
        }
    }

    /// A jump to a target outside the code, in the long form where the short
    /// one would stay inside.
    fn jump_outside(&mut self, opcode: u8) {
        let opcode = match (opcode, self.front) {
            (JPB, false) | (JPF, true) => JP,
            (JPBC, false) | (JPFC | ORJP | ANDJP, true) => JPC,
            _ => opcode,
        };
        self.outside.push(self.code.len());
        self.code.push(opcode);
        self.code.extend(vec![0; jump_operands(opcode)]);
    }

    /// A whole instruction that leads to the next position, which is missing.
    fn run_off(&mut self) {
        let module = self.rng.below(self.counts.len()) as u8;
        let b = self.rng.byte();
        let last = match self.rng.below(8) {
            0 => vec![0o336],
            1 => vec![0o020, b],
            2 => vec![LID, b, b, b, b],
            3 => vec![LEA, module, b],
            4 => vec![CX, module, 0],
            5 => vec![CL, 0],
            6 => vec![TRA, b],
            // To itself.
            _ => vec![JPBC, 1],
        };
        self.code.extend(last);
    }

    /// A jump to the start of this code.
    fn jump_to_start(&mut self, opcode: u8) {
        let operand = self.code.len() as u16 + 1;
        self.code.push(opcode);
        match jump_operands(opcode) {
            1 => self.code.push(operand as u8),
            _ => self.code.extend(operand.wrapping_neg().to_be_bytes()),
        }
    }

    /// Puts the code where it belongs, and the last procedures at their entries.
    fn put(self, module: &mut Source, entries: &[usize]) {
        let (begin, other) = if self.front {
            (0, self.code.len())
        } else {
            (module.code.len(), 0)
        };
        let added = module.procedures.len() - entries.len();
        for procedure in &mut module.procedures[..added] {
            procedure.entry += other as u16;
        }
        for (procedure, entry) in module.procedures[added..].iter_mut().zip(entries) {
            procedure.entry = (begin + entry) as u16;
        }
        module.code.splice(begin..begin, self.code);
        for jump in self.outside {
            set_target_outside(self.rng, &mut module.code, begin + jump);
        }
    }
}

/// The bytes of a jump's operand.
fn jump_operands(opcode: u8) -> usize {
    usize::from(opcode::row(opcode).length) - 1
}

/// Lets a jump lead out of the code, often by just one byte.
fn set_target_outside(rng: &mut Rng, code: &mut [u8], position: usize) {
    let operand = position + 1;
    let end = code.len() - operand;
    match code[position] {
        JP | JPC => {
            let (forward, back) = (end as i16, -1 - operand as i16);
            let offset = rng.pick(&[forward, forward, back, back, i16::MAX, i16::MIN]);
            code[operand..operand + 2].copy_from_slice(&offset.to_be_bytes());
        }
        JPB | JPBC => code[operand] = rng.pick(&[operand + 1, operand + 1, 255]) as u8,
        _ => code[operand] = rng.pick(&[end, end, 255]) as u8,
    }
}
