//! The image: its parts in reading order, and refusals 1 to 6.

use crate::machine::Machine;
use crate::mark::Mark;
use crate::number;

/// A.10: "The largest image found in any cabinet has 21 modules. That becomes the
/// limit".
pub const MOST_MODULES: usize = 21;

/// "entry position (word, below the code length), parameters (byte, 0 to 16),
/// results (byte, 0 to 4)"
#[derive(Clone, Copy, Debug, PartialEq, Eq)]
pub struct Procedure {
    pub entry: u16,
    pub parameters: u8,
    pub results: u8,
}

/// "If not, one procedure 0, entry 0, no parameters or results."
pub const ONLY_PROCEDURE: Procedure = Procedure {
    entry: 0,
    parameters: 0,
    results: 0,
};

/// "name, 8 bytes not interpreted, else zeros"
pub const NO_NAME: [u8; 8] = [0; 8];

/// What the image says of one module.
#[derive(Clone, Debug, PartialEq, Eq)]
pub struct Module {
    /// Which fields are spelled out.
    pub bit_map: u8,
    /// Image byte where the code begins.
    pub code_start: usize,
    pub code_length: usize,
    pub data_size: u16,
    pub name: [u8; 8],
    /// Store word where the module begins, its G. Not reduced: it may pass
    /// 65,535, and then no store is accepted.
    pub base: u32,
    first_procedure: usize,
    procedure_count: usize,
}

impl Module {
    /// The image bytes that are this module's code.
    pub fn code_range(&self) -> std::ops::Range<usize> {
        self.code_start..self.code_start + self.code_length
    }
}

/// A parsed image.
#[derive(Clone, Debug, PartialEq, Eq)]
pub struct Program {
    pub modules: Vec<Module>,
    procedures: Vec<Procedure>,
    /// "Z is the word after the last module." Not reduced.
    pub z: u32,
}

impl Program {
    /// The procedures of a module, which must exist.
    pub fn procedures(&self, module: usize) -> &[Procedure] {
        let module = &self.modules[module];
        &self.procedures[module.first_procedure..][..module.procedure_count]
    }

    /// A procedure, where both operands exist.
    pub fn procedure(&self, module: usize, number: usize) -> Option<Procedure> {
        self.modules.get(module)?;
        self.procedures(module).get(number).copied()
    }

    /// The module whose base is this word. Bases rise, so it is the only one.
    pub fn module_at(&self, base: u16) -> Option<usize> {
        self.modules
            .binary_search_by_key(&u32::from(base), |module| module.base)
            .ok()
    }

    /// The mark of a position in a tested map. A position at or beyond the
    /// code's length has none.
    pub fn mark(&self, map: &[u32], module: usize, position: u16) -> Option<Mark> {
        let module = self.modules.get(module)?;
        let part = &map[module.code_range()];
        Mark::decode(*part.get(usize::from(position))?)
    }

    /// Whether a position is marked with this depth, for landings, restores and
    /// refusal 11. A.2: "A landing still compares the depth only."
    pub fn is_marked(&self, map: &[u32], module: usize, position: u16, depth: u8) -> bool {
        self.mark(map, module, position)
            .is_some_and(|mark| mark.depth == depth)
    }

    /// False where refusal 9 applies: "W below Z + 36 or over 65,535".
    pub fn store_fits(&self, words: usize) -> bool {
        words <= usize::from(u16::MAX) && words >= self.z as usize + Machine::LEAST_BEYOND_Z
    }
}

/// Reads the image from a byte on.
struct Reader<'a> {
    image: &'a [u8],
    position: usize,
}

impl<'a> Reader<'a> {
    /// "a part present (3) before its value (5, 6)"
    fn part(&mut self, length: usize) -> Result<&'a [u8], u8> {
        let part = self
            .image
            .get(self.position..self.position + length)
            .ok_or(number::IMAGE_ENDS)?;
        self.position += length;
        Ok(part)
    }

    fn byte(&mut self) -> Result<u8, u8> {
        Ok(self.part(1)?[0])
    }

    /// "Words are 16 bits, high byte first."
    fn word(&mut self) -> Result<u16, u8> {
        let part = self.part(2)?;
        Ok(u16::from_be_bytes([part[0], part[1]]))
    }
}

fn in_range(condition: bool) -> Result<(), u8> {
    if condition {
        Ok(())
    } else {
        Err(number::FIELD_RANGE)
    }
}

/// Parses an image, or answers the first refusal: "1, 2, then module by
/// module as read: a part present (3) before its value (5, 6); then 4".
pub fn parse(image: &[u8]) -> Result<Program, u8> {
    if image.is_empty() || image.len() > usize::from(u16::MAX) {
        return Err(number::IMAGE_SIZE);
    }
    // "Byte 0 is the module count". A.10: "Refused: 2 now begins at 22."
    let module_count = usize::from(image[0]);
    if !(1..=MOST_MODULES).contains(&module_count) {
        return Err(number::MODULE_COUNT);
    }
    parse_modules(image, module_count)
}

/// The same behind the count: so many modules, whatever it says.
pub fn parse_modules(image: &[u8], module_count: usize) -> Result<Program, u8> {
    let mut reader = Reader { image, position: 1 };
    let mut program = Program {
        modules: Vec::with_capacity(module_count),
        procedures: Vec::new(),
        z: Machine::FIRST_MODULE,
    };
    for _ in 0..module_count {
        let module = parse_module(&mut reader, &mut program.procedures, program.z)?;
        program.z += Machine::MODULE_WORDS + u32::from(module.data_size);
        program.modules.push(module);
    }
    if reader.position < image.len() {
        return Err(number::BYTES_AFTER);
    }
    Ok(program)
}

/// "Each module: a bit map byte, then only the fields whose bit stands."
fn parse_module(
    reader: &mut Reader,
    procedures: &mut Vec<Procedure>,
    base: u32,
) -> Result<Module, u8> {
    let bit_map = reader.byte()?;
    if bit_map & 0b1111_1000 != 0 {
        return Err(number::BIT_MAP);
    }
    let data_size = if bit_map & 1 != 0 { reader.word()? } else { 0 };
    let listed_count = if bit_map & 2 != 0 {
        let count = reader.byte()?;
        in_range(count != 0)?;
        Some(count)
    } else {
        None
    };
    let mut name = NO_NAME;
    if bit_map & 4 != 0 {
        name.copy_from_slice(reader.part(8)?);
    }
    let code_length = reader.word()?;
    in_range((1..=32_767).contains(&code_length))?;
    let first_procedure = procedures.len();
    match listed_count {
        None => procedures.push(ONLY_PROCEDURE),
        Some(count) => {
            for _ in 0..count {
                let first_of_all = procedures.is_empty();
                procedures.push(parse_procedure(reader, code_length, first_of_all)?);
            }
        }
    }
    let code_start = reader.position;
    reader.part(usize::from(code_length))?;
    Ok(Module {
        bit_map,
        code_start,
        code_length: usize::from(code_length),
        data_size,
        name,
        base,
        first_procedure,
        procedure_count: procedures.len() - first_procedure,
    })
}

/// One record; "procedure 0 of module 0 [...] must have no parameters (else
/// refusal 6)", judged with that byte.
fn parse_procedure(
    reader: &mut Reader,
    code_length: u16,
    first_of_all: bool,
) -> Result<Procedure, u8> {
    let entry = reader.word()?;
    in_range(entry < code_length)?;
    let parameters = reader.byte()?;
    in_range(parameters <= if first_of_all { 0 } else { 16 })?;
    let results = reader.byte()?;
    in_range(results <= 4)?;
    Ok(Procedure {
        entry,
        parameters,
        results,
    })
}
