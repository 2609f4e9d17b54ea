//! A.11: "One form for the archive." An image's modules as values, and the one image of
//! them "whose bits stand only for a data size other than 0, procedures other than the
//! single default one, and a name other than zeros".

use crate::image::{Procedure, Program, NO_NAME, ONLY_PROCEDURE};

/// A module as a value: what its fields say, spelled out or not. "images with equal
/// modules have the same form"
#[derive(Clone, Copy, Debug, PartialEq, Eq)]
pub struct Value<'a> {
    pub data_size: u16,
    pub procedures: &'a [Procedure],
    pub name: [u8; 8],
    pub code: &'a [u8],
}

/// The modules of a parsed image.
pub fn values<'a>(program: &'a Program, image: &'a [u8]) -> Vec<Value<'a>> {
    let modules = program.modules.iter().enumerate();
    modules
        .map(|(number, module)| Value {
            data_size: module.data_size,
            procedures: program.procedures(number),
            name: module.name,
            code: &image[module.code_range()],
        })
        .collect()
}

/// The form of a parsed image. "Byte 0 is the module count".
pub fn form(program: &Program, image: &[u8]) -> Vec<u8> {
    let mut form = vec![program.modules.len() as u8];
    for module in values(program, image) {
        module.write(&mut form);
    }
    form
}

impl Value<'_> {
    /// "a data size other than 0"
    fn has_data(&self) -> bool {
        self.data_size != 0
    }

    /// "procedures other than the single default one": a list of exactly one, entry 0, no
    /// parameters, no results.
    fn has_procedures(&self) -> bool {
        self.procedures != [ONLY_PROCEDURE]
    }

    /// "a name other than zeros"
    fn has_name(&self) -> bool {
        self.name != NO_NAME
    }

    /// "Each module: a bit map byte, then only the fields whose bit stands." "Then always
    /// the code length"; "if bit 1 stands, one record a procedure"; "then the code".
    fn write(&self, form: &mut Vec<u8>) {
        let (data, procedures, name) = (self.has_data(), self.has_procedures(), self.has_name());
        form.push(u8::from(data) + 2 * u8::from(procedures) + 4 * u8::from(name));
        if data {
            form.extend(self.data_size.to_be_bytes());
        }
        if procedures {
            form.push(self.procedures.len() as u8);
        }
        if name {
            form.extend(self.name);
        }
        form.extend((self.code.len() as u16).to_be_bytes());
        if procedures {
            for procedure in self.procedures {
                form.extend(procedure.entry.to_be_bytes());
                form.extend([procedure.parameters, procedure.results]);
            }
        }
        form.extend(self.code);
    }
}
