//! Builds images, for the generator and the tests.

use crate::image::Procedure;

/// One module to be encoded. A field that is empty is left out of the image, a data size
/// of 0 if it is not to be spelled out.
#[derive(Clone, Debug, Default)]
pub struct Source {
    pub data_size: u16,
    pub spells_data: bool,
    pub procedures: Vec<Procedure>,
    pub name: Option<[u8; 8]>,
    pub code: Vec<u8>,
}

impl Source {
    /// A module of code alone.
    pub fn plain(code: &[u8]) -> Source {
        Source {
            code: code.to_vec(),
            ..Source::default()
        }
    }
}

/// The image of these modules. No range is tested: counts and lengths are cut
/// to their fields, so that hostile images can be built too.
pub fn encode(modules: &[Source]) -> Vec<u8> {
    let mut image = vec![modules.len() as u8];
    for module in modules {
        let has_data = module.data_size != 0 || module.spells_data;
        let has_procedures = !module.procedures.is_empty();
        let has_name = module.name.is_some();
        image.push(u8::from(has_data) | u8::from(has_procedures) << 1 | u8::from(has_name) << 2);
        if has_data {
            image.extend(module.data_size.to_be_bytes());
        }
        if has_procedures {
            image.push(module.procedures.len() as u8);
        }
        image.extend(module.name.iter().flatten());
        image.extend((module.code.len() as u16).to_be_bytes());
        for procedure in &module.procedures {
            image.extend(procedure.entry.to_be_bytes());
            image.extend([procedure.parameters, procedure.results]);
        }
        image.extend(&module.code);
    }
    image
}
