//! Archive forms of generated images: each there and back through the library, and again with fields spelled out.

use crate::sides::Compared;
use crate::writer::{encode, parse, Module};
use cembuxola::c::LINKED as ENGINE;
use cembuxola::{PLACE_WORDS, WRITTEN_NUMBERS};
use second::gen::rng::Rng;
use second::image;

/// What stands in a map and in an output before a call.
const ENTRY: u32 = 0x1234_5678;
const BYTE: u8 = 0xA7;
const MOST_BYTES: usize = 65_535;

/// What was compared.
#[derive(Default)]
pub struct Forms {
    /// The images that load accepts, each with its form.
    pub compared: u64,
    /// Those of them whose form is shorter.
    pub shorter: u64,
    /// Longer images made of these, with fields spelled out, each with its form.
    pub spelled: u64,
}

/// An accepted image with load's map.
struct Loaded<'a> {
    image: &'a [u8],
    map: Vec<u32>,
}

impl<'a> Loaded<'a> {
    /// Or the number that load answers.
    fn new(image: &'a [u8]) -> Result<Loaded<'a>, u16> {
        let mut map = vec![ENTRY; image.len()];
        match ENGINE.load(image, &mut map, &mut [0; PLACE_WORDS]) {
            0 => Ok(Loaded { image, map }),
            number => Err(number),
        }
    }

    /// What archive answers and leaves of an output of so many bytes. The map is left as load left it.
    fn archive(&self, bytes: usize) -> Compared<(u16, usize, Vec<u8>)> {
        let mut map = vec![ENTRY; self.image.len()];
        let mut out = vec![BYTE; bytes];
        let mut written = [0xABCD_EF01; WRITTEN_NUMBERS];
        let number = ENGINE.archive(self.image, &mut map, &mut out, &mut written);
        if map != self.map {
            return Err(format!(
                "archive answers {number}, and its map is not load's"
            ));
        }
        let [length] = written;
        Ok((number, length as usize, out))
    }

    /// The form, by an output of the image's length: it is not longer, and what is past it stays. An output of its own length suffices, and
    /// one of a byte less is refused with 14.
    fn form(&self) -> Compared<Vec<u8>> {
        let (number, length, mut form) = self.archive(self.image.len())?;
        if number != 0 || length > form.len() || form[length..].iter().any(|&byte| byte != BYTE) {
            return Err(format!(
                "archive answers {number} and {length} of {} bytes, or writes past the form",
                self.image.len()
            ));
        }
        form.truncate(length);
        if self.archive(length)? != (0, length, form.clone()) {
            return Err(format!(
                "a form of {length} bytes is another one in so many"
            ));
        }
        let less = length - 1;
        if self.archive(less)? != (14, 0, vec![BYTE; less]) {
            return Err(format!("a form of {length} bytes is not refused in {less}"));
        }
        Ok(form)
    }
}

fn alike<T: PartialEq>(what: &str, one: T, other: T) -> Compared<()> {
    if one == other {
        Ok(())
    } else {
        Err(format!("{what}: the image has others than its form"))
    }
}

/// An image and its form have the same modules, as the second interpreter reads them, and the same marks of their code.
fn same_modules(one: &Loaded, form: &Loaded) -> Compared<()> {
    let read = |loaded: &Loaded| {
        let refused = |number| format!("the second interpreter refuses it with {number}");
        image::parse(loaded.image).map_err(refused)
    };
    let (program, form_program) = (read(one)?, read(form)?);
    alike("modules", program.modules.len(), form_program.modules.len())?;
    for (index, (module, other)) in program
        .modules
        .iter()
        .zip(&form_program.modules)
        .enumerate()
    {
        let [code, form_code] = [module, other].map(|module| module.code_range());
        let [procedures, form_procedures] = [&program, &form_program].map(|p| p.procedures(index));
        alike("data sizes", module.data_size, other.data_size)?;
        alike("bases", module.base, other.base)?;
        alike("procedures", procedures, form_procedures)?;
        alike(
            "bytes of code",
            &one.image[code.clone()],
            &form.image[form_code.clone()],
        )?;
        alike("marks", &one.map[code], &form.map[form_code])?;
    }
    Ok(())
}

/// The same modules, with one in three of the fields that the form leaves out changed a little, so that the form has it.
fn changed<'a>(kept: &[Module<'a>], rng: &mut Rng) -> Vec<Module<'a>> {
    let modules = kept.iter();
    let mut turn = || rng.below(3 * 8).checked_sub(2 * 8);
    modules.map(|module| module.changed(&mut turn)).collect()
}

/// The image of the same modules, with each field that the form leaves out spelled out or not: in one image of three all are.
fn spelled(kept: &[Module], rng: &mut Rng) -> Vec<u8> {
    let of = rng.within(1, 3);
    let modules = kept.iter();
    let spelled: Vec<Module> = modules
        .map(|module| module.spelled(|| rng.once_in(of)))
        .collect();
    encode(&spelled)
}

impl Forms {
    /// Of an image that load accepts: its form is what a plain writer writes, loads with the same modules and is its own form. An image of
    /// the same modules with fields spelled out has the same form, and one of changed modules theirs.
    pub fn there_and_back(&mut self, image: &[u8], rng: &mut Rng) -> Compared<()> {
        let Ok(loaded) = Loaded::new(image) else {
            return Ok(());
        };
        let form = loaded.form()?;
        let modules = parse(image).into_iter();
        let kept: Vec<Module> = modules.map(|module| module.kept()).collect();
        if form != encode(&kept) {
            return Err("a plain writer writes another form".into());
        }
        let form_loaded =
            Loaded::new(&form).map_err(|number| format!("the form is refused with {number}"))?;
        same_modules(&loaded, &form_loaded)?;
        if form_loaded.form()? != form {
            return Err("the form has another form".into());
        }
        self.compared += 1;
        self.shorter += u64::from(form.len() < image.len());
        self.spelled_out(&kept, rng)?;
        self.spelled_out(&changed(&kept, rng), rng)
            .map_err(|error| format!("its fields changed: {error}"))
    }

    /// An image of these modules, whose fields are those of their form, with fields spelled out: it has that form. One of too many bytes is
    /// left.
    fn spelled_out(&mut self, kept: &[Module], rng: &mut Rng) -> Compared<()> {
        let (form, image) = (encode(kept), spelled(kept, rng));
        if image.len() > MOST_BYTES {
            return Ok(());
        }
        let loaded = Loaded::new(&image)
            .map_err(|number| format!("with fields spelled out it is refused with {number}"))?;
        if loaded.form()? != form {
            return Err("with fields spelled out it has another form".into());
        }
        self.spelled += u64::from(form.len() < image.len());
        Ok(())
    }
}
