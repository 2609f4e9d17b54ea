//! What cases reach of A.11: fields that are spelled out or not, forms that are written,
//! and what archive refuses.

use crate::archive::form;
use crate::case::{Case, Outcome};
use crate::coverage::{named, Reached};
use crate::image::{parse, Procedure, Program, MOST_MODULES, NO_NAME, ONLY_PROCEDURE};
use crate::number::*;

/// Counts of what was reached; each must be.
#[derive(Default)]
pub struct Forms {
    /// By [`DATA`], [`PROCEDURES`] and [`NAMES`], and by the bit map.
    data: [u64; DATA.len()],
    procedures: [u64; PROCEDURES.len()],
    names: [u64; NAMES.len()],
    bit_maps: [u64; BIT_MAPS],
    /// By the bit map in the image, and by the one in the form, whose bits are among them.
    written: [[u64; BIT_MAPS]; BIT_MAPS],
    /// By [`LENGTHS`].
    lengths: [u64; LENGTHS.len()],
    /// By [`OWN`]: images whose form is written, and those whose form is not.
    own: [u64; OWN.len()],
    own_refused: [u64; OWN.len()],
    /// By [`COUNTS`] and [`PLACES`].
    counts: [u64; COUNTS.len()],
    places: [u64; PLACES.len()],
    /// By [`OUTPUTS`] and [`SHORT`].
    outputs: [u64; OUTPUTS.len()],
    short: [u64; SHORT.len()],
    /// By [`REFUSED`]: with no output, and with a long one.
    without: [u64; REFUSED.len()],
    with_long: [u64; REFUSED.len()],
    /// By [`FILLING`]: with a map of the image's length, and with a longer one.
    equal_map: [u64; FILLING.len()],
    longer_map: [u64; FILLING.len()],
}

/// Whether something is of a kind.
type Kind<T> = (&'static str, fn(&T) -> bool);

/// The fields of a module of an accepted image, and which of them are spelled out.
struct Spelled {
    bit_map: u8,
    data_size: u16,
    procedures: Vec<Procedure>,
    name: [u8; 8],
}

/// The bit maps 0 to 7.
const BIT_MAPS: usize = 8;

const DATA: [Kind<Spelled>; 5] = [
    ("absent", |it| it.bit_map & 1 == 0),
    ("0, spelled out", |it| {
        it.bit_map & 1 != 0 && it.data_size == 0
    }),
    ("not 0 by its high byte alone", |it| is_high(it.data_size)),
    ("not 0 by its low byte alone", |it| is_low(it.data_size)),
    ("not 0 by both bytes", |it| {
        it.data_size.to_be_bytes().iter().all(|&it| it != 0)
    }),
];

/// Several procedures are two or more.
const PROCEDURES: [Kind<Spelled>; 10] = [
    ("absent", |it| it.bit_map & 2 == 0),
    ("the default one, spelled out", |it| {
        it.bit_map & 2 != 0 && it.procedures == [ONLY_PROCEDURE]
    }),
    ("one with another entry by its high byte alone", |it| {
        it.has_one(|one| is_high(one.entry) && one.parameters == 0 && one.results == 0)
    }),
    ("one with another entry by its low byte alone", |it| {
        it.has_one(|one| is_low(one.entry) && one.parameters == 0 && one.results == 0)
    }),
    ("one with parameters alone", |it| {
        it.has_one(|one| one.entry == 0 && one.parameters != 0 && one.results == 0)
    }),
    ("one with results alone", |it| {
        it.has_one(|one| one.entry == 0 && one.parameters == 0 && one.results != 0)
    }),
    ("several, the first like the default one", |it| {
        it.has_several(|first, last| first && !last)
    }),
    ("several, the last like the default one", |it| {
        it.has_several(|first, last| !first && last)
    }),
    ("several, all like the default one", |it| {
        it.procedures.len() > 1 && it.procedures.iter().all(is_default)
    }),
    ("255", |it| it.procedures.len() == 255),
];

const NAMES: [Kind<Spelled>; 6] = [
    ("absent", |it| it.bit_map & 4 == 0),
    ("of zeros, spelled out", |it| {
        it.bit_map & 4 != 0 && it.name == NO_NAME
    }),
    ("not of zeros by its first byte alone", |it| {
        it.other_bytes() == [0]
    }),
    ("not of zeros by a byte between alone", |it| {
        matches!(it.other_bytes()[..], [1..=6])
    }),
    ("not of zeros by its last byte alone", |it| {
        it.other_bytes() == [7]
    }),
    ("not of zeros by several bytes", |it| {
        it.other_bytes().len() > 1
    }),
];

fn is_high(word: u16) -> bool {
    matches!(word.to_be_bytes(), [1..=255, 0])
}

fn is_low(word: u16) -> bool {
    matches!(word.to_be_bytes(), [0, 1..=255])
}

fn is_default(procedure: &Procedure) -> bool {
    *procedure == ONLY_PROCEDURE
}

impl Spelled {
    fn has_one(&self, is_so: impl Fn(&Procedure) -> bool) -> bool {
        matches!(&self.procedures[..], [one] if is_so(one))
    }

    /// Several procedures, and whether the first is like the default one, and the last.
    fn has_several(&self, is_so: impl Fn(bool, bool) -> bool) -> bool {
        match &self.procedures[..] {
            [first, .., last] => is_so(is_default(first), is_default(last)),
            _ => false,
        }
    }

    /// Which bytes of the name are not 0.
    fn other_bytes(&self) -> Vec<usize> {
        let bytes = self.name.iter().enumerate();
        let others = bytes.filter(|&(_, &byte)| byte != 0);
        others.map(|(index, _)| index).collect()
    }
}

/// An accepted image: the bit maps of its modules, those of its form, and the lengths of
/// both and of the output.
struct Archived {
    modules: Vec<u8>,
    written: Vec<u8>,
    image: usize,
    form: usize,
    output: usize,
}

impl Archived {
    fn is_longer(&self) -> bool {
        self.image > self.form
    }

    /// The modules that have fewer bits in the form.
    fn shorter(&self) -> Vec<usize> {
        let both = self.modules.iter().zip(&self.written).enumerate();
        let shorter = both.filter(|(_, (module, written))| module != written);
        shorter.map(|(index, _)| index).collect()
    }

    /// The only one of several modules that has, if one alone has.
    fn only_shorter(&self) -> Option<usize> {
        match self.shorter()[..] {
            [only] if self.modules.len() > 1 => Some(only),
            _ => None,
        }
    }
}

/// The least form and the longest, and one that moves a long code.
const LENGTHS: [Kind<Archived>; 3] = [
    ("5 bytes", |it| it.form == 5),
    ("65535 bytes", |it| it.form == 65_535),
    ("over 32767 bytes, shorter than the image", |it| {
        it.form > 32_767 && it.is_longer()
    }),
];

const OWN: [Kind<Archived>; 2] = [
    ("its own form", |it| !it.is_longer()),
    ("longer than its form", Archived::is_longer),
];

/// Of images that are longer than their form.
const COUNTS: [Kind<Archived>; 3] = [
    ("1", |it| it.modules.len() == 1),
    ("2 to 20", |it| {
        (2..MOST_MODULES).contains(&it.modules.len())
    }),
    ("21", |it| it.modules.len() == MOST_MODULES),
];

const PLACES: [Kind<Archived>; 4] = [
    ("the first module alone", |it| it.only_shorter() == Some(0)),
    ("a module between alone", |it| {
        let last = it.modules.len() - 1;
        it.only_shorter().is_some_and(|it| it != 0 && it != last)
    }),
    ("the last module alone", |it| {
        it.only_shorter() == Some(it.modules.len() - 1)
    }),
    ("all of several modules", |it| {
        it.modules.len() > 1 && it.shorter().len() == it.modules.len()
    }),
];

/// Outputs that a form is written to. Those shorter than the image suffice too.
const OUTPUTS: [Kind<Archived>; 6] = [
    ("its length, which is the image's", |it| {
        it.output == it.form && !it.is_longer()
    }),
    ("its length, which is not the image's", |it| {
        it.output == it.form && it.is_longer()
    }),
    ("one byte more", |it| it.output == it.form + 1),
    ("more, and less than the image's", |it| {
        (it.form + 1..it.image).contains(&it.output)
    }),
    ("the image's, which is more", |it| {
        it.output == it.image && it.is_longer()
    }),
    ("more than the image's", |it| it.output > it.image),
];

/// Outputs that are shorter than the form.
const SHORT: [Kind<Archived>; 3] = [
    ("0", |it| it.output == 0),
    ("one byte less than the form", |it| it.output + 1 == it.form),
    ("1 to two bytes less than the form", |it| {
        (1..it.form - 1).contains(&it.output)
    }),
];

/// "after load's refusals"
pub const REFUSED: [u8; 9] = [
    IMAGE_SIZE,
    MODULE_COUNT,
    IMAGE_ENDS,
    BYTES_AFTER,
    BIT_MAP,
    FIELD_RANGE,
    MAP_SHORT,
    NO_DEPTHS,
    NOT_WHOLE,
];

/// The answers that leave the map filled.
const FILLING: [u8; 4] = [ACCEPTED, NO_DEPTHS, NOT_WHOLE, OUTPUT_SHORT];

impl Forms {
    /// Adds a case and what came of it.
    pub fn add(&mut self, case: &Case, outcome: &Outcome) {
        self.add_answer(case, outcome);
        if outcome.load.number == ACCEPTED {
            let program = parse(&case.image).expect("it is accepted");
            self.add_fields(&program);
            self.add_form(case, outcome, &program);
        }
    }

    fn add_answer(&mut self, case: &Case, outcome: &Outcome) {
        let number = outcome.archive.number;
        let refused = |counts: &mut [u64; REFUSED.len()]| {
            add_to(counts, REFUSED.map(|it| it == number));
        };
        match case.output_length {
            0 => refused(&mut self.without),
            length if length >= case.image.len() => refused(&mut self.with_long),
            _ => {}
        }
        let counts = match case.map_length == case.image.len() {
            true => &mut self.equal_map,
            false => &mut self.longer_map,
        };
        add_to(counts, FILLING.map(|it| it == number));
    }

    /// The fields of an accepted image.
    fn add_fields(&mut self, program: &Program) {
        for (number, module) in program.modules.iter().enumerate() {
            let spelled = Spelled {
                bit_map: module.bit_map,
                data_size: module.data_size,
                procedures: program.procedures(number).to_vec(),
                name: module.name,
            };
            add_kinds(&mut self.data, &DATA, &spelled);
            add_kinds(&mut self.procedures, &PROCEDURES, &spelled);
            add_kinds(&mut self.names, &NAMES, &spelled);
            self.bit_maps[usize::from(module.bit_map)] += 1;
        }
    }

    /// The form of an accepted image, written or refused with 14.
    fn add_form(&mut self, case: &Case, outcome: &Outcome, program: &Program) {
        let form = form(program, &case.image);
        let written = parse(&form).expect("the form loads");
        let archived = Archived {
            modules: bit_maps(program),
            written: bit_maps(&written),
            image: case.image.len(),
            form: form.len(),
            output: case.output_length,
        };
        if archived.is_longer() {
            add_kinds(&mut self.counts, &COUNTS, &archived);
            add_kinds(&mut self.places, &PLACES, &archived);
        }
        match outcome.archive.number {
            ACCEPTED => self.add_written(&archived),
            _ => {
                add_kinds(&mut self.short, &SHORT, &archived);
                add_kinds(&mut self.own_refused, &OWN, &archived);
            }
        }
    }

    fn add_written(&mut self, it: &Archived) {
        for (&module, &written) in it.modules.iter().zip(&it.written) {
            self.written[usize::from(module)][usize::from(written)] += 1;
        }
        add_kinds(&mut self.lengths, &LENGTHS, it);
        add_kinds(&mut self.own, &OWN, it);
        add_kinds(&mut self.outputs, &OUTPUTS, it);
    }

    /// The lines of the report: what was reached, its kinds and their counts.
    pub fn reached(&self) -> Vec<Reached> {
        let bit_maps: [usize; BIT_MAPS] = std::array::from_fn(|bit_map| bit_map);
        vec![
            (
                "accepted images with a module whose data size is",
                kinds(&DATA, &self.data),
            ),
            (
                "accepted images with a module whose procedures are",
                kinds(&PROCEDURES, &self.procedures),
            ),
            (
                "accepted images with a module whose name is",
                kinds(&NAMES, &self.names),
            ),
            (
                "accepted images with a module whose bit map is",
                named(&bit_maps, &self.bit_maps),
            ),
            ("modules written with the bit map", self.written_bit_maps()),
            ("forms written of", kinds(&LENGTHS, &self.lengths)),
            ("forms written of an image that is", kinds(&OWN, &self.own)),
            (
                "forms refused with 14 of an image that is",
                kinds(&OWN, &self.own_refused),
            ),
            (
                "images longer than their form with a module count of",
                kinds(&COUNTS, &self.counts),
            ),
            (
                "images longer than their form by",
                kinds(&PLACES, &self.places),
            ),
            (
                "forms written to an output of",
                kinds(&OUTPUTS, &self.outputs),
            ),
            (
                "forms refused with 14 for an output of",
                kinds(&SHORT, &self.short),
            ),
            (
                "archive without output refused with",
                named(&REFUSED, &self.without),
            ),
            (
                "archive with a long output refused with",
                named(&REFUSED, &self.with_long),
            ),
            (
                "archive with a map of the image's length answers",
                named(&FILLING, &self.equal_map),
            ),
            (
                "archive with a longer map answers",
                named(&FILLING, &self.longer_map),
            ),
        ]
    }

    /// Each bit map that a form can have for one of an image.
    fn written_bit_maps(&self) -> Vec<(String, u64)> {
        let of_image = self.written.iter().enumerate();
        let pairs = of_image.flat_map(|(image, counts)| {
            let counts = counts.iter().enumerate();
            counts.map(move |(form, &count)| (image, form, count))
        });
        let possible = pairs.filter(|(image, form, _)| form & !image == 0);
        possible
            .map(|(image, form, count)| (format!("{form} for {image}"), count))
            .collect()
    }
}

fn bit_maps(program: &Program) -> Vec<u8> {
    let modules = program.modules.iter();
    modules.map(|module| module.bit_map).collect()
}

/// Adds to the counts of the kinds that apply.
fn add_to<const N: usize>(counts: &mut [u64; N], kinds: [bool; N]) {
    for (count, is_so) in counts.iter_mut().zip(kinds) {
        *count += u64::from(is_so);
    }
}

fn add_kinds<T, const N: usize>(counts: &mut [u64; N], kinds: &[Kind<T>; N], it: &T) {
    add_to(counts, kinds.map(|(_, is_so)| is_so(it)));
}

fn kinds<T, const N: usize>(kinds: &[Kind<T>; N], counts: &[u64; N]) -> Vec<(String, u64)> {
    named(&kinds.map(|(name, _)| name), counts)
}
