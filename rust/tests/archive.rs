//! The archive form: images and their forms as bytes, rule by rule; every refusal and what it leaves; the examples there and back.

mod common;

use cembuxola::c::LINKED;
use cembuxola::{archive, archived, load, Cabinet, Refusal, MOST_MODULES, UNMARKED};
use common::{image, INPUTS, WORDS};
use std::ops::Range;

/// A module that ends at once, with no bit.
const PLAIN: [u8; 5] = [1, 0, 0, 1, 0xEC];
const NO_NAME: [u8; 8] = [0; 8];
/// What stands in an output, in a map and where a length is written, before a call.
const BYTE: u8 = 0xA7;
const ENTRY: u32 = 0x1234_5678;
const NUMBER: u32 = 0x8765_4321;

/// What archive answers and leaves in buffers of these lengths.
#[derive(Debug, PartialEq)]
struct Left {
    number: u16,
    map: Vec<u32>,
    out: Vec<u8>,
    written: u32,
}

fn call(image: &[u8], entries: usize, bytes: usize) -> Left {
    let (mut map, mut out) = (vec![ENTRY; entries], vec![BYTE; bytes]);
    let mut written = [NUMBER];
    let number = LINKED.archive(image, &mut map, &mut out, &mut written);
    let [written] = written;
    Left {
        number,
        map,
        out,
        written,
    }
}

/// What load leaves in a map of this length, and its number.
fn loaded(image: &[u8], entries: usize) -> (u16, Vec<u32>) {
    let mut map = vec![ENTRY; entries];
    let number = LINKED.load(image, &mut map, &mut [0; 2]);
    (number, map)
}

/// The image has this form, in outputs and maps that just suffice and in longer ones, which keep their ends; shorter outputs are refused.
fn has_form(image: &[u8], form: &[u8]) {
    assert_eq!(archived(image).as_deref(), Ok(form), "{image:x?}");
    assert!(form.len() <= image.len());
    for entries in [image.len(), image.len() + 3] {
        let (number, map) = loaded(image, entries);
        assert_eq!(number, 0);
        for rest in [0, 1, image.len() - form.len(), 9] {
            let left = Left {
                number: 0,
                map: map.clone(),
                out: [form, &vec![BYTE; rest]].concat(),
                written: form.len() as u32,
            };
            let same = call(image, entries, form.len() + rest) == left;
            assert!(same, "{image:x?}, {rest} bytes past the form");
        }
        for bytes in [form.len() - 1, form.len() / 2, 1, 0] {
            let left = Left {
                number: 14,
                map: map.clone(),
                out: vec![BYTE; bytes],
                written: 0,
            };
            let same = call(image, entries, bytes) == left;
            assert!(same, "{image:x?}, output of {bytes}");
        }
    }
}

/// It is its own form.
fn is_form(image: &[u8]) {
    has_form(image, image);
}

#[test]
fn a_field_that_is_as_without_it_is_left_out() {
    is_form(&PLAIN);
    // a data size of 0
    has_form(&[1, 1, 0, 0, 0, 1, 0xEC], &PLAIN);
    // the single default procedure
    has_form(&[1, 2, 1, 0, 1, 0, 0, 0, 0, 0xEC], &PLAIN);
    // a name of zeros
    has_form(&[1, 4, 0, 0, 0, 0, 0, 0, 0, 0, 0, 1, 0xEC], &PLAIN);
    // two of them, and all
    has_form(&[1, 3, 0, 0, 1, 0, 1, 0, 0, 0, 0, 0xEC], &PLAIN);
    has_form(&[1, 5, 0, 0, 0, 0, 0, 0, 0, 0, 0, 0, 0, 1, 0xEC], &PLAIN);
    has_form(
        &[1, 6, 1, 0, 0, 0, 0, 0, 0, 0, 0, 0, 1, 0, 0, 0, 0, 0xEC],
        &PLAIN,
    );
    has_form(
        &[
            1, 7, 0, 0, 1, 0, 0, 0, 0, 0, 0, 0, 0, 0, 1, 0, 0, 0, 0, 0xEC,
        ],
        &PLAIN,
    );
}

#[test]
fn a_data_size_other_than_0_stays() {
    for [high, low] in [[0, 1], [1, 0], [0, 255], [255, 0], [255, 255]] {
        is_form(&[1, 1, high, low, 0, 1, 0xEC]);
    }
    // with the other fields spelled out
    has_form(
        &[
            1, 7, 1, 0, 1, 0, 0, 0, 0, 0, 0, 0, 0, 0, 1, 0, 0, 0, 0, 0xEC,
        ],
        &[1, 1, 1, 0, 0, 1, 0xEC],
    );
}

#[test]
fn procedures_other_than_the_single_default_one_stay() {
    // two of them, each as the default one
    is_form(&[1, 2, 2, 0, 1, 0, 0, 0, 0, 0, 0, 0, 0, 0xEC]);
    // one with another entry: 1, and 256, whose low byte is 0
    is_form(&[1, 2, 1, 0, 2, 0, 1, 0, 0, 0xEC, 0xEC]);
    is_form(&[&[1, 2, 1, 1, 1, 1, 0, 0, 0][..], &[0xEC; 257]].concat());
    // with a result
    is_form(&[1, 2, 1, 0, 2, 0, 0, 0, 1, 0x07, 0xEC]);
    // with a parameter, in a second module
    is_form(&[2, 0, 0, 1, 0xEC, 2, 1, 0, 1, 0, 0, 1, 0, 0xC4]);
    // the most of them
    let records = [0; 4 * 255];
    is_form(&[&[1, 2, 255, 0, 1][..], &records, &[0xEC]].concat());
    // with the other fields spelled out
    has_form(
        &[
            1, 7, 0, 0, 2, 0, 0, 0, 0, 0, 0, 0, 0, 0, 1, 0, 0, 0, 0, 0, 0, 0, 0, 0xEC,
        ],
        &[1, 2, 2, 0, 1, 0, 0, 0, 0, 0, 0, 0, 0, 0xEC],
    );
}

#[test]
fn a_name_other_than_zeros_stays() {
    for place in 0..8 {
        let mut name = NO_NAME;
        name[place] = 1;
        let named = [&[1, 4][..], &name, &[0, 1, 0xEC]].concat();
        is_form(&named);
        // with the other fields spelled out
        let spelled = [&[1, 7, 0, 0, 1][..], &name, &[0, 1, 0, 0, 0, 0, 0xEC]];
        has_form(&spelled.concat(), &named);
    }
    is_form(&[&[1, 4][..], b"Cabinet7", &[0, 1, 0xEC]].concat());
}

/// The fields of a module, each without its bit, spelled out as it is without it, or as something else: 27 of them.
#[derive(Clone, Copy)]
struct Fields {
    data: Option<[u8; 2]>,
    procedures: Option<&'static [[u8; 4]]>,
    name: Option<[u8; 8]>,
}

impl Fields {
    fn all() -> impl Iterator<Item = Fields> {
        (0..27).map(|index| Fields {
            data: [None, Some([0, 0]), Some([2, 0])][index % 3],
            procedures: [
                None,
                Some(&[[0, 0, 0, 0]][..]),
                Some(&[[0, 1, 0, 0], [0, 0, 0, 0]]),
            ][index / 3 % 3],
            name: [None, Some(NO_NAME), Some(*b"\0lamps\0\0")][index / 9],
        })
    }

    /// A module of these fields that ends at once, at both its positions.
    fn module(&self) -> Vec<u8> {
        let Fields {
            data,
            procedures,
            name,
        } = self;
        let bits = [data.is_some(), procedures.is_some(), name.is_some()];
        let bits: u8 = (0..).zip(bits).map(|(i, bit)| u8::from(bit) << i).sum();
        let mut module = vec![bits];
        module.extend(data.iter().flatten());
        module.extend(procedures.iter().map(|records| records.len() as u8));
        module.extend(name.iter().flatten());
        module.extend([0, 2]);
        module.extend(procedures.iter().flat_map(|records| records.concat()));
        module.extend([0xEC, 0xEC]);
        module
    }

    /// Those of the form.
    fn kept(self) -> Fields {
        Fields {
            data: self.data.filter(|&data| data != [0, 0]),
            procedures: self.procedures.filter(|records| records.len() == 2),
            name: self.name.filter(|&name| name != NO_NAME),
        }
    }
}

#[test]
fn fields_of_modules_side_by_side() {
    for first in Fields::all() {
        for second in Fields::all() {
            let of = |first: &Fields, second: &Fields| {
                [&[2][..], &first.module(), &second.module()].concat()
            };
            let image = of(&first, &second);
            let form = of(&first.kept(), &second.kept());
            assert_eq!(archived(&image).as_deref(), Ok(&form[..]), "{image:x?}");
        }
    }
}

#[test]
fn the_most_modules() {
    let spelled = Fields {
        data: Some([0, 0]),
        procedures: Some(&[[0, 0, 0, 0]]),
        name: Some(NO_NAME),
    };
    let of = |fields: Fields| {
        let modules = fields.module().repeat(MOST_MODULES);
        [&[MOST_MODULES as u8][..], &modules].concat()
    };
    has_form(&of(spelled), &of(spelled.kept()));
}

#[test]
fn the_longest_image() {
    // 1 + 3 + 32,767 + 3 + 32,761 bytes
    let mut longest = [&[2, 0, 0x7F, 0xFF][..], &[0xEC; 32_767]].concat();
    longest.extend([0, 0x7F, 0xF9]);
    longest.resize(65_535, 0xEC);
    is_form(&longest);
    // with a data size of 0 in the place of two bytes of code
    let mut form = longest.clone();
    form.truncate(65_533);
    form[32_773] = 0xF7;
    let mut spelled = form.clone();
    spelled[1] = 1;
    spelled.splice(2..2, [0, 0]);
    assert_eq!(spelled.len(), 65_535);
    has_form(&spelled, &form);
}

#[test]
fn every_refusal_of_load_comes_first_and_leaves_what_load_leaves() {
    let long = [1; 65_536];
    let after = [&PLAIN[..], &[0]].concat();
    let cases: [(&[u8], usize, u16); 16] = [
        (&[], 0, 1),
        (&long, 65_536, 1),
        (&[0], 1, 2),
        (&[22], 1, 2),
        (&PLAIN[..4], 4, 3),
        (&[1, 4, 0, 0, 0, 0, 0, 0, 0], 9, 3),
        (&after, 6, 4),
        (&[1, 8, 0, 1, 0xEC], 5, 5),
        (&[1, 0, 0, 0], 4, 6),
        (&[1, 2, 0, 0, 1, 0xEC], 6, 6),
        (&PLAIN, 4, 7),
        (&PLAIN, 0, 7),
        // not whole, with a map that is too short and with one that is not
        (&[1, 0, 0, 1, 0x02], 4, 7),
        (&[1, 0, 0, 1, 0x02], 5, 13),
        (&[2, 0, 0, 1, 0xEC, 0, 0, 3, 2, 2, 0x11], 14, 13),
        // no depths
        (&[1, 0, 0, 3, 0x00, 0x1D, 0x02], 9, 8),
    ];
    for (image, entries, number) in cases {
        let (answered, map) = loaded(image, entries);
        assert_eq!(answered, number);
        if number == 8 || number == 13 {
            assert!(map[..image.len()].iter().all(|&entry| entry == UNMARKED));
        }
        for bytes in [0, 1, image.len(), 70_000] {
            let left = Left {
                number,
                map: map.clone(),
                out: vec![BYTE; bytes],
                written: 0,
            };
            let same = call(image, entries, bytes) == left;
            assert!(same, "{number}, output of {bytes}");
        }
    }
}

#[test]
fn refusals_by_name() {
    let refused = |image: &[u8], entries: usize, bytes: usize| {
        archive(image, &mut vec![0; entries], &mut vec![0; bytes]).unwrap_err()
    };
    assert_eq!(refused(&PLAIN, 5, 4), Refusal::OutputShort);
    assert_eq!(refused(&PLAIN, 4, 4), Refusal::MapShort);
    // archive says no place of code that is not whole
    let broken = image(&[0x02]);
    assert_eq!(refused(&broken, 5, 0), Refusal::NotWhole(None));
    assert_eq!(archived(&broken), Err(Refusal::NotWhole(None)));
    let placed = load(&broken, &mut [0; 5]).unwrap_err();
    assert_eq!(placed.number(), Refusal::NotWhole(None).number());
    assert_eq!(refused(&image(&[0xA1, 0xEC]), 6, 0), Refusal::NoDepths);
    assert_eq!(Refusal::OutputShort.number(), 14);
    let words = [Refusal::OutputShort, Refusal::NotWhole(None)].map(|refusal| refusal.to_string());
    assert_eq!(words[0], "refused 14: output shorter than the form");
    assert_eq!(words[1], "refused 13: the code is not whole");
}

#[test]
fn another_length_of_what_is_written_is_answered_before_all_else() {
    let broken = image(&[0x02]);
    let images: [&[u8]; 4] = [&PLAIN, &[], &[22], &broken];
    for image in images {
        for numbers in [0, 2, 3] {
            for (entries, bytes) in [(9, 9), (0, 9), (9, 0)] {
                let (mut map, mut out) = (vec![ENTRY; entries], vec![BYTE; bytes]);
                let mut written = vec![NUMBER; numbers];
                assert_eq!(LINKED.archive(image, &mut map, &mut out, &mut written), 20);
                assert_eq!(map, vec![ENTRY; entries]);
                assert_eq!(out, vec![BYTE; bytes]);
                assert_eq!(written, vec![NUMBER; numbers]);
            }
        }
    }
}

/// Where the code of each module stands in an accepted image.
fn codes(image: &[u8]) -> Vec<Range<usize>> {
    let mut codes = Vec::new();
    let mut at = 1;
    for _ in 0..image[0] {
        let bits = image[at];
        at += 1 + usize::from(bits & 1) * 2;
        let mut records = 0;
        if bits & 2 != 0 {
            records = 4 * usize::from(image[at]);
            at += 1;
        }
        at += usize::from(bits >> 2 & 1) * 8;
        let length = usize::from(u16::from_be_bytes([image[at], image[at + 1]]));
        let begin = at + 2 + records;
        at = begin + length;
        codes.push(begin..at);
    }
    assert_eq!(at, image.len());
    codes
}

/// A map of an accepted image.
fn map_of(image: &[u8]) -> Vec<u32> {
    let mut map = vec![0; image.len()];
    load(image, &mut map).unwrap();
    map
}

/// The form loads with the same modules, which run alike, and is its own form.
fn there_and_back(image: &[u8]) {
    let form = archived(image).unwrap();
    assert!(form.len() <= image.len());
    let (codes, form_codes) = (codes(image), codes(&form));
    assert_eq!(codes.len(), form_codes.len());
    let (map, form_map) = (map_of(image), map_of(&form));
    for (code, form_code) in codes.into_iter().zip(form_codes) {
        assert_eq!(image[code.clone()], form[form_code.clone()]);
        assert_eq!(map[code], form_map[form_code]);
    }
    let mut cabinet = Cabinet::new(image, WORDS).unwrap();
    let mut form_cabinet = Cabinet::new(&form, WORDS).unwrap();
    assert_eq!(cabinet.store(), form_cabinet.store());
    let ran = cabinet.run(&INPUTS, 1000, 0);
    assert_eq!(form_cabinet.run(&INPUTS, 1000, 0), ran);
    assert_eq!(cabinet.machine(), form_cabinet.machine());
    assert_eq!(cabinet.outputs(), form_cabinet.outputs());
    assert_eq!(cabinet.store(), form_cabinet.store());
    assert_eq!(archived(&form), Ok(form));
}

#[test]
fn the_examples_there_and_back() {
    let folder = concat!(env!("CARGO_MANIFEST_DIR"), "/../examples");
    let (mut accepted, mut refused) = (0, 0);
    for entry in std::fs::read_dir(folder).unwrap() {
        let path = entry.unwrap().path();
        if path.extension().is_none_or(|extension| extension != "img") {
            continue;
        }
        let image = std::fs::read(&path).unwrap();
        match load(&image, &mut vec![0; image.len()]) {
            Ok(()) => {
                there_and_back(&image);
                accepted += 1;
            }
            Err(refusal) => {
                let answered = archived(&image).unwrap_err();
                assert_eq!(answered.number(), refusal.number(), "{}", path.display());
                refused += 1;
            }
        }
    }
    assert!(
        accepted > 0 && refused > 0,
        "{accepted} accepted, {refused} refused"
    );
}
