//! A.11: "One form for the archive."

use crate::rig::{procedure, FF};
use second::api::Buffers;
use second::archive::values;
use second::assemble::{encode, Source};
use second::case::{replay, Case};
use second::gen::rng::Rng;
use second::gen::{self, FULL, SMALL};
use second::image::{parse, Module, Procedure, ONLY_PROCEDURE};
use second::{archive, load, run, start, ArchiveAnswer};

const LI1: u8 = 1;
const UNLISTED: u8 = 0o021;
const TRAP: u8 = 0o304;
const NOP: u8 = 0o336;
const RTN: u8 = 0o354;

/// The image of one module that returns, which is the least there is.
const LEAST: [u8; 5] = [1, 0, 0, 1, RTN];

/// Archives with an output of so many bytes. "The writer is lent a map and leaves it as
/// load would; output past the form is unchanged." Answers the number and what was
/// written.
fn archived(image: &[u8], entries: usize, bytes: usize) -> (u8, Vec<u8>) {
    let (mut map, mut loaded) = (vec![0x77; entries], vec![0x77; entries]);
    let mut output = vec![0xA5; bytes];
    let ArchiveAnswer { number, length } = archive(image, &mut map, &mut output);
    load(image, &mut loaded);
    assert_eq!(map, loaded);
    let (form, past) = output.split_at(length);
    assert!(past.iter().all(|&byte| byte == 0xA5));
    (number, form.to_vec())
}

/// The form of an image, with outputs that suffice and with some that do not; and the form
/// of the form: "writing it again gives the same bytes".
fn expect_form(image: &[u8], form: &[u8]) {
    for image in [image, form] {
        for entries in [image.len(), image.len() + 3] {
            for more in [0, 1, 7, 300] {
                let answer = archived(image, entries, form.len() + more);
                assert_eq!(answer, (0, form.to_vec()), "{image:?}");
            }
            for bytes in [0, 1, form.len() / 2, form.len() - 1] {
                assert_eq!(archived(image, entries, bytes), (14, vec![]), "{image:?}");
            }
        }
    }
}

fn expect_own(image: &[u8]) {
    expect_form(image, image);
}

/// "a data size other than 0"
#[test]
fn data_sizes() {
    expect_own(&LEAST);
    expect_form(&[1, 1, 0, 0, 0, 1, RTN], &LEAST);
    for [high, low] in [[0, 1], [0, 255], [1, 0], [128, 0], [255, 255]] {
        expect_own(&[1, 1, high, low, 0, 1, RTN]);
    }
}

/// "procedures other than the single default one": a list of exactly one, entry 0, no
/// parameters, no results, spelled out or not.
#[test]
fn procedures() {
    expect_form(&[1, 2, 1, 0, 1, 0, 0, 0, 0, RTN], &LEAST);
    // Another entry, by its low byte and by its high byte.
    expect_own(&[1, 2, 1, 0, 2, 0, 1, 0, 0, UNLISTED, RTN]);
    let far = [&[1, 2, 1, 1, 1, 1, 0, 0, 0][..], &[UNLISTED; 256], &[RTN]].concat();
    expect_own(&far);
    // Results.
    expect_own(&[1, 2, 1, 0, 2, 0, 0, 0, 1, LI1, RTN]);
    // Parameters, which the main program does not have.
    expect_own(&[2, 0, 0, 1, RTN, 2, 1, 0, 1, 0, 0, 1, 0, TRAP]);
    // Two that are both 0/0/0 are not the single default one, nor are 255.
    expect_own(&[1, 2, 2, 0, 1, 0, 0, 0, 0, 0, 0, 0, 0, RTN]);
    expect_own(&[&[1, 2, 255, 0, 1][..], &[0; 4 * 255], &[RTN]].concat());
    // One of two is.
    expect_own(&[1, 2, 2, 0, 2, 0, 0, 0, 0, 0, 1, 0, 0, RTN, RTN]);
    expect_own(&[1, 2, 2, 0, 2, 0, 1, 0, 0, 0, 0, 0, 0, RTN, RTN]);
}

/// "a name other than zeros"
#[test]
fn names() {
    let named = |name: [u8; 8]| [&[1, 4][..], &name, &[0, 1, RTN]].concat();
    expect_form(&named([0; 8]), &LEAST);
    for at in 0..8 {
        for byte in [1, 128, 255] {
            let mut name = [0; 8];
            name[at] = byte;
            expect_own(&named(name));
        }
    }
    expect_own(&named(*b"CABINET1"));
}

/// A module in two ways: a field that is not there, one that is spelled out and need not
/// be, and another one, by what is left of the number divided by 3.
fn two_ways(fields: usize) -> [Vec<u8>; 2] {
    let (data, procedures, name) = (fields % 3, fields / 3 % 3, fields / 9);
    let module = |stands: fn(usize) -> bool| {
        let bit = |field: usize| u8::from(stands(field));
        let mut module = vec![bit(data) + 2 * bit(procedures) + 4 * bit(name)];
        if stands(data) {
            module.extend([0, [0, 0, 9][data]]);
        }
        if stands(procedures) {
            module.push(1);
        }
        if stands(name) {
            module.extend([0, 0, 0, [0, 0, 7][name], 0, 0, 0, 0]);
        }
        module.extend([0, 2]);
        if stands(procedures) {
            module.extend([0, [0, 0, 1][procedures], 0, 0]);
        }
        module.extend([RTN, RTN]);
        module
    };
    [module(|field| field > 0), module(|field| field > 1)]
}

/// The image of these modules.
fn joined(modules: &[Vec<u8>]) -> Vec<u8> {
    [vec![modules.len() as u8], modules.concat()].concat()
}

/// Each field with each of the others, alone and as each of three modules.
#[test]
fn fields_together() {
    for fields in 0..27 {
        let [image, form] = two_ways(fields);
        expect_form(&joined(&[image]), &joined(&[form]));
        for others in [0, 13, 26] {
            for at in 0..3 {
                let mut both = [0, 1].map(|way| vec![two_ways(others)[way].clone(); 3]);
                for (modules, module) in both.iter_mut().zip(two_ways(fields)) {
                    modules[at] = module;
                }
                let [image, form] = both.map(|modules| joined(&modules));
                expect_form(&image, &form);
            }
        }
    }
}

/// As many modules as there can be, each of them spelled out, one of them, and none.
#[test]
fn the_most_modules() {
    let plain = vec![vec![0, 0, 1, RTN]; 21];
    let spelled = [&[7, 0, 0, 1][..], &[0; 8], &[0, 1, 0, 0, 0, 0, RTN]].concat();
    expect_own(&joined(&plain));
    expect_form(&joined(&vec![spelled.clone(); 21]), &joined(&plain));
    for at in 0..21 {
        let mut modules = plain.clone();
        modules[at] = spelled.clone();
        expect_form(&joined(&modules), &joined(&plain));
    }
    let more = joined(&vec![spelled; 22]);
    assert_eq!(archived(&more, more.len(), more.len()), (2, vec![]));
}

/// "Then the code", also where nothing reaches it.
#[test]
fn code_is_written_as_it_is() {
    let code: Vec<u8> = [RTN].into_iter().chain(0..=255).collect();
    let header = [&[1, 7, 0, 0, 1][..], &[0; 8], &[1, 1], &[0; 4]].concat();
    let form = [&[1, 0, 1, 1][..], &code].concat();
    expect_form(&[&header[..], &code].concat(), &form);
}

/// The longest images: one that is its own form, and one that is not.
#[test]
fn the_longest_images() {
    let filled = |length: usize| [vec![NOP; length - 1], vec![RTN]].concat();
    let plain = |length: usize| {
        let [high, low] = (length as u16).to_be_bytes();
        [vec![0, high, low], filled(length)].concat()
    };
    let own = joined(&[plain(32_767), plain(32_761)]);
    assert_eq!(own.len(), 65_535);
    expect_own(&own);
    // Its bits cost 2 + 5 + 8 bytes of the second code.
    let [high, low] = 32_767_u16.to_be_bytes();
    let header = [&[7, 0, 0, 1][..], &[0; 8], &[high, low], &[0; 4]].concat();
    let spelled = [header, filled(32_767)].concat();
    let image = joined(&[spelled, plain(32_746)]);
    assert_eq!(image.len(), 65_535);
    expect_form(&image, &joined(&[plain(32_767), plain(32_746)]));
    // One byte too many, though the form has fewer.
    let longer = [&image[..], &[0]].concat();
    assert_eq!(archived(&longer, 65_600, 65_600), (1, vec![]));
}

/// Load's refusals, of images whose fields are spelled out.
fn refused_images() -> Vec<(u8, Vec<u8>)> {
    let sound = [&[1, 7, 0, 0, 1][..], &[0; 8], &[0, 1, 0, 0, 0, 0, RTN]].concat();
    let with = |at: usize, byte: u8| {
        let mut image = sound.clone();
        image[at] = byte;
        image
    };
    vec![
        (1, vec![]),
        (1, vec![1; 65_536]),
        (2, with(0, 0)),
        (2, with(0, 22)),
        (3, sound[..sound.len() - 1].to_vec()),
        (3, with(0, 2)),
        (4, [&sound[..], &[0]].concat()),
        (5, with(1, 15)),
        // No procedure, a code of 0, an entry outside, parameters, five results.
        (6, with(4, 0)),
        (6, with(14, 0)),
        (6, with(16, 1)),
        (6, with(17, 1)),
        (6, with(18, 5)),
        (8, with(19, TRAP)),
        (13, with(19, UNLISTED)),
        (13, with(19, NOP)),
    ]
}

/// "Refused: 14, the output slice is shorter than the form, after load's refusals, output
/// unchanged." Without an output too the refusal is load's.
#[test]
fn loads_refusals_come_first() {
    for (number, image) in refused_images() {
        for bytes in [0, 1, image.len(), image.len() + 40] {
            for entries in [image.len(), image.len() + 3] {
                let answer = archived(&image, entries, bytes);
                assert_eq!(answer, (number, vec![]), "{image:?}");
            }
        }
        // 7 comes behind 1 to 6, and before 13 and 8.
        if !image.is_empty() {
            for bytes in [0, image.len()] {
                let answer = archived(&image, image.len() - 1, bytes);
                assert_eq!(answer, (number.min(7), vec![]), "{image:?}");
            }
        }
    }
    // An accepted image: the map comes before the output.
    for bytes in [0, 4, 5, 100] {
        for entries in [0, 4] {
            assert_eq!(archived(&LEAST, entries, bytes), (7, vec![]));
        }
    }
}

/// The map in so many words: filled where the output is too short, unmarked for 8 and 13,
/// as it was for the others.
#[test]
fn the_map_is_left_as_load_leaves_it() {
    let map_after = |image: &[u8], bytes: usize| {
        let mut map = vec![0x77; image.len() + 1];
        let answer = archive(image, &mut map, &mut vec![0; bytes]);
        (answer.number, map)
    };
    // RTN is at byte 6, and at byte 4 of the form.
    let image = [1, 1, 0, 0, 0, 1, RTN];
    let filled = vec![FF, FF, FF, FF, FF, FF, 0, 0x77];
    assert_eq!(map_after(&image, 5), (0, filled.clone()));
    assert_eq!(map_after(&image, 4), (14, filled.clone()));
    assert_eq!(map_after(&image, 0), (14, filled));
    for (number, image) in refused_images() {
        let mut expected = vec![0x77; image.len() + 1];
        if matches!(number, 8 | 13) {
            expected[..image.len()].fill(FF);
        }
        for bytes in [0, 100] {
            assert_eq!(map_after(&image, bytes), (number, expected.clone()));
        }
    }
}

/// Bits that the paper does not name are no fields: they are refused, not left out.
#[test]
fn other_bits_are_refused() {
    for bit in 3..8 {
        let image = [1, 1 << bit, 0, 1, RTN];
        assert_eq!(archived(&image, 5, 5), (5, vec![]));
    }
}

/// The form once more, byte by byte: fields that need not be there are stepped over.
fn stepped_over(image: &[u8]) -> Vec<u8> {
    let mut form = vec![image[0]];
    let mut rest = &image[1..];
    let mut take = |length: usize| {
        let (part, behind) = rest.split_at(length);
        rest = behind;
        part
    };
    for _ in 0..image[0] {
        let bits = take(1)[0];
        let data = take(if bits & 1 != 0 { 2 } else { 0 });
        let count = take(if bits & 2 != 0 { 1 } else { 0 });
        let name = take(if bits & 4 != 0 { 8 } else { 0 });
        let length = take(2);
        let records = take(count.first().map_or(0, |&count| 4 * usize::from(count)));
        let code = take(usize::from(length[0]) << 8 | usize::from(length[1]));
        let keep = |part: &[u8]| part.iter().any(|&byte| byte != 0);
        let with_data = keep(data);
        let with_procedures = records.len() > 4 || keep(records);
        let with_name = keep(name);
        let bits = [with_data, with_procedures, with_name];
        form.push((0..3).map(|bit| u8::from(bits[bit]) << bit).sum());
        let parts = [
            (with_data, data),
            (with_procedures, count),
            (with_name, name),
        ];
        let kept = parts.iter().filter(|(stands, _)| *stands);
        form.extend(kept.flat_map(|(_, part)| part.iter()));
        form.extend(length);
        if with_procedures {
            form.extend(records);
        }
        form.extend(code);
    }
    form
}

/// Generated cases, among them those of forms.
fn cases() -> impl Iterator<Item = Case> {
    gen::cases(&SMALL, 20, 3008).chain(gen::cases(&FULL, 21, 700))
}

/// The images of them that load accepts, with the map that it fills.
fn accepted() -> impl Iterator<Item = (Vec<u8>, Vec<u32>)> {
    cases().filter_map(|case| {
        let mut map = vec![FF; case.image.len()];
        let number = load(&case.image, &mut map).number;
        (number == 0).then_some((case.image, map))
    })
}

/// The form of an accepted image.
fn form_of(image: &[u8]) -> Vec<u8> {
    let (number, form) = archived(image, image.len(), image.len());
    assert_eq!(number, 0);
    form
}

/// What archive answers and leaves in each case.
#[test]
fn cases_are_archived_as_the_paper_says() {
    let mut seen = [0; 15];
    for case in cases() {
        let outcome = replay(&case, &mut ());
        let ArchiveAnswer { number, length } = outcome.archive;
        let expected = match outcome.load.number {
            0 => {
                let form = stepped_over(&case.image);
                match case.output_length < form.len() {
                    true => (14, vec![]),
                    false => (0, form),
                }
            }
            refusal => (refusal, vec![]),
        };
        let (form, past) = outcome.output.split_at(length);
        assert_eq!((number, form), (expected.0, &expected.1[..]));
        assert!(past.iter().all(|&byte| byte == case.output_fill));
        assert_eq!(outcome.output.len(), case.output_length);
        assert_eq!(outcome.archive_map, outcome.map);
        seen[usize::from(number)] += 1;
    }
    for (number, count) in seen.into_iter().enumerate() {
        let is_answer = matches!(number, 0..=8 | 13..);
        assert_eq!(count > 9, is_answer, "{number}: {count}");
    }
}

/// "The form loads with the same modules": with 0, with the same fields and code, and
/// with the same marks in each code.
#[test]
fn forms_load_with_the_same_modules() {
    let mut shorter = 0;
    for (image, map) in accepted() {
        let form = form_of(&image);
        assert!(form.len() <= image.len());
        shorter += u32::from(form.len() < image.len());
        let mut form_map = vec![0x77; form.len()];
        assert_eq!(load(&form, &mut form_map).number, 0);
        let (program, written) = (parse(&image).unwrap(), parse(&form).unwrap());
        assert_eq!(values(&program, &image), values(&written, &form));
        assert_eq!(program.z, written.z);
        let marks = |modules: &[Module], map: &[u32]| -> Vec<Vec<u32>> {
            let part = |module: &Module| map[module.code_range()].to_vec();
            modules.iter().map(part).collect()
        };
        let expected = marks(&program.modules, &map);
        assert_eq!(marks(&written.modules, &form_map), expected);
    }
    assert!(shorter > 50, "{shorter}");
}

/// And it runs as the image does.
#[test]
fn forms_run_as_their_images() {
    for (image, map) in accepted() {
        let form = form_of(&image);
        let mut form_map = vec![FF; form.len()];
        load(&form, &mut form_map);
        let ran = |image: &[u8], map: &[u32]| {
            let (mut store, mut outputs) = (vec![7; 4096], [9; 16]);
            let (number, machine) = start(image, &mut store);
            let buffers = Buffers {
                image,
                map,
                store: &mut store,
                outputs: &mut outputs,
                inputs: &[3; 16],
            };
            let answer = run(machine, buffers, 0, 100);
            (number, answer, store, outputs)
        };
        assert_eq!(ran(&image, &map), ran(&form, &form_map));
    }
}

/// "writing it again gives the same bytes"
#[test]
fn forms_are_their_own() {
    for (image, _) in accepted() {
        let form = form_of(&image);
        assert_eq!(form_of(&form), form);
    }
}

/// An image of the same modules, with each field that need not be there spelled out or
/// left out at random.
fn spelled_anew(rng: &mut Rng, image: &[u8]) -> Vec<u8> {
    let program = parse(image).unwrap();
    let modules: Vec<Source> = values(&program, image)
        .iter()
        .map(|module| {
            let mut procedures = module.procedures.to_vec();
            if procedures == [ONLY_PROCEDURE] && rng.once_in(2) {
                procedures.clear();
            }
            let left_out = module.name == [0; 8] && rng.once_in(2);
            Source {
                data_size: module.data_size,
                spells_data: rng.once_in(2),
                procedures,
                name: (!left_out).then_some(module.name),
                code: module.code.to_vec(),
            }
        })
        .collect();
    encode(&modules)
}

/// "images with equal modules have the same form"
#[test]
fn equal_modules_have_one_form() {
    let rng = &mut Rng::for_case(5, 0);
    let mut others = 0;
    for (image, _) in accepted() {
        let form = form_of(&image);
        for _ in 0..4 {
            let anew = spelled_anew(rng, &image);
            if anew.len() <= 65_535 {
                assert_eq!(form_of(&anew), form);
                others += u32::from(anew != image);
            }
        }
    }
    assert!(others > 2000, "{others}");
}

/// And images with other modules have other forms: one field or a byte of the code.
#[test]
fn other_modules_have_other_forms() {
    let sources = |change: fn(&mut Source)| {
        let mut modules = vec![Source::plain(&[RTN, RTN]); 2];
        change(&mut modules[1]);
        form_of(&encode(&modules))
    };
    let with = |change: Procedure| {
        let mut modules = vec![Source::plain(&[RTN, RTN]); 2];
        modules[1].procedures = vec![change];
        form_of(&encode(&modules))
    };
    let forms = [
        sources(|_| ()),
        sources(|module| module.data_size = 1),
        sources(|module| module.data_size = 256),
        sources(|module| module.name = Some([0, 0, 0, 0, 0, 0, 0, 1])),
        sources(|module| module.name = Some([1, 0, 0, 0, 0, 0, 0, 0])),
        sources(|module| module.code[1] = NOP),
        sources(|module| module.code.push(RTN)),
        sources(|module| module.procedures = vec![ONLY_PROCEDURE; 2]),
        sources(|module| module.procedures = vec![ONLY_PROCEDURE; 3]),
        with(procedure(1, 0, 0)),
    ];
    for (i, form) in forms.iter().enumerate() {
        assert!(!forms[..i].contains(form), "{form:?}");
    }
}
