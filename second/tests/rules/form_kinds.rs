//! The kinds of A.11 in the coverage: each is told apart from what is near it.

use crate::generated::reached;
use second::case::Case;

const UNLISTED: u8 = 0o021;
const TRAP: u8 = 0o304;
const RTN: u8 = 0o354;

/// Beginnings of what is missing of A.11.
const BEGINNINGS: [&str; 6] = [
    "archive never answered ",
    "no accepted images with a module whose ",
    "no modules written ",
    "no forms ",
    "no images longer than their form ",
    "no archive ",
];

pub fn is_of_forms(fault: &str) -> bool {
    BEGINNINGS.iter().any(|begin| fault.starts_with(begin))
}

/// What a case reaches with this title.
fn check(case: Case, title: &str, kinds: &[&str]) {
    let mut reached = reached(case.clone());
    let title = format!("no {title} ");
    reached.retain(|fault| fault.starts_with(&title));
    let expected = kinds.iter().map(|kind| format!("{title}{kind}"));
    assert_eq!(reached, expected.collect::<Vec<_>>(), "{case:?}");
}

/// An image with a map of its length and an output of this one.
fn case_of(image: &[u8], output_length: usize) -> Case {
    Case {
        image: image.to_vec(),
        map_length: image.len(),
        output_length,
        store_length: 200,
        outputs: vec![0; 16],
        ..Case::default()
    }
}

/// Fields of a module: bytes of the data size, of the procedures and of the name, if they
/// are there.
#[derive(Clone, Copy, Default)]
struct Fields<'a> {
    data: Option<[u8; 2]>,
    procedures: Option<&'a [[u8; 4]]>,
    name: Option<[u8; 8]>,
}

const NONE: Fields = Fields {
    data: None,
    procedures: None,
    name: None,
};

/// A module of so many RTNs.
fn module(fields: Fields, length: usize) -> Vec<u8> {
    let bits = [
        fields.data.is_some(),
        fields.procedures.is_some(),
        fields.name.is_some(),
    ];
    let mut module = vec![(0..3).map(|bit| u8::from(bits[bit]) << bit).sum()];
    module.extend(fields.data.iter().flatten());
    module.extend(fields.procedures.map(|procedures| procedures.len() as u8));
    module.extend(fields.name.iter().flatten());
    module.extend((length as u16).to_be_bytes());
    module.extend(fields.procedures.iter().copied().flatten().flatten());
    module.resize(module.len() + length, RTN);
    module
}

/// The image of these modules, each of one RTN.
fn image(modules: &[Fields]) -> Vec<u8> {
    let modules: Vec<Vec<u8>> = modules.iter().map(|&fields| module(fields, 1)).collect();
    [vec![modules.len() as u8], modules.concat()].concat()
}

/// The same with an output that suffices.
fn modules(modules: &[Fields]) -> Case {
    let image = image(modules);
    let length = image.len();
    case_of(&image, length)
}

const SPELLED: Fields = Fields {
    data: Some([0, 0]),
    procedures: Some(&[[0; 4]]),
    name: Some([0; 8]),
};

#[test]
fn data_sizes_are_told_apart() {
    let title = "accepted images with a module whose data size is";
    let check = |data: Option<[u8; 2]>, kind: &str| {
        check(modules(&[Fields { data, ..NONE }]), title, &[kind]);
        check(modules(&[Fields { data, ..SPELLED }]), title, &[kind]);
    };
    check(None, "absent");
    check(Some([0, 0]), "0, spelled out");
    for byte in [1, 128, 255] {
        check(Some([byte, 0]), "not 0 by its high byte alone");
        check(Some([0, byte]), "not 0 by its low byte alone");
        check(Some([byte, 1]), "not 0 by both bytes");
    }
}

#[test]
fn procedures_are_told_apart() {
    let title = "accepted images with a module whose procedures are";
    // The module comes behind one without fields, and has 300 bytes of code.
    let check = |procedures: &[[u8; 4]], kinds: &[&str]| {
        let procedures = Some(procedures);
        for fields in [NONE, SPELLED] {
            let fields = Fields {
                procedures,
                ..fields
            };
            let image = [vec![2], module(NONE, 1), module(fields, 300)].concat();
            let absent = ["absent"];
            let kinds = [&absent, kinds].concat();
            check(case_of(&image, image.len()), title, &kinds);
        }
    };
    let one = |kind: &str| format!("one with {kind} alone");
    let other = |byte: &str| one(&format!("another entry by its {byte} byte"));
    check(&[[0; 4]], &["the default one, spelled out"]);
    check(&[[1, 0, 0, 0]], &[&other("high")]);
    check(&[[0, 1, 0, 0]], &[&other("low")]);
    check(&[[0, 255, 0, 0]], &[&other("low")]);
    check(&[[1, 1, 0, 0]], &[]);
    // RTN at another depth does not fit, but for as many results.
    check(&[[0, 0, 1, 1]], &[]);
    check(&[[0, 1, 1, 1]], &[]);
    check(&[[0; 4], [0, 1, 0, 0]], &[FIRST]);
    check(&[[0; 4], [0; 4], [0, 1, 0, 0]], &[FIRST]);
    check(&[[0, 1, 0, 0], [0; 4]], &[LAST]);
    check(&[[0, 1, 0, 0], [0; 4], [0, 1, 0, 0]], &[]);
    check(&[[0, 1, 0, 0], [0, 2, 0, 0]], &[]);
    check(&[[0; 4], [0, 1, 0, 0], [0; 4]], &[]);
    check(&[[0; 4]; 2], &[ALL]);
    check(&[[0; 4]; 254], &[ALL]);
    check(&[[0; 4]; 255], &[ALL, "255"]);
    check(&[[0, 1, 0, 0]; 255], &["255"]);
}

const FIRST: &str = "several, the first like the default one";
const LAST: &str = "several, the last like the default one";
const ALL: &str = "several, all like the default one";

/// A module of one procedure with this record, and with code for it.
fn with_record(record: [u8; 4], code: &[u8]) -> Vec<u8> {
    let [high, low] = (code.len() as u16).to_be_bytes();
    [&[2, 1, high, low][..], &record, code].concat()
}

#[test]
fn parameters_and_results_are_told_apart() {
    let title = "accepted images with a module whose procedures are";
    let check = |record: [u8; 4], code: &[u8], kinds: &[&str]| {
        let image = [vec![2], module(NONE, 1), with_record(record, code)].concat();
        check(
            case_of(&image, image.len()),
            title,
            &[&["absent"], kinds].concat(),
        );
    };
    check([0, 0, 1, 0], &[TRAP], &["one with parameters alone"]);
    check([0, 0, 16, 0], &[TRAP], &["one with parameters alone"]);
    check([0, 0, 0, 1], &[1, RTN], &["one with results alone"]);
    check([0, 0, 0, 4], &[0o035, 1], &["one with results alone"]);
    check([0, 0, 1, 1], &[TRAP], &[]);
    check([0, 1, 1, 0], &[TRAP, TRAP], &[]);
    check([0, 1, 0, 1], &[RTN, 1, RTN], &[]);
    // What is refused does not count.
    let unfit = [vec![2], module(NONE, 1), with_record([0; 4], &[TRAP])].concat();
    self::check(case_of(&unfit, unfit.len()), title, &[]);
}

#[test]
fn names_are_told_apart() {
    let title = "accepted images with a module whose name is";
    let check = |name: Option<[u8; 8]>, kind: &str| {
        check(modules(&[Fields { name, ..NONE }]), title, &[kind]);
        check(modules(&[Fields { name, ..SPELLED }]), title, &[kind]);
    };
    check(None, "absent");
    check(Some([0; 8]), "of zeros, spelled out");
    for at in 0..8 {
        let mut name = [0; 8];
        name[at] = 128;
        let byte = match at {
            0 => "its first byte",
            7 => "its last byte",
            _ => "a byte between",
        };
        check(Some(name), &format!("not of zeros by {byte} alone"));
        name[(at + 3) % 8] = 1;
        check(Some(name), "not of zeros by several bytes");
    }
}

/// A field that is absent, spelled out and other.
fn fields(data: usize, procedures: usize, name: usize) -> Fields<'static> {
    Fields {
        data: [None, Some([0, 0]), Some([0, 1])][data],
        procedures: [None, Some(&[[0; 4]][..]), Some(&[[0; 4]; 2])][procedures],
        name: [None, Some([0; 8]), Some([1; 8])][name],
    }
}

#[test]
fn bit_maps_are_told_apart() {
    let title = "accepted images with a module whose bit map is";
    let written = "modules written with the bit map";
    for number in 0..27 {
        let (data, procedures, name) = (number % 3, number / 3 % 3, number / 9);
        let case = modules(&[fields(data, procedures, name)]);
        let bits = |least: usize| {
            let bit = |field: usize| u8::from(field >= least);
            bit(data) + 2 * bit(procedures) + 4 * bit(name)
        };
        check(case.clone(), title, &[&bits(1).to_string()]);
        let both = format!("{} for {}", bits(2), bits(1));
        check(case.clone(), written, &[&both]);
        // Without an output nothing is written.
        let output_length = 0;
        let short = Case {
            output_length,
            ..case
        };
        check(short.clone(), title, &[&bits(1).to_string()]);
        check(short, written, &[]);
    }
    let mut refused = modules(&[SPELLED]);
    refused.image[1] = 15;
    check(refused.clone(), title, &[]);
    check(refused, written, &[]);
}

#[test]
fn lengths_are_told_apart() {
    let title = "forms written of";
    let own = "an image that is its own form";
    let longer = "an image that is longer than its form";
    let of = |fields: Fields, length: usize| [vec![1], module(fields, length)].concat();
    let check = |image: &[u8], output: usize, kinds: &[&str]| {
        check(case_of(image, output), title, kinds);
    };
    check(&of(NONE, 1), 5, &["5 bytes", own]);
    check(&of(NONE, 1), 4, &[]);
    check(&of(NONE, 2), 6, &[own]);
    check(&of(SPELLED, 1), 5, &["5 bytes", longer]);
    check(&of(SPELLED, 2), 6, &[longer]);
    let moved = "over 32767 bytes, shorter than the image";
    check(&of(SPELLED, 32_767), 32_771, &[moved, longer]);
    check(&of(SPELLED, 32_763), 32_767, &[longer]);
    check(&of(SPELLED, 32_764), 32_768, &[moved, longer]);
    check(&of(NONE, 32_767), 32_771, &[own]);
    let two = |length: usize| [vec![2], module(NONE, 32_767), module(NONE, length)].concat();
    check(&two(32_761), 65_535, &["65535 bytes", own]);
    check(&two(32_761), 65_534, &[]);
    check(&two(32_760), 65_535, &[own]);
}

#[test]
fn places_are_told_apart() {
    let by = "images longer than their form by";
    let counts = "images longer than their form with a module count of";
    let check = |count: usize, spelled: &[usize], places: &[&str], counted: &[&str]| {
        let fields = |module: usize| match spelled.contains(&module) {
            true => SPELLED,
            false => NONE,
        };
        let list: Vec<Fields> = (0..count).map(fields).collect();
        let case = modules(&list);
        // Whether the form is written plays no part.
        for output_length in [case.output_length, 0] {
            let case = Case {
                output_length,
                ..case.clone()
            };
            check(case.clone(), by, places);
            check(case, counts, counted);
        }
    };
    let (first, between, last) = (
        "the first module alone",
        "a module between alone",
        "the last module alone",
    );
    let all = "all of several modules";
    check(1, &[], &[], &[]);
    check(1, &[0], &[], &["1"]);
    check(2, &[0], &[first], &["2 to 20"]);
    check(2, &[1], &[last], &["2 to 20"]);
    check(2, &[0, 1], &[all], &["2 to 20"]);
    check(3, &[0], &[first], &["2 to 20"]);
    check(3, &[1], &[between], &["2 to 20"]);
    check(3, &[2], &[last], &["2 to 20"]);
    check(3, &[0, 2], &[], &["2 to 20"]);
    check(20, &[18], &[between], &["2 to 20"]);
    check(21, &[19], &[between], &["21"]);
    check(21, &[20], &[last], &["21"]);
    let every: Vec<usize> = (0..21).collect();
    check(21, &every, &[all], &["21"]);
    check(21, &every[1..], &[], &["21"]);
    check(21, &[], &[], &[]);
}

#[test]
fn outputs_are_told_apart() {
    let written = "forms written to an output of";
    let short = "forms refused with 14 for an output of";
    let that = "forms refused with 14 of an image that is";
    let check = |fields: Fields, output: usize, kinds: [&[&str]; 3]| {
        let case = case_of(&image(&[fields]), output);
        for (title, kinds) in [written, short, that].into_iter().zip(kinds) {
            check(case.clone(), title, kinds);
        }
    };
    // 5 bytes, and 20 that become 5.
    let less = ["one byte less than the form"];
    let between = ["1 to two bytes less than the form"];
    for (fields, own) in [(NONE, "its own form"), (SPELLED, "longer than its form")] {
        check(fields, 0, [&[], &["0"], &[own]]);
        check(fields, 1, [&[], &between, &[own]]);
        check(fields, 3, [&[], &between, &[own]]);
        check(fields, 4, [&[], &less, &[own]]);
    }
    let more = "more than the image's";
    check(NONE, 5, [&["its length, which is the image's"], &[], &[]]);
    check(NONE, 6, [&["one byte more", more], &[], &[]]);
    check(NONE, 7, [&[more], &[], &[]]);
    let its = "its length, which is not the image's";
    let inside = "more, and less than the image's";
    check(SPELLED, 5, [&[its], &[], &[]]);
    check(SPELLED, 6, [&["one byte more", inside], &[], &[]]);
    check(SPELLED, 7, [&[inside], &[], &[]]);
    check(SPELLED, 19, [&[inside], &[], &[]]);
    check(SPELLED, 20, [&["the image's, which is more"], &[], &[]]);
    check(SPELLED, 21, [&[more], &[], &[]]);
    check(SPELLED, 65_600, [&[more], &[], &[]]);
}

/// Refusals of load, and the images.
fn refused() -> [(&'static str, Vec<u8>); 8] {
    let with = |at: usize, byte: u8| {
        let mut image = image(&[NONE]);
        image[at] = byte;
        image
    };
    [
        ("1", vec![]),
        ("2", with(0, 0)),
        ("3", with(0, 2)),
        ("4", [with(0, 1), vec![0]].concat()),
        ("5", with(1, 8)),
        ("6", with(3, 0)),
        ("8", with(4, TRAP)),
        ("13", with(4, UNLISTED)),
    ]
}

#[test]
fn refusals_are_told_apart() {
    let without = "archive without output refused with";
    let long = "archive with a long output refused with";
    let check = |case: Case, kinds: [&[&str]; 2]| {
        check(case.clone(), without, kinds[0]);
        check(case, long, kinds[1]);
    };
    for (number, image) in refused() {
        let length = image.len();
        check(case_of(&image, 0), [&[number], &[]]);
        if length > 0 {
            check(case_of(&image, 1), [&[], &[]]);
            check(case_of(&image, length - 1), [&[], &[]]);
            check(case_of(&image, length), [&[], &[number]]);
        }
        check(case_of(&image, length + 1), [&[], &[number]]);
    }
    let short_map = |output: usize| Case {
        map_length: 4,
        ..case_of(&image(&[NONE]), output)
    };
    check(short_map(0), [&["7"], &[]]);
    check(short_map(4), [&[], &[]]);
    check(short_map(5), [&[], &["7"]]);
    // 14 and 0 are none of load's.
    check(case_of(&image(&[NONE]), 0), [&[], &[]]);
    check(case_of(&image(&[NONE]), 5), [&[], &[]]);
}

#[test]
fn maps_are_told_apart() {
    let equal = "archive with a map of the image's length answers";
    let longer = "archive with a longer map answers";
    let check = |image: &[u8], output: usize, kinds: &[&str]| {
        for (more, titles) in [(0, [equal, longer]), (1, [longer, equal])] {
            let case = Case {
                map_length: image.len() + more,
                ..case_of(image, output)
            };
            check(case.clone(), titles[0], kinds);
            check(case, titles[1], &[]);
        }
    };
    for (number, image) in refused() {
        let number = [number];
        let kinds: &[&str] = match number {
            ["8" | "13"] => &number,
            _ => &[],
        };
        check(&image, 0, kinds);
        check(&image, 100, kinds);
    }
    check(&image(&[NONE]), 5, &["0"]);
    check(&image(&[NONE]), 4, &["14"]);
    check(&image(&[SPELLED]), 5, &["0"]);
    check(&image(&[SPELLED]), 4, &["14"]);
    let short = Case {
        map_length: 4,
        ..case_of(&image(&[NONE]), 5)
    };
    self::check(short.clone(), equal, &[]);
    self::check(short, longer, &[]);
}

/// The answers of archive.
#[test]
fn answers_are_told_apart() {
    let answers = |case: Case| {
        let mut reached = reached(case);
        reached.retain(|fault| fault.starts_with("archive never answered "));
        reached
    };
    let never = |number: &str| [format!("archive never answered {number}")];
    for (number, image) in refused() {
        assert_eq!(answers(case_of(&image, 9)), never(number));
    }
    assert_eq!(answers(modules(&[SPELLED])), never("0"));
    assert_eq!(answers(case_of(&image(&[SPELLED]), 4)), never("14"));
}
