//! The wrapper over the proved library: the paper's marked cases, every refusal, and the buffers that a refusal leaves alone.

mod common;

use cembuxola::c::LINKED;
use cembuxola::{
    load, run, start, Cabinet, Machine, Place, Ran, Refusal, Stop, CHANNELS, MACHINE_WORDS,
    MOST_MODULES, UNMARKED,
};
use common::{image, INPUTS};

/// "Image (hex) 01 00 00 04 02 07 A1 EC".
const READING: [u8; 8] = [0x01, 0x00, 0x00, 0x04, 0x02, 0x07, 0xA1, 0xEC];

fn not_whole(module: u16, position: u16) -> Refusal {
    Refusal::NotWhole(Some(Place { module, position }))
}

fn stopped(code: &[u8], n: u32) -> (Ran, Cabinet) {
    let mut cabinet = Cabinet::new(&image(code), 4096).unwrap();
    (cabinet.run(&INPUTS, n, 0), cabinet)
}

#[test]
fn the_papers_reading() {
    let mut cabinet = Cabinet::new(&READING, 4096).unwrap();
    assert_eq!(cabinet.map()[..4], [UNMARKED; 4]);
    assert_eq!(cabinet.map()[4..], [0, 1, 2, 0]);
    let ran = cabinet.run(&INPUTS, 1000, 0);
    assert_eq!(
        (ran.stop, ran.stop.number(), ran.count),
        (Stop::Ended, 31, 3)
    );
    let machine = cabinet.machine();
    assert_eq!((machine.module(), machine.pc(), machine.depth()), (0, 3, 0));
    let mut outputs = [0; CHANNELS];
    outputs[2] = 7;
    assert_eq!(cabinet.outputs(), &outputs);
}

#[test]
fn marked_cases() {
    let refused = |code: &[u8]| Cabinet::new(&image(code), 4096).unwrap_err();
    assert_eq!(refused(&[0x02]), not_whole(0, 0));
    assert_eq!(
        refused(&[&[0; 17][..], &[0xC4]].concat()),
        Refusal::NoDepths
    );
    assert_eq!(refused(&[0x00, 0x1D, 0x02]), Refusal::NoDepths);
    assert!(Cabinet::new(&image(&[&[0; 16][..], &[0xC4]].concat()), 4096).is_ok());
    let (ran, cabinet) = stopped(&[0x1D, 0x01], 5);
    assert_eq!(
        (ran.stop, ran.count, cabinet.machine().pc()),
        (Stop::Spent, 5, 0)
    );
    // 300 x 110 signed
    let (ran, _) = stopped(&[0x12, 1, 44, 0x10, 110, 0xDA, 0xC4], 9);
    assert_eq!((ran.stop, ran.count), (Stop::ResultRange, 2));
    // 65,535 + 1 unsigned, then TRAP with the sum as its code
    let (ran, cabinet) = stopped(&[0x12, 255, 255, 1, 0xB8, 0xC4], 9);
    assert_eq!((ran.stop, ran.count), (Stop::ResultRange, 2));
    assert_eq!(cabinet.machine().stack(), [65_535, 1]);
    // 1 rotated by 1
    let (ran, cabinet) = stopped(&[1, 1, 0xBD, 0xC4], 9);
    assert_eq!(
        (ran.stop, ran.stop.code(), ran.count),
        (Stop::Program(32_768), 32_768, 3)
    );
    assert_eq!(cabinet.machine().stack(), [32_768]);
}

/// UADD, USUB and UMUL at both bounds of 0 to 65,535: the result, which TRAP shows as its code, or 37 with both words still on the stack.
#[test]
fn unsigned_results() {
    for (opcode, c, a, result) in [
        (0o270, 65_534u16, 1u16, Some(65_535)),
        (0o270, 65_535, 1, None),
        (0o270, 65_535, 65_535, None),
        (0o271, 5, 5, Some(0)),
        (0o271, 4, 5, None),
        (0o271, 0, 65_535, None),
        (0o272, 255, 257, Some(65_535)),
        (0o272, 256, 256, None),
        (0o272, 65_535, 65_535, None),
    ] {
        let words = [c.to_be_bytes(), a.to_be_bytes()];
        let code = [&[0x12], &words[0][..], &[0x12], &words[1], &[opcode, 0xC4]].concat();
        let (ran, cabinet) = stopped(&code, 9);
        match result {
            Some(word) => assert_eq!((ran.stop, ran.count), (Stop::Program(word), 3)),
            None => {
                assert_eq!((ran.stop, ran.count), (Stop::ResultRange, 2));
                assert_eq!(cabinet.machine().stack(), [c, a]);
            }
        }
    }
    assert_eq!(Stop::ResultRange.number(), 37);
    assert_eq!(Stop::ResultRange.to_string(), "result range");
}

#[test]
fn refusals_of_load() {
    let number = |image: &[u8], map: usize| load(image, &mut vec![0; map]).unwrap_err();
    assert_eq!(number(&[], 0), Refusal::ImageSize);
    assert_eq!(number(&vec![1; 65_536], 65_536), Refusal::ImageSize);
    assert_eq!(number(&[0], 1), Refusal::ModuleCount);
    assert_eq!(number(&READING[..7], 7), Refusal::ImageEnds);
    assert_eq!(
        number(&[&READING[..], &[0]].concat(), 9),
        Refusal::BytesAfter
    );
    assert_eq!(number(&[1, 8, 0, 1, 0xEC], 5), Refusal::BitMap);
    assert_eq!(number(&[1, 0, 0, 0], 4), Refusal::Field);
    assert_eq!(number(&READING, 7), Refusal::MapShort);
}

#[test]
fn what_a_refused_load_leaves() {
    let mut map = [9; 10];
    assert_eq!(load(&[1, 0, 0, 1], &mut map), Err(Refusal::ImageEnds));
    assert_eq!(map, [9; 10]);
    assert_eq!(load(&image(&[2]), &mut map[..4]), Err(Refusal::MapShort));
    assert_eq!(map, [9; 10]);
    assert_eq!(load(&image(&[2]), &mut map), Err(not_whole(0, 0)));
    assert_eq!((&map[..5], &map[5..]), (&[UNMARKED; 5][..], &[9; 5][..]));
    assert_eq!(
        load(&image(&[0xA1, 0xEC]), &mut map),
        Err(Refusal::NoDepths)
    );
    assert_eq!((&map[..6], &map[6..]), (&[UNMARKED; 6][..], &[9; 4][..]));
}

/// What load answers to an image, with a map of its length.
fn loaded(image: &[u8]) -> Result<(), Refusal> {
    load(image, &mut vec![0; image.len()])
}

/// So many modules that end at once.
fn modules(count: usize) -> Vec<u8> {
    [&[count as u8][..], &[0, 0, 1, 0xEC].repeat(count)].concat()
}

#[test]
fn one_to_21_modules_are_accepted() {
    assert_eq!(MOST_MODULES, 21);
    for count in 1..=MOST_MODULES {
        let mut cabinet = Cabinet::new(&modules(count), 4096).unwrap();
        assert_eq!(cabinet.run(&INPUTS, 9, 0).stop, Stop::Ended);
        let bases: Vec<u16> = (0..count as u16).map(|m| 128 + 3 * m).collect();
        assert_eq!(cabinet.store()[32..32 + count], bases);
        assert_eq!(cabinet.store()[32 + count], 0);
    }
    assert_eq!(loaded(&[MOST_MODULES as u8]), Err(Refusal::ImageEnds));
}

#[test]
fn any_other_count_is_refused_before_all_else_of_the_image() {
    for count in [0].into_iter().chain(MOST_MODULES + 1..=255) {
        let whole = modules(count);
        // so many whole modules, the count alone, and a bit map that is wrong
        for image in [&whole[..], &whole[..1], &[count as u8, 0xFF, 0xFF]] {
            let (mut map, mut store) = (vec![9; 1100], [7; 4096]);
            assert_eq!(load(image, &mut map), Err(Refusal::ModuleCount));
            assert_eq!(start(image, &mut store), Err(Refusal::ModuleCount));
            assert!(map == [9; 1100] && store == [7; 4096]);
            let mut machine = Machine::default();
            let (mut outputs, inputs) = ([5; CHANNELS], &INPUTS);
            let ran = run(
                &mut machine,
                image,
                &map,
                &mut store,
                &mut outputs,
                inputs,
                9,
                0,
            );
            assert_eq!(ran, Err(Refusal::ModuleCount));
            assert_eq!((machine, outputs), (Machine::default(), [5; CHANNELS]));
            assert!(store == [7; 4096]);
        }
    }
    let words = "refused 2: module count 0 or over 21";
    assert_eq!(Refusal::ModuleCount.to_string(), words);
}

#[test]
fn code_is_not_whole_by_each_cause() {
    let cases: [(&[u8], u16); 16] = [
        (&[0x02, 0x11], 1),             // an unlisted opcode
        (&[0x02, 0x10], 1),             // operands outside the code: the only one,
        (&[0x12, 1], 0),                // the second of two,
        (&[0x02, 0x13, 0, 0, 0], 1),    // the fourth of four
        (&[0x02, 0x22, 1, 4, 0xC4], 1), // a missing module: of a load,
        (&[0x02, 0x33, 1, 4, 0xC4], 1), // of a store of a pair,
        (&[0x02, 0xED, 1, 0, 0xC4], 1), // of a call
        (&[0x02, 0xED, 0, 1, 0xC4], 1), // a missing procedure: of a named module,
        (&[0x02, 0xF0, 1, 0xC4], 1),    // of this one by a byte,
        (&[0x02, 0xEE, 1, 0xC4], 1),    // with a link,
        (&[0x02, 0xF1, 0xC4], 1),       // by the opcode
        (&[0x02], 0),                   // a successor outside the code: the next position,
        (&[0x02, 0x1B, 2, 0xC4], 1),    // a target behind it,
        (&[0x02, 0x1D, 3, 0xC4], 1),    // a target before it,
        (&[0x02, 0x1A, 2, 0xC4], 1),    // the target of a fork,
        (&[0x02, 0x1C, 2], 1),          // the next position of a fork
    ];
    for (code, position) in cases {
        assert_eq!(
            loaded(&image(code)),
            Err(not_whole(0, position)),
            "{code:x?}"
        );
    }
}

#[test]
fn code_that_is_just_whole() {
    let accepted: [&[u8]; 4] = [
        &[0x02, 0x13, 0, 0, 0, 0, 0xC4], // four operands
        &[0x02, 0x1B, 1, 0xC4],          // a target that is the last position
        &[0x02, 0x1D, 1],                // a target that is the jump itself
        &[0xEC, 0x11],                   // an unlisted opcode that is not reached
    ];
    for code in accepted {
        assert_eq!(loaded(&image(code)), Ok(()), "{code:x?}");
    }
    let unfit: [&[u8]; 4] = [
        &[0xA1, 0xEC],             // two words taken of none
        &[0x02, 0xED, 0, 0, 0xC4], // a call with a word too many
        &[0x00, 0x1D, 0x02],       // one position with two depths,
        &[0x02, 0x1E, 1, 0xC4],    // by both ways of a fork
    ];
    for code in unfit {
        assert_eq!(loaded(&image(code)), Err(Refusal::NoDepths), "{code:x?}");
    }
}

#[test]
fn the_first_module_and_the_lowest_position() {
    // a fault at 4 is found first, one at 2 only behind it
    let back = [0x1B, 3, 0x11, 0, 0xED, 9, 0, 0x1D, 6];
    assert_eq!(loaded(&image(&back)), Err(not_whole(0, 2)));
    assert_eq!(
        loaded(&image(&[0x1A, 3, 0x1B, 4, 0xE0])),
        Err(not_whole(0, 2))
    );
    // the depths of module 0 do not fit, but module 1 is not whole
    let later = [2, 0, 0, 3, 0x00, 0x1D, 0x02, 0, 0, 1, 0x02];
    assert_eq!(loaded(&later), Err(not_whole(1, 0)));
    // both modules are not whole
    let both = [2, 0, 0, 2, 0x02, 0x11, 0, 0, 1, 0x11];
    assert_eq!(loaded(&both), Err(not_whole(0, 1)));
    // procedure 1 is called by nobody
    let uncalled = [1, 2, 2, 0, 2, 0, 0, 0, 0, 0, 1, 0, 0, 0xEC, 0x11];
    assert_eq!(loaded(&uncalled), Err(not_whole(0, 1)));
    // of the most modules the last one, at a position of two bytes
    let mut whole = modules(MOST_MODULES);
    whole.truncate(1 + 4 * (MOST_MODULES - 1));
    let last = [&whole[..], &[0, 1, 44], &[0xDE; 300]].concat();
    assert_eq!(loaded(&last), Err(not_whole(MOST_MODULES as u16 - 1, 299)));
}

#[test]
fn code_is_followed_without_regard_to_depth() {
    // 17 words, of which 16 have room, and then an unlisted opcode
    let deep = [&[0; 17][..], &[0x11]].concat();
    assert_eq!(loaded(&image(&deep)), Err(not_whole(0, 17)));
    // two words taken of none, and then one left at the end
    assert_eq!(loaded(&image(&[0xA1, 0x02])), Err(not_whole(0, 1)));
}

#[test]
fn the_place_is_zeros_but_for_13() {
    let long = [1; 65_536];
    let after = [&READING[..], &[0]].concat();
    let cases: [(&[u8], usize, [u16; 3]); 13] = [
        (&READING, 8, [0, 0, 0]),
        (&[], 0, [1, 0, 0]),
        (&long, 65_536, [1, 0, 0]),
        (&[0], 1, [2, 0, 0]),
        (&READING[..7], 7, [3, 0, 0]),
        (&after, 9, [4, 0, 0]),
        (&[1, 8, 0, 1, 0xEC], 5, [5, 0, 0]),
        (&[1, 0, 0, 0], 4, [6, 0, 0]),
        (&READING, 7, [7, 0, 0]),
        (&[1, 0, 0, 1, 0x02], 4, [7, 0, 0]),
        (&[1, 0, 0, 3, 0x00, 0x1D, 0x02], 7, [8, 0, 0]),
        (&[1, 0, 0, 1, 0x02], 5, [13, 0, 0]),
        (&[2, 0, 0, 1, 0xEC, 0, 0, 3, 2, 2, 0x11], 11, [13, 1, 2]),
    ];
    for (image, map, expected) in cases {
        let mut place = [0xABCD, 0x1234];
        let number = LINKED.load(image, &mut vec![9; map], &mut place);
        assert_eq!([number, place[0], place[1]], expected);
    }
}

#[test]
fn a_place_of_another_length_is_answered_before_all_else() {
    let images: [&[u8]; 4] = [
        &READING,
        &[],
        &[1, 0, 0, 1, 0x02],
        &[1, 0, 0, 2, 0xA1, 0xEC],
    ];
    for image in images {
        for words in [0, 1, 3] {
            let (mut map, mut place) = ([9; 10], vec![0xABCD; words]);
            assert_eq!(LINKED.load(image, &mut map, &mut place), 20);
            assert_eq!((map, place), ([9; 10], vec![0xABCD; words]));
        }
    }
}

#[test]
fn what_a_refused_start_leaves() {
    let mut store = [7; 166];
    assert_eq!(start(&READING, &mut store), Err(Refusal::StoreSize));
    assert_eq!(store, [7; 166]);
    assert!(start(&READING, &mut [7; 167]).is_ok());
    assert_eq!(
        start(&READING, &mut vec![7; 65_536]),
        Err(Refusal::StoreSize)
    );
}

#[test]
fn refusals_of_run_leave_everything() {
    let mut store = [0; 167];
    let machine = start(&READING, &mut store).unwrap();
    let mut map = [0; 8];
    load(&READING, &mut map).unwrap();
    let mut unfit = map;
    unfit[0] = 0;
    let with = |bits: u32| map.map(|entry| entry | bits);
    // depths in a procedure of 5 results, which there is not; a list at RTN; a bit that is not used
    let [five, listed, unused] = [5 << 5, 1 << 8, 1 << 11].map(with);
    // no position of depth 1 is marked at 0
    let mut broken = Machine {
        words: [0; MACHINE_WORDS],
    };
    broken.words[2] = 1;
    let cases = [
        (machine, &map[..7], 167, 16, Refusal::MapShort),
        (machine, &unfit[..], 166, 16, Refusal::MapUnfit),
        (machine, &five[..], 166, 16, Refusal::MapUnfit),
        (machine, &listed[..], 166, 16, Refusal::MapUnfit),
        (machine, &unused[..], 166, 16, Refusal::MapUnfit),
        (machine, &map[..], 166, 15, Refusal::StoreSize),
        (broken, &map[..], 167, 15, Refusal::ChannelCount),
        (broken, &map[..], 167, 16, Refusal::NotAMachine),
    ];
    for (machine, map, words, inputs, refusal) in cases {
        let (mut after, mut store_after) = (machine, store);
        let mut outputs = [5; CHANNELS];
        let inputs = &INPUTS[..inputs];
        let ran = run(
            &mut after,
            &READING,
            map,
            &mut store_after[..words],
            &mut outputs,
            inputs,
            9,
            0xFFFF,
        );
        assert_eq!(ran, Err(refusal));
        assert_eq!(
            (after, store_after, outputs),
            (machine, store, [5; CHANNELS])
        );
    }
}

#[test]
fn a_return_carries_what_was_promised() {
    // procedure 1 promises this many results and returns with two words
    let image = |results: u8| {
        let records = [0, 0, 0, 0, 0, 3, 0, results];
        [
            &[1, 2, 2, 0, 6][..],
            &records,
            &[0xF1, 0xC4, 0xEC, 2, 7, 0xEC],
        ]
        .concat()
    };
    let mut cabinet = Cabinet::new(&image(2), 4096).unwrap();
    let two = 2 << 5;
    assert_eq!(cabinet.map()[13..], [0, 2, UNMARKED, two, two + 1, two + 2]);
    assert_eq!(cabinet.run(&INPUTS, 9, 0).stop, Stop::Program(7));
    for results in [0, 1, 3, 4] {
        let refusal = Cabinet::new(&image(results), 4096).unwrap_err();
        assert_eq!(refusal, Refusal::NoDepths);
    }
}

#[test]
fn words_are_saved_and_restored() {
    // 1 and 2 are saved, and restored below 3
    let (ran, cabinet) = stopped(&[1, 2, 0xB2, 3, 0xB0, 0xC4], 9);
    assert_eq!((ran.stop, ran.count), (Stop::Program(3), 5));
    assert_eq!(cabinet.machine().stack(), [1, 2, 3]);
    let saved = 2 << 11 | 1 << 8;
    assert_eq!(cabinet.map()[4..], [0, 1, 2, saved, saved + 1, 3]);
    // the top one first, then their count
    let s = usize::from(cabinet.machine().words[5]);
    assert_eq!(cabinet.store()[s..s + 3], [2, 1, 2]);
}

#[test]
fn saved_depths_fit() {
    let sixteen = [&[0; 16][..], &[0xB2, 1, 0xB0, 0xC4]].concat();
    let five = [&[0xB2; 5][..], &[1, 0xC4]].concat();
    let accepted: [&[u8]; 4] = [
        &[0xB2, 1, 0xB0, 0xC4],                  // no word is saved,
        &sixteen[1..],                           // 15 are,
        &[&sixteen[..18], &[0xC4][..]].concat(), // 16 are, and not restored
        &five[1..],                              // four times
    ];
    for code in accepted {
        assert_eq!(loaded(&image(code)), Ok(()), "{code:x?}");
    }
    let unfit: [&[u8]; 8] = [
        &[0xB0, 0xC4],             // nothing was saved, and no result is there,
        &[1, 0xB0, 0xC4],          // or one
        &[0xB2, 0xB0, 0xC4],       // no result
        &[0xB2, 1, 2, 0xB0, 0xC4], // a word too many
        &sixteen,                  // 16 words and the result
        &five,                     // a fifth time
        &[0xB2, 0xEC],             // a return before they are restored
        &[0xB2, 0x1D, 0x02],       // one position with two lists
    ];
    for code in unfit {
        assert_eq!(loaded(&image(code)), Err(Refusal::NoDepths), "{code:x?}");
    }
}

#[test]
fn saved_words_are_tested_as_they_are_restored() {
    let image = image(&[1, 2, 0xB2, 3, 0xB0, 0xC4]);
    let mut map = vec![0; image.len()];
    load(&image, &mut map).unwrap();
    let mut store = [0; 4096];
    let first = start(&image, &mut store).unwrap();
    let steps = |machine: &mut Machine, store: &mut [u16], n: u32| {
        let outputs = &mut [0; CHANNELS];
        let ran = run(machine, &image, &map, store, outputs, &INPUTS, n, 0).unwrap();
        (ran.stop, ran.count)
    };
    // room for two words and their count, and one too few
    for (room, expected) in [(3, (Stop::Spent, 3)), (2, (Stop::StackLimit, 2))] {
        let mut machine = first;
        machine.words[6] = first.words[5] + room;
        assert_eq!(steps(&mut machine, &mut store, 3), expected);
    }
    let mut saved = first;
    assert_eq!(steps(&mut saved, &mut store, 4), (Stop::Spent, 4));
    let s = saved.words[5];
    assert_eq!(s, first.words[5] + 3);
    // another S, where another count stands or too few words below it
    for (s, count, expected) in [
        (s, 2, (Stop::Program(3), 1)),
        (s, 1, (Stop::ReturnMark, 0)),
        (s, 3, (Stop::ReturnMark, 0)),
        (3, 2, (Stop::Program(3), 1)),
        (2, 2, (Stop::ReturnMark, 0)),
        (0, 2, (Stop::ReturnMark, 0)),
    ] {
        let (mut machine, mut store) = (saved, store);
        machine.words[5] = s;
        if let Some(place) = s.checked_sub(1) {
            store[usize::from(place)] = count;
        }
        assert_eq!(steps(&mut machine, &mut store, 9), expected, "{s} {count}");
    }
}

#[test]
fn running_in_parts_is_running_at_once() {
    // word 4 of the module counts up and is written to output 2
    let code = [0x44, 0x01, 0xB8, 0x54, 0x02, 0x44, 0xA1, 0x1D, 0x08];
    let counter = [&[1, 1, 0, 8, 0, 9][..], &code].concat();
    let mut whole = Cabinet::new(&counter, 4096).unwrap();
    let mut parts = whole.clone();
    let all = whole.run(&INPUTS, 40, 0);
    let counts: u32 = [3, 0, 17, 20]
        .iter()
        .map(|&n| parts.run(&INPUTS, n, 0).count)
        .sum();
    assert_eq!((counts, whole.outputs()[2]), (all.count, 5));
    assert_eq!(parts.machine(), whole.machine());
    assert_eq!(
        (parts.store(), parts.outputs()),
        (whole.store(), whole.outputs())
    );
}

#[test]
fn words_for_people() {
    assert_eq!(
        Refusal::NoDepths.to_string(),
        "refused 8: no depths fit the code, which is whole"
    );
    assert_eq!(
        not_whole(1, 299).to_string(),
        "refused 13: the code is not whole (module 1, position 299)"
    );
    assert_eq!(Stop::ReturnMark.to_string(), "return mark");
    assert_eq!(Stop::Program(3).to_string(), "program, code 3");
    assert_eq!(Stop::Program(3).number(), 40);
}
