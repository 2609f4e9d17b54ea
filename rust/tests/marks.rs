//! The entries of a map, by hand and of an example.

use cembuxola::{Cabinet, Mark, CHANNELS, UNMARKED};

/// Depth, results and saved depths.
type Read = (u16, u16, Vec<u16>);

fn read(entry: u32) -> Option<Read> {
    Mark::of(entry).map(|mark| (mark.depth(), mark.results(), mark.saved().collect()))
}

#[test]
fn entries_by_hand() {
    let cases: [(u32, Read); 7] = [
        (0, (0, 0, vec![])),
        (16, (16, 0, vec![])),
        (4 << 5 | 3, (3, 4, vec![])),
        (1 << 8, (0, 0, vec![0])),
        (7 << 11 | 1 << 8 | 1, (1, 0, vec![7])),
        (1 << 16 | 2 << 11 | 2 << 8, (0, 0, vec![2, 1])),
        (0x4210_8490, (16, 4, vec![16, 16, 16, 16])),
    ];
    for (entry, expected) in cases {
        assert_eq!(read(entry), Some(expected), "{entry:x}");
    }
}

#[test]
fn entries_that_are_no_marks() {
    let cases = [
        UNMARKED,
        17,                         // a depth of 17
        5 << 5,                     // five results
        5 << 8,                     // five saved depths
        17 << 11 | 1 << 8,          // a saved depth of 17: the first,
        17 << 26 | 4 << 8,          // the last
        1 << 11,                    // a bit of a saved depth that it has not: the first,
        1 << 16 | 1 << 8,           // the second,
        1 << 26 | 3 << 8,           // the last
        1 << 31,                    // the bit that is none's,
        1 << 31 | 1 << 26 | 4 << 8, // also with four
        0xFF,                       // all ones but for some: 8,
        0xFFFF,                     // 16,
        UNMARKED - 1,               // all but one
    ];
    for entry in cases {
        assert_eq!(read(entry), None, "{entry:x}");
    }
}

#[test]
fn the_marks_of_an_example() {
    let image = include_bytes!("../../examples/expression.img");
    let mut cabinet = Cabinet::new(image, 4096).unwrap();
    const CODE: usize = 19;
    let (head, code) = cabinet.map().split_at(CODE);
    assert_eq!(head, [UNMARKED; CODE]);
    for &entry in code {
        assert_eq!(Mark::of(entry).is_none(), entry == UNMARKED);
    }
    // as the listing says them
    let cases: [(usize, Option<Read>); 9] = [
        (0, Some((0, 0, vec![]))),
        (6, Some((0, 0, vec![1]))),
        (12, None), // an operand
        (34, Some((0, 0, vec![1, 4]))),
        (60, Some((1, 0, vec![1, 1, 1, 2]))),
        (66, Some((1, 0, vec![1, 2]))),
        (106, Some((7, 0, vec![]))),
        (126, Some((1, 1, vec![]))),
        (138, Some((1, 1, vec![1, 1]))),
    ];
    for (position, expected) in cases {
        assert_eq!(read(code[position]), expected, "{position}");
    }
    let ran = cabinet.run(&[0; CHANNELS], 1000, 0);
    assert_eq!((ran.stop.number(), ran.count), (31, 276));
    assert_eq!(cabinet.outputs()[..6], [16, 478, 19_220, 7_731, 911, 6_316]);
}
