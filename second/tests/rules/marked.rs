//! The marked cases, as the paper prints them, and the desk's reading.

use crate::rig::{Rig, FF};
use second::{desk, load};

const EXAMPLE: [u8; 8] = [0x01, 0x00, 0x00, 0x04, 0x02, 0x07, 0xA1, 0xEC];

fn plain_image(code: &[u8]) -> Vec<u8> {
    let mut image = vec![1, 0, 0, code.len() as u8];
    image.extend(code);
    image
}

/// Load's number, module and position.
fn load_answer(code: &[u8]) -> (u8, u8, u16) {
    let image = plain_image(code);
    let answer = load(&image, &mut vec![0; image.len()]);
    (answer.number, answer.module, answer.position)
}

/// Runs a code until it stops; answers the stop and the words on the stack.
fn stop_and_stack(code: &[u8]) -> (u8, Vec<u16>) {
    let mut rig = Rig::plain(code);
    let answer = rig.run(1000);
    (answer.number, rig.stack().to_vec())
}

#[test]
fn the_example_has_its_map() {
    let mut map = [0x55; 10];
    assert_eq!(load(&EXAMPLE, &mut map).number, 0);
    assert_eq!(map, [FF, FF, FF, FF, 0, 1, 2, 0, 0x55, 0x55]);
}

#[test]
fn the_example_reads_as_printed() {
    assert_eq!(
        desk(&EXAMPLE),
        "stop 31 code 0 steps 3 module 0 pc 3 depth 0\n0 0 7 0 0 0 0 0 0 0 0 0 0 0 0 0\n"
    );
}

/// A sum that carries and a difference that borrows, in double words:
///
/// LID 1 65,535 and LID 0 1 are 131,071 and 1; DADD gives 131,072, in words 2
/// and 0; LID 0 1 and DSUB give 131,071 again. SGD 1 stores 1 at G+1 and 65,535
/// at G+2. Output 0 becomes LGW 1, output 1 becomes LGW2: 12 steps, then RTN.
const DOUBLE: [u8; 31] = [
    0x01, 0x00, 0x00, 0x1B, // one module, 27 bytes of code
    0x13, 0x00, 0x01, 0xFF, 0xFF, // 0 LID
    0x13, 0x00, 0x00, 0x00, 0x01, // 5 LID
    0x88, // 10 DADD
    0x13, 0x00, 0x00, 0x00, 0x01, // 11 LID
    0x89, // 16 DSUB
    0x51, 0x01, // 17 SGD 1
    0x00, 0x40, 0x01, 0xA1, // 19 LI0, LGW 1, WRITE
    0x01, 0x42, 0xA1, // 23 LI1, LGW2, WRITE
    0xEC, // 26 RTN
];

#[test]
fn double_words_have_their_map() {
    let mut map = [0x55; 32];
    assert_eq!(load(&DOUBLE, &mut map).number, 0);
    let mut expected = vec![FF; 31];
    for (position, depth) in [
        (0, 0),
        (5, 2),
        (10, 4),
        (11, 2),
        (16, 4),
        (17, 2),
        (19, 0),
        (20, 1),
        (22, 2),
        (23, 0),
        (24, 1),
        (25, 2),
        (26, 0),
    ] {
        expected[4 + position] = depth;
    }
    assert_eq!(map[..31], expected);
    assert_eq!(map[31], 0x55);
}

#[test]
fn double_words_read_as_worked_out() {
    assert_eq!(
        desk(&DOUBLE),
        "stop 31 code 0 steps 12 module 0 pc 26 depth 0\n1 65535 0 0 0 0 0 0 0 0 0 0 0 0 0 0\n"
    );
}

/// A.3: "The marked case 02 now reads 13, module 0, position 0."
#[test]
fn code_02_is_13() {
    assert_eq!(load_answer(&[0x02]), (13, 0, 0));
}

#[test]
fn seventeen_zeros_and_trap_are_8_sixteen_are_accepted() {
    let code = |zeros: usize| [vec![0x00; zeros], vec![0xC4]].concat();
    assert_eq!(load_answer(&code(17)), (8, 0, 0));
    assert_eq!(load_answer(&code(16)), (0, 0, 0));
}

#[test]
fn a_jump_to_itself_spends_its_budget() {
    let mut rig = Rig::plain(&[0x1D, 0x01]);
    let answer = rig.run(5);
    assert_eq!((answer.number, answer.count), (30, 5));
}

#[test]
fn a_growing_loop_is_8() {
    assert_eq!(load_answer(&[0x00, 0x1D, 0x02]), (8, 0, 0));
}

#[test]
fn signed_range() {
    // LIW 300, LIB 110, MUL
    let code = [0o022, 0x01, 0x2C, 0o020, 110, 0o332, 0o304];
    assert_eq!(stop_and_stack(&code), (37, vec![300, 110]));
    // LIW −32,768, LIW −1, DIV
    let code = [0o022, 0x80, 0x00, 0o022, 0xFF, 0xFF, 0o333, 0o304];
    assert_eq!(stop_and_stack(&code), (37, vec![0x8000, 0xFFFF]));
}

#[test]
fn minus_7_by_2_is_minus_3() {
    let code = [0o022, 0xFF, 0xF9, 0o002, 0o333, 0o304];
    assert_eq!(stop_and_stack(&code), (40, vec![0xFFFD]));
}

/// A.6: "The marked case 65,535 + 1 now reads 37".
#[test]
fn unsigned_sum_that_carries() {
    let code = [0o022, 0xFF, 0xFF, 0o001, 0o270, 0o304];
    assert_eq!(stop_and_stack(&code), (37, vec![65_535, 1]));
    assert_eq!(
        desk(&plain_image(&code)),
        "stop 37 code 0 steps 2 module 0 pc 4 depth 2\n0 0 0 0 0 0 0 0 0 0 0 0 0 0 0 0\n"
    );
}

#[test]
fn one_rotated_by_one() {
    let code = [0o001, 0o001, 0o275, 0o304];
    assert_eq!(stop_and_stack(&code), (40, vec![32_768]));
}

#[test]
fn check_306_against_5() {
    let code = |value: u8| [value, 0o005, 0o306, 0o304];
    assert_eq!(stop_and_stack(&code(5)), (40, vec![5]));
    assert_eq!(stop_and_stack(&code(6)), (38, vec![6, 5]));
}

#[test]
fn desk_refusals_are_one_line() {
    assert_eq!(desk(&[]), "refused 1\n");
    assert_eq!(desk(&[0; 65_536]), "refused 1\n");
    assert_eq!(desk(&[0]), "refused 2\n");
    // A.3: "The desk program still prints the number alone."
    assert_eq!(desk(&plain_image(&[0x02])), "refused 13\n");
    assert_eq!(desk(&plain_image(&[0xDE, 0xDE, 0x11])), "refused 13\n");
    assert_eq!(desk(&plain_image(&[0xC4])), "refused 8\n");
    // Data size 4,000: Z = 4,131, and W = 4,096 is below Z + 36. Only load
    // comes before start, so 13 and 8 come before 9.
    let large = |code: u8| [0x01, 0x01, 0x0F, 0xA0, 0x00, 0x01, code];
    assert_eq!(desk(&large(0xEC)), "refused 9\n");
    assert_eq!(desk(&large(0x02)), "refused 13\n");
    assert_eq!(desk(&large(0xC4)), "refused 8\n");
    // The largest data size that the desk's store holds: Z + 36 = 4,096.
    assert_eq!(
        desk(&[0x01, 0x01, 0x0F, 0x59, 0x00, 0x01, 0xEC]),
        "stop 31 code 0 steps 0 module 0 pc 0 depth 0\n0 0 0 0 0 0 0 0 0 0 0 0 0 0 0 0\n"
    );
    assert_eq!(
        desk(&[0x01, 0x01, 0x0F, 0x5A, 0x00, 0x01, 0xEC]),
        "refused 9\n"
    );
}

#[test]
fn desk_prints_words_unsigned_and_the_trap_code() {
    // Output 15 becomes 65,535; then trap 40 with code 65,534.
    let code = [0o017, 0o022, 0xFF, 0xFF, 0o241, 0o022, 0xFF, 0xFE, 0o304];
    assert_eq!(
        desk(&plain_image(&code)),
        "stop 40 code 65534 steps 4 module 0 pc 8 depth 1\n0 0 0 0 0 0 0 0 0 0 0 0 0 0 0 65535\n"
    );
}

#[test]
fn desk_spends_a_thousand_steps() {
    assert_eq!(
        desk(&plain_image(&[0x1D, 0x01])),
        "stop 30 code 0 steps 1000 module 0 pc 0 depth 0\n0 0 0 0 0 0 0 0 0 0 0 0 0 0 0 0\n"
    );
}
