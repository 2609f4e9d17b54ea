//! A.1's pairs of words at the ends of the store. "If either address fails, trap
//! 32 is given and neither word is written."

use crate::rig::{at_instruction, set_stack, Rig, BASE_1, FOR_EVER, WORDS};
use second::assemble::Source;

/// The words that the tests store.
const PAIR: [u16; 2] = [0x1234, 0xABCD];

/// The next instruction must load these words and leave just them.
fn expect_load(rig: &mut Rig, length: u16, words: [u16; 2]) {
    rig.expect_step(
        |machine| {
            set_stack(machine, &words);
            machine.pc += length;
        },
        &[],
    );
}

/// The next instruction must store [`PAIR`] there and leave no word.
fn expect_store(rig: &mut Rig, length: u16, high: u16) {
    rig.expect_step(
        |machine| {
            set_stack(machine, &[]);
            machine.pc += length;
        },
        &[(high, PAIR[0]), (high + 1, PAIR[1])],
    );
}

/// The last pair of a store begins at W − 2. At W − 1 only the second address
/// fails, at W and beyond both, at 65,535 the first alone.
const LAST: u16 = WORDS as u16 - 2;
const FAILING: [u16; 4] = [LAST + 1, LAST + 2, 65_534, 65_535];

#[test]
fn loads_from_the_stack() {
    let loads: [(&[u8], u16); 4] = [
        (&[0o202], 0),
        (&[0o201, 0], 0),
        (&[0o201, 1], 1),
        (&[0o201, 255], 255),
    ];
    for (instruction, b) in loads {
        for address in [LAST, 1, 0] {
            let mut rig = at_instruction(instruction, &[address.wrapping_sub(b)]);
            rig.poke(&[(address, 0x0077), (address + 1, 0x0088)]);
            expect_load(&mut rig, instruction.len() as u16, [0x0077, 0x0088]);
        }
        for address in FAILING {
            at_instruction(instruction, &[address.wrapping_sub(b)]).expect_stop(32, 0);
        }
    }
}

/// "Stores take the address below the value."
#[test]
fn stores_from_the_stack() {
    let stores: [(&[u8], u16); 4] = [
        (&[0o222], 0),
        (&[0o221, 0], 0),
        (&[0o221, 1], 1),
        (&[0o221, 255], 255),
    ];
    for (instruction, b) in stores {
        let before = |address: u16| [address.wrapping_sub(b), PAIR[0], PAIR[1]];
        for address in [LAST, 1, 0] {
            let mut rig = at_instruction(instruction, &before(address));
            expect_store(&mut rig, instruction.len() as u16, address);
        }
        for address in FAILING {
            at_instruction(instruction, &before(address)).expect_stop(32, 0);
        }
    }
}

#[test]
fn locals() {
    for b in [0, 1, 255] {
        for address in [LAST, 1, 0] {
            let l = address.wrapping_sub(u16::from(b));
            let mut rig = at_instruction(&[0o041, b], &[]);
            rig.machine.l = l;
            rig.poke(&[(address, 0x0077), (address + 1, 0x0088)]);
            expect_load(&mut rig, 2, [0x0077, 0x0088]);
            let mut rig = at_instruction(&[0o061, b], &PAIR);
            rig.machine.l = l;
            expect_store(&mut rig, 2, address);
        }
        for address in FAILING {
            for (opcode, words) in [(0o041, &[][..]), (0o061, &PAIR)] {
                let mut rig = at_instruction(&[opcode, b], words);
                rig.machine.l = address.wrapping_sub(u16::from(b));
                rig.expect_stop(32, 0);
            }
        }
    }
}

/// The only module's base is 128, and the least store has 167 words: a pair at
/// 165 is the last, one at 166 is cut.
#[test]
fn bases() {
    let words = 167;
    let [high, low] = PAIR.map(u16::to_be_bytes);
    let literal = [0o023, high[0], high[1], low[0], low[1]];
    for (b, good) in [(37, true), (38, false), (39, false), (255, false)] {
        for instruction in [&[0o101, b][..], &[0o043, 0, b]] {
            let code = [instruction, &FOR_EVER].concat();
            let mut rig = Rig::new(&[Source::plain(&code)], words);
            rig.poke(&[(165, 0x0077), (166, 0x0088)]);
            if good {
                expect_load(&mut rig, instruction.len() as u16, [0x0077, 0x0088]);
            } else {
                rig.expect_stop(32, 0);
            }
        }
        for instruction in [&[0o121, b][..], &[0o063, 0, b]] {
            let code = [&literal, instruction, &[0o354]].concat();
            let mut rig = Rig::new(&[Source::plain(&code)], words);
            assert_eq!(rig.run(1).count, 1);
            if good {
                expect_store(&mut rig, instruction.len() as u16, 165);
            } else {
                rig.expect_stop(32, 0);
            }
        }
    }
}

/// In the largest store 65,534 is the last word, and 65,535 is none: with the
/// low word's address 0, the high word's still fails.
#[test]
fn the_largest_store() {
    let at = |code: &[u8], address: u16| {
        let [high, low] = address.to_be_bytes();
        let code = [&[0o022, high, low], code, &FOR_EVER].concat();
        Rig::new(&[Source::plain(&code)], 65_535)
    };
    let mut rig = at(&[0o202], 65_533);
    rig.poke(&[(65_533, 7), (65_534, 8)]);
    assert_eq!(rig.run(1).count, 1);
    expect_load(&mut rig, 1, [7, 8]);
    for address in [65_534, 65_535] {
        for code in [&[0o202][..], &[0o001, 0o002, 0o222]] {
            let mut rig = at(code, address);
            assert_eq!(rig.run(code.len() as u32).number, 30);
            rig.expect_stop(32, 0);
        }
    }
}

/// Near the top of the largest store, G + b wraps to the first words.
#[test]
fn global_pairs_wrap() {
    let main = Source {
        data_size: 65_361,
        ..Source::plain(&[0o355, 1, 0, 0o354])
    };
    // Base 65,492: 101 76 is word 32, where the base copy is.
    let other = |code: &[u8]| Source::plain(&[code, &[0o304]].concat());
    for load in [&[0o101, 76][..], &[0o043, 1, 76]] {
        let mut rig = Rig::new(&[main.clone(), other(load)], 65_535);
        assert_eq!(rig.run(2).number, 30);
        assert_eq!(rig.stack(), [128, 65_492]);
    }
    // 101 42 is word 65,534, and 101 43 is 65,535.
    for (b, number) in [(41, 30), (42, 32), (43, 32), (44, 30)] {
        let mut rig = Rig::new(&[main.clone(), other(&[0o101, b])], 65_535);
        assert_eq!(rig.run(2).number, number);
    }
}

/// 043 and 063 use the image's bases, like 042 and 062.
#[test]
fn the_base_copy_is_only_data() {
    let mut rig = at_instruction(&[0o043, 1, 2], &[]);
    rig.poke(&[(33, 5), (BASE_1 + 2, 0x00CC), (BASE_1 + 3, 0x00DD)]);
    expect_load(&mut rig, 3, [0x00CC, 0x00DD]);
    let mut rig = at_instruction(&[0o063, 1, 2], &PAIR);
    rig.poke(&[(33, 5)]);
    expect_store(&mut rig, 3, BASE_1 + 2);
}

/// What a pair has stored, words load, and the other way round.
#[test]
fn words_and_pairs_agree() {
    // LID, SGD 3, LGW4, LGW3, SGD 5, LGD 5, TRAP
    let code = [
        0o023, 0x12, 0x34, 0xAB, 0xCD, 0o121, 3, 0o104, 0o103, 0o121, 5, 0o101, 5, 0o304,
    ];
    let module = Source {
        data_size: 4,
        ..Source::plain(&code)
    };
    let mut rig = Rig::new(&[module], WORDS);
    let answer = rig.run(1000);
    assert_eq!((answer.number, answer.count), (40, 6));
    assert_eq!(rig.stack(), [0xABCD, 0x1234]);
}

/// A counter goes up past 65,535 and down again.
#[test]
fn a_counter_carries_and_borrows() {
    // LID 0 65,533 and SLD 4; then for ever LLD 4, LID 0 2, DADD, SLD 4.
    let code = |operator: u8| {
        let mut code = vec![0o353, 2, 0o023, 0, 0, 0xFF, 0xFD, 0o061, 4];
        code.extend([0o041, 4, 0o023, 0, 0, 0, 2, operator, 0o061, 4, 0o035, 11]);
        code
    };
    let counts = |rig: &mut Rig| {
        let l = usize::from(rig.machine.l);
        assert_eq!(rig.run(5).number, 30);
        [rig.store[l + 4], rig.store[l + 5]]
    };
    let mut rig = Rig::plain(&code(0o210));
    assert_eq!(rig.run(3).number, 30);
    assert_eq!(counts(&mut rig), [0, 0xFFFF]);
    assert_eq!(counts(&mut rig), [1, 1]);
    assert_eq!(counts(&mut rig), [1, 3]);
    let mut rig = Rig::plain(&code(0o211));
    assert_eq!(rig.run(3).number, 30);
    let l = rig.machine.l;
    rig.poke(&[(l + 4, 1), (l + 5, 3)]);
    assert_eq!(counts(&mut rig), [1, 1]);
    assert_eq!(counts(&mut rig), [0, 0xFFFF]);
    rig.poke(&[(l + 4, 0), (l + 5, 1)]);
    assert_eq!(counts(&mut rig), [0xFFFF, 0xFFFF]);
}
