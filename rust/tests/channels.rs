//! The word of the input channels that a run's READs took, in short programs and in the examples of the safe pattern and of dusk.

mod common;

use cembuxola::{Ran, Stop, ANSWER_NUMBERS, CHANNELS};
use common::{ended, image, input, ran, reading, spent, Lent, INPUTS, NUMBER, TICK, TRAPPED};

const SAFE: &[u8] = include_bytes!("../../examples/safe.img");
const DUSK: &[u8] = include_bytes!("../../examples/dusk.img");
/// The word that takes input 0; those of the others follow.
const FIRST: usize = 100;
/// The steps of a READ with its operands.
const STEPS: u32 = 3;
/// A word for each input, none of them twice.
const GIVEN: [u16; CHANNELS] = [
    9, 200, 30, 500, 7, 65_535, 32_768, 1, 2, 3, 4, 5, 6, 1000, 2000, 3000,
];

/// A READ with its operands.
fn read(channel: u8) -> [u8; 5] {
    [0x10, FIRST as u8 + channel, 0x10, channel, 0xA0]
}

/// A program that reads these channels one after another, then does what `end` says.
fn program(channels: &[u8], end: &[u8]) -> Lent {
    let reads: Vec<u8> = channels.iter().flat_map(|&channel| read(channel)).collect();
    Lent::new(&image(&[&reads, end].concat()))
}

/// RTN, which ends.
const END: &[u8] = &[0xEC];

/// READs that trap after the two steps of their operands: for the channel, for the address, and for both.
const TRAPPING: [(Stop, &[u8]); 4] = [
    (Stop::Channel, &[0x10, 100, 0x10, 16, 0xA0]),
    (Stop::Channel, &[0x10, 100, 0x12, 255, 255, 0xA0]),
    (Stop::Address, &[0x12, 0x10, 0, 3, 0xA0]),
    (Stop::Channel, &[0x12, 255, 255, 0x10, 16, 0xA0]),
];

#[test]
fn each_channel_has_its_bit() {
    for channel in 0..16 {
        let mut lent = program(&[channel], END);
        let taken = lent.run_with(&GIVEN, 1000, 3);
        assert_eq!(taken, reading(1 << channel, ended(STEPS, 3)));
        let channel = usize::from(channel);
        assert_eq!(lent.store[FIRST + channel], GIVEN[channel]);
    }
}

#[test]
fn several_channels() {
    let cases: [(&[u8], u16); 5] = [
        (&[], 0),
        (&[5, 5], 1 << 5),
        (&[3, 1, 3], 1 << 3 | 1 << 1),
        (&[15, 0, 8], 0x8101),
        (
            &[0, 1, 2, 3, 4, 5, 6, 7, 8, 9, 10, 11, 12, 13, 14, 15],
            0xFFFF,
        ),
    ];
    for (channels, word) in cases {
        let taken = program(channels, END).run_with(&GIVEN, 1000, 0);
        let count = STEPS * channels.len() as u32;
        assert_eq!(taken, reading(word, ended(count, 0)));
    }
}

#[test]
fn whatever_the_run_stops_with() {
    let ends: [(&[u8], Stop, u32); 5] = [
        (&[7, 0xC4], Stop::Program(7), 1),
        (&[1, 0, 0xBB, 0xC4], Stop::Divisor, 2),
        (&[0, 1, 0xB9, 0xC4], Stop::ResultRange, 2),
        (&[0xEB, 255, 0x1D, 3], Stop::StackLimit, 30),
        (&[0x1D, 1], Stop::Spent, 1000 - 2 * STEPS),
    ];
    for (end, stop, count) in ends {
        let taken = program(&[2, 9], end).run_with(&GIVEN, 1000, 0);
        assert_eq!(
            taken,
            reading(1 << 2 | 1 << 9, ran(stop, 2 * STEPS + count, 0))
        );
    }
    // input 2, which is 0, becomes word 3, which held a line; that fails
    let mut lent = Lent::new(&image(&[3, 2, 0xA0, 0xEC]));
    lent.store[3] = TICK;
    let taken = lent.run(1000, TICK);
    assert_eq!(taken, reading(1 << 2, ran(Stop::Process, STEPS, TICK)));
}

#[test]
fn a_read_that_traps_has_no_bit() {
    for (trap, code) in TRAPPING {
        let end = [code, END].concat();
        assert_eq!(program(&[], &end).run(1000, 0), ran(trap, 2, 0));
        // others have theirs
        let taken = program(&[5], &end).run(1000, 0);
        assert_eq!(taken, reading(1 << 5, ran(trap, STEPS + 2, 0)));
    }
}

#[test]
fn nor_where_the_trap_is_caught() {
    for (trap, code) in TRAPPING {
        // the trap process begins behind it, and reads input 7
        let position = code.len() as u16;
        let image = image(&[code, &read(7), END].concat());
        let caught = || Lent::new(&image).with_trap_process(position);
        let mut lent = caught();
        assert_eq!(lent.run_with(&GIVEN, STEPS, 0), spent(STEPS, 0));
        let process = usize::from(lent.store[TRAPPED]);
        assert_eq!(lent.store[process + NUMBER], trap.number());
        let taken = lent.run_with(&GIVEN, STEPS, 0);
        assert_eq!(taken, reading(1 << 7, spent(STEPS, 0)));
        assert_eq!(lent.store[FIRST + 7], GIVEN[7]);
        // in one run
        let mut whole = caught();
        let taken = whole.run_with(&GIVEN, 2 * STEPS, 0);
        assert_eq!(taken, reading(1 << 7, spent(2 * STEPS, 0)));
        assert_eq!(whole, lent);
    }
}

#[test]
fn before_and_behind_a_read() {
    let mut lent = program(&[2], END);
    assert_eq!(lent.run(STEPS - 1, 0), spent(STEPS - 1, 0));
    assert_eq!(lent.run(0, 0), spent(0, 0));
    assert_eq!(lent.run(1, 0), reading(1 << 2, spent(1, 0)));
    let mut lent = program(&[2], END);
    assert_eq!(lent.run(STEPS, 0), reading(1 << 2, spent(STEPS, 0)));
}

#[test]
fn the_word_begins_at_0_in_each_run() {
    let mut lent = program(&[3, 5, 3], END);
    for channel in [3, 5, 3] {
        assert_eq!(lent.run(STEPS, 0), reading(1 << channel, spent(STEPS, 0)));
    }
    assert_eq!(lent.run(1000, 0), ended(0, 0));
}

/// What makes a run refused.
type Change = fn(&mut Lent);

/// Of the C function, behind a run that reads.
#[test]
fn a_refused_run_has_read_none() {
    let cases: [(u16, usize, Change); 6] = [
        (1, 16, |lent| lent.image.clear()),
        (7, 16, |lent| _ = lent.map.pop()),
        (12, 16, |lent| lent.map[0] = 0),
        (9, 16, |lent| lent.store.clear()),
        (10, 15, |_| ()),
        (11, 16, |lent| lent.machine.words[2] = 1),
    ];
    for (refusal, inputs, change) in cases {
        let mut lent = program(&[3, 5], END);
        let mut answer = [7; ANSWER_NUMBERS];
        assert_eq!(lent.number(&GIVEN, &mut answer, STEPS, 0), 30);
        assert_eq!(answer, [STEPS, 0, 0, 1 << 3]);
        change(&mut lent);
        let before = lent.clone();
        for requests in [0, 3, 0xFFFF] {
            let number = lent.number(&GIVEN[..inputs], &mut answer, STEPS, requests);
            assert_eq!((number, answer), (refusal, [0, 0, requests.into(), 0]));
            assert_eq!(lent, before);
        }
    }
}

#[test]
fn an_answer_of_another_length() {
    for numbers in [3, 5] {
        let mut lent = program(&[3], END);
        let before = lent.clone();
        let mut answer = vec![7; numbers];
        assert_eq!(lent.number(&GIVEN, &mut answer, 1000, 3), 20);
        assert_eq!((lent, answer), (before, vec![7; numbers]));
    }
}

/// Programs with inputs that they read, and the word of 130 steps.
fn programs() -> Vec<(Lent, [u16; CHANNELS], u16)> {
    let some = |channels, word| (program(channels, END), GIVEN, word);
    let caught = [TRAPPING[0].1, &read(7), &[0x1D, 1]].concat();
    let caught = Lent::new(&image(&caught)).with_trap_process(5);
    vec![
        some(&[], 0),
        some(&[3, 1, 3], 1 << 3 | 1 << 1),
        (caught, GIVEN, 1 << 7),
        (Lent::new(DUSK), GIVEN, 1 << 1),
        (Lent::new(DUSK), INPUTS, 1 << 1),
        // the safe cabinet catches its trap after 99 steps by night; by day it ends
        (Lent::new(SAFE), INPUTS, 1 << 2 | 1 << 1),
        (Lent::new(SAFE), input(2, 700), 1 << 2 | 1 << 1),
        (Lent::new(SAFE), GIVEN, 1 << 1),
    ]
}

const ALL: u32 = 130;

/// n steps, then m with the same inputs, are n + m, with the words united.
#[test]
fn words_are_united() {
    for (begun, inputs, word) in programs() {
        let mut whole = begun.clone();
        let all = whole.run_with(&inputs, ALL, 3);
        assert_eq!(all.channels, word);
        for n in 0..=all.count.min(ALL - 1) {
            let mut parts = begun.clone();
            let first = parts.run_with(&inputs, n, 3);
            let second = parts.run_with(&inputs, ALL - n, first.requests);
            let united = Ran {
                count: first.count + second.count,
                channels: first.channels | second.channels,
                ..second
            };
            assert_eq!((united, &parts), (all, &whole));
        }
    }
}

#[test]
fn inputs_outside_the_word_do_not_matter() {
    for (begun, inputs, _) in programs() {
        for n in 0..=ALL {
            let mut run = begun.clone();
            let ran = run.run_with(&inputs, n, 3);
            for change in [|word: u16| !word, |_| 0, |_| 65_535, |word| word ^ 1] {
                let mut others = inputs;
                for (channel, input) in others.iter_mut().enumerate() {
                    if ran.channels >> channel & 1 == 0 {
                        *input = change(*input);
                    }
                }
                let mut other = begun.clone();
                assert_eq!((other.run_with(&others, n, 3), &other), (ran, &run));
            }
        }
    }
}

#[test]
fn inputs_in_the_word_do() {
    let begun = program(&[3, 1, 15], END);
    let mut run = begun.clone();
    let ran = run.run_with(&GIVEN, 1000, 0);
    for channel in [1, 3, 15] {
        let mut others = GIVEN;
        others[channel] += 1;
        let mut other = begun.clone();
        assert_eq!(other.run_with(&others, 1000, 0), ran);
        assert_ne!(other.store, run.store);
        other.store[FIRST + channel] = GIVEN[channel];
        assert_eq!(other, run);
    }
}
