//! The word of requests, by the example of the clock line (examples/clock.lst): line 8 wakes a lamp process, which switches output 4 over and
//! transfers back.

mod common;

use cembuxola::c::LINKED;
use cembuxola::{line, Cabinet, Ran, Stop, ANSWER_NUMBERS, CHANNELS, MACHINE_WORDS};
use common::{ended, ran, spent, Lent, INPUTS, TICK, WORDS};

const CLOCK: &[u8] = include_bytes!("../../examples/clock.img");
/// Store words: the lines held back, the target of line 8, and the process that it interrupted.
const HELD: usize = 3;
const TARGET: usize = 16;
const INTERRUPTED: usize = 17;
/// The steps before word 16 is written, and those before UADD in the fourth turn, with 6 and 4 on the stack.
const SET_UP: u32 = 13;
const ADDING: u32 = 64;
/// The steps of the lamp process up to its transfer back, with that one, but for the line.
const LAMP: u32 = 9;
/// The steps of the main process.
const MAIN: u32 = 163;

fn clock() -> Cabinet {
    Cabinet::new(CLOCK, WORDS).unwrap()
}

/// The clock after some steps without requests.
fn clock_after(steps: u32) -> Cabinet {
    let mut clock = clock();
    assert_eq!(clock.run(&INPUTS, steps, 0), spent(steps, 0));
    clock
}

fn failed(count: u32, requests: u16) -> Ran {
    ran(Stop::Process, count, requests)
}

fn lamp(cabinet: &Cabinet) -> u16 {
    cabinet.outputs()[4]
}

#[test]
fn lines_have_their_weights() {
    assert_eq!((8..16).map(line).sum::<u16>(), 0xFF00);
    assert_eq!((line(8), line(15)), (256, 32_768));
}

#[test]
fn bits_0_to_7_are_returned_as_given() {
    for low in [0, 1, 128, 255] {
        assert_eq!(clock().run(&INPUTS, 1000, low), ended(MAIN, low));
        let mut clock = clock_after(ADDING);
        let rest = MAIN - ADDING + 1 + LAMP;
        assert_eq!(clock.run(&INPUTS, 1000, TICK | low), ended(rest, low));
        assert_eq!((lamp(&clock), clock.outputs()[0]), (1, 55));
    }
}

#[test]
fn a_line_is_taken() {
    let mut clock = clock_after(ADDING);
    let before = *clock.machine();
    assert_eq!((before.pc(), before.stack()), (27, &[6, 4][..]));
    assert_eq!(clock.run(&INPUTS, 1, TICK), spent(1, 0));
    // the lamp process with its own mask; the whole stack of the main one is saved, the top word first
    let during = *clock.machine();
    let [p, m] = [3, 7].map(|word| during.words[word]);
    assert_eq!((during.pc(), during.depth(), m), (38, 0, TICK));
    assert_eq!(clock.store()[TARGET], p);
    let (old, s) = (before.words[3], usize::from(before.words[5]));
    assert_eq!(clock.store()[INTERRUPTED], old);
    assert_eq!(clock.store()[s..s + 3], [4, 6, 2]);
    // back, before the same instruction
    assert_eq!(clock.run(&INPUTS, LAMP, 0), spent(LAMP, 0));
    assert_eq!((*clock.machine(), lamp(&clock)), (before, 1));
    // the next one wakes the lamp process behind its transfer, so it has one step more
    let again = LAMP + 2;
    assert_eq!(clock.run(&INPUTS, again, TICK), spent(again, 0));
    assert_eq!((*clock.machine(), lamp(&clock)), (before, 0));
}

#[test]
fn a_line_comes_before_the_end_and_after_the_budget() {
    let mut clock = clock_after(MAIN);
    assert_eq!(clock.run(&INPUTS, 0, TICK), spent(0, TICK));
    assert_eq!(clock.run(&INPUTS, 1000, TICK), ended(1 + LAMP, 0));
    assert_eq!((clock.machine().pc(), lamp(&clock)), (37, 1));
}

#[test]
fn a_line_that_fails_keeps_its_bit() {
    for word in [TICK, TICK | 3, line(15), 0xFFFF] {
        let mut clock = clock_after(SET_UP - 1);
        let before = clock.clone();
        assert_eq!(clock.run(&INPUTS, 1000, word), failed(0, word));
        assert_eq!(clock.machine(), before.machine());
        assert_eq!(clock.store(), before.store());
    }
    // the highest one fails, and no lower one is tried
    let both = line(15) | TICK;
    let mut clock = clock_after(ADDING);
    assert_eq!(clock.run(&INPUTS, 1000, both), failed(0, both));
}

#[test]
fn a_line_that_m_masks_waits() {
    let mut clock = clock_after(ADDING);
    assert_eq!(clock.run(&INPUTS, 1, TICK), spent(1, 0));
    // requested again while the lamp process runs: it waits for the transfer back
    assert_eq!(clock.run(&INPUTS, LAMP, TICK), spent(LAMP, TICK));
    assert_eq!((clock.machine().pc(), lamp(&clock)), (27, 1));
    assert_eq!(clock.run(&INPUTS, 1, TICK), spent(1, 0));
    assert_eq!(clock.machine().pc(), 50);
}

impl Lent {
    /// The clock after some steps.
    fn after(steps: u32) -> Lent {
        let mut lent = Lent::new(CLOCK);
        assert_eq!(lent.run(steps, 0), spent(steps, 0));
        lent
    }
}

#[test]
fn a_line_that_word_3_holds_waits() {
    let mut lent = Lent::after(ADDING);
    lent.store[HELD] = TICK;
    assert_eq!(lent.run(5, TICK), spent(5, TICK));
    lent.store[HELD] = !TICK;
    assert_eq!(lent.run(5, 0xFFFF), spent(5, !TICK));
}

#[test]
fn a_line_to_the_process_itself() {
    let mut lent = Lent::after(ADDING);
    let before = lent.machine;
    lent.store[TARGET] = before.words[3];
    assert_eq!(lent.run(1, TICK), spent(1, 0));
    assert_eq!(lent.machine, before);
    assert_eq!(lent.store[INTERRUPTED], before.words[3]);
}

/// Of the C function: count 0, code 0, the requests as given, no channels.
#[test]
fn a_refused_run_returns_the_word_as_given() {
    let lent = Lent::after(ADDING);
    let mut broken = lent.machine.words;
    broken[2] += 1;
    for (words, entries, channels, machine, number) in [
        (0, 0, 16, lent.machine.words, 7),
        (0, CLOCK.len(), 16, lent.machine.words, 9),
        (WORDS, CLOCK.len(), 15, lent.machine.words, 10),
        (WORDS, CLOCK.len(), 16, broken, 11),
    ] {
        for requests in [0, 255, TICK, 0xFFFF] {
            let (mut after, mut store, mut outputs) = (machine, lent.store.clone(), [5; CHANNELS]);
            let mut answer = [7; ANSWER_NUMBERS];
            let answered = LINKED.run(
                &mut after,
                CLOCK,
                &lent.map[..entries],
                &mut store[..words],
                &mut outputs,
                &INPUTS[..channels],
                &mut answer,
                9,
                requests,
            );
            assert_eq!((answered, answer), (number, [0, 0, requests.into(), 0]));
            assert_eq!((after, outputs), (machine, [5; CHANNELS]));
            assert_eq!(store, lent.store);
        }
    }
}

#[test]
fn an_answer_of_another_length_is_answered_before_all_else() {
    for numbers in [0, 1, 2, 3, 5] {
        let mut lent = Lent::after(ADDING);
        let before = lent.clone();
        let mut answer = vec![7; numbers];
        let number = lent.number(&INPUTS, &mut answer, 9, TICK);
        assert_eq!((number, answer), (20, vec![7; numbers]));
        assert_eq!(lent, before);
    }
    assert_eq!((ANSWER_NUMBERS, MACHINE_WORDS), (4, 24));
}

/// n steps, then m with the word that the first run left, are n + m.
#[test]
fn the_word_is_handed_on() {
    const ALL: u32 = 60;
    for word in [TICK, TICK | 3, line(15) | TICK] {
        let mut whole = clock_after(ADDING);
        let all = whole.run(&INPUTS, ALL, word);
        for n in 0..=all.count.min(ALL - 1) {
            let mut parts = clock_after(ADDING);
            let first = parts.run(&INPUTS, n, word);
            let second = parts.run(&INPUTS, ALL - n, first.requests);
            assert_eq!(first.count + second.count, all.count);
            assert_eq!((second.stop, second.requests), (all.stop, all.requests));
            assert_eq!((first.channels, second.channels, all.channels), (0, 0, 0));
            assert_eq!(parts.machine(), whole.machine());
            assert_eq!(parts.store(), whole.store());
            assert_eq!(parts.outputs(), whole.outputs());
        }
    }
}
