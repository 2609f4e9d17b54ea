//! Traps that are caught, by the example of the safe pattern (examples/safe.lst): a division by zero leads to the safe process, which writes
//! outputs 4 to 6 and idles. And each trap by itself, in short programs.

mod common;

use cembuxola::{line, Cabinet, Ran, Stop, ANSWER_NUMBERS};
use common::{ended, image, input, ran, reading, spent, Lent, INPUTS, TICK, WORDS};
use common::{M, NUMBER, P, S, TRAPPED, TRAP_TARGET as TARGET};

const SAFE: &[u8] = include_bytes!("../../examples/safe.img");
/// The channels of the photocell and of the meter, and the steps up to the first READ of each, with that one.
const PHOTOCELL: u16 = 1 << 1;
const METER: u16 = 1 << 2;
const CELL_READ: u32 = 20;
const METER_READ: u32 = 36;
/// The steps before word 14 is written, those before UDIV in the second hour, with 4, 600 and 2 on the stack, and those before it divides by 0.
const SET_UP: u32 = 13;
const DIVIDING: u32 = 51;
const BY_ZERO: u32 = 99;
/// The steps of the safe process before it idles.
const PATTERN: u32 = 11;
/// The positions of UDIV, of the RTN that ends, of the safe process and of its idling.
const UDIV: u16 = 39;
const RTN: u16 = 58;
const ENTRY: u16 = 59;
const IDLE: u16 = 71;

/// The first steps of the safe program by night.
fn first_steps(steps: u32) -> Ran {
    let channels = match steps {
        METER_READ.. => PHOTOCELL | METER,
        CELL_READ.. => PHOTOCELL,
        _ => 0,
    };
    reading(channels, spent(steps, 0))
}

/// The safe cabinet after some steps.
fn safe_after(steps: u32) -> Cabinet {
    let mut safe = Cabinet::new(SAFE, WORDS).unwrap();
    assert_eq!(safe.run(&INPUTS, steps, 0), first_steps(steps));
    safe
}

/// Outputs 4 to 6: the lamps, the warning lamp, the number of the trap.
fn pattern(cabinet: &Cabinet) -> &[u16] {
    &cabinet.outputs()[4..7]
}

impl Lent {
    /// The safe cabinet after some steps.
    fn safe_after(steps: u32) -> Lent {
        let mut lent = Lent::new(SAFE);
        assert_eq!(lent.run(steps, 0), first_steps(steps));
        lent
    }

    /// The next run stops at once with this trap, and nothing is changed.
    fn stops(&mut self, trap: Stop, requests: u16) {
        let before = self.clone();
        assert_eq!(self.run(1000, requests), ran(trap, 0, requests));
        assert_eq!(*self, before);
    }
}

#[test]
fn the_first_hour_reads_the_photocell_and_the_meter() {
    for steps in 0..=METER_READ {
        safe_after(steps);
    }
}

#[test]
fn a_trap_is_caught() {
    let mut safe = safe_after(BY_ZERO);
    let before = *safe.machine();
    let (p, s) = (before.words[P], usize::from(before.words[S]));
    assert_eq!((before.pc(), before.stack()), (UDIV, &[4, 600, 0][..]));
    assert_eq!(pattern(&safe), [600, 0, 0]);
    assert_eq!(safe.run(&INPUTS, 1, 0), spent(1, 0));
    // the safe process with its own mask
    let during = *safe.machine();
    assert_eq!((during.pc(), during.depth()), (ENTRY, 0));
    assert_eq!(
        (during.words[P], during.words[M]),
        (safe.store()[TARGET], 0xFF00)
    );
    // the number, the process, its position and its whole stack, the top word first
    let record = &safe.store()[p.into()..];
    assert_eq!((safe.store()[TRAPPED], record[NUMBER]), (p, 36));
    assert_eq!((record[2], record[4]), (UDIV, s as u16 + 4));
    assert_eq!(safe.store()[s..s + 4], [0, 600, 4, 3]);
    // the trap writes no output
    assert_eq!(pattern(&safe), [600, 0, 0]);
    assert_eq!(safe.run(&INPUTS, PATTERN, 0), spent(PATTERN, 0));
    assert_eq!(
        (safe.machine().pc(), pattern(&safe)),
        (IDLE, &[50, 1, 36][..])
    );
    assert_eq!(safe.run(&INPUTS, 1000, 0), spent(1000, 0));
    assert_eq!(
        (safe.machine().pc(), safe.machine().words[P]),
        (IDLE, during.words[P])
    );
}

#[test]
fn one_run_goes_on_behind_the_trap() {
    let both = PHOTOCELL | METER;
    let mut safe = safe_after(0);
    assert_eq!(safe.run(&INPUTS, 1000, 0), reading(both, spent(1000, 0)));
    assert_eq!(
        (safe.machine().pc(), pattern(&safe)),
        (IDLE, &[50, 1, 36][..])
    );
    // more is used than there was
    let mut safe = safe_after(0);
    assert_eq!(
        safe.run(&input(2, 700), 1000, 0),
        reading(both, spent(1000, 0))
    );
    assert_eq!(
        (safe.machine().pc(), pattern(&safe)),
        (IDLE, &[50, 1, 37][..])
    );
}

#[test]
fn an_end_is_not_caught() {
    let mut safe = safe_after(0);
    assert_eq!(
        safe.run(&input(1, 200), 1000, 0),
        reading(PHOTOCELL, ended(27, 0))
    );
    assert_eq!((safe.machine().pc(), pattern(&safe)), (RTN, &[0, 0, 0][..]));
    assert_eq!(safe.store()[TRAPPED], 0);
}

#[test]
fn a_trap_comes_after_the_budget() {
    let mut lent = Lent::safe_after(BY_ZERO);
    let before = lent.clone();
    assert_eq!(lent.run(0, 0), spent(0, 0));
    assert_eq!(lent, before);
    assert_eq!(lent.run(1, 0), spent(1, 0));
    assert_eq!(lent.machine.pc(), ENTRY);
}

#[test]
fn word_14_of_0_and_of_p() {
    for word in [0, Lent::safe_after(BY_ZERO).machine.words[P]] {
        let mut lent = Lent::safe_after(BY_ZERO);
        lent.store[TARGET] = word;
        lent.stops(Stop::Divisor, 0);
        // so does a line that fails
        let mut lent = Lent::safe_after(DIVIDING);
        lent.store[TARGET] = word;
        lent.stops(Stop::Process, TICK | 3);
    }
}

#[test]
fn word_14_of_no_process() {
    let record = usize::from(Lent::safe_after(BY_ZERO).store[TARGET]);
    for (address, word) in [
        (TARGET, 1),
        (TARGET, WORDS as u16 - 7),
        (TARGET, 65_535),
        // G, the position and s
        (record, 129),
        (record + 2, ENTRY + 2),
        (record + 4, 0),
    ] {
        let mut lent = Lent::safe_after(BY_ZERO);
        lent.store[address] = word;
        lent.stops(Stop::Divisor, 0);
    }
}

#[test]
fn a_trap_of_the_trap_process_stops() {
    let mut lent = Lent::safe_after(BY_ZERO + 1 + PATTERN);
    // the line is no longer masked, and there is no process for it
    lent.machine.words[M] = 0;
    lent.stops(Stop::Process, TICK);
}

#[test]
fn a_line_that_fails_is_caught_with_its_bit_kept() {
    for word in [TICK, TICK | 3, line(15), 0xFFFF] {
        let mut safe = safe_after(DIVIDING);
        let before = *safe.machine();
        let p = usize::from(before.words[P]);
        assert_eq!((before.pc(), before.stack()), (UDIV, &[4, 600, 2][..]));
        assert_eq!(safe.run(&INPUTS, 1, word), spent(1, word));
        assert_eq!(safe.machine().pc(), ENTRY);
        let number = safe.store()[p + NUMBER];
        assert_eq!((safe.store()[TRAPPED], number), (p as u16, 35));
        assert_eq!(safe.store()[p + 2], UDIV);
        // the M of the safe process masks it
        assert_eq!(safe.run(&INPUTS, 1000, word), spent(1000, word));
        assert_eq!(pattern(&safe), [50, 1, 35]);
    }
    // before word 14 is written it stops
    let mut lent = Lent::safe_after(SET_UP - 1);
    lent.stops(Stop::Process, TICK);
}

/// A program for each trap. The trap process begins it anew.
const TRAPS: [(Stop, &[u8]); 9] = [
    (Stop::Address, &[0x12, 255, 255, 0x60, 0xC4]),
    (Stop::StackLimit, &[0xEB, 255, 0x1D, 3]),
    (Stop::ReturnMark, &[15, 0x30, 2, 0xEC]),
    (Stop::Process, &[0, 0, 0xAE, 0, 0xEC]),
    (Stop::Divisor, &[1, 0, 0xBB, 0xC4]),
    (Stop::ResultRange, &[0, 1, 0xB9, 0xC4]),
    (Stop::Check, &[6, 5, 0xC6, 0xC4]),
    (Stop::Channel, &[0x10, 16, 0, 0xA1, 0xEC]),
    (Stop::Program(7), &[7, 0xC4]),
];

#[test]
fn each_trap_is_caught() {
    for (trap, code) in TRAPS {
        let mut stopped = Lent::new(&image(code));
        let Ran { stop, count, .. } = stopped.run(1000, 0);
        assert_eq!(stop, trap);
        let (p, pc) = (stopped.machine.words[P], stopped.machine.pc());
        let mut lent = Lent::new(&image(code)).with_trap_process(0);
        assert_eq!(lent.run(count + 1, 0), spent(count + 1, 0));
        assert_eq!(
            (lent.machine.words[P], lent.machine.pc()),
            (lent.store[TARGET], 0)
        );
        let record = &lent.store[p.into()..];
        assert_eq!(
            (lent.store[TRAPPED], record[NUMBER], record[2]),
            (p, trap.number(), pc)
        );
    }
}

/// Of the C function: the code of a caught 40 is nowhere in the answer; that of the trap process, which stops, is.
#[test]
fn the_code_of_40_is_lost() {
    let mut lent = Lent::new(&image(&[7, 0xC4])).with_trap_process(0);
    for (n, number, wanted) in [(2, 30, [2, 0, 0, 0]), (9, 40, [1, 7, 0, 0])] {
        let mut answer = [9; ANSWER_NUMBERS];
        let answered = lent.number(&INPUTS, &mut answer, n, 0);
        assert_eq!((answered, answer), (number, wanted));
    }
}

/// n steps, then m with the word that the first run left, are n + m, wherever the trap lies.
#[test]
fn the_trap_is_one_of_n_and_m() {
    const ALL: u32 = 20;
    for (begin, word) in [(BY_ZERO - 5, 0), (BY_ZERO - 5, 3), (DIVIDING, TICK | 3)] {
        let mut whole = Lent::safe_after(begin);
        let all = whole.run(ALL, word);
        assert_eq!(all, spent(ALL, word));
        assert_ne!(whole.store[TRAPPED], 0);
        for n in 0..ALL {
            let mut parts = Lent::safe_after(begin);
            let first = parts.run(n, word);
            let second = parts.run(ALL - n, first.requests);
            assert_eq!(first.count + second.count, all.count);
            assert_eq!((second.stop, second.requests), (all.stop, all.requests));
            assert_eq!(first.channels | second.channels, all.channels);
            assert_eq!(parts, whole);
        }
    }
}
