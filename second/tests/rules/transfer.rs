//! 256, TRANSFER.

use crate::rig::{at_instruction, entry, here, set_stack, Rig, BASE_0, BASE_1, H, L, S, WORDS, Z};
use second::assemble::Source;
use second::image::Procedure;
use second::Machine;

/// Where the tests keep the other process.
const TO: u16 = 900;
const FROM: u16 = 901;
pub const Q: u16 = 1000;
pub const MASK: u16 = 0x0F0F;

/// A record: G, L, position, M, s, v.
pub type Record = [u16; 6];

/// Module 1, position 3, which is marked 3; three words from 2000 up.
pub const GOOD: Record = [BASE_1, 0x1111, 3, 0x2222, 2004, 3000];

pub fn poke_record(rig: &mut Rig, q: u16, record: Record) {
    for (offset, word) in (0..).zip(record) {
        rig.poke(&[(q + offset, word)]);
    }
}

/// A rig before `256 b` with 11 and 12 below the addresses, the good record at
/// Q, and word TO naming it.
fn at_transfer(b: u8) -> Rig {
    let mut rig = at_instruction(&[0o256, b], &[11, 12, FROM, TO]);
    rig.machine.m = MASK;
    rig.poke(&[(TO, Q), (FROM, 0xDEAD)]);
    poke_good(&mut rig);
    rig
}

/// The good record at Q, and its stack.
pub fn poke_good(rig: &mut Rig) {
    poke_record(rig, Q, GOOD);
    rig.poke(&[(2000, 0xC0), (2001, 0xB0), (2002, 0xA0), (2003, 3)]);
}

/// The position behind the transfer.
fn next() -> u16 {
    here(&[0; 4]) + 2
}

/// The machine after a transfer to the good record.
pub fn restored(mask: u16) -> impl Fn(&mut Machine) {
    move |machine| {
        *machine = Machine {
            module: 1,
            pc: 3,
            p: Q,
            l: 0x1111,
            s: 2000,
            h: 2976,
            m: mask,
            ..*machine
        };
        // The lowest of the words is the top.
        set_stack(machine, &[0xA0, 0xB0, 0xC0]);
    }
}

/// What a transfer from [`at_transfer`] saves.
const SAVED: [(u16, u16); 9] = [
    (S, 12),
    (S + 1, 11),
    (S + 2, 2),
    (Z, BASE_0),
    (Z + 1, L),
    (Z + 2, 18 + 3 * 4 + 2),
    (Z + 3, MASK),
    (Z + 4, S + 3),
    (Z + 5, WORDS as u16),
];

#[test]
fn saves_and_restores() {
    let writes = [&SAVED[..], &[(FROM, Z)]].concat();
    at_transfer(0).expect_step(restored(MASK), &writes);
    for b in [1, 2, 255] {
        at_transfer(b).expect_step(restored(0x2222), &writes);
    }
}

#[test]
fn saves_an_empty_and_a_full_stack() {
    let mut rig = at_instruction(&[0o256, 0], &[FROM, TO]);
    rig.poke(&[(TO, Q), (2003, 3)]);
    poke_record(&mut rig, Q, GOOD);
    assert_eq!(rig.run(1).count, 1);
    assert_eq!(rig.store[usize::from(S)], 0, "the count");
    assert_eq!(rig.store[usize::from(Z) + 4], S + 1);
    assert_eq!(rig.machine.stack[..3], [0, 0, 0]);

    // Fourteen words, from H up: the last word written is H + 14.
    let mut words: Vec<u16> = (1..=14).collect();
    words.extend([FROM, TO]);
    let mut rig = at_instruction(&[0o256, 0], &words);
    rig.poke(&[(TO, Q), (2003, 3)]);
    poke_record(&mut rig, Q, GOOD);
    rig.machine.s = H;
    assert_eq!(rig.run(1).count, 1);
    let saved = &rig.store[usize::from(H)..usize::from(H) + 16];
    assert_eq!(
        saved,
        [14, 13, 12, 11, 10, 9, 8, 7, 6, 5, 4, 3, 2, 1, 14, 0]
    );
    assert_eq!(rig.store[usize::from(Z) + 4], H + 15);
}

#[test]
fn restores_sixteen_words_and_none() {
    // Procedure 15 of module 0 is marked 16.
    let mut rig = at_transfer(0);
    poke_record(&mut rig, Q, [BASE_0, 0, entry(15), 0, 2017, 3000]);
    for i in 0..16 {
        rig.poke(&[(2000 + i, 100 + i)]);
    }
    rig.poke(&[(2016, 16)]);
    assert_eq!(rig.run(1).count, 1);
    let expected: Vec<u16> = (100..116).rev().collect();
    assert_eq!(rig.stack(), expected);
    assert_eq!((rig.machine.module, rig.machine.s), (0, 2000));

    // s = 1 with no words: S falls to 0.
    let mut rig = at_transfer(0);
    poke_record(&mut rig, Q, [BASE_1, 0, 0, 0, 1, 24]);
    rig.poke(&[(0, 0)]);
    assert_eq!(rig.run(1).count, 1);
    assert_eq!((rig.machine.s, rig.machine.h, rig.machine.depth), (0, 0, 0));
    assert_eq!(rig.machine.stack, [0; 16]);
}

#[test]
fn to_itself_only_writes_the_word() {
    for b in [0, 1] {
        let mut rig = at_transfer(b);
        // Its own record is not looked at, nor is the mask.
        rig.poke(&[(TO, Z)]);
        poke_record(&mut rig, Z, [1, 2, 3, 4, 0, 6]);
        rig.expect_step(
            |machine| {
                set_stack(machine, &[11, 12]);
                machine.pc = next();
            },
            &[(FROM, Z)],
        );
    }
    // Both addresses the same word.
    let mut rig = at_instruction(&[0o256, 1], &[TO, TO]);
    rig.poke(&[(TO, Z)]);
    rig.expect_step(
        |machine| {
            set_stack(machine, &[]);
            machine.pc = here(&[0; 2]) + 2;
        },
        &[],
    );
}

#[test]
fn addresses_come_first() {
    let last = WORDS as u16 - 1;
    for (from, to) in [(FROM, last + 1), (last + 1, TO), (65_535, 65_535)] {
        for q in [Z, Q, 65_535] {
            let mut rig = at_instruction(&[0o256, 0], &[from, to]);
            rig.poke(&[(TO, q)]);
            rig.expect_stop(32, 0);
        }
    }
    let mut rig = at_instruction(&[0o256, 0], &[last, last]);
    rig.poke(&[(last, Z)]);
    assert_eq!(rig.run(1).count, 1);
}

#[test]
fn each_condition_of_35_singly() {
    check_conditions(|| at_transfer(1));
}

/// Each condition of 35, where a rig is about to change to the good process.
pub fn check_conditions(before: impl Fn() -> Rig) {
    check_conditions_of(35, before);
}

/// The same, where it stops with this number if one is broken.
pub fn check_conditions_of(stop: u8, before: impl Fn() -> Rig) {
    let check = |number: u8, change: fn(&mut Record), words: &[(u16, u16)]| {
        let mut rig = before();
        let mut record = GOOD;
        change(&mut record);
        poke_record(&mut rig, Q, record);
        rig.poke(words);
        if number == 35 {
            rig.expect_stop(stop, 0);
        } else {
            assert_eq!(rig.run(1).count, 1);
        }
    };
    check(30, |_| (), &[]);
    // 24 ≤ v ≤ W. At v = 24, H = 0 and S must be 0: s = 4 with word 3 = 3.
    let low = [(3, 3)];
    check(30, |r| (r[4], r[5]) = (4, 24), &low);
    check(35, |r| (r[4], r[5]) = (4, 23), &low);
    check(35, |r| (r[4], r[5]) = (4, 0), &low);
    check(30, |r| r[5] = 4096, &[]);
    check(35, |r| r[5] = 4097, &[]);
    check(35, |r| r[5] = 65_535, &[]);
    // 1 ≤ s ≤ W; word −1 would be the last word of a larger store.
    check(35, |r| r[4] = 0, &[(4095, 0)]);
    check(35, |r| r[4] = 4097, &[]);
    check(35, |r| r[4] = 65_535, &[]);
    // k ≤ 16.
    check(35, |_| (), &[(2003, 17)]);
    check(35, |_| (), &[(2003, 65_535)]);
    check(35, |_| (), &[(2003, 255)]);
    // k < s: s = 3 with k = 3 fails, s = 4 does not.
    check(35, |r| r[4] = 3, &[(2, 3)]);
    check(30, |r| r[4] = 4, &[(3, 3)]);
    // s − 1 − k ≤ v − 24.
    check(30, |r| r[5] = 2024, &[]);
    check(35, |r| r[5] = 2023, &[]);
    // G a base.
    check(35, |r| r[0] = BASE_1 + 1, &[]);
    check(35, |r| r[0] = 1, &[]);
    check(35, |r| r[0] = 555, &[(33, 555)]);
    // Position marked k there: another depth, unmarked, past the code, with
    // the bit of an external call.
    check(35, |r| r[2] = 0, &[]);
    check(35, |r| r[2] = 2, &[]);
    check(35, |r| r[2] = 4, &[]);
    check(35, |r| r[2] = 0x8003, &[]);
    check(35, |_| (), &[(2003, 2)]);
    check(35, |r| r[0] = BASE_0, &[]);
    check(30, |r| (r[0], r[2]) = (BASE_0, 18 + 3 * 3), &[]);
    // L and M are free.
    check(30, |r| (r[1], r[3]) = (65_535, 65_535), &[]);
}

#[test]
fn the_record_lies_in_the_store() {
    for (q, good) in [(4088, true), (4089, false)] {
        let mut rig = at_transfer(0);
        rig.poke(&[(TO, q)]);
        poke_record(&mut rig, q, GOOD);
        if good {
            assert_eq!(rig.run(1).count, 1);
            assert_eq!(rig.machine.p, 4088);
        } else {
            rig.expect_stop(35, 0);
        }
    }
    // q + 8 is not reduced.
    for q in [4096, 65_528, 65_535] {
        let mut rig = at_transfer(0);
        rig.poke(&[(TO, q)]);
        rig.expect_stop(35, 0);
    }
}

/// "Colliding writes keep the last in this order": the stack, the count, the
/// record, word c.
#[test]
fn colliding_writes() {
    // Word c is a word of the record: L's place keeps P.
    let mut rig = at_transfer(0);
    rig.machine.stack[2] = Z + 1;
    let mut writes = SAVED.to_vec();
    writes.push((Z + 1, Z));
    rig.expect_step(restored(MASK), &writes);

    // Word c is a word of the saved stack, or its count.
    for place in [S, S + 1, S + 2] {
        let mut rig = at_transfer(0);
        rig.machine.stack[2] = place;
        let mut writes = SAVED.to_vec();
        writes.push((place, Z));
        rig.expect_step(restored(MASK), &writes);
    }

    // The stack is saved from Z + 1 up, so the record overwrites all of it.
    let mut rig = at_transfer(0);
    rig.machine.s = Z + 1;
    let mut writes = SAVED[3..].to_vec();
    writes.extend([(Z + 4, Z + 4), (FROM, Z)]);
    rig.expect_step(restored(MASK), &writes);

    // From Z + 5 up: 12 is overwritten by v, 11 and the count stay.
    let mut rig = at_transfer(0);
    rig.machine.s = Z + 5;
    let mut writes = SAVED[3..].to_vec();
    writes.extend([(Z + 4, Z + 8), (Z + 6, 11), (Z + 7, 2), (FROM, Z)]);
    rig.expect_step(restored(MASK), &writes);

    // Word c is word a.
    let mut rig = at_transfer(0);
    rig.machine.stack[2] = TO;
    let mut writes = SAVED.to_vec();
    writes.push((TO, Z));
    rig.expect_step(restored(MASK), &writes);
}

/// "reading the store as before the instruction"
#[test]
fn all_is_read_before_the_first_write() {
    // The other record lies where the stack is saved.
    let mut rig = at_transfer(1);
    rig.poke(&[(TO, S)]);
    poke_record(&mut rig, S, GOOD);
    let writes = [&SAVED[..], &[(FROM, Z)]].concat();
    let to_s = |machine: &mut Machine| {
        restored(0x2222)(machine);
        machine.p = S;
    };
    rig.expect_step(to_s, &writes);

    // The other record overlaps the own one by five words.
    let mut rig = at_transfer(1);
    rig.poke(&[(TO, Z + 1)]);
    poke_record(&mut rig, Z + 1, GOOD);
    let to_z = |machine: &mut Machine| {
        restored(0x2222)(machine);
        machine.p = Z + 1;
    };
    rig.expect_step(to_z, &writes);

    // The other record is where c points.
    for offset in 0..6 {
        let mut rig = at_transfer(1);
        rig.machine.stack[2] = Q + offset;
        let writes = [&SAVED[..], &[(Q + offset, Z)]].concat();
        rig.expect_step(restored(0x2222), &writes);
    }

    // A word of the other stack, or its count, is where c points.
    for place in 2000..=2003 {
        let mut rig = at_transfer(1);
        rig.machine.stack[2] = place;
        let writes = [&SAVED[..], &[(place, Z)]].concat();
        rig.expect_step(restored(0x2222), &writes);
    }

    // The other stack and its count lie where the own stack is saved.
    let mut rig = at_transfer(1);
    rig.machine.s = 2001;
    let mut writes = SAVED[3..].to_vec();
    writes.extend([(2001, 12), (2002, 11), (2003, 2), (Z + 4, 2004), (FROM, Z)]);
    rig.expect_step(restored(0x2222), &writes);

    // They lie in the own record: P is 1999, with the words at P + 1 to P + 4.
    let mut rig = at_transfer(1);
    rig.machine.p = 1999;
    let mut writes = SAVED[..3].to_vec();
    let record = [BASE_0, L, next(), MASK, S + 3, WORDS as u16];
    writes.extend((1999..).zip(record));
    writes.push((FROM, 1999));
    rig.expect_step(restored(0x2222), &writes);
}

/// Transfers with `saved` words below the addresses, from registers S and P and
/// with word c at `from`, to the record at Q of a process with `count` words from
/// 2000 up: 100, 101 and so on. `writes` are the words that it leaves, from
/// addresses up.
fn expect_transfer(
    saved: &[u16],
    (s, p, from): (u16, u16, u16),
    count: u16,
    writes: &[(u16, &[u16])],
) {
    let mut rig = at_instruction(&[0o256, 1], &[saved, &[from, TO]].concat());
    rig.machine.m = MASK;
    rig.machine.s = s;
    rig.machine.p = p;
    // Procedure 1 of module 0 is marked 0, procedure 15 is marked 16.
    let position = if count == 0 { entry(1) } else { entry(15) };
    let record = [BASE_0, 0x1111, position, 0x2222, 2001 + count, 3000];
    let words: Vec<u16> = (100..100 + count).collect();
    poke_record(&mut rig, Q, record);
    rig.poke(&[(TO, Q), (2000 + count, count)]);
    rig.poke(&(2000..).zip(words.iter().copied()).collect::<Vec<_>>());
    let resumed = |machine: &mut Machine| {
        *machine = Machine {
            pc: position,
            p: Q,
            l: 0x1111,
            s: 2000,
            h: 2976,
            m: 0x2222,
            ..*machine
        };
        set_stack(machine, &words.iter().rev().copied().collect::<Vec<_>>());
    };
    let from_up = |&(first, words): &(u16, &[u16])| (first..).zip(words.to_vec());
    rig.expect_step(
        resumed,
        &writes.iter().flat_map(from_up).collect::<Vec<_>>(),
    );
}

/// Fourteen words are saved and sixteen restored.
#[test]
fn a_full_stack_collides() {
    let stack = [14, 13, 12, 11, 10, 9, 8, 7, 6, 5, 4, 3, 2, 1, 14];
    let record = |s: u16| [BASE_0, L, 68, MASK, s + 15, 4096];
    let check = |places: (u16, u16, u16), writes: &[(u16, &[u16])]| {
        let words: Vec<u16> = (1..=14).collect();
        expect_transfer(&words, places, 16, writes);
    };
    // Nothing touches; the stack is saved over the other record, over the lowest
    // of the other words, over the highest and their count.
    for s in [S, Q - 4, 1990, 2010] {
        let writes: [(u16, &[u16]); 3] = [(s, &stack), (Z, &record(s)), (FROM, &[Z])];
        check((s, Z, FROM), &writes);
    }
    // Over the own record, which stays.
    let both = [
        14,
        13,
        12,
        BASE_0,
        L,
        68,
        MASK,
        Z + 12,
        4096,
        5,
        4,
        3,
        2,
        1,
        14,
    ];
    check((Z - 3, Z, FROM), &[(Z - 3, &both), (FROM, &[Z])]);
    // The own record over the other one, and over the other words and count.
    for p in [Q - 2, Q + 2, 1998, 2013] {
        let writes: [(u16, &[u16]); 3] = [(S, &stack), (p, &record(S)), (FROM, &[p])];
        check((S, p, FROM), &writes);
    }
    // Word c in the other record, among the other words, their count.
    for from in [Q + 2, 2007, 2016] {
        let writes: [(u16, &[u16]); 3] = [(S, &stack), (Z, &record(S)), (from, &[Z])];
        check((S, Z, from), &writes);
    }
    // In the own record, among the saved words, their count.
    let with_c = [BASE_0, L, 68, MASK, Z, 4096];
    check((S, Z, Z + 4), &[(S, &stack), (Z, &with_c)]);
    let with_c = [14, 13, 12, 11, 10, 9, Z, 7, 6, 5, 4, 3, 2, 1, 14];
    check((S, Z, S + 6), &[(S, &with_c), (Z, &record(S))]);
    let with_c = [14, 13, 12, 11, 10, 9, 8, 7, 6, 5, 4, 3, 2, 1, Z];
    check((S, Z, S + 14), &[(S, &with_c), (Z, &record(S))]);
}

/// No word is saved but the count; sixteen are restored, or none.
#[test]
fn an_empty_stack_collides() {
    let record = |s: u16| [BASE_0, L, 26, MASK, s + 1, 4096];
    for count in [0, 16] {
        let check = |places: (u16, u16, u16), writes: &[(u16, &[u16])]| {
            expect_transfer(&[], places, count, writes);
        };
        // Nothing touches; the count is saved over the other record, over the
        // lowest of the other words, over their count.
        for s in [S, Q + 4, 2000, 2000 + count] {
            let writes: [(u16, &[u16]); 3] = [(s, &[0]), (Z, &record(s)), (FROM, &[Z])];
            check((s, Z, FROM), &writes);
        }
        // Over the own record, which stays.
        check((Z + 2, Z, FROM), &[(Z, &record(Z + 2)), (FROM, &[Z])]);
        // The own record over the other one, and over the other count.
        for p in [Q - 5, Q + 5, 1998 + count] {
            let writes: [(u16, &[u16]); 3] = [(S, &[0]), (p, &record(S)), (FROM, &[p])];
            check((S, p, FROM), &writes);
        }
        // Word c in the other record, over the other count, in the own record,
        // over the saved count.
        for from in [Q + 4, 2000 + count] {
            let writes: [(u16, &[u16]); 3] = [(S, &[0]), (Z, &record(S)), (from, &[Z])];
            check((S, Z, from), &writes);
        }
        let with_c = [BASE_0, L, Z, MASK, S + 1, 4096];
        check((S, Z, Z + 2), &[(S, &[0]), (Z, &with_c)]);
        check((S, Z, S), &[(S, &[Z]), (Z, &record(S))]);
    }
}

/// Two processes in one module hand a number to and fro: the main program
/// builds the record of the other at word 500 of the store.
#[test]
fn two_processes() {
    let put = |value: u16| {
        let [high, low] = value.to_be_bytes();
        vec![0o022, high, low]
    };
    let store_at = |address: u16, value: u16| [put(address), put(value), vec![0o160]].concat();
    let transfer = [put(600), put(601), vec![0o256, 1]].concat();
    let back = [put(601), put(600), vec![0o256, 1]].concat();

    // The other process: output 1 becomes 21, back; then output 2 becomes 22
    // and trap 40 comes with code 99.
    let other = [
        vec![0o001, 0o020, 21, 0o241],
        back,
        vec![0o002, 0o020, 22, 0o241, 0o020, 99, 0o304],
    ]
    .concat();
    // A local word, so that the saved stack does not lie over it.
    let mut main = vec![0o353, 1];
    let records: [(u16, u16); 9] = [
        (500, 128),
        (501, 700),
        (502, 3),
        (503, 0x00FF),
        (504, 751),
        (505, 900),
        (750, 0),
        (601, 500),
        (600, 0),
    ];
    for (address, value) in records {
        main.extend(store_at(address, value));
    }
    main.extend([0o000, 0o020, 20, 0o241]);
    // 77 stays on the stack over the transfer there and back.
    main.extend([0o020, 77]);
    main.extend(&transfer);
    main.extend([0o003, 0o020, 23, 0o241, 0o064]);
    main.extend(&transfer);
    main.extend([0o354]);
    // Position 0 jumps over the other process.
    let distance = other.len() as u16 + 2;
    let [high, low] = distance.to_be_bytes();
    let code = [vec![0o031, high, low], other, main].concat();
    // The other process begins at the entry of procedure 1.
    let procedure = |entry| Procedure {
        entry,
        parameters: 0,
        results: 0,
    };
    let module = Source {
        procedures: vec![procedure(0), procedure(3)],
        ..Source::plain(&code)
    };
    let mut rig = Rig::new(&[module], WORDS);
    let answer = rig.run(1000);
    assert_eq!((answer.number, answer.code), (40, 99));
    assert_eq!(rig.outputs[..4], [20, 21, 22, 23]);
    assert_eq!(
        (rig.machine.p, rig.machine.l, rig.machine.m),
        (500, 700, 0xFF)
    );
    assert_eq!((rig.machine.s, rig.machine.h), (750, 876));
    // The main process was saved in its own record, at Z = 131.
    assert_eq!(rig.store[131], 128);
    assert_eq!(rig.store[132], 139);
    assert_eq!(rig.store[143], 77, "SLW4 after the way back");
    assert_eq!(rig.store[600], 131);
}
