//! Each listed opcode: its result, and its traps.

use crate::rig::{
    at_instruction, at_instruction_of, entry, here, set_stack, BASE_0, BASE_1, FOR_EVER, H, L, S,
    WORDS,
};
use second::opcode::listed;
use second::Machine;

/// One step: the instruction, the words before and after, store words set
/// before, store words that the step writes.
struct Step {
    instruction: Vec<u8>,
    before: Vec<u16>,
    memory: Vec<(u16, u16)>,
    after: Vec<u16>,
    writes: Vec<(u16, u16)>,
}

fn step(instruction: &[u8], before: &[u16], after: &[u16]) -> Step {
    Step {
        instruction: instruction.to_vec(),
        before: before.to_vec(),
        memory: vec![],
        after: after.to_vec(),
        writes: vec![],
    }
}

impl Step {
    fn memory(mut self, memory: &[(u16, u16)]) -> Step {
        self.memory = memory.to_vec();
        self
    }

    fn writes(mut self, writes: &[(u16, u16)]) -> Step {
        self.writes = writes.to_vec();
        self
    }

    /// Checks the step at its least depth, and over other words up to 16.
    fn check(&self) {
        let room = 16 - self.before.len().max(self.after.len());
        for below in [0, room] {
            let deep = vec![0xBEEF; below];
            let before = [&deep[..], &self.before].concat();
            let after = [&deep[..], &self.after].concat();
            let mut rig = at_instruction(&self.instruction, &before);
            rig.poke(&self.memory);
            rig.expect_step(
                |machine| {
                    set_stack(machine, &after);
                    machine.pc += self.instruction.len() as u16;
                },
                &self.writes,
            );
        }
    }
}

/// Steps that do nothing but take, put, read and write.
fn plain_steps() -> Vec<Step> {
    let mut steps = vec![];
    // 000–017 put 0–15.
    for value in 0..16u8 {
        steps.push(step(&[value], &[], &[u16::from(value)]));
    }
    steps.extend([
        step(&[0o020, 200], &[], &[200]),
        step(&[0o022, 0xAB, 0xCD], &[], &[0xABCD]),
        step(&[0o024, 9], &[], &[L + 9]),
        step(&[0o025, 255], &[], &[BASE_0 + 255]),
        step(&[0o026, 3], &[0xFFFE], &[1]),
        step(&[0o027, 1, 7], &[], &[BASE_1 + 7]),
        step(&[0o027, 0, 7], &[], &[BASE_0 + 7]),
    ]);
    // Load word.
    let load = |instruction: &[u8], before: &[u16], address: u16| {
        step(instruction, before, &[0xA5C3]).memory(&[(address, 0xA5C3)])
    };
    steps.push(load(&[0o040, 0], &[], L));
    steps.push(load(&[0o040, 255], &[], L + 255));
    steps.push(load(&[0o042, 1, 2], &[], BASE_1 + 2));
    steps.push(load(&[0o100, 1], &[], BASE_0 + 1));
    for n in 4..16u8 {
        steps.push(load(&[0o040 + n], &[], L + u16::from(n)));
    }
    for n in 2..16u8 {
        steps.push(load(&[0o100 + n], &[], BASE_0 + u16::from(n)));
    }
    for n in 0..16u8 {
        steps.push(load(&[0o140 + n], &[1000], 1000 + u16::from(n)));
    }
    steps.push(load(&[0o200, 255], &[1000], 1255));
    steps.push(load(&[0o206], &[1000, 500], 1500));
    steps.push(load(&[0o206], &[0xFFFF, 6], 5));
    // Store word.
    let store = |instruction: &[u8], before: &[u16], address: u16| {
        step(instruction, &[before, &[0x5A3C]].concat(), &[]).writes(&[(address, 0x5A3C)])
    };
    steps.push(store(&[0o060, 0], &[], L));
    steps.push(store(&[0o060, 255], &[], L + 255));
    steps.push(store(&[0o062, 1, 2], &[], BASE_1 + 2));
    steps.push(store(&[0o120, 1], &[], BASE_0 + 1));
    for n in 4..16u8 {
        steps.push(store(&[0o060 + n], &[], L + u16::from(n)));
    }
    for n in 2..16u8 {
        steps.push(store(&[0o120 + n], &[], BASE_0 + u16::from(n)));
    }
    for n in 0..16u8 {
        steps.push(store(&[0o160 + n], &[1000], 1000 + u16::from(n)));
    }
    steps.push(store(&[0o220, 255], &[1000], 1255));
    steps.push(store(&[0o226], &[1000, 500], 1500));
    steps.push(store(&[0o226], &[0xFFFF, 6], 5));
    // Bytes: even indices are high bytes; the index is a full word.
    let string = [(1000, 0x1234), (1001, 0x5678)];
    for (index, byte) in [(0, 0x12), (1, 0x34), (2, 0x56), (3, 0x78)] {
        steps.push(step(&[0o205], &[1000, index], &[byte]).memory(&string));
    }
    steps.push(step(&[0o205], &[0x83E9, 0xFFFF], &[0x34]).memory(&string));
    let set_byte = |base, index, value, address, word| {
        step(&[0o225], &[base, index, value], &[])
            .memory(&string)
            .writes(&[(address, word)])
    };
    steps.extend([
        set_byte(1000, 0, 0xFFAB, 1000, 0xAB34),
        set_byte(1000, 1, 0xFFAB, 1000, 0x12AB),
        set_byte(1000, 2, 0x00AB, 1001, 0xAB78),
        set_byte(1000, 3, 0x00AB, 1001, 0x56AB),
        set_byte(0x83E9, 0xFFFE, 0x00AB, 1000, 0xAB34),
    ]);
    steps.extend(pairs());
    steps.extend(arithmetic());
    // Unsigned e or c inside: both limits belong to the range.
    for e in [5, 6, 0x9000] {
        steps.push(step(&[0o245], &[e, 5, 0x9000], &[e]));
    }
    for e in [0xFFFB, 0, 6] {
        steps.push(step(&[0o305], &[e, 0xFFFB, 6], &[e]));
    }
    for c in [0, 4, 0xFFFF] {
        steps.push(step(&[0o306], &[c, 0xFFFF], &[c]));
    }
    steps.push(step(&[0o306], &[5, 5], &[5]));
    steps.push(step(&[0o265], &[77], &[77, 77]));
    steps.push(step(&[0o336], &[], &[]));
    // 350: b times the word at that address, from L.
    steps.push(step(&[0o350, 0], &[], &[L]));
    steps.push(step(&[0o350, 1], &[], &[1000]).memory(&[(L, 1000)]));
    let links = [(L, 1000), (1000, 0), (0, 60_000)];
    steps.push(step(&[0o350, 3], &[], &[60_000]).memory(&links));
    steps.push(step(&[0o351], &[], &[60_000]).memory(&[(L, 60_000)]));
    steps
}

/// Loads, stores, sums and differences of pairs. "The high word is at the first
/// address and lies below the low word on the stack."
fn pairs() -> Vec<Step> {
    let load = |instruction: &[u8], before: &[u16], address: u16| {
        let memory = [(address, 0x1234), (address + 1, 0xABCD)];
        step(instruction, before, &[0x1234, 0xABCD]).memory(&memory)
    };
    let store = |instruction: &[u8], before: &[u16], address: u16| {
        let before = [before, &[0x1234, 0xABCD]].concat();
        step(instruction, &before, &[]).writes(&[(address, 0x1234), (address + 1, 0xABCD)])
    };
    let mut steps = vec![
        // Two operand words, high first.
        step(&[0o023, 0x12, 0x34, 0xAB, 0xCD], &[], &[0x1234, 0xABCD]),
        step(&[0o023, 0, 0, 0, 1], &[], &[0, 1]),
        load(&[0o041, 0], &[], L),
        load(&[0o041, 255], &[], L + 255),
        load(&[0o043, 1, 2], &[], BASE_1 + 2),
        load(&[0o043, 0, 255], &[], BASE_0 + 255),
        load(&[0o101, 1], &[], BASE_0 + 1),
        load(&[0o101, 255], &[], BASE_0 + 255),
        load(&[0o201, 255], &[1000], 1255),
        load(&[0o201, 6], &[0xFFFF], 5),
        load(&[0o202], &[1000], 1000),
        // SLD over the own mark, and far from it.
        store(&[0o061, 0], &[], L),
        store(&[0o061, 255], &[], L + 255),
        store(&[0o063, 1, 2], &[], BASE_1 + 2),
        store(&[0o063, 0, 255], &[], BASE_0 + 255),
        store(&[0o121, 1], &[], BASE_0 + 1),
        store(&[0o121, 255], &[], BASE_0 + 255),
        store(&[0o221, 255], &[1000], 1255),
        store(&[0o221, 6], &[0xFFFF], 5),
        store(&[0o222], &[1000], 1000),
    ];
    let words = |number: u32| [(number >> 16) as u16, number as u16];
    let mut binary = |opcode: u8, lower: u32, upper: u32, result: u32| {
        let before = [words(lower), words(upper)].concat();
        steps.push(step(&[opcode], &before, &words(result)));
    };
    for (lower, upper, sum) in [
        (2, 3, 5),
        (0x1234_5678, 0x1111_1111, 0x2345_6789),
        // The low words carry.
        (0x0000_FFFF, 0x0000_0001, 0x0001_0000),
        (0x0000_8000, 0x0000_8000, 0x0001_0000),
        (0x0001_FFFF, 0x0000_FFFF, 0x0002_FFFE),
        // The high words do, and the sum is reduced.
        (0xFFFF_0000, 0x0001_0000, 0),
        (0xFFFF_FFFF, 0x0000_0001, 0),
        (0x0000_0001, 0xFFFF_FFFF, 0),
        (0xFFFF_FFFF, 0xFFFF_FFFF, 0xFFFF_FFFE),
        (0x8000_0000, 0x8000_0000, 0),
    ] {
        binary(0o210, lower, upper, sum);
    }
    for (lower, upper, difference) in [
        (5, 3, 2),
        (0x2345_6789, 0x1111_1111, 0x1234_5678),
        (0x1234_5678, 0x1234_5678, 0),
        // The low words borrow.
        (0x0001_0000, 0x0000_0001, 0x0000_FFFF),
        (0x0003_0000, 0x0001_FFFF, 0x0001_0001),
        // The high words do, and the difference is reduced.
        (0x0000_0000, 0x0000_0001, 0xFFFF_FFFF),
        (3, 5, 0xFFFF_FFFE),
        (0x0000_0000, 0x0001_0000, 0xFFFF_0000),
        (0x0000_FFFF, 0xFFFF_0000, 0x0001_FFFF),
    ] {
        binary(0o211, lower, upper, difference);
    }
    steps
}

/// Operators, "c" then "a" before.
fn arithmetic() -> Vec<Step> {
    let signed = |value: i16| value as u16;
    let mut steps = vec![];
    let mut binary = |opcode: u8, cases: &[(u16, u16, u16)]| {
        for &(c, a, result) in cases {
            steps.push(step(&[opcode], &[c, a], &[result]));
        }
    };
    // Unsigned, up to both bounds of the range.
    binary(
        0o270,
        &[
            (2, 3, 5),
            (0, 0, 0),
            (65_534, 1, 65_535),
            (1, 65_534, 65_535),
            (65_535, 0, 65_535),
            (0, 65_535, 65_535),
            (32_768, 32_767, 65_535),
        ],
    );
    binary(
        0o271,
        &[
            (5, 3, 2),
            (0, 0, 0),
            (5, 5, 0),
            (65_535, 65_535, 0),
            (65_535, 0, 65_535),
            (65_535, 1, 65_534),
            (32_768, 32_767, 1),
        ],
    );
    binary(
        0o272,
        &[
            (6, 7, 42),
            (0, 0, 0),
            (0, 65_535, 0),
            (65_535, 0, 0),
            (65_535, 1, 65_535),
            (1, 65_535, 65_535),
            (255, 257, 65_535),
            (21_845, 3, 65_535),
            (2, 32_767, 65_534),
        ],
    );
    binary(0o273, &[(7, 2, 3), (2, 7, 0), (65_535, 2, 32_767)]);
    binary(0o274, &[(7, 2, 1), (2, 7, 2), (65_535, 256, 255)]);
    binary(
        0o275,
        &[
            (1, 1, 0x8000),
            (0x1234, 4, 0x4123),
            (0x1234, 16, 0x1234),
            (0x1234, 0xFFF4, 0x4123),
        ],
    );
    binary(
        0o276,
        &[
            (1, 15, 0x8000),
            (0x1234, 4, 0x2340),
            (0xFFFF, 16, 0),
            (0xFFFF, 65_535, 0),
            (0x1234, 0, 0x1234),
            (0xFFFF, 256, 0),
        ],
    );
    binary(
        0o277,
        &[
            (0x8000, 15, 1),
            (0x8234, 4, 0x0823),
            (0xFFFF, 16, 0),
            (0xFFFF, 65_535, 0),
            (0x1234, 0, 0x1234),
            (0xFFFF, 256, 0),
        ],
    );
    // c to a; 0x8000 is above 1 unsigned, below it signed.
    let orders = [(1, 2), (2, 2), (2, 1), (0x8000, 1), (1, 0x8000)];
    for (opcode, results) in [
        (0o252, [1, 0, 0, 0, 1]),
        (0o253, [1, 1, 0, 0, 1]),
        (0o254, [0, 0, 1, 1, 0]),
        (0o255, [0, 1, 1, 1, 0]),
        (0o310, [0, 1, 0, 0, 0]),
        (0o311, [1, 0, 1, 1, 1]),
        (0o312, [1, 0, 0, 1, 0]),
        (0o313, [1, 1, 0, 1, 0]),
        (0o314, [0, 0, 1, 0, 1]),
        (0o315, [0, 1, 1, 0, 1]),
    ] {
        for ((c, a), result) in orders.into_iter().zip(results) {
            binary(opcode, &[(c, a, result)]);
        }
    }
    binary(0o320, &[(0b1100, 0b1010, 0b1110)]);
    binary(0o321, &[(0b1100, 0b1010, 0b0110)]);
    binary(0o322, &[(0b1100, 0b1010, 0b1000)]);
    for (opcode, c, a, result) in [
        (0o330, 32_766, 1, 32_767),
        (0o330, -32_767, -1, -32_768),
        (0o330, 32_767, -32_768, -1),
        (0o331, -32_767, 1, -32_768),
        (0o331, -1, -32_768, 32_767),
        (0o331, 5, 7, -2),
        (0o332, 181, 181, 32_761),
        (0o332, -256, 128, -32_768),
        (0o332, -1, 32_767, -32_767),
        (0o333, -7, 2, -3),
        (0o333, 7, -2, -3),
        (0o333, -7, -2, 3),
        (0o333, -32_768, 1, -32_768),
        (0o333, 1, -32_768, 0),
    ] {
        binary(opcode, &[(signed(c), signed(a), signed(result))]);
    }
    for (opcode, a, result) in [
        (0o316, 5, 5),
        (0o316, signed(-5), 5),
        (0o316, signed(-32_767), 32_767),
        (0o317, 5, signed(-5)),
        (0o317, signed(-32_767), 32_767),
        (0o317, 0, 0),
        (0o323, 0x0F0F, 0xF0F0),
        (0o327, 0, 1),
        (0o327, 1, 0),
        (0o327, 2, 0),
    ] {
        steps.push(step(&[opcode], &[a], &[result]));
    }
    steps
}

#[test]
fn plain_instructions() {
    for step in plain_steps() {
        step.check();
    }
}

/// The steps above are those of the table's rows.
#[test]
fn rows_say_what_the_steps_do() {
    for step in plain_steps() {
        let row = second::opcode::row(step.instruction[0]);
        assert_eq!(usize::from(row.length), step.instruction.len());
        assert_eq!(usize::from(row.taken), step.before.len());
        assert_eq!(usize::from(row.left), step.after.len());
    }
}

/// Jumps, channels, stack and procedure instructions have tests of their own,
/// here, in `procedures`, in `transfer` and in `saved`; with those every listed
/// opcode is checked.
#[test]
fn every_listed_opcode_has_a_step() {
    let mut checked: Vec<u8> = plain_steps().iter().map(|s| s.instruction[0]).collect();
    checked.extend(0o030..=0o037);
    checked.extend([0o240, 0o241, 0o304, 0o353]);
    checked.extend([0o354, 0o355, 0o356, 0o256, 0o260, 0o262]);
    checked.extend(0o360..=0o377);
    checked.sort();
    checked.dedup();
    assert_eq!(checked, listed().collect::<Vec<u8>>());
}

/// The jump is followed by NOPs and an endless jump, and stands behind the entry
/// of procedure 13, three bytes before it.
fn check_jump(instruction: &[u8], before: &[u16], after: &[u16], target: u16) {
    let rest = [&[0o336, 0o336, 0o336], &FOR_EVER[..]].concat();
    let mut rig = at_instruction_of(0, instruction, before, &rest);
    rig.expect_step(
        |machine| {
            set_stack(machine, after);
            machine.pc = target;
        },
        &[],
    );
}

#[test]
fn jumps_count_from_the_first_operand_byte() {
    let p = here(&[]);
    // 031 w signed, always.
    check_jump(&[0o031, 0, 4], &[], &[], p + 5);
    check_jump(&[0o031, 0xFF, 0xFC], &[], &[], p - 3);
    check_jump(&[0o031, 0xFF, 0xFF], &[], &[], p);
    // 033 b forward, 035 b back.
    check_jump(&[0o033, 3], &[], &[], p + 4);
    check_jump(&[0o033, 1], &[], &[], p + 2);
    check_jump(&[0o035, 1], &[], &[], p);
    check_jump(&[0o035, 4], &[], &[], p - 3);
    // Into its own operand: 033 0 goes to the byte 0, which is LI0.
    check_jump(&[0o033, 0], &[], &[], p + 1);
    // Conditional: a = 0 jumps, another word goes on.
    let p = here(&[0]);
    check_jump(&[0o030, 0, 4], &[0], &[], p + 5);
    check_jump(&[0o030, 0, 4], &[7], &[], p + 3);
    check_jump(&[0o032, 4], &[0], &[], p + 5);
    check_jump(&[0o032, 4], &[0x8000], &[], p + 2);
    // Back to the literal that put the word, 3 bytes before.
    check_jump(&[0o030, 0xFF, 0xFC], &[0], &[], p - 3);
    check_jump(&[0o030, 0xFF, 0xFC], &[1], &[], p + 3);
    check_jump(&[0o034, 4], &[0], &[], p - 3);
    check_jump(&[0o034, 4], &[1], &[], p + 2);
}

/// 036 and 037 go on with one word less than they jump with: the code behind
/// puts one.
#[test]
fn short_circuit_jumps() {
    let check = |opcode: u8, a: u16, after: &[u16], distance: u16| {
        let mut rig = at_instruction(&[opcode, 2, 0o007], &[9, a]);
        rig.expect_step(
            |machine| {
                set_stack(machine, after);
                machine.pc += distance;
            },
            &[],
        );
    };
    check(0o036, 0, &[9], 2);
    check(0o036, 1, &[9, 1], 3);
    check(0o036, 0x8000, &[9, 1], 3);
    check(0o037, 0, &[9, 0], 3);
    check(0o037, 1, &[9], 2);
    check(0o037, 0x8000, &[9], 2);
}

#[test]
fn channels() {
    for channel in 0..16u16 {
        let mut rig = at_instruction(&[0o240], &[8, 1000, channel]);
        rig.inputs = std::array::from_fn(|i| 500 + i as u16);
        rig.expect_step(
            |machine| {
                set_stack(machine, &[8]);
                machine.pc += 1;
            },
            &[(1000, 500 + channel)],
        );
        let mut rig = at_instruction(&[0o241], &[8, channel, 0xFACE]);
        rig.outputs = [3; 16];
        let answer = rig.run(1);
        assert_eq!((answer.number, answer.count), (30, 1));
        assert_eq!(rig.stack(), [8]);
        let mut expected = [3; 16];
        expected[usize::from(channel)] = 0xFACE;
        assert_eq!(rig.outputs, expected);
    }
    // 39 comes before 32.
    at_instruction(&[0o240], &[1000, 16]).expect_stop(39, 0);
    at_instruction(&[0o240], &[4096, 16]).expect_stop(39, 0);
    at_instruction(&[0o240], &[4096, 15]).expect_stop(32, 0);
    at_instruction(&[0o240], &[4095, 15]).expect_step(
        |machine| {
            set_stack(machine, &[]);
            machine.pc += 1;
        },
        &[],
    );
    at_instruction(&[0o241], &[16, 1]).expect_stop(39, 0);
    at_instruction(&[0o241], &[65_535, 1]).expect_stop(39, 0);
}

#[test]
fn program_traps_carry_their_code() {
    at_instruction(&[0o304], &[0]).expect_stop(40, 0);
    at_instruction(&[0o304], &[9, 65_535]).expect_stop(40, 65_535);
}

#[test]
fn checks() {
    at_instruction(&[0o245], &[4, 5, 9]).expect_stop(38, 0);
    at_instruction(&[0o245], &[10, 5, 9]).expect_stop(38, 0);
    // Unsigned, 65,535 is no −1; signed it is.
    at_instruction(&[0o245], &[0, 65_535, 1]).expect_stop(38, 0);
    at_instruction(&[0o305], &[65_534, 65_535, 1]).expect_stop(38, 0);
    at_instruction(&[0o305], &[2, 65_535, 1]).expect_stop(38, 0);
    at_instruction(&[0o305], &[0x8000, 0, 0x7FFF]).expect_stop(38, 0);
    // An empty range holds nothing.
    at_instruction(&[0o305], &[5, 6, 4]).expect_stop(38, 0);
    at_instruction(&[0o245], &[5, 6, 4]).expect_stop(38, 0);
    at_instruction(&[0o306], &[6, 5]).expect_stop(38, 0);
    at_instruction(&[0o306], &[65_535, 65_534]).expect_stop(38, 0);
}

#[test]
fn divisors_and_signed_range() {
    for opcode in [0o273, 0o274, 0o333] {
        at_instruction(&[opcode], &[7, 0]).expect_stop(36, 0);
    }
    at_instruction(&[0o333], &[0x8000, 0]).expect_stop(36, 0);
    let signed = |value: i16| value as u16;
    for (opcode, c, a) in [
        (0o330, 32_767, 1),
        (0o330, -32_768, -1),
        (0o331, -32_768, 1),
        (0o331, 0, -32_768),
        (0o332, 182, 182),
        (0o332, -32_768, -1),
        (0o332, 256, 128),
        (0o332, -32_768, -32_768),
        (0o333, -32_768, -1),
    ] {
        at_instruction(&[opcode], &[signed(c), signed(a)]).expect_stop(37, 0);
    }
    at_instruction(&[0o316], &[0x8000]).expect_stop(37, 0);
    at_instruction(&[0o317], &[0x8000]).expect_stop(37, 0);
}

/// The instruction must stop with 37 at its least depth, and over other words up
/// to 16, and leave everything as before.
fn check_outside(opcode: u8, c: u16, a: u16) {
    for below in [0, 14] {
        let words = [vec![0xBEEF; below], vec![c, a]].concat();
        at_instruction(&[opcode], &words).expect_stop(37, 0);
    }
}

/// A.6: "UADD, USUB and UMUL give trap 37 when the true result lies outside 0 to
/// 65,535." The first result outside, the furthest, and others.
#[test]
fn unsigned_range() {
    for (c, a) in [
        (65_535, 1),
        (1, 65_535),
        (32_768, 32_768),
        (65_535, 2),
        (40_000, 50_000),
        (65_535, 65_534),
        (65_535, 65_535),
    ] {
        check_outside(0o270, c, a);
    }
    for (c, a) in [
        (0, 1),
        (65_534, 65_535),
        (32_767, 32_768),
        (3, 5),
        (1, 65_535),
        (0, 65_535),
    ] {
        check_outside(0o271, c, a);
    }
    // Low words 0, 0, 0, 0; then others, above both factors too.
    for (c, a) in [
        (256, 256),
        (2, 32_768),
        (32_768, 2),
        (32_768, 32_768),
        (2, 32_769),
        (65_535, 2),
        (3, 30_000),
        (65_535, 65_534),
        (65_535, 65_535),
    ] {
        check_outside(0o272, c, a);
    }
}

/// An operator, and the true result of c and a.
type Operator = (u8, fn(i64, i64) -> i64);

/// Each operator with all pairs of words near the bounds, against its true
/// result.
#[test]
fn unsigned_results_are_true_or_37() {
    const NEAR_BOUNDS: [u16; 14] = [
        0, 1, 2, 3, 255, 256, 257, 21_845, 32_767, 32_768, 32_769, 65_533, 65_534, 65_535,
    ];
    let operators: [Operator; 3] = [
        (0o270, |c, a| c + a),
        (0o271, |c, a| c - a),
        (0o272, |c, a| c * a),
    ];
    for (opcode, result) in operators {
        for c in NEAR_BOUNDS {
            for a in NEAR_BOUNDS {
                match result(c.into(), a.into()) {
                    result @ 0..=65_535 => step(&[opcode], &[c, a], &[result as u16]).check(),
                    _ => check_outside(opcode, c, a),
                }
            }
        }
    }
}

/// A.6: "Address sums and the two-word sums still go round." So does 026; 276 and
/// 265 have no sum. Addresses from L and G are below, those of pairs in `pairs`.
#[test]
fn other_sums_still_go_round() {
    let load = |instruction: &[u8], before: &[u16], address: u16| {
        step(instruction, before, &[0xA5C3]).memory(&[(address, 0xA5C3)])
    };
    let store = |instruction: &[u8], before: &[u16], address: u16| {
        step(instruction, &[before, &[0x5A3C]].concat(), &[]).writes(&[(address, 0x5A3C)])
    };
    let steps = [
        step(&[0o026, 1], &[65_535], &[0]),
        step(&[0o026, 255], &[65_535], &[254]),
        step(&[0o265], &[65_535], &[65_535, 65_535]),
        step(&[0o276], &[65_535, 1], &[65_534]),
        step(&[0o276], &[0x8000, 1], &[0]),
        load(&[0o141], &[65_535], 0),
        load(&[0o157], &[65_535], 14),
        load(&[0o200, 255], &[65_535], 254),
        load(&[0o206], &[65_535, 1], 0),
        load(&[0o206], &[0x8000, 0x8000], 0),
        store(&[0o161], &[65_535], 0),
        store(&[0o177], &[65_535], 14),
        store(&[0o220, 255], &[65_535], 254),
        store(&[0o226], &[65_535, 1], 0),
        store(&[0o226], &[0x8000, 0x8000], 0),
        // Byte 3 of the string at 65,535 is the low byte of word 0.
        step(&[0o205], &[65_535, 3], &[0x34]).memory(&[(0, 0x1234)]),
        step(&[0o225], &[65_535, 3, 0xAB], &[])
            .memory(&[(0, 0x1234)])
            .writes(&[(0, 0x12AB)]),
        // 4,294,967,295 + 1, and 0 − 1.
        step(&[0o210], &[65_535, 65_535, 0, 1], &[0, 0]),
        step(&[0o211], &[0, 0, 0, 1], &[65_535, 65_535]),
        // A carry between the words, and a borrow.
        step(&[0o210], &[0, 65_535, 0, 1], &[1, 0]),
        step(&[0o211], &[1, 0, 0, 1], &[0, 65_535]),
    ];
    for step in steps {
        step.check();
    }
}

/// An instruction, and the words that make its address.
type StackAddress = (&'static [u8], fn(u16) -> Vec<u16>);

/// Instructions whose address is the stack's: the last word of the store is
/// one, the next none, and sums wrap.
#[test]
fn addresses_from_the_stack() {
    let last = WORDS as u16 - 1;
    let loads: [StackAddress; 5] = [
        (&[0o140], |address| vec![address]),
        (&[0o157], |address| vec![address.wrapping_sub(15)]),
        (&[0o200, 255], |address| vec![address.wrapping_sub(255)]),
        (&[0o206], |address| vec![address.wrapping_sub(9999), 9999]),
        (&[0o205], |address| vec![address.wrapping_sub(9999), 19_999]),
    ];
    for (instruction, words) in loads {
        let mut rig = at_instruction(instruction, &words(last));
        rig.poke(&[(last, 0x0077)]);
        rig.expect_step(
            |machine| {
                set_stack(machine, &[0x0077]);
                machine.pc += instruction.len() as u16;
            },
            &[],
        );
        at_instruction(instruction, &words(last + 1)).expect_stop(32, 0);
        at_instruction(instruction, &words(65_535)).expect_stop(32, 0);
        let mut rig = at_instruction(instruction, &words(0));
        assert_eq!(rig.run(1).number, 30);
    }
    let stores: [StackAddress; 5] = [
        (&[0o160], |address| vec![address]),
        (&[0o177], |address| vec![address.wrapping_sub(15)]),
        (&[0o220, 255], |address| vec![address.wrapping_sub(255)]),
        (&[0o226], |address| vec![address.wrapping_sub(9999), 9999]),
        (&[0o225], |address| vec![address.wrapping_sub(9999), 19_999]),
    ];
    for (instruction, words) in stores {
        for address in [last, 0] {
            let before = [words(address), vec![0x0077]].concat();
            at_instruction(instruction, &before).expect_step(
                |machine| {
                    set_stack(machine, &[]);
                    machine.pc += instruction.len() as u16;
                },
                &[(address, 0x0077)],
            );
        }
        for address in [last + 1, 65_535] {
            let before = [words(address), vec![0x0077]].concat();
            at_instruction(instruction, &before).expect_stop(32, 0);
        }
    }
}

/// Instructions whose address is a register's or a module's base.
#[test]
fn addresses_from_registers() {
    let last = WORDS as u16 - 1;
    // Locals, with L set by the machine lent.
    let local: [(&[u8], &[u16], u16); 6] = [
        (&[0o040, 200], &[], 200),
        (&[0o044], &[], 4),
        (&[0o057], &[], 15),
        (&[0o060, 200], &[5], 200),
        (&[0o064], &[5], 4),
        (&[0o077], &[5], 15),
    ];
    for (instruction, words, offset) in local {
        for (address, number) in [(last, 30), (last + 1, 32), (65_535, 32), (0, 30), (3, 30)] {
            let mut rig = at_instruction(instruction, words);
            rig.machine.l = address.wrapping_sub(offset);
            if number == 32 {
                rig.expect_stop(32, 0);
            } else {
                assert_eq!(rig.run(1).number, 30);
                if let [word] = words {
                    assert_eq!(rig.store[usize::from(address)], *word);
                }
            }
        }
    }
    // 024 only puts its sum.
    let mut rig = at_instruction(&[0o024, 200], &[]);
    rig.machine.l = 65_500;
    rig.expect_step(
        |machine| {
            set_stack(machine, &[164]);
            machine.pc += 2;
        },
        &[],
    );
    // 350 and 351 read the words on the way, but not the last.
    for instruction in [&[0o350, 1][..], &[0o351]] {
        let mut rig = at_instruction(instruction, &[]);
        rig.machine.l = last + 1;
        rig.expect_stop(32, 0);
        rig.machine.l = last;
        assert_eq!(rig.run(1).number, 30);
    }
    let mut rig = at_instruction(&[0o350, 2], &[]);
    rig.poke(&[(L, last + 1)]);
    rig.expect_stop(32, 0);
    let mut rig = at_instruction(&[0o350, 0], &[]);
    rig.machine.l = last + 1;
    assert_eq!(rig.run(1).number, 30);
    assert_eq!(rig.stack(), [last + 1]);
}

/// The only module's base is 128, and the least store has 167 words: a global
/// address of 167 is none.
#[test]
fn addresses_from_bases() {
    use crate::rig::Rig;
    use second::assemble::Source;
    let cases: [(&[u8], bool); 6] = [
        (&[0o100, 38], true),
        (&[0o100, 39], false),
        (&[0o042, 0, 38], true),
        (&[0o042, 0, 39], false),
        (&[0o025, 39], true),
        (&[0o027, 0, 39], true),
    ];
    for (instruction, good) in cases {
        let code = [instruction, &FOR_EVER].concat();
        let mut rig = Rig::new(&[Source::plain(&code)], 167);
        if good {
            assert_eq!(rig.run(1).count, 1);
        } else {
            rig.expect_stop(32, 0);
        }
    }
    for (instruction, good) in [
        (&[0o120, 38][..], true),
        (&[0o120, 39], false),
        (&[0o062, 0, 38], true),
        (&[0o062, 0, 39], false),
    ] {
        let code = [&[0o007], instruction, &[0o354]].concat();
        let mut rig = Rig::new(&[Source::plain(&code)], 167);
        assert_eq!(rig.run(1).count, 1);
        if good {
            let next = rig.machine.pc + instruction.len() as u16;
            rig.expect_step(
                |machine| {
                    set_stack(machine, &[]);
                    machine.pc = next;
                },
                &[(166, 7)],
            );
        } else {
            rig.expect_stop(32, 0);
        }
    }
}

/// Near the top of the largest store, G + b wraps to the first words.
#[test]
fn global_addresses_wrap() {
    use crate::rig::Rig;
    use second::assemble::Source;
    let main = Source {
        data_size: 65_361,
        ..Source::plain(&[0o355, 1, 0, 0o354])
    };
    // Base 65,492: 100 44 would be word 0, 100 43 is 65,535, which is no word.
    let other = |b: u8| Source::plain(&[0o100, b, 0o304]);
    let mut rig = Rig::new(&[main.clone(), other(76)], 65_535);
    assert_eq!(rig.machine.p, 65_495);
    assert_eq!(rig.run(2).number, 30);
    assert_eq!(rig.stack(), [128], "the base copy at word 32");
    // 025 and 027 put the sum, 65,535 and then 0.
    for (b, sum) in [(43, 65_535), (44, 0), (76, 32)] {
        for instruction in [&[0o025, b][..], &[0o027, 1, b]] {
            let other = Source::plain(&[instruction, &[0o304]].concat());
            let mut rig = Rig::new(&[main.clone(), other], 65_535);
            assert_eq!(rig.run(2).number, 30);
            assert_eq!(rig.stack(), [sum]);
        }
    }
    let mut rig = Rig::new(&[main, other(43)], 65_535);
    assert_eq!(rig.run(1).number, 30);
    rig.expect_stop(32, 0);
}

/// "instructions use the image's bases": a rewritten copy changes nothing.
#[test]
fn the_base_copy_is_only_data() {
    let mut rig = at_instruction(&[0o042, 1, 2], &[]);
    rig.poke(&[(32, 5), (33, 5), (BASE_1 + 2, 0x00CC)]);
    rig.expect_step(
        |machine| {
            set_stack(machine, &[0x00CC]);
            machine.pc += 3;
        },
        &[],
    );
}

#[test]
fn enter_raises_s_up_to_the_limit() {
    let raise = |s: u16, b: u8| {
        let mut rig = at_instruction(&[0o353, b], &[]);
        rig.machine.s = s;
        rig
    };
    let raised = |by: u16| {
        move |machine: &mut Machine| {
            machine.s += by;
            machine.pc += 2;
        }
    };
    raise(S, 255).expect_step(raised(255), &[]);
    raise(S, 0).expect_step(raised(0), &[]);
    raise(H - 10, 10).expect_step(raised(10), &[]);
    raise(H - 10, 11).expect_stop(33, 0);
    raise(H, 0).expect_step(raised(0), &[]);
    raise(H, 1).expect_stop(33, 0);
}

/// S + b is compared unreduced: H may be as large as 65,511.
#[test]
fn enter_does_not_wrap() {
    use crate::rig::Rig;
    use second::assemble::Source;
    let mut rig = Rig::new(&[Source::plain(&[0o353, 255, 0o354])], 65_535);
    rig.machine.s = 65_511;
    rig.expect_stop(33, 0);
}

#[test]
fn entries_are_where_the_rig_says() {
    let rig = at_instruction(&[0o336], &[]);
    let program = second::image::parse(&rig.image).unwrap();
    assert_eq!(program.procedures(0)[14].entry, entry(14));
    assert_eq!(program.modules[1].base, u32::from(BASE_1));
}
