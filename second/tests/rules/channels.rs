//! A.9, which inputs a reading rested on.

use crate::rig::{at_instruction, here, procedure, Rig, BASE_0, SPOILED, WORDS, Z};
use crate::transfer::{poke_good, poke_record, Q};
use second::api::Buffers;
use second::assemble::Source;
use second::case::{replay, Case, CaseRun};
use second::{desk_with, run, Given, Machine, RunAnswer};

const READ: u8 = 0o240;
const WRITE: u8 = 0o241;
const JPB: u8 = 0o035;
const LIB: u8 = 0o020;
const LIW: u8 = 0o022;
const RTN: u8 = 0o354;
const TRAP: u8 = 0o304;
const NOP: u8 = 0o336;

/// "a word with bit i set exactly when a completed READ took input channel i"
fn bit(channel: u16) -> u16 {
    1 << channel
}

/// LIW, LIB and READ: a channel to an address, in three steps and six bytes.
fn read(channel: u8, address: u16) -> [u8; 6] {
    let [high, low] = address.to_be_bytes();
    [LIW, high, low, LIB, channel, READ]
}

/// A plain module with this code behind READs of these channels, to words from here on.
fn reading(first: u16, channels: &[u8], then: &[u8]) -> Source {
    let reads = channels.iter().zip(first..);
    let mut code: Vec<u8> = reads
        .flat_map(|(&channel, address)| read(channel, address))
        .collect();
    code.extend(then);
    Source::plain(&code)
}

/// A rig of such a module, to words 900 on, with inputs that are all different.
fn rig_reading(channels: &[u8], then: &[u8]) -> Rig {
    let mut rig = Rig::new(&[reading(900, channels, then)], WORDS);
    rig.inputs = std::array::from_fn(|channel| 500 + channel as u16);
    rig
}

#[test]
fn each_channel() {
    for channel in 0..16 {
        let mut rig = at_instruction(&[READ], &[8, 900, channel]);
        let answer = rig.run(1);
        assert_eq!((answer.number, answer.count), (30, 1));
        assert_eq!(answer.channels, bit(channel));
    }
    let all: Vec<u8> = (0..16).collect();
    let answer = rig_reading(&all, &[RTN]).run(99);
    assert_eq!((answer.number, answer.channels), (31, 0xFFFF));
}

/// Also where the word that it takes is 0 or is there already.
#[test]
fn the_input_plays_no_part() {
    for input in [0, 1, 0xFFFF] {
        let mut rig = at_instruction(&[READ], &[900, 7]);
        rig.inputs = [0; 16];
        rig.inputs[7] = input;
        rig.poke(&[(900, input)]);
        assert_eq!(rig.run(1).channels, bit(7));
    }
}

/// "one that gives 32 or 39 sets none": by the address, by the channel, and by both.
#[test]
fn a_read_that_fails_sets_none() {
    for (address, channel, number) in [
        (4096, 15, 32),
        (65_535, 0, 32),
        (900, 16, 39),
        (900, 17, 39),
        (900, 0x0105, 39),
        (900, 65_535, 39),
        (4096, 16, 39),
        (65_535, 65_535, 39),
    ] {
        let mut rig = at_instruction(&[READ], &[address, channel]);
        rig.expect_stop(number, 0);
        assert_eq!(rig.run(99).channels, 0);
        // Behind one of another channel: "The word comes back from a run that stops at
        // a trap too".
        let [a, b, c, d] = [address.to_be_bytes(), channel.to_be_bytes()].concat()[..] else {
            panic!("four bytes");
        };
        let mut rig = rig_reading(&[3], &[LIW, a, b, LIW, c, d, READ, JPB, 1]);
        let answer = rig.run(99);
        assert_eq!((answer.number, answer.count), (number, 5));
        assert_eq!(answer.channels, bit(3));
    }
}

/// A rig at an instruction with the good process in word 14.
fn with_process(instruction: &[u8], words: &[u16]) -> Rig {
    let mut rig = at_instruction(instruction, words);
    poke_good(&mut rig);
    rig.poke(&[(14, Q)]);
    rig
}

/// "also where A.8 makes a step of that trap"
#[test]
fn a_caught_read_sets_none() {
    for (address, channel, number) in [(4096, 5, 32), (900, 16, 39), (4096, 0x8005, 39)] {
        let mut rig = with_process(&[READ], &[address, channel]);
        let answer = rig.run(1);
        assert_eq!((answer.number, answer.count, answer.channels), (30, 1, 0));
        assert_eq!(rig.machine.p, Q);
        assert_eq!(rig.store[usize::from(Z) + 6], number);
        // RTN of the good process has L above H.
        let mut rig = with_process(&[READ], &[address, channel]);
        let answer = rig.run(99);
        assert_eq!((answer.number, answer.count, answer.channels), (34, 1, 0));
    }
}

/// A READ, a trap that is caught, and a READ in the trap process: both are taken. A READ
/// as the trap sets none.
#[test]
fn a_read_behind_a_caught_trap() {
    let traps: [&[u8]; 3] = [
        &[7, TRAP],
        &[LIW, 255, 255, 4, READ, JPB, 1],
        &[0, LIB, 20, READ, JPB, 1],
    ];
    for trap in traps {
        let modules = [reading(900, &[1], trap), reading(910, &[9, 2], &[RTN])];
        let mut rig = Rig::new(&modules, WORDS);
        // Module 1 at 131, from its beginning, without words and with the first frame.
        poke_record(&mut rig, Q, [131, 142, 0, 0, 2001, 3000]);
        rig.poke(&[(14, Q)]);
        let start = rig.clone();
        let answer = rig.run(99);
        assert_eq!(
            (answer.number, answer.channels),
            (31, bit(1) | bit(9) | bit(2))
        );
        // Each part by itself, one step after another.
        let mut parts = start.clone();
        let mut words = Vec::new();
        for _ in 0..answer.count {
            words.push(parts.run(1).channels);
        }
        words.retain(|&word| word != 0);
        assert_eq!(words, [bit(1), bit(9), bit(2)]);
        assert_eq!(parts.store, rig.store);
    }
}

/// A line comes before a READ: the step is the line's. Line 9 has the target P, and line
/// 15 another process.
#[test]
fn a_line_before_a_read() {
    let mut rig = at_instruction(&[READ], &[900, 5]);
    rig.poke(&[(18, Z)]);
    rig.requests = bit(9);
    let start = rig.clone();
    let answer = rig.run(1);
    assert_eq!((answer.count, answer.requests, answer.channels), (1, 0, 0));
    let answer = rig.run(1);
    assert_eq!((answer.count, answer.channels), (1, bit(5)));
    let answer = start.clone().run(2);
    assert_eq!((answer.count, answer.requests), (2, 0));
    assert_eq!(answer.channels, bit(5));
    // To another process, at the same READ with other words.
    let mut rig = start;
    poke_record(&mut rig, Q, [BASE_0, 5, here(&[0; 2]), 0, 2003, 3000]);
    rig.poke(&[(2000, 11), (2001, 901), (2002, 2), (30, Q)]);
    rig.requests = bit(15);
    assert_eq!(rig.run(1).channels, 0);
    assert_eq!((rig.machine.p, rig.stack()), (Q, &[901, 11][..]));
    assert_eq!(rig.run(1).channels, bit(11));
}

/// Bits of the requests are none of the channels, nor of the outputs.
#[test]
fn the_word_is_not_the_requests() {
    let mut rig = rig_reading(&[2], &[3, 9, WRITE, RTN]);
    rig.requests = 0x00F1;
    let answer = rig.run(99);
    assert_eq!((answer.number, answer.requests), (31, 0x00F1));
    assert_eq!((answer.channels, rig.outputs[3]), (bit(2), 9));
}

/// WRITE takes no input.
#[test]
fn a_write_sets_none() {
    for channel in [0, 5, 15] {
        let mut rig = at_instruction(&[WRITE], &[channel, 0xFACE]);
        let answer = rig.run(1);
        assert_eq!((answer.count, answer.channels), (1, 0));
    }
    at_instruction(&[WRITE], &[16, 0xFACE]).expect_stop(39, 0);
}

/// "A bit is set by READs completed in this run": the word begins at 0.
#[test]
fn each_run_has_its_own_word() {
    // The jump goes back to the second READ.
    let mut rig = rig_reading(&[6, 12], &[JPB, 7]);
    let words: Vec<u16> = [3, 3, 1, 2, 1, 0, 99].map(|n| rig.run(n).channels).to_vec();
    assert_eq!(words, [bit(6), bit(12), 0, 0, bit(12), 0, bit(12)]);
}

/// One bit, whatever the number of READs; each of them writes its word.
#[test]
fn the_same_channel_twice() {
    let mut rig = rig_reading(&[4, 4, 4], &[RTN]);
    let answer = rig.run(99);
    assert_eq!((answer.count, answer.channels), (9, bit(4)));
    assert_eq!(rig.store[900..903], [504; 3]);
    // Once completed, and once not.
    let mut rig = rig_reading(&[4], &[LIW, 255, 255, 4, READ, JPB, 1]);
    let answer = rig.run(99);
    assert_eq!((answer.number, answer.channels), (32, bit(4)));
}

/// A READ as the third step: spent before it, and behind it.
#[test]
fn budgets() {
    for (n, channels) in [
        (0, 0),
        (1, 0),
        (2, 0),
        (3, bit(8)),
        (4, bit(8)),
        (5, bit(8)),
    ] {
        let mut rig = rig_reading(&[8, 9], &[RTN]);
        let answer = rig.run(n);
        assert_eq!((answer.number, answer.count), (30, n));
        assert_eq!(answer.channels, channels);
        assert_eq!(rig.store[900], if channels == 0 { 0 } else { 508 });
    }
    let answer = rig_reading(&[8, 9], &[RTN]).run(6);
    assert_eq!((answer.number, answer.channels), (30, bit(8) | bit(9)));
}

/// The word comes back with every stop.
#[test]
fn every_stop() {
    let stops: [(u8, &[u8]); 12] = [
        (30, &[JPB, 1]),
        (31, &[RTN]),
        (32, &[LIW, 255, 255, 0o140, TRAP]),
        (33, &[0o353, 255, JPB, 3]),
        // Word L + 2 becomes FFFF hex.
        (34, &[0o024, 2, LIW, 255, 255, 0o160, RTN]),
        // No word is saved where 5 says so.
        (34, &[0o262, 0o024, 4, 5, 0o160, 1, 0o260, TRAP]),
        // Word 900 is 515.
        (35, &[0, LIW, 3, 132, 0o256, 1, JPB, 1]),
        (36, &[5, 0, 0o273, TRAP]),
        (37, &[0, 1, 0o271, TRAP]),
        (38, &[6, 5, 0o306, TRAP]),
        (39, &[LIB, 16, 5, WRITE, RTN]),
        (40, &[5, TRAP]),
    ];
    for (number, code) in stops {
        for channels in [&[15][..], &[15, 0], &[15, 3, 1, 3]] {
            let mut rig = rig_reading(channels, code);
            let word = channels.iter().fold(0, |word, &it| word | bit(it.into()));
            let answer = rig.run(99);
            assert_eq!((answer.number, answer.channels), (number, word));
            // Again from there: no READ.
            assert_eq!(rig.run(99).channels, 0, "{number}");
        }
    }
    // A line that fails, once word 3 lets it go.
    let mut rig = rig_reading(&[5], &[3, 0, 0o160, JPB, 1]);
    rig.poke(&[(3, 0xFFFF), (16, 65_535)]);
    rig.requests = bit(8);
    let answer = rig.run(99);
    assert_eq!((answer.number, answer.requests), (35, bit(8)));
    assert_eq!(answer.channels, bit(5));
}

/// "and 0 on a refusal": also behind a run with a word, whose machine, store and outputs
/// are handed on.
#[test]
fn refused_runs() {
    for (number, spoil) in SPOILED {
        let mut rig = at_instruction(&[READ], &[900, 5]);
        spoil(&mut rig);
        let answer = rig.run(5);
        assert_eq!((answer.number, answer.channels), (number, 0));
        // The machine is behind the READ, at the jump.
        let mut rig = at_instruction(&[READ], &[900, 5]);
        assert_eq!(rig.run(1).channels, bit(5));
        spoil(&mut rig);
        let answer = rig.run(5);
        assert_eq!((answer.number, answer.channels), (number, 0));
    }
}

/// A run of a rig with inputs and outputs of any length.
fn run_with(rig: &mut Rig, inputs: &[u16], outputs: &mut [u16]) -> RunAnswer {
    let buffers = Buffers {
        image: &rig.image,
        map: &rig.map,
        store: &mut rig.store,
        outputs,
        inputs,
    };
    run(rig.machine, buffers, rig.requests, 99)
}

/// The same for 10.
#[test]
fn inputs_and_outputs_not_16_words() {
    for (inputs, outputs) in [(15, 16), (17, 16), (0, 16), (16, 15), (16, 17)] {
        let mut rig = rig_reading(&[0], &[JPB, 1]);
        let answer = run_with(&mut rig, &vec![7; inputs], &mut vec![0; outputs]);
        assert_eq!((answer.number, answer.channels), (10, 0));
        assert_eq!(rig.run(3).channels, bit(0));
        let answer = run_with(&mut rig, &vec![7; inputs], &mut vec![0; outputs]);
        assert_eq!((answer.number, answer.channels), (10, 0));
    }
}

/// A rig whose processes read: the main one channels 1 and 2, then it traps with 40; the
/// trap process, in module 1, channels 3 and 1, then line 8 is let go by word 3 and comes
/// to the process in module 2, which reads channels 4 and 5 and ends.
fn three_processes() -> Rig {
    let main = reading(900, &[1, 2], &[7, TRAP]);
    let trap = reading(910, &[3, 1], &[3, 0, 0o160, JPB, 1]);
    let line = reading(920, &[4, 5], &[RTN]);
    let mut rig = Rig::new(&[main, trap, line], WORDS);
    rig.inputs = std::array::from_fn(|channel| 500 + channel as u16);
    // Z is 137, and L is 145.
    poke_record(&mut rig, Q, [131, 145, 0, 0, 2001, 3000]);
    poke_record(&mut rig, 1100, [134, 145, 0, 0, 2101, 3000]);
    rig.poke(&[(14, Q), (16, 1100), (3, bit(8))]);
    rig.requests = bit(8);
    rig
}

const THREE: u16 = 0b11_1110;

/// "Where n and then m is compared with n + m, the two channel words are united."
#[test]
fn n_and_then_m() {
    let mut whole = three_processes();
    let total = whole.run(99);
    assert_eq!((total.number, total.requests), (31, 0));
    assert_eq!((total.count, total.channels), (7 + 1 + 9 + 1 + 6, THREE));
    for n in 0..=total.count {
        let mut parts = three_processes();
        let first = parts.run(n);
        let second = parts.run(99 - n);
        assert_eq!(first.channels | second.channels, total.channels, "{n}");
        assert_eq!(first.count + second.count, total.count);
        assert_eq!((second.number, parts.machine), (31, whole.machine));
        assert_eq!(parts.store, whole.store);
    }
    // The words of both parts are these; that of channel 1 is in both.
    let words = |n: u32| {
        let mut parts = three_processes();
        [n, 99].map(|n| parts.run(n).channels)
    };
    assert_eq!(words(2), [0, THREE]);
    assert_eq!(words(3), [bit(1), THREE]);
    assert_eq!(words(8), [bit(1) | bit(2), THREE & !bit(2)]);
    assert_eq!(words(17), [0b1110, bit(4) | bit(5)]);
    assert_eq!(words(24), [THREE, 0]);
}

/// "Two runs [...] whose inputs are 16 words each and agree on the channels of the first
/// run's word, must give the same stop, count, machine, store, outputs and words."
#[test]
fn other_inputs_play_no_part() {
    let mut first = three_processes();
    let expected = first.run(99);
    for others in [0, 1, 0x8000, 0xFFFF] {
        let mut rig = three_processes();
        for channel in (0..16).filter(|channel| THREE >> channel & 1 == 0) {
            rig.inputs[channel] = others;
        }
        assert_eq!(rig.run(99), expected);
        assert_eq!((&rig.store, rig.outputs), (&first.store, first.outputs));
    }
    // And each of the word plays one.
    for channel in [1, 2, 3, 4, 5] {
        let mut rig = three_processes();
        rig.inputs[channel] ^= 1;
        assert_eq!(rig.run(99).channels, THREE);
        assert!(rig.store != first.store, "{channel}");
    }
}

/// An input may decide which others are read: the word tells what this run has read.
#[test]
fn an_input_that_decides() {
    // Word 900, channel 7, is 0: on to RTN; else channel 2 is read.
    let code = [&read(2, 901)[..], &[RTN]].concat();
    let jump = [&[LIW, 3, 132, 0o140, 0o032, 7], &code[..]].concat();
    let run = |inputs: [u16; 16]| {
        let mut rig = rig_reading(&[7], &jump);
        rig.inputs = inputs;
        let answer = rig.run(99);
        (answer.number, answer.channels, rig.store[901])
    };
    let mut inputs = [9; 16];
    assert_eq!(run(inputs), (31, bit(7) | bit(2), 9));
    inputs[7] = 0;
    assert_eq!(run(inputs), (31, bit(7), 0));
    inputs[2] = 77;
    assert_eq!(run(inputs), (31, bit(7), 0));
}

/// READs into words that the machine goes by: word 3, word 2i, word 14 and a record.
#[test]
fn inputs_that_the_machine_goes_by() {
    let code = [
        &read(3, 16)[..],
        &read(4, Q),
        &read(5, Q + 4),
        &read(6, 3),
        &[NOP, JPB, 1],
    ]
    .concat();
    let line = reading(900, &[9], &[JPB, 1]);
    let run = |change: fn(&mut [u16; 16])| {
        let mut rig = Rig::new(&[Source::plain(&code), line.clone()], WORDS);
        poke_record(&mut rig, Q, [0xDEAD, 0, 0, 0, 0xBEEF, 3000]);
        rig.poke(&[(3, bit(8)), (14, 65_535)]);
        rig.requests = bit(8);
        (rig.inputs[3], rig.inputs[4]) = (Q, 131);
        (rig.inputs[5], rig.inputs[6]) = (2001, 0xFE00);
        change(&mut rig.inputs);
        let answer = rig.run(50);
        let Machine { p, .. } = rig.machine;
        (answer.number, answer.channels, p)
    };
    let four = 0b111_1000;
    assert_eq!(run(|_| ()), (30, four | bit(9), Q));
    // Held by word 3 still; another target; another base; another s.
    assert_eq!(run(|inputs| inputs[6] = 0x0100), (30, four, 134));
    assert_eq!(run(|inputs| inputs[3] = 4090), (35, four, 134));
    assert_eq!(run(|inputs| inputs[4] = 130), (35, four, 134));
    assert_eq!(run(|inputs| inputs[5] = 0), (35, four, 134));
}

/// A READ in a procedure of another module, and one where depths are saved.
#[test]
fn reads_in_calls() {
    let main = Source::plain(&[7, 0o262, 0o355, 1, 1, 0o260, 0o304]);
    let code = [&[RTN][..], &read(13, 900), &[LIW, 3, 132, 0o140, RTN]].concat();
    let other = Source {
        procedures: vec![procedure(0, 0, 0), procedure(1, 0, 1)],
        ..Source::plain(&code)
    };
    let mut rig = Rig::new(&[main, other], WORDS);
    rig.inputs[13] = 88;
    let answer = rig.run(99);
    // LI7, STORE, CX, LIW, LIB, READ, LIW, LSW0, RTN, LODFW; 40 with the result.
    assert_eq!((answer.number, answer.code, answer.count), (40, 88, 10));
    assert_eq!(answer.channels, bit(13));
    assert_eq!(rig.stack(), [7, 88]);
}

/// `second expect` prints the word behind the requests.
#[test]
fn the_word_is_printed() {
    let run = |budget, inputs: usize| CaseRun {
        budget,
        requests: Some(3),
        inputs: vec![9; inputs],
        ..CaseRun::default()
    };
    let code = [&read(15, 100)[..], &read(4, 101), &[RTN]].concat();
    let case = Case {
        image: [&[1, 0, 0, code.len() as u8], &code[..]].concat(),
        map_length: 99,
        store_length: 200,
        outputs: vec![0; 16],
        runs: vec![run(3, 16), run(2, 16), run(9, 16), run(9, 15)],
        ..Case::default()
    };
    let text = replay(&case, &mut ()).to_string();
    let lines: Vec<&str> = text.lines().skip(2).collect();
    for (line, begin) in lines.iter().zip([
        "run 30 code 0 count 3 requests 3 channels 32768 machine 0 6 0 ",
        "run 30 code 0 count 2 requests 3 channels 0 machine 0 11 2 ",
        "run 31 code 0 count 1 requests 3 channels 16 machine 0 12 0 ",
        "run 10 code 0 count 0 requests 3 channels 0 machine 0 12 0 ",
    ]) {
        assert!(line.starts_with(begin), "{line}");
    }
}

/// What a reading rests on: given, given and 0, not given, and nothing.
#[test]
fn the_reading_tells_of_inputs() {
    let image = |channels: &[u8]| {
        let code = reading(900, channels, &[RTN]).code;
        [&[1, 0, 0, code.len() as u8], &code[..]].concat()
    };
    let check = |channels: &[u8], inputs: &[(usize, u16)], expected: &str| {
        for after in [0, 4, 1_000] {
            let mut given = Given {
                after,
                ..Given::default()
            };
            for &(channel, value) in inputs {
                given.inputs[channel] = Some(value);
            }
            let text = desk_with(&image(channels), &given);
            let told: Vec<&str> = text.lines().skip(2).collect();
            assert_eq!(told.join("; "), expected);
        }
    };
    check(&[], &[], "rests on no inputs");
    check(&[], &[(3, 7)], "rests on no inputs");
    check(&[3], &[(3, 7)], "rests on inputs given: 3=7");
    check(&[3], &[(3, 0)], "rests on inputs given: 3=0");
    let guess = "rests on a guess, inputs not given:";
    check(&[3], &[(4, 7)], &format!("{guess} 3=0"));
    check(&[15, 0, 15], &[], &format!("{guess} 0=0 15=0"));
    check(
        &[5, 1, 3],
        &[(5, 7), (1, 65_535), (2, 8)],
        &format!("rests on inputs given: 1=65535 5=7; {guess} 3=0"),
    );
    let all: Vec<u8> = (0..16).collect();
    let values: Vec<String> = all.iter().map(|channel| format!(" {channel}=0")).collect();
    check(&all, &[], &format!("{guess}{}", values.concat()));
    // READs that fail.
    check(&[16], &[], "rests on no inputs");
    check(&[2, 200], &[], &format!("{guess} 2=0"));
    assert_eq!(desk_with(&[2], &Given::default()), "refused 3\n");
}
