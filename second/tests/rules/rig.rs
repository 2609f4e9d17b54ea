//! A program with its buffers, and a check of single steps.

use second::api::Buffers;
use second::assemble::{encode, Source};
use second::image::{parse, Procedure};
use second::{desk_with, load, run, start, Given, Machine, RunAnswer};

pub const WORDS: usize = 4096;

/// "all ones is unmarked"
pub const FF: u32 = u32::MAX;

/// A.5: "depth in bits 0 to 4, results 5 to 7, list length 8 to 10, then five
/// bits for each saved depth from the front".
pub fn entry_of(depth: u32, results: u32, saved: &[u32]) -> u32 {
    let list = (11..).step_by(5).zip(saved);
    let list: u32 = list.map(|(bit, depth)| depth << bit).sum();
    depth + 32 * results + 256 * saved.len() as u32 + list
}

/// Run's number for a map of a plain module's code; 30 where it fits.
pub fn run_number(code: &[u8], part: &[u32]) -> u8 {
    let mut rig = Rig::plain(code);
    rig.map[4..].copy_from_slice(part);
    rig.run(0).number
}

pub fn procedure(entry: u16, parameters: u8, results: u8) -> Procedure {
    Procedure {
        entry,
        parameters,
        results,
    }
}

pub fn module(procedures: &[Procedure], code: &[u8]) -> Source {
    Source {
        procedures: procedures.to_vec(),
        ..Source::plain(code)
    }
}

/// A loaded and started program.
#[derive(Clone)]
pub struct Rig {
    pub image: Vec<u8>,
    pub map: Vec<u32>,
    pub store: Vec<u16>,
    pub outputs: [u16; 16],
    pub inputs: [u16; 16],
    pub machine: Machine,
    pub requests: u16,
}

impl Rig {
    pub fn new(modules: &[Source], words: usize) -> Rig {
        let image = encode(modules);
        let mut map = vec![0xAA; image.len()];
        assert_eq!(load(&image, &mut map).number, 0, "load");
        let mut store = vec![0xAAAA; words];
        let (number, machine) = start(&image, &mut store);
        assert_eq!(number, 0, "start");
        Rig {
            image,
            map,
            store,
            outputs: [0; 16],
            inputs: [0; 16],
            machine,
            requests: 0,
        }
    }

    pub fn plain(code: &[u8]) -> Rig {
        Rig::new(&[Source::plain(code)], WORDS)
    }

    /// Runs and keeps the machine and what is left of the requests.
    pub fn run(&mut self, n: u32) -> RunAnswer {
        let buffers = Buffers {
            image: &self.image,
            map: &self.map,
            store: &mut self.store,
            outputs: &mut self.outputs,
            inputs: &self.inputs,
        };
        let answer = run(self.machine, buffers, self.requests, n);
        self.machine = answer.machine;
        self.requests = answer.requests;
        answer
    }

    /// The words on the operand stack, bottom first.
    pub fn stack(&self) -> &[u16] {
        &self.machine.stack[..usize::from(self.machine.depth)]
    }

    /// Writes store words.
    pub fn poke(&mut self, words: &[(u16, u16)]) {
        for &(address, word) in words {
            self.store[usize::from(address)] = word;
        }
    }

    /// Makes one step that must be counted, and must leave just the machine
    /// and the store words named, the outputs and the requests as they were.
    pub fn expect_step(&mut self, change: impl Fn(&mut Machine), writes: &[(u16, u16)]) {
        self.expect_step_of(self.requests, change, writes);
    }

    /// The same, with these requests left.
    pub fn expect_step_of(
        &mut self,
        left: u16,
        change: impl Fn(&mut Machine),
        writes: &[(u16, u16)],
    ) {
        let mut expected = self.clone();
        change(&mut expected.machine);
        expected.poke(writes);
        let channels = channels_of_step(&self.image, &self.store, &self.machine, self.requests);
        let answer = self.run(1);
        assert_eq!((answer.number, answer.code, answer.count), (30, 0, 1));
        assert_eq!(answer.channels, channels);
        assert_eq!(self.machine, expected.machine);
        assert_eq!(self.differences(&expected), []);
        assert_eq!(self.outputs, expected.outputs);
        assert_eq!(self.requests, left);
        // What is left is a machine: the depth is the one marked there.
        assert_eq!(self.run(0).number, 30);
    }

    /// The next instruction or line must stop, and leave everything as it was.
    pub fn expect_stop(&mut self, number: u8, code: u16) {
        let before = self.clone();
        let answer = self.run(1000);
        assert_eq!(
            (answer.number, answer.code, answer.count),
            (number, code, 0)
        );
        assert_eq!(answer.channels, 0);
        assert_eq!(self.machine, before.machine);
        assert_eq!(self.differences(&before), []);
        assert_eq!(self.outputs, before.outputs);
        assert_eq!(self.requests, before.requests);
    }

    /// Store words that differ: address, here, there.
    fn differences(&self, other: &Rig) -> Vec<(usize, u16, u16)> {
        let pairs = self.store.iter().zip(&other.store).enumerate();
        pairs
            .filter(|(_, (here, there))| here != there)
            .map(|(address, (&here, &there))| (address, here, there))
            .collect()
    }
}

/// The channels of a step from this machine, as A.9 has them: that of a READ, if it is
/// completed. A line that is open comes before it.
pub fn channels_of_step(image: &[u8], store: &[u16], machine: &Machine, requests: u16) -> u16 {
    let opcode = machine.opcode(&parse(image).unwrap(), image);
    if opcode != 0o240 || requests & 0xFF00 & !machine.m & !store[3] != 0 {
        return 0;
    }
    let top = usize::from(machine.depth);
    match (machine.stack[top - 1], machine.stack[top - 2]) {
        (channel @ 0..=15, address) if usize::from(address) < store.len() => 1 << channel,
        _ => 0,
    }
}

/// A refusal of run, and what leads to it.
pub type Refusal = (u8, fn(&mut Rig));

/// Those of a rig of [`at_instruction`]. 10 is missing: a rig has 16 inputs and outputs.
pub const SPOILED: [Refusal; 10] = [
    (1, |rig| rig.image.clear()),
    (2, |rig| rig.image[0] = 0),
    (3, |rig| rig.image.truncate(9)),
    (4, |rig| rig.image.push(0)),
    (5, |rig| rig.image[1] |= 8),
    // The data size of module 0 has two bytes; then its procedure count.
    (6, |rig| rig.image[4] = 0),
    (7, |rig| rig.map.truncate(9)),
    (9, |rig| rig.store.truncate(200)),
    (11, |rig| rig.machine.depth = 5),
    (12, |rig| rig.map[0] = 0),
];

/// The desk's reading with requests that are given after some steps, of an image that
/// reads no input, without the line that says so.
pub fn desk_with_requests(image: &[u8], requests: u16, after: u32) -> String {
    let given = Given {
        requests,
        after,
        ..Given::default()
    };
    let text = desk_with(image, &given);
    let rest = text.strip_suffix("rests on no inputs\n");
    assert_eq!(rest.is_none(), text.starts_with("refused "), "{text}");
    rest.unwrap_or(&text).to_string()
}

/// Where the two modules of [`at_instruction`] begin, and the registers there.
pub const BASE_0: u16 = 128;
pub const BASE_1: u16 = 200;
pub const Z: u16 = 213;
pub const L: u16 = Z + 8;
pub const S: u16 = Z + 12;
pub const H: u16 = WORDS as u16 - 24;

/// The position of procedure n of module 0 in [`at_instruction`].
pub fn entry(n: u16) -> u16 {
    2 + n
}

/// JPB 1, a jump to itself, which fits at any depth and with any result count.
pub const FOR_EVER: [u8; 2] = [0o035, 1];

/// A rig stopped before `instruction`, with `words` on the operand stack.
///
/// Module 0 has data size 69 and jumps over fourteen RTNs and two TRAPs:
/// procedures 0 to 13 take nothing, 14 takes 2 and gives 1, 15 takes 16 and
/// gives 4; 0 is the main program and gives `results`, 1 to 13 give nothing.
/// Then literals put the words, the instruction comes, and `rest`. Module 1 has
/// data size 10 and four RTNs: procedure 0 takes and gives nothing, 1 (at
/// position 3) takes 3 and gives 3.
pub fn at_instruction_of(results: u8, instruction: &[u8], words: &[u16], rest: &[u8]) -> Rig {
    let procedure = |entry, parameters, results| Procedure {
        entry,
        parameters,
        results,
    };
    let mut code = vec![0o033, 17];
    code.extend([0o354; 14]);
    code.extend([0o304; 2]);
    for word in words {
        code.push(0o022);
        code.extend(word.to_be_bytes());
    }
    code.extend(instruction);
    code.extend(rest);
    let mut procedures: Vec<Procedure> = (0..14).map(|n| procedure(entry(n), 0, 0)).collect();
    procedures[0] = procedure(0, 0, results);
    procedures.push(procedure(entry(14), 2, 1));
    procedures.push(procedure(entry(15), 16, 4));
    let main = Source {
        data_size: 69,
        procedures,
        code,
        ..Source::default()
    };
    let other = Source {
        data_size: 10,
        procedures: vec![procedure(0, 0, 0), procedure(3, 3, 3)],
        code: vec![0o354; 4],
        ..Source::default()
    };
    let mut rig = Rig::new(&[main, other], WORDS);
    let answer = rig.run(1 + words.len() as u32);
    assert_eq!(answer.number, 30);
    assert_eq!(rig.stack(), words);
    assert_eq!(rig.machine.pc, here(words));
    rig
}

/// The same in a main program without results, with an endless jump behind the
/// instruction.
pub fn at_instruction(instruction: &[u8], words: &[u16]) -> Rig {
    at_instruction_of(0, instruction, words, &FOR_EVER)
}

/// The position of the instruction after these words.
pub fn here(words: &[u16]) -> u16 {
    18 + 3 * words.len() as u16
}

/// Sets the operand stack of an expected machine.
pub fn set_stack(machine: &mut Machine, words: &[u16]) {
    machine.depth = words.len() as u8;
    machine.stack = [0; 16];
    machine.stack[..words.len()].copy_from_slice(words);
}
