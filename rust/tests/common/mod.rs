//! What several tests share; none of them uses all of it.
#![allow(dead_code)]

use cembuxola::c::LINKED;
use cembuxola::{line, load, run, start, Machine, Ran, Stop, CHANNELS};

pub const WORDS: usize = 4096;
pub const INPUTS: [u16; CHANNELS] = [0; CHANNELS];
pub const TICK: u16 = line(8);
/// Store words: the trap process, and the process that trapped; in the record of that one, where its number is.
pub const TRAP_TARGET: usize = 14;
pub const TRAPPED: usize = 15;
pub const NUMBER: usize = 6;
/// The words of the machine that are P, S and M.
pub const P: usize = 3;
pub const S: usize = 5;
pub const M: usize = 7;

/// Of a run that reads no input.
pub fn ran(stop: Stop, count: u32, requests: u16) -> Ran {
    Ran {
        stop,
        count,
        requests,
        channels: 0,
    }
}

pub fn spent(count: u32, requests: u16) -> Ran {
    ran(Stop::Spent, count, requests)
}

pub fn ended(count: u32, requests: u16) -> Ran {
    ran(Stop::Ended, count, requests)
}

/// The same, where these channels are read.
pub fn reading(channels: u16, ran: Ran) -> Ran {
    Ran { channels, ..ran }
}

/// The inputs, all 0 but for one.
pub fn input(channel: usize, word: u16) -> [u16; CHANNELS] {
    let mut inputs = INPUTS;
    inputs[channel] = word;
    inputs
}

/// An image of one module with this code and no other field.
pub fn image(code: &[u8]) -> Vec<u8> {
    let length = (code.len() as u16).to_be_bytes();
    [&[1, 0], &length[..], code].concat()
}

/// A program with buffers that can be written.
#[derive(Clone, Debug, PartialEq)]
pub struct Lent {
    pub image: Vec<u8>,
    pub map: Vec<u32>,
    pub store: Vec<u16>,
    pub outputs: [u16; CHANNELS],
    pub machine: Machine,
}

impl Lent {
    pub fn new(image: &[u8]) -> Lent {
        let mut map = vec![0; image.len()];
        load(image, &mut map).unwrap();
        let mut store = vec![0; WORDS];
        let machine = start(image, &mut store).unwrap();
        Lent {
            image: image.to_vec(),
            map,
            store,
            outputs: [0; CHANNELS],
            machine,
        }
    }

    /// A record of a process at this position of the only module, named in word 14.
    pub fn with_trap_process(mut self, position: u16) -> Lent {
        const RECORD: usize = 40;
        self.store[TRAP_TARGET] = RECORD as u16;
        // its stack is the count of its saved words, 0, at 50
        self.store[RECORD..RECORD + 6].copy_from_slice(&[128, 0, position, 0, 51, 80]);
        self
    }

    /// With all inputs 0.
    pub fn run(&mut self, n: u32, requests: u16) -> Ran {
        self.run_with(&INPUTS, n, requests)
    }

    pub fn run_with(&mut self, inputs: &[u16; CHANNELS], n: u32, requests: u16) -> Ran {
        let Lent {
            image,
            map,
            store,
            outputs,
            machine,
        } = self;
        run(machine, image, map, store, outputs, inputs, n, requests).unwrap()
    }

    /// The number of the C function.
    pub fn number(&mut self, inputs: &[u16], answer: &mut [u32], n: u32, requests: u16) -> u16 {
        LINKED.run(
            &mut self.machine.words,
            &self.image,
            &self.map,
            &mut self.store,
            &mut self.outputs,
            inputs,
            answer,
            n,
            requests,
        )
    }
}
