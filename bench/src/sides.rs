//! The same calls on both sides, each with buffers of its own, compared after every call.

use crate::words::words;
use cembuxola::c::LINKED as ENGINE;
use cembuxola::{ANSWER_NUMBERS, MACHINE_WORDS, PLACE_WORDS, WRITTEN_NUMBERS};
use second::api::Buffers;
use second::Machine;

/// The buffers and the machine of a program on both sides.
#[derive(Clone)]
pub struct Sides {
    pub image: Vec<u8>,
    pub ours: Ours,
    pub theirs: Theirs,
}

/// The proved engine's.
#[derive(Clone)]
pub struct Ours {
    pub map: Vec<u32>,
    pub store: Vec<u16>,
    pub outputs: Vec<u16>,
    pub machine: [u16; MACHINE_WORDS],
}

/// The second interpreter's.
#[derive(Clone)]
pub struct Theirs {
    pub map: Vec<u32>,
    pub store: Vec<u16>,
    pub outputs: Vec<u16>,
    pub machine: Machine,
}

/// The first difference, in words.
pub type Compared<T> = Result<T, String>;

fn same<T: PartialEq + std::fmt::Debug>(what: &str, ours: T, theirs: T) -> Compared<()> {
    if ours == theirs {
        return Ok(());
    }
    Err(format!(
        "{what}: the proved engine has {ours:?}, the second interpreter {theirs:?}"
    ))
}

/// Long lists: says the first place that differs.
fn same_list<T: PartialEq + Copy + std::fmt::Debug>(
    what: &str,
    ours: &[T],
    theirs: &[T],
) -> Compared<()> {
    same(&format!("length of {what}"), ours.len(), theirs.len())?;
    match ours.iter().zip(theirs).position(|(a, b)| a != b) {
        None => Ok(()),
        Some(place) => same(&format!("{what} at {place}"), ours[place], theirs[place]),
    }
}

impl Sides {
    pub fn new(image: &[u8], map: Vec<u32>, store: Vec<u16>, outputs: Vec<u16>) -> Sides {
        Sides {
            image: image.to_vec(),
            ours: Ours {
                map: map.clone(),
                store: store.clone(),
                outputs: outputs.clone(),
                machine: [0; MACHINE_WORDS],
            },
            theirs: Theirs {
                map,
                store,
                outputs,
                machine: Machine::default(),
            },
        }
    }

    /// All buffers and the machine.
    fn compare(&self) -> Compared<()> {
        let Sides { ours, theirs, .. } = self;
        same_list(
            "the machine's words",
            &ours.machine,
            &words(&theirs.machine),
        )?;
        same_list("the outputs", &ours.outputs, &theirs.outputs)?;
        same_list("the map", &ours.map, &theirs.map)?;
        same_list("the store", &ours.store, &theirs.store)
    }

    pub fn load(&mut self) -> Compared<u16> {
        let (number, place) = self.ours.load(&self.image);
        let other = self.theirs.load(&self.image);
        same("load", number, u16::from(other.number))?;
        same("load's module", place[0], u16::from(other.module))?;
        same("load's position", place[1], other.position)?;
        self.compare()?;
        Ok(number)
    }

    /// With an output of its own on each side, which holds this before.
    pub fn archive(&mut self, output: &[u8]) -> Compared<u16> {
        let [mut ours, mut theirs] = [output.to_vec(), output.to_vec()];
        let (number, length) = self.ours.archive(&self.image, &mut ours);
        let (other, other_length) = self.theirs.archive(&self.image, &mut theirs);
        same("archive", number, u16::from(other))?;
        same("the form's length", length as usize, other_length)?;
        same_list("the output", &ours, &theirs)?;
        self.compare()?;
        Ok(number)
    }

    pub fn start(&mut self) -> Compared<u16> {
        // every word is written, whatever stood there
        self.ours.machine = [0xABCD; MACHINE_WORDS];
        let number = ENGINE.start(&self.image, &mut self.ours.store, &mut self.ours.machine);
        let (other, machine) = second::start(&self.image, &mut self.theirs.store);
        self.theirs.machine = machine;
        same("start", number, u16::from(other))?;
        self.compare()?;
        Ok(number)
    }

    /// The number, and the answer.
    pub fn run(
        &mut self,
        inputs: &[u16],
        n: u32,
        requests: u16,
    ) -> Compared<(u16, [u32; ANSWER_NUMBERS])> {
        let (number, answer) = self.ours.run(&self.image, inputs, n, requests);
        let other = self.theirs.run(&self.image, inputs, n, requests);
        same("run", number, u16::from(other.number))?;
        same("count", answer[0], other.count)?;
        same("code", answer[1], u32::from(other.code))?;
        same("requests", answer[2], u32::from(other.requests))?;
        same("channels", answer[3], u32::from(other.channels))?;
        self.compare()?;
        Ok((number, answer))
    }
}

impl Ours {
    /// The number and the place.
    pub fn load(&mut self, image: &[u8]) -> (u16, [u16; PLACE_WORDS]) {
        // both words are written, whatever stood there
        let mut place = [0xABCD; PLACE_WORDS];
        let number = ENGINE.load(image, &mut self.map, &mut place);
        (number, place)
    }

    /// The number and the length.
    pub fn archive(&mut self, image: &[u8], out: &mut [u8]) -> (u16, u32) {
        // the number is written, whatever stood there
        let mut written = [0xABCD_EF01; WRITTEN_NUMBERS];
        let number = ENGINE.archive(image, &mut self.map, out, &mut written);
        let [length] = written;
        (number, length)
    }

    pub fn run(
        &mut self,
        image: &[u8],
        inputs: &[u16],
        n: u32,
        requests: u16,
    ) -> (u16, [u32; ANSWER_NUMBERS]) {
        // all numbers are written, whatever stood there
        let mut answer = [0xABCD_EF01; ANSWER_NUMBERS];
        let Ours {
            map,
            store,
            outputs,
            machine,
        } = self;
        let number = ENGINE.run(
            machine,
            image,
            map,
            store,
            outputs,
            inputs,
            &mut answer,
            n,
            requests,
        );
        (number, answer)
    }
}

impl Theirs {
    pub fn load(&mut self, image: &[u8]) -> second::LoadAnswer {
        second::load(image, &mut self.map)
    }

    /// The number and the length.
    pub fn archive(&mut self, image: &[u8], output: &mut [u8]) -> (u8, usize) {
        let answer = second::api::archive(image, &mut self.map, output);
        (answer.number, answer.length)
    }

    pub fn run(
        &mut self,
        image: &[u8],
        inputs: &[u16],
        n: u32,
        requests: u16,
    ) -> second::RunAnswer {
        let Theirs {
            map,
            store,
            outputs,
            machine,
        } = self;
        let buffers = Buffers {
            image,
            map,
            store,
            outputs,
            inputs,
        };
        let answer = second::run(*machine, buffers, requests, n);
        self.machine = answer.machine;
        answer
    }
}
