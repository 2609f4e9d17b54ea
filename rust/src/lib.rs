//! A safe wrapper of the proved M-code engine's C library.
//!
//! [`load`], [`archive`], [`start`] and [`run`] are the engine's four calls over the caller's buffers. [`Cabinet`] keeps an accepted image
//! with its map, store, outputs and machine, and only runs it. [`archived`] is archive with buffers of its own.
//!
//! The numbers of the C functions become types: a [`Refusal`], or a [`Stop`]. What the calls answer, and what they leave in every
//! buffer, is proved of the library; here only names are given to it. [`Mark::of`] reads the entries of a map.

pub mod c;
mod mark;
mod numbers;

pub use mark::{Mark, UNMARKED};
pub use numbers::{Place, Refusal, Stop};

use c::LINKED;

/// The words of a load's place: module and position.
pub const PLACE_WORDS: usize = 2;
/// The numbers that archive writes: the length of the form.
pub const WRITTEN_NUMBERS: usize = 1;
/// The words of a machine.
pub const MACHINE_WORDS: usize = 24;
/// The numbers of a run's answer: count, code, the requests left and the channels read.
pub const ANSWER_NUMBERS: usize = 4;
/// The most modules of an image.
pub const MOST_MODULES: usize = 21;
/// The inputs and the outputs of a run.
pub const CHANNELS: usize = 16;

/// A machine, from [`start`] or from a run before. Its words can be kept and handed back: run believes none of them.
#[derive(Clone, Copy, Debug, Default, PartialEq, Eq, Hash)]
pub struct Machine {
    /// As include/cembuxola.h lists them.
    pub words: [u16; MACHINE_WORDS],
}

impl Machine {
    /// The module where it stands.
    pub fn module(&self) -> u16 {
        self.words[0]
    }

    /// The position in that module's code, in bytes.
    pub fn pc(&self) -> u16 {
        self.words[1]
    }

    /// The words on the operand stack: 0 to 16 in a machine that stands.
    pub fn depth(&self) -> u16 {
        self.words[2]
    }

    /// The operand stack, the bottom first.
    pub fn stack(&self) -> &[u16] {
        let depth = usize::from(self.depth()).min(CHANNELS);
        &self.words[8..8 + depth]
    }
}

/// How a run stopped, how many steps it made, and which inputs it rests on. The stopping instruction is not counted; a line that was taken
/// and a trap that was caught are.
#[derive(Clone, Copy, Debug, PartialEq, Eq)]
pub struct Ran {
    pub stop: Stop,
    pub count: u32,
    /// What is left of the requests: the bits of the lines that were taken are cleared. The next run gets this word, with the bits of
    /// the lines that were requested since.
    pub requests: u16,
    /// The input channels that the READs of this run took: bit i stands exactly when a completed READ took input i, so not where it trapped,
    /// caught or not. Inputs outside this word do not matter: a run with the same image, map, n, machine, store, outputs and requests, and with 16
    /// inputs that agree on the word's channels, gives the same `Ran` and leaves the same. Several runs one after another rest on the union of
    /// their words, by `|`.
    pub channels: u16,
}

/// Tests an image and fills its map, which has as many entries as the image has bytes, or more. Where the code is not whole, the refusal
/// has the place.
pub fn load(image: &[u8], map: &mut [u32]) -> Result<(), Refusal> {
    let mut place = [0; PLACE_WORDS];
    let number = LINKED.load(image, map, &mut place);
    Refusal::loaded(number, place)
}

/// Writes the archive form of an image, and answers its length; what stands past it in the output stays. The form is the image of the same
/// modules whose bits stand only for a data size other than 0, procedures other than the single default one, and a name other than zeros:
/// images with equal modules have the same form, and only those.
///
/// The map has as many entries as the image has bytes, or more, and is left as [`load`] leaves it. Load's refusals come first,
/// [`Refusal::NotWhole`] without a place; then [`Refusal::OutputShort`]. An output as long as the image always suffices. A refusal leaves
/// the output as it was.
pub fn archive(image: &[u8], map: &mut [u32], out: &mut [u8]) -> Result<usize, Refusal> {
    let mut written = [0; WRITTEN_NUMBERS];
    Refusal::accepted(LINKED.archive(image, map, out, &mut written))?;
    let [length] = written;
    Ok(length as usize)
}

/// The archive form of an image, as [`archive`] writes it.
pub fn archived(image: &[u8]) -> Result<Vec<u8>, Refusal> {
    let mut map = vec![0; image.len()];
    let mut form = vec![0; image.len()];
    let length = archive(image, &mut map, &mut form)?;
    form.truncate(length);
    Ok(form)
}

/// Clears the store and makes the machine that stands at procedure 0 of module 0.
pub fn start(image: &[u8], store: &mut [u16]) -> Result<Machine, Refusal> {
    let mut machine = Machine::default();
    Refusal::accepted(LINKED.start(image, store, &mut machine.words))?;
    Ok(machine)
}

/// The bit of line i in a word of requests. Lines are 8 to 15.
pub const fn line(i: u16) -> u16 {
    assert!(8 <= i && i <= 15, "lines are 8 to 15");
    1 << i
}

/// Makes at most n steps, with these requests: before an instruction the highest line is taken that is requested, not in M and not in store
/// word 3. A refused run leaves everything as it was, the requests too, and has read no channel.
///
/// Where store word 14 is not 0 and not P, a trap is caught: it writes its number to word P + 6, then transfers as a line does to the process
/// in word 14, and the run goes on. The process that trapped is in word 15, at the trapping instruction. This counts as a step. A line's failed
/// transfer is caught too, and its bit is kept. Where the transfer would itself fail, the run stops with the first trap and nothing is changed.
/// [`Ran`] does not tell of a caught trap: its number is in word P + 6 of the process in word 15, as long as nothing is written over it, and the
/// code of [`Stop::Program`] is lost.
#[allow(clippy::too_many_arguments)]
pub fn run(
    machine: &mut Machine,
    image: &[u8],
    map: &[u32],
    store: &mut [u16],
    outputs: &mut [u16],
    inputs: &[u16],
    n: u32,
    requests: u16,
) -> Result<Ran, Refusal> {
    let mut answer = [0; ANSWER_NUMBERS];
    let number = LINKED.run(
        &mut machine.words,
        image,
        map,
        store,
        outputs,
        inputs,
        &mut answer,
        n,
        requests,
    );
    let [count, code, left, channels] = answer;
    // a code is a word
    let stop = Stop::numbered(number, code as u16).ok_or_else(|| Refusal::numbered(number))?;
    Ok(Ran {
        stop,
        count,
        // so are the requests left and the channels read
        requests: left as u16,
        channels: channels as u16,
    })
}

/// An accepted image with all that it runs in.
#[derive(Clone, Debug)]
pub struct Cabinet {
    image: Vec<u8>,
    map: Vec<u32>,
    store: Vec<u16>,
    outputs: [u16; CHANNELS],
    machine: Machine,
}

impl Cabinet {
    /// Loads and starts an image in a store of so many words, with all outputs 0.
    pub fn new(image: &[u8], words: usize) -> Result<Cabinet, Refusal> {
        let mut map = vec![0; image.len()];
        load(image, &mut map)?;
        let mut store = vec![0; words];
        let machine = start(image, &mut store)?;
        Ok(Cabinet {
            image: image.to_vec(),
            map,
            store,
            outputs: [0; CHANNELS],
            machine,
        })
    }

    /// Makes at most n steps, with these inputs and requests; traps are caught as [`run`] says, and of the inputs those in [`Ran::channels`] alone
    /// matter. After an accepted start no run with 16 inputs is refused: that is the engine's third demand.
    pub fn run(&mut self, inputs: &[u16; CHANNELS], n: u32, requests: u16) -> Ran {
        run(
            &mut self.machine,
            &self.image,
            &self.map,
            &mut self.store,
            &mut self.outputs,
            inputs,
            n,
            requests,
        )
        .expect("a run with 16 inputs after an accepted start is never refused")
    }

    pub fn machine(&self) -> &Machine {
        &self.machine
    }

    pub fn outputs(&self) -> &[u16; CHANNELS] {
        &self.outputs
    }

    pub fn store(&self) -> &[u16] {
        &self.store
    }

    /// Load's map, one entry an image byte: a [`Mark`], or [`UNMARKED`].
    pub fn map(&self) -> &[u32] {
        &self.map
    }
}
