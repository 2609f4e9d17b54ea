//! Cases to be replayed by another program, and their file.
//!
//! A case is an image with its buffers and a list of runs. It is replayed so:
//! a map of the length given is filled with one entry, an output of the length
//! given with one byte, and both are handed to archive; the map is filled anew
//! and handed to load; a store of the length given is filled with one word and
//! handed to start; the outputs are set; then every run follows, whatever the
//! others answered. Before a run its patches are written into the map and into
//! the store. The machine handed to a run is its own, if it has one, else the
//! one that start or the run before returned. The word of requests is its own,
//! if it has one, else the one that the run before returned, also a refused
//! one; the first run's is 0.
//!
//! # The file
//!
//! A sequence of 16 bit words, high byte first. A long number is two words,
//! high word first. Each list is preceded by its length.
//!
//! ```text
//! file:    4D43 hex, 5, long number of cases, the cases
//! case:    long image length, image bytes (two a word, the first one high;
//!            an odd last one is followed by a byte 0)
//!          long map length, long entry that fills the map
//!          long output length, byte that fills the output (a word 0 to 255)
//!          long store length, word that fills the store
//!          number of outputs, outputs
//!          number of runs, the runs
//! run:     long budget
//!          0, or 1 and the word of requests (else the word that the run
//!            before returned, also a refused one; the first run's is 0)
//!          0, or 1 and the number of inputs, inputs (else those of the run
//!            before; the first run's are none)
//!          0, or 1 and a machine
//!          number of map patches, each: offset, long entry
//!          number of store patches, each: address, word
//! machine: module (0 to 255), pc, depth (0 to 255), P, L, S, H, M,
//!            number of stack words, stack words, the bottom first (the
//!            others are 0)
//! ```
//!
//! No image, map, output or store is longer than [`LONGEST`]; no list of inputs or
//! outputs has more than [`MOST_CHANNELS`] words. Patches lie inside their
//! buffers.

use crate::api::{self, ArchiveAnswer, Buffers, LoadAnswer, RunAnswer};
use crate::exec::Observer;
use crate::machine::Machine;
use crate::request::{bit, highest, open, HELD};
use std::fmt;

const MAGIC: u16 = 0x4D43;
const VERSION: u16 = 5;

/// The most bytes, entries or words of an image, a map, an output or a store.
pub const LONGEST: usize = 65_600;
/// The most inputs or outputs.
pub const MOST_CHANNELS: usize = 32;

#[derive(Clone, Debug, Default, PartialEq, Eq)]
pub struct Case {
    pub image: Vec<u8>,
    pub map_length: usize,
    pub map_fill: u32,
    pub output_length: usize,
    pub output_fill: u8,
    pub store_length: usize,
    pub store_fill: u16,
    pub outputs: Vec<u16>,
    pub runs: Vec<CaseRun>,
}

#[derive(Clone, Debug, Default, PartialEq, Eq)]
pub struct CaseRun {
    pub budget: u32,
    pub requests: Option<u16>,
    pub inputs: Vec<u16>,
    pub machine: Option<Machine>,
    pub map_patches: Vec<(u16, u32)>,
    pub store_patches: Vec<(u16, u16)>,
}

/// Two checksums of a sequence: from 1 on, each word x makes the first one
/// (31 h + x) modulo 65,521 and the second one (257 h + x) modulo 65,519.
#[derive(Clone, Copy, Debug, PartialEq, Eq)]
pub struct Checksum(pub u32, pub u32);

impl Checksum {
    pub fn of(words: &[u16]) -> Checksum {
        Checksum::of_each(words.iter().copied())
    }

    /// A byte is a word.
    pub fn of_bytes(bytes: &[u8]) -> Checksum {
        Checksum::of_each(bytes.iter().copied().map(u16::from))
    }

    /// An entry is two words, its high word first.
    pub fn of_entries(entries: &[u32]) -> Checksum {
        let words = |&entry: &u32| [(entry >> 16) as u16, entry as u16];
        Checksum::of_each(entries.iter().flat_map(words))
    }

    fn of_each(words: impl Iterator<Item = u16>) -> Checksum {
        words.fold(Checksum(1, 1), |Checksum(first, second), word| {
            let word = u32::from(word);
            Checksum((31 * first + word) % 65_521, (257 * second + word) % 65_519)
        })
    }
}

impl fmt::Display for Checksum {
    fn fmt(&self, f: &mut fmt::Formatter) -> fmt::Result {
        write!(f, "{} {}", self.0, self.1)
    }
}

/// What the second interpreter says about a case.
#[derive(Clone, Debug, PartialEq, Eq)]
pub struct Outcome {
    pub archive: ArchiveAnswer,
    /// The whole output after archive, and the whole map.
    pub output: Vec<u8>,
    pub archive_map: Vec<u32>,
    pub load: LoadAnswer,
    /// The whole map after load.
    pub map: Vec<u32>,
    pub start: u8,
    /// Of the whole store after start.
    pub store: Checksum,
    pub machine: Machine,
    pub runs: Vec<RunOutcome>,
}

/// What a run was handed, its answer, and what it left.
#[derive(Clone, Debug, PartialEq, Eq)]
pub struct RunOutcome {
    pub handed: Machine,
    pub requests: u16,
    /// The store before the run and after it.
    pub before: Vec<u16>,
    pub after: Vec<u16>,
    pub answer: RunAnswer,
    pub outputs: Vec<u16>,
    /// The traps that were caught, and the READs that were completed, in their order.
    pub caught: Vec<Caught>,
    pub reads: Vec<Read>,
}

/// A trap that was caught.
#[derive(Clone, Copy, Debug, PartialEq, Eq)]
pub struct Caught {
    pub trap: u8,
    /// The machine at the trap, and the one that went on.
    pub old: Machine,
    pub new: Machine,
    /// The line that failed, if the trap is not of the instruction.
    pub line: Option<u8>,
    /// How many steps the run had made before, and the lines among them.
    pub count: u32,
    pub behind: u16,
}

/// A READ that was completed.
#[derive(Clone, Copy, Debug, PartialEq, Eq)]
pub struct Read {
    pub module: u8,
    pub channel: u16,
    pub address: u16,
    /// How many steps the run had made before, the lines and the number of caught
    /// traps among them.
    pub count: u32,
    pub behind: u16,
    pub traps: usize,
}

impl RunOutcome {
    /// The lines that were taken: each has cleared its bit.
    pub fn taken(&self) -> u16 {
        self.requests & !self.answer.requests
    }

    /// Whether an instruction is the only step.
    pub fn is_instruction(&self) -> bool {
        self.answer.count == 1 && self.taken() == 0 && self.caught.is_empty()
    }

    /// The caught trap that is the only step, if one is.
    pub fn caught_alone(&self) -> Option<&Caught> {
        match (self.answer.count, &self.caught[..]) {
            (1, [caught]) => Some(caught),
            _ => None,
        }
    }

    /// The line that is the only step, if one is.
    pub fn line(&self) -> Option<u8> {
        match self.answer.count {
            1 => highest(self.taken()),
            _ => None,
        }
    }

    /// The lines that were open before a run that is not refused.
    pub fn open_before(&self) -> u16 {
        open(self.requests, self.handed.m, self.before[HELD])
    }

    /// The same after it.
    pub fn open_after(&self) -> u16 {
        open(
            self.answer.requests,
            self.answer.machine.m,
            self.after[HELD],
        )
    }

    /// The line whose transfer failed, if one did: what it found is left.
    pub fn failed(&self) -> Option<u8> {
        self.answer.failed_line(&self.after)
    }
}

/// Hands on what it sees, and keeps the traps that are caught and the READs.
struct Keeping<'a, O> {
    observer: &'a mut O,
    caught: Vec<Caught>,
    reads: Vec<Read>,
    /// The steps so far, and the lines among them.
    count: u32,
    taken: u16,
}

impl<O: Observer> Observer for Keeping<'_, O> {
    fn done(&mut self, opcode: u8) {
        self.count += 1;
        self.observer.done(opcode);
    }

    fn read(&mut self, module: u8, channel: u16, address: u16) {
        self.reads.push(Read {
            module,
            channel,
            address,
            count: self.count,
            behind: self.taken,
            traps: self.caught.len(),
        });
        self.observer.read(module, channel, address);
    }

    fn taken(&mut self, line: u8) {
        self.count += 1;
        self.taken |= bit(line);
        self.observer.taken(line);
    }

    fn caught(&mut self, trap: u8, line: Option<u8>, old: &Machine, new: &Machine) {
        self.caught.push(Caught {
            trap,
            old: *old,
            new: *new,
            line,
            count: self.count,
            behind: self.taken,
        });
        self.count += 1;
        self.observer.caught(trap, line, old, new);
    }
}

/// Replays a case.
pub fn replay<O: Observer>(case: &Case, observer: &mut O) -> Outcome {
    let image = &case.image;
    let mut output = vec![case.output_fill; case.output_length];
    let mut archive_map = vec![case.map_fill; case.map_length];
    let archive = api::archive(image, &mut archive_map, &mut output);
    let mut map = vec![case.map_fill; case.map_length];
    let load = api::load(image, &mut map);
    let mut store = vec![case.store_fill; case.store_length];
    let (start, first_machine) = api::start(image, &mut store);
    let mut outcome = Outcome {
        archive,
        output,
        archive_map,
        load,
        map: map.clone(),
        start,
        store: Checksum::of(&store),
        machine: first_machine,
        runs: Vec::with_capacity(case.runs.len()),
    };
    let (mut machine, mut left) = (first_machine, 0);
    let mut outputs = case.outputs.clone();
    for run in &case.runs {
        write_patches(&mut map, &run.map_patches);
        write_patches(&mut store, &run.store_patches);
        let before = store.clone();
        let buffers = Buffers {
            image,
            map: &map,
            store: &mut store,
            outputs: &mut outputs,
            inputs: &run.inputs,
        };
        let handed = run.machine.unwrap_or(machine);
        let requests = run.requests.unwrap_or(left);
        let mut keeping = Keeping {
            observer: &mut *observer,
            caught: Vec::new(),
            reads: Vec::new(),
            count: 0,
            taken: 0,
        };
        let answer = api::run_observed(handed, buffers, requests, run.budget, &mut keeping);
        let Keeping { caught, reads, .. } = keeping;
        (machine, left) = (answer.machine, answer.requests);
        outcome.runs.push(RunOutcome {
            handed,
            requests,
            before,
            after: store.clone(),
            answer,
            outputs: outputs.clone(),
            caught,
            reads,
        });
    }
    outcome
}

/// Hands each run of a case to `see`, with what came of it and the map that it
/// was lent.
pub fn each_run(
    case: &Case,
    outcome: &Outcome,
    mut see: impl FnMut(&CaseRun, &RunOutcome, &[u32]),
) {
    let mut map = outcome.map.clone();
    for (run, outcome) in case.runs.iter().zip(&outcome.runs) {
        write_patches(&mut map, &run.map_patches);
        see(run, outcome, &map);
    }
}

fn write_patches<T: Copy>(buffer: &mut [T], patches: &[(u16, T)]) {
    for &(place, value) in patches {
        buffer[usize::from(place)] = value;
    }
}

/// The machine's registers in the order of the file.
fn registers(machine: &Machine) -> [u16; 8] {
    [
        u16::from(machine.module),
        machine.pc,
        u16::from(machine.depth),
        machine.p,
        machine.l,
        machine.s,
        machine.h,
        machine.m,
    ]
}

/// The stack up to its last word that is not 0.
fn stack(machine: &Machine) -> &[u16] {
    let zeros = machine.stack.iter().rev().take_while(|&&word| word == 0);
    &machine.stack[..16 - zeros.count()]
}

/// The word `machine`, the registers, the word `stack`, its words.
struct MachineText<'a>(&'a Machine);

impl fmt::Display for MachineText<'_> {
    fn fmt(&self, f: &mut fmt::Formatter) -> fmt::Result {
        let (registers, stack) = (registers(self.0), stack(self.0));
        write!(f, "machine{} stack{}", Words(&registers), Words(stack))
    }
}

/// Entries in hex, eight digits each.
struct Hex<'a>(&'a [u32]);

impl fmt::Display for Hex<'_> {
    fn fmt(&self, f: &mut fmt::Formatter) -> fmt::Result {
        self.0.iter().try_for_each(|entry| write!(f, "{entry:08x}"))
    }
}

/// Each word after a blank.
struct Words<'a>(&'a [u16]);

impl fmt::Display for Words<'_> {
    fn fmt(&self, f: &mut fmt::Formatter) -> fmt::Result {
        self.0.iter().try_for_each(|word| write!(f, " {word}"))
    }
}

impl fmt::Display for Outcome {
    /// A line for archive, a line for load and start, and a line for every run.
    fn fmt(&self, f: &mut fmt::Formatter) -> fmt::Result {
        writeln!(
            f,
            "archive {} length {} output {} map {}",
            self.archive.number,
            self.archive.length,
            Checksum::of_bytes(&self.output),
            Checksum::of_entries(&self.archive_map),
        )?;
        writeln!(
            f,
            "load {} place {} {} map {} start {} store {} {}",
            self.load.number,
            self.load.module,
            self.load.position,
            Hex(&self.map),
            self.start,
            self.store,
            MachineText(&self.machine),
        )?;
        for run in &self.runs {
            let answer = &run.answer;
            writeln!(
                f,
                "run {} code {} count {} requests {} channels {} {} outputs{} store {}",
                answer.number,
                answer.code,
                answer.count,
                answer.requests,
                answer.channels,
                MachineText(&answer.machine),
                Words(&run.outputs),
                Checksum::of(&run.after),
            )?;
        }
        Ok(())
    }
}

/// The file of these cases.
pub fn encode(cases: &[Case]) -> Vec<u8> {
    let mut out = Output(Vec::new());
    out.word(MAGIC);
    out.word(VERSION);
    out.long(cases.len() as u32);
    cases.iter().for_each(|case| out.case(case));
    out.0
}

struct Output(Vec<u8>);

impl Output {
    fn word(&mut self, word: u16) {
        self.0.extend(word.to_be_bytes());
    }

    fn long(&mut self, number: u32) {
        self.0.extend(number.to_be_bytes());
    }

    fn list(&mut self, words: &[u16]) {
        self.word(words.len() as u16);
        words.iter().for_each(|&word| self.word(word));
    }

    fn case(&mut self, case: &Case) {
        self.long(case.image.len() as u32);
        self.0.extend(&case.image);
        self.0.resize(self.0.len().next_multiple_of(2), 0);
        self.long(case.map_length as u32);
        self.long(case.map_fill);
        self.long(case.output_length as u32);
        self.word(case.output_fill.into());
        self.long(case.store_length as u32);
        self.word(case.store_fill);
        self.list(&case.outputs);
        self.word(case.runs.len() as u16);
        let mut inputs: &[u16] = &[];
        for run in &case.runs {
            self.run(run, inputs);
            inputs = &run.inputs;
        }
    }

    /// A run behind one with these inputs.
    fn run(&mut self, run: &CaseRun, inputs: &[u16]) {
        self.long(run.budget);
        self.word(u16::from(run.requests.is_some()));
        run.requests
            .iter()
            .for_each(|&requests| self.word(requests));
        self.word(u16::from(run.inputs != inputs));
        if run.inputs != inputs {
            self.list(&run.inputs);
        }
        self.word(u16::from(run.machine.is_some()));
        if let Some(machine) = &run.machine {
            registers(machine).iter().for_each(|&word| self.word(word));
            self.list(stack(machine));
        }
        self.word(run.map_patches.len() as u16);
        for &(offset, entry) in &run.map_patches {
            self.word(offset);
            self.long(entry);
        }
        self.word(run.store_patches.len() as u16);
        for &(address, word) in &run.store_patches {
            self.word(address);
            self.word(word);
        }
    }
}

/// The cases of a file, or what is wrong with it.
pub fn decode(file: &[u8]) -> Result<Vec<Case>, String> {
    let mut input = Input { file, position: 0 };
    if input.word()? != MAGIC {
        return Err("this is no file of cases".into());
    }
    let version = input.word()?;
    if version != VERSION {
        return Err(format!("cases of version {version}, not of {VERSION}"));
    }
    let count = input.long()?;
    let cases: Result<Vec<Case>, String> = (0..count).map(|_| input.case()).collect();
    if cases.is_ok() && input.position != file.len() {
        return Err(format!("bytes after the last case, at {}", input.position));
    }
    cases
}

struct Input<'a> {
    file: &'a [u8],
    position: usize,
}

impl<'a> Input<'a> {
    fn bytes(&mut self, length: usize) -> Result<&'a [u8], String> {
        let bytes = self.file.get(self.position..self.position + length);
        self.position += length;
        bytes.ok_or_else(|| "the file ends inside a case".into())
    }

    fn word(&mut self) -> Result<u16, String> {
        let bytes = self.bytes(2)?;
        Ok(u16::from_be_bytes([bytes[0], bytes[1]]))
    }

    fn long(&mut self) -> Result<usize, String> {
        Ok(usize::from(self.word()?) << 16 | usize::from(self.word()?))
    }

    /// A word or a long number that is not above a limit.
    fn limited(&mut self, number: usize, limit: usize) -> Result<usize, String> {
        if number <= limit {
            Ok(number)
        } else {
            Err(format!("{number} is above {limit} at {}", self.position))
        }
    }

    /// The word that says whether something follows.
    fn follows(&mut self) -> Result<bool, String> {
        let word = usize::from(self.word()?);
        Ok(self.limited(word, 1)? == 1)
    }

    fn byte_in_word(&mut self) -> Result<u8, String> {
        let word = usize::from(self.word()?);
        Ok(self.limited(word, 255)? as u8)
    }

    fn length(&mut self) -> Result<usize, String> {
        let length = self.long()?;
        self.limited(length, LONGEST)
    }

    fn list(&mut self) -> Result<Vec<u16>, String> {
        let length = usize::from(self.word()?);
        let length = self.limited(length, MOST_CHANNELS)?;
        (0..length).map(|_| self.word()).collect()
    }

    fn case(&mut self) -> Result<Case, String> {
        let image_length = self.length()?;
        let padded = self.bytes(image_length.next_multiple_of(2))?;
        let mut case = Case {
            image: padded[..image_length].to_vec(),
            map_length: self.length()?,
            map_fill: self.long()? as u32,
            output_length: self.length()?,
            output_fill: self.byte_in_word()?,
            store_length: self.length()?,
            store_fill: self.word()?,
            outputs: self.list()?,
            runs: Vec::new(),
        };
        for _ in 0..self.word()? {
            let run = self.run(&case)?;
            case.runs.push(run);
        }
        Ok(case)
    }

    fn run(&mut self, case: &Case) -> Result<CaseRun, String> {
        let mut run = CaseRun {
            budget: self.long()? as u32,
            ..CaseRun::default()
        };
        if self.follows()? {
            run.requests = Some(self.word()?);
        }
        if self.follows()? {
            run.inputs = self.list()?;
        } else if let Some(before) = case.runs.last() {
            run.inputs = before.inputs.clone();
        }
        if self.follows()? {
            run.machine = Some(self.machine()?);
        }
        for _ in 0..self.word()? {
            let offset = self.word()?;
            self.limited(usize::from(offset) + 1, case.map_length)?;
            run.map_patches.push((offset, self.long()? as u32));
        }
        for _ in 0..self.word()? {
            let address = self.word()?;
            self.limited(usize::from(address) + 1, case.store_length)?;
            run.store_patches.push((address, self.word()?));
        }
        Ok(run)
    }

    fn machine(&mut self) -> Result<Machine, String> {
        let mut machine = Machine {
            module: self.byte_in_word()?,
            pc: self.word()?,
            depth: self.byte_in_word()?,
            p: self.word()?,
            l: self.word()?,
            s: self.word()?,
            h: self.word()?,
            m: self.word()?,
            stack: [0; 16],
        };
        let words = usize::from(self.word()?);
        for i in 0..self.limited(words, 16)? {
            machine.stack[i] = self.word()?;
        }
        Ok(machine)
    }
}
