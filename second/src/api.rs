//! The calls: load, start, run, archive and the desk's reading.

use crate::archive::form;
use crate::depths;
use crate::exec::{self, Lent, Observer};
use crate::image::{self, Program};
use crate::machine::{self, Machine};
use crate::mark::UNMARKED;
use crate::number;
use crate::request;
use crate::walk;
use std::fmt;

/// What load answers.
#[derive(Clone, Copy, Debug, PartialEq, Eq)]
pub struct LoadAnswer {
    /// 0, or a refusal 1 to 8 or 13.
    pub number: u8,
    /// Where the code is not whole, for 13. Module and position "are both 0 in
    /// any other answer of load".
    pub module: u8,
    pub position: u16,
}

impl LoadAnswer {
    /// Any answer but 13.
    fn without_place(number: u8) -> LoadAnswer {
        LoadAnswer {
            number,
            module: 0,
            position: 0,
        }
    }
}

/// What run answers. A refused run answers its number, code 0, count 0, no
/// channels, and the requests and the machine as given.
#[derive(Clone, Copy, Debug, PartialEq, Eq)]
pub struct RunAnswer {
    /// A refusal 1 to 12 or a stop 30 to 40.
    pub number: u8,
    /// "Code is 0 but for 40."
    pub code: u16,
    /// Steps done. "The stopping instruction is not counted."
    pub count: u32,
    /// What is left of the word of requests.
    pub requests: u16,
    /// A.9: "bit i set exactly when a completed READ took input channel i".
    pub channels: u16,
    pub machine: Machine,
}

impl RunAnswer {
    /// The line whose transfer failed, if one did: with the store that the run left
    /// it is open still, and an instruction comes only where none is.
    pub fn failed_line(&self, store: &[u16]) -> Option<u8> {
        match self.number {
            number::PROCESS => {
                let open = request::open(self.requests, self.machine.m, store[request::HELD]);
                request::highest(open)
            }
            _ => None,
        }
    }
}

/// Tests an image and fills the map: 0, or a refusal 1 to 7, then 13, then 8.
/// Refusals 13 and 8 leave it all ones over the image's length; the others
/// leave it alone.
pub fn load(image: &[u8], map: &mut [u32]) -> LoadAnswer {
    match image::parse(image) {
        Ok(program) => load_parsed(&program, image, map),
        Err(refusal) => LoadAnswer::without_place(refusal),
    }
}

/// The same behind refusals 1 to 6.
pub fn load_parsed(program: &Program, image: &[u8], map: &mut [u32]) -> LoadAnswer {
    if map.len() < image.len() {
        return LoadAnswer::without_place(number::MAP_SHORT);
    }
    if let Some(fault) = walk::first_fault(program, image) {
        map[..image.len()].fill(UNMARKED);
        return LoadAnswer {
            number: number::NOT_WHOLE,
            module: fault.module as u8,
            position: fault.position as u16,
        };
    }
    if !depths::assign(program, image, map) {
        return LoadAnswer::without_place(number::NO_DEPTHS);
    }
    LoadAnswer::without_place(number::ACCEPTED)
}

/// What archive answers: "only a number, 0 if accepted, and the length written, 0 if
/// refused".
#[derive(Clone, Copy, Debug, PartialEq, Eq)]
pub struct ArchiveAnswer {
    /// 0, or a refusal 1 to 8, 13 or 14.
    pub number: u8,
    pub length: usize,
}

/// Writes the form of an image to the output. The map is left "as load would; output past
/// the form is unchanged", and a refusal leaves all of it.
pub fn archive(image: &[u8], map: &mut [u32], output: &mut [u8]) -> ArchiveAnswer {
    let (number, length) = match write_form(image, map, output) {
        Ok(length) => (number::ACCEPTED, length),
        Err(refusal) => (refusal, 0),
    };
    ArchiveAnswer { number, length }
}

/// The length of the form that is written; or a refusal: "14, the output slice is shorter
/// than the form, after load's refusals".
fn write_form(image: &[u8], map: &mut [u32], output: &mut [u8]) -> Result<usize, u8> {
    let program = image::parse(image)?;
    accepted(load_parsed(&program, image, map).number)?;
    let form = form(&program, image);
    let part = output.get_mut(..form.len());
    part.ok_or(number::OUTPUT_SHORT)?.copy_from_slice(&form);
    Ok(form.len())
}

/// A call's number, where it is a refusal.
fn accepted(number: u8) -> Result<(), u8> {
    match number {
        number::ACCEPTED => Ok(()),
        refusal => Err(refusal),
    }
}

/// Clears and sets the store: 0 and the first machine, or a refusal 1 to 6 or
/// 9, the store left alone and "a machine of zeros".
pub fn start(image: &[u8], store: &mut [u16]) -> (u8, Machine) {
    match image::parse(image) {
        Err(refusal) => (refusal, Machine::default()),
        Ok(program) if !program.store_fits(store.len()) => (number::STORE_SIZE, Machine::default()),
        Ok(program) => (number::ACCEPTED, machine::set_up(&program, store)),
    }
}

/// Makes at most n steps, of which lines of the requests are some.
pub fn run(machine: Machine, buffers: Buffers, requests: u16, n: u32) -> RunAnswer {
    run_observed(machine, buffers, requests, n, &mut ())
}

/// Buffers as the caller has them, of any length.
pub struct Buffers<'a> {
    pub image: &'a [u8],
    pub map: &'a [u32],
    pub store: &'a mut [u16],
    pub outputs: &'a mut [u16],
    pub inputs: &'a [u16],
}

/// Run, with somebody watching the steps.
pub fn run_observed<O: Observer>(
    machine: Machine,
    buffers: Buffers,
    requests: u16,
    n: u32,
    observer: &mut O,
) -> RunAnswer {
    match admit(&machine, buffers) {
        Ok((program, lent)) => exec::execute(&program, lent, machine, requests, n, observer),
        // A.7: "A refused run returns the word as given." A.9: "and 0 on a refusal".
        Err(refusal) => RunAnswer {
            number: refusal,
            code: 0,
            count: 0,
            requests,
            channels: 0,
            machine,
        },
    }
}

/// Run's tests in their order: 1 to 6, then "7, 12, 9, 10, 11".
fn admit<'a>(machine: &Machine, buffers: Buffers<'a>) -> Result<(Program, Lent<'a>), u8> {
    let program = image::parse(buffers.image)?;
    let lent = admit_parsed(&program, machine, buffers)?;
    Ok((program, lent))
}

/// The same behind refusals 1 to 6.
pub fn admit_parsed<'a>(
    program: &Program,
    machine: &Machine,
    buffers: Buffers<'a>,
) -> Result<Lent<'a>, u8> {
    let Buffers {
        image,
        map,
        store,
        outputs,
        inputs,
    } = buffers;
    if map.len() < image.len() {
        return Err(number::MAP_SHORT);
    }
    if !depths::fits(program, image, map) {
        return Err(number::MAP_UNFIT);
    }
    if !program.store_fits(store.len()) {
        return Err(number::STORE_SIZE);
    }
    let (Ok(outputs), Ok(inputs)) = (outputs.try_into(), inputs.try_into()) else {
        return Err(number::CHANNEL_COUNT);
    };
    if !machine.is_machine(program, map, store.len()) {
        return Err(number::NOT_A_MACHINE);
    }
    Ok(Lent {
        image,
        map,
        store,
        outputs,
        inputs,
    })
}

/// "A whole reading": load, start and run with "W = 4,096, inputs 0, outputs
/// first 0, n = 1,000". A.5: "The desk program's map has 16,384 entries". A.7:
/// "The desk program gives 0." The text ends in a line feed.
pub fn desk(image: &[u8]) -> String {
    match desk_run(image, &Given::default()) {
        Ok(desk) => desk.reading(),
        Err(refusal) => refused(refusal),
    }
}

/// What the caller of a reading gives besides the image.
#[derive(Clone, Copy, Debug, Default)]
pub struct Given {
    /// By channel. Inputs that are not given are 0.
    pub inputs: [Option<u16>; 16],
    pub requests: u16,
    /// After how many steps of the 1,000 the requests are given.
    pub after: u32,
}

/// The same with what the caller gives. If the requests are not 0, a third line has
/// what is left of them. A further line tells of a trap that was caught, if the store
/// does, and the last ones tell which inputs the reading rested on.
pub fn desk_with(image: &[u8], given: &Given) -> String {
    let desk = match desk_run(image, given) {
        Ok(desk) => desk,
        Err(refusal) => return refused(refusal),
    };
    let mut text = desk.reading();
    if given.requests != 0 {
        text += &format!("requests {}\n", desk.answer.requests);
    }
    if let Some(told) = Told::by(&desk.store, desk.modules) {
        text += &told.to_string();
    }
    text + &rests_on(desk.answer.channels, &given.inputs)
}

/// The lines that tell which inputs of a word of channels were given, and which were
/// not.
fn rests_on(channels: u16, inputs: &[Option<u16>; 16]) -> String {
    let line = |title: &str, is_given: bool| {
        let read = (0..16).filter(|channel| channels >> channel & 1 != 0);
        let right = read.filter(|&channel| inputs[channel].is_some() == is_given);
        let value = |channel: usize| format!(" {channel}={}", inputs[channel].unwrap_or_default());
        match right.map(value).collect::<String>() {
            values if values.is_empty() => values,
            values => format!("{title}:{values}\n"),
        }
    };
    match channels {
        0 => "rests on no inputs\n".into(),
        _ => {
            line("rests on inputs given", true) + &line("rests on a guess, inputs not given", false)
        }
    }
}

fn refused(refusal: u8) -> String {
    format!("refused {refusal}\n")
}

/// What the desk's run answers and leaves.
struct Desk {
    answer: RunAnswer,
    outputs: [u16; 16],
    store: Vec<u16>,
    /// The module count of the image.
    modules: usize,
}

impl Desk {
    /// The two lines of a reading.
    fn reading(&self) -> String {
        let RunAnswer {
            number,
            code,
            count,
            machine,
            ..
        } = self.answer;
        let Machine {
            module, pc, depth, ..
        } = machine;
        let outputs = self.outputs.map(|word| word.to_string()).join(" ");
        format!(
            "stop {number} code {code} steps {count} module {module} pc {pc} depth {depth}\n\
             {outputs}\n"
        )
    }
}

/// What a store tells of a trap that was caught.
struct Told {
    trap: u16,
    process: u16,
    module: usize,
    pc: u16,
}

impl Told {
    /// The process in word 15 has the trap's number in its word 6, and its G is one
    /// of the copies of the bases from word 32 on. It is a reading of the store: what
    /// the program wrote over these words is not told otherwise.
    fn by(store: &[u16], modules: usize) -> Option<Told> {
        let process = store[Machine::TRAP_OLD];
        let first = usize::from(process);
        let record = store.get(first..first + Machine::RECORD)?;
        let trap = record[Machine::TRAP_NUMBER];
        let is_trap = (number::ADDRESS.into()..=number::PROGRAM.into()).contains(&trap);
        if process == 0 || !is_trap {
            return None;
        }
        let bases = &store[Machine::BASE_COPY..][..modules];
        Some(Told {
            trap,
            process,
            module: bases.iter().position(|&base| base == record[0])?,
            pc: record[2],
        })
    }
}

impl fmt::Display for Told {
    fn fmt(&self, f: &mut fmt::Formatter) -> fmt::Result {
        let Told {
            trap,
            process,
            module,
            pc,
        } = self;
        writeln!(f, "caught {trap} process {process} module {module} pc {pc}")
    }
}

/// The desk's run, or the first refusal.
fn desk_run(image: &[u8], given: &Given) -> Result<Desk, u8> {
    const WORDS: usize = 4_096;
    const STEPS: u32 = 1_000;
    const ENTRIES: usize = 16_384;
    let mut map = vec![UNMARKED; ENTRIES];
    accepted(load(image, &mut map).number)?;
    let mut store = vec![0; WORDS];
    let (refusal, machine) = start(image, &mut store);
    accepted(refusal)?;
    let mut outputs = [0; 16];
    let inputs = given.inputs.map(Option::unwrap_or_default);
    let run = |machine, requests, n| {
        let buffers = Buffers {
            image,
            map: &map,
            store: &mut store,
            outputs: &mut outputs,
            inputs: &inputs,
        };
        run(machine, buffers, requests, n)
    };
    let after = given.after.min(STEPS);
    let answer = run_after(machine, given.requests, after, STEPS, run);
    match answer.number {
        number::SPENT.. => Ok(Desk {
            answer,
            outputs,
            store,
            modules: image::parse(image)?.modules.len(),
        }),
        refusal => Err(refusal),
    }
}

/// A run of `after` steps without requests and, if it does not stop before, a run
/// with them up to n steps in all. Requests that are never given are left as they
/// are. A.9: "the two channel words are united".
fn run_after(
    machine: Machine,
    requests: u16,
    after: u32,
    n: u32,
    mut run: impl FnMut(Machine, u16, u32) -> RunAnswer,
) -> RunAnswer {
    let first = run(machine, 0, after);
    if first.number != number::SPENT {
        return RunAnswer { requests, ..first };
    }
    let second = run(first.machine, requests, n - after);
    RunAnswer {
        count: first.count + second.count,
        channels: first.channels | second.channels,
        ..second
    }
}
