//! reading [--input CH=VALUE].. [--requests WORD] [--after N] FILE: the desk's reading of an image, by the wrapper: W = 4,096, outputs first 0,
//! n = 1,000. Inputs are 0 unless given; of two of a channel the last one holds. After N steps (0) without requests it goes on with the word of
//! requests (0), unless the program has stopped; with a word other than 0 a third line has what is left of it. Where the store tells of a caught
//! trap, a further line has its number, process, module and position. The last lines have the inputs that the reading rests on: those given, and
//! those not given, which are a guess. Where code is not whole, standard error says at which place. It reads every image that load accepts, its
//! map being as long as the image; the desk program's has 16,384 entries.

use cembuxola::{Cabinet, Ran, Refusal, Stop, CHANNELS};
use std::process::ExitCode;

const STEPS: u32 = 1000;
/// Places of the store: the process that a caught trap left, and the copies of the modules' bases.
const TRAP_OLD: usize = 15;
const BASES: usize = 32;
/// The words of a process's record, and the one of them where a trap writes its number.
const RECORD_WORDS: usize = 8;
const TRAP_NUMBER: usize = 6;

struct Asked {
    /// By channel, where given.
    inputs: [Option<u16>; CHANNELS],
    requests: u16,
    after: u32,
    file: String,
}

fn main() -> ExitCode {
    let Some(asked) = asked(std::env::args().skip(1)) else {
        eprintln!("usage: reading [--input CH=VALUE].. [--requests WORD] [--after N] FILE");
        return ExitCode::from(2);
    };
    let file = &asked.file;
    let image = match std::fs::read(file) {
        Ok(image) => image,
        Err(error) => {
            eprintln!("{file}: {error}");
            return ExitCode::from(2);
        }
    };
    match Cabinet::new(&image, 4096) {
        Ok(cabinet) => print_reading(cabinet, image[0].into(), &asked),
        Err(refusal) => print_refusal(file, refusal),
    }
    ExitCode::SUCCESS
}

/// Options with their values, and FILE behind them.
fn asked(mut arguments: impl Iterator<Item = String>) -> Option<Asked> {
    let (mut inputs, mut requests, mut after) = ([None; CHANNELS], 0, 0);
    loop {
        let argument = arguments.next()?;
        match &argument[..] {
            "--input" => {
                let (channel, value) = input(&arguments.next()?)?;
                inputs[channel] = Some(value);
            }
            "--requests" => requests = number(&arguments.next()?)?,
            "--after" => after = number(&arguments.next()?)?,
            _ if arguments.next().is_some() => return None,
            _ => {
                return Some(Asked {
                    inputs,
                    requests,
                    after,
                    file: argument,
                })
            }
        }
    }
}

/// CH=VALUE.
fn input(text: &str) -> Option<(usize, u16)> {
    let (channel, value) = text.split_once('=')?;
    let channel = number(channel).filter(|&channel| channel < CHANNELS);
    Some((channel?, number(value)?))
}

/// A number of digits alone.
fn number<T: std::str::FromStr>(text: &str) -> Option<T> {
    let digits = text.bytes().all(|byte| byte.is_ascii_digit());
    text.parse().ok().filter(|_| digits)
}

fn print_refusal(file: &str, refusal: Refusal) {
    if let Refusal::NotWhole(_) = refusal {
        eprintln!("{file}: {refusal}");
    }
    println!("refused {}", refusal.number());
}

/// Some steps without requests, then the rest with them, unless the program has stopped. What a run leaves of them is handed on to the next,
/// with the bits of the lines that are requested in between. Their words of channels are united.
fn run(cabinet: &mut Cabinet, asked: &Asked) -> Ran {
    let inputs = asked.inputs.map(Option::unwrap_or_default);
    let first = cabinet.run(&inputs, asked.after.min(STEPS), 0);
    let requests = first.requests | asked.requests;
    if first.stop != Stop::Spent {
        return Ran { requests, ..first };
    }
    let rest = cabinet.run(&inputs, STEPS - first.count, requests);
    Ran {
        count: first.count + rest.count,
        channels: first.channels | rest.channels,
        ..rest
    }
}

/// What the store tells of a caught trap: the process in word 15 has a trap's number in its word 6, and its G is the base of a module. Run does
/// not tell it. It is a reading of the store: what the program wrote over these words is not told otherwise.
fn caught(store: &[u16], modules: usize) -> Option<String> {
    let traps = Stop::Address.number()..=Stop::Program(0).number();
    let process = store[TRAP_OLD];
    let first = usize::from(process);
    let record = store.get(first..first + RECORD_WORDS)?;
    let (number, pc) = (record[TRAP_NUMBER], record[2]);
    if process == 0 || !traps.contains(&number) {
        return None;
    }
    let mut bases = store[BASES..BASES + modules].iter();
    let module = bases.position(|&base| base == record[0])?;
    Some(format!(
        "caught {number} process {process} module {module} pc {pc}"
    ))
}

/// The line of the inputs in a word of channels that are given, or of those that are not, if there are any.
fn print_inputs(title: &str, channels: u16, asked: &Asked, is_given: bool) {
    let inputs = asked.inputs.iter().enumerate();
    let these: String = inputs
        .filter(|(channel, input)| channels >> channel & 1 == 1 && input.is_some() == is_given)
        .map(|(channel, input)| format!(" {channel}={}", input.unwrap_or_default()))
        .collect();
    if !these.is_empty() {
        println!("{title}:{these}");
    }
}

/// What the reading rests on. Inputs outside the word of channels do not matter.
fn print_rests_on(channels: u16, asked: &Asked) {
    if channels == 0 {
        println!("rests on no inputs");
    }
    print_inputs("rests on inputs given", channels, asked, true);
    print_inputs("rests on a guess, inputs not given", channels, asked, false);
}

/// With the image's module count.
fn print_reading(mut cabinet: Cabinet, modules: usize, asked: &Asked) {
    let ran = run(&mut cabinet, asked);
    let machine = cabinet.machine();
    let (stop, code, steps) = (ran.stop.number(), ran.stop.code(), ran.count);
    let (module, pc, depth) = (machine.module(), machine.pc(), machine.depth());
    println!("stop {stop} code {code} steps {steps} module {module} pc {pc} depth {depth}");
    let outputs: Vec<String> = cabinet.outputs().iter().map(u16::to_string).collect();
    println!("{}", outputs.join(" "));
    if asked.requests != 0 {
        println!("requests {}", ran.requests);
    }
    if let Some(line) = caught(cabinet.store(), modules) {
        println!("{line}");
    }
    print_rests_on(ran.channels, asked);
}
