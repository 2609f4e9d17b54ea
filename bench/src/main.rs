//! `bench`: both sides timed. `bench --compare N [SEED]`: N generated cases compared. bench/run builds and calls it.
//! `bench --beside FOLDER PASSES`: two builds of the library timed. bench/beside makes the folder and calls it.

mod beside;
mod compare;
mod forms;
mod images;
mod mixed;
mod sides;
mod speed;
mod words;
mod writer;

use std::process::ExitCode;

const USAGE: &str = "usage: bench | bench --compare N [SEED] | bench --beside FOLDER PASSES";

fn number(text: &str) -> Result<u64, String> {
    text.parse()
        .map_err(|_| format!("{text} is no number\n{USAGE}"))
}

fn compare(count: &str, seed: &str) -> Result<(), String> {
    let total = compare::compare(number(count)?, number(seed)?)?;
    println!(
        "{} cases, {} runs, {} steps, {} lines taken, {} runs with channels, {} archive forms, {} shorter than their images, {} spelled out \
         again: no difference",
        total.cases,
        total.runs,
        total.steps,
        total.lines,
        total.reading,
        total.forms.compared,
        total.forms.shorter,
        total.forms.spelled
    );
    for (number, times) in &total.loads {
        println!("load answered {number:2}: {times}");
    }
    for (number, times) in &total.archives {
        println!("archive answered {number:2}: {times}");
    }
    for (number, times) in &total.numbers {
        println!("run answered {number:2}: {times}");
    }
    Ok(())
}

fn main() -> ExitCode {
    let arguments: Vec<String> = std::env::args().skip(1).collect();
    let arguments: Vec<&str> = arguments.iter().map(String::as_str).collect();
    let done = match arguments[..] {
        [] => speed::speed(),
        ["--compare", count] => compare(count, "1"),
        ["--compare", count, seed] => compare(count, seed),
        ["--beside", folder, passes] => {
            number(passes).and_then(|passes| beside::beside(folder, passes))
        }
        _ => Err(USAGE.into()),
    };
    match done {
        Ok(()) => ExitCode::SUCCESS,
        Err(error) => {
            eprintln!("bench: {error}");
            ExitCode::FAILURE
        }
    }
}
