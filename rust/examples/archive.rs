//! archive FILE: writes the archive form of an image to standard output, by the wrapper. Where the image is refused, standard error says
//! so, nothing is written, and the exit status is 1; what cannot be read or written is said there too, with exit status 2.

use cembuxola::archived;
use std::io::{self, Write};
use std::process::ExitCode;

fn main() -> ExitCode {
    let mut arguments = std::env::args().skip(1);
    let (Some(file), None) = (arguments.next(), arguments.next()) else {
        eprintln!("usage: archive FILE");
        return ExitCode::from(2);
    };
    let image = match std::fs::read(&file) {
        Ok(image) => image,
        Err(error) => {
            eprintln!("{file}: {error}");
            return ExitCode::from(2);
        }
    };
    let form = match archived(&image) {
        Ok(form) => form,
        Err(refusal) => {
            eprintln!("{file}: {refusal}");
            return ExitCode::from(1);
        }
    };
    match write(&form) {
        Ok(()) => ExitCode::SUCCESS,
        Err(error) => {
            eprintln!("standard output: {error}");
            ExitCode::from(2)
        }
    }
}

fn write(form: &[u8]) -> io::Result<()> {
    let mut output = io::stdout().lock();
    output.write_all(form)?;
    output.flush()
}
