//! The command line of the second interpreter.

use second::api::Buffers;
use second::assemble::{encode, Source};
use second::image::parse;
use second::walk::{first_fault, Fault};
use second::{archive, case, coverage::Coverage, gen, load, number, Given};
use std::ffi::{OsStr, OsString};
use std::fmt::Display;
use std::fs::File;
use std::io::{self, Read, Write};
use std::process::ExitCode;
use std::str::FromStr;
use std::time::Instant;

const HELP: &str = "\
A second interpreter of M-code.

usage: second reading [--input CH=VALUE].. [--requests WORD] [--after N] [FILE]
           print the desk's reading of an image, from FILE or standard input;
           with a word of requests that is not 0, which is given after N
           steps, also what is left of it; where the store tells of a caught
           trap, its number, its process, its module and its position; and
           which inputs it rests on: those given, and those not given
       second map FILE
           print load's number; for 13 also the module, the position and the
           cause; and if it accepts, the map in hex, eight digits an entry:
           bits 0 to 4 are the depth, 5 to 7 the results, 8 to 10 the number
           of saved depths, and from bit 11 on each of these has five bits,
           the front one first; all ones is unmarked
       second archive FILE
           print archive's number, and if it accepts, the form of the image
           in hex on a second line, two digits a byte
       second coverage [--small] [--seed N] [--cases N]
           replay generated cases and print what they reach; exit 1 if an
           opcode, a stop, a refusal, a collision of a transfer or a kind of
           A.2, A.3 or A.5 to A.11 is missing
       second coverage CASES
           the same for the cases of a file
       second cases [--small] [--seed N] [--count N] OUT
           write generated cases to the file OUT
       second expect CASES
           print what this interpreter says about each case of a file
       second speed
           time a small loop, and load and run's tests of a long image
       second --help
           print this

N is a decimal number, WORD and VALUE one of 0 to 65535, CH a channel of 0 to 15.
WORD is 0 unless given, and so is each input; of two inputs of a channel the last
one holds. The N of --after is 0 unless given and at most 4294967295. Seeds are 1
unless given, cases 2000. With --small most cases have small images and few runs,
and a few have the largest sizes.
Exit status: 0, or 1 where coverage misses something, or 2 after an error.
";

/// Answers the exit status, or a message for standard error.
type Answer = Result<u8, String>;

fn main() -> ExitCode {
    let arguments: Vec<OsString> = std::env::args_os().skip(1).collect();
    match command(&arguments) {
        Ok(status) => ExitCode::from(status),
        Err(message) => {
            eprintln!("second: {message}");
            ExitCode::from(2)
        }
    }
}

fn command(arguments: &[OsString]) -> Answer {
    let Some((name, rest)) = arguments.split_first() else {
        return Err("no command; second --help lists them".into());
    };
    match (name.to_str().unwrap_or_default(), rest) {
        ("reading", _) => reading(rest),
        ("map", [file]) => print_map(&read_image(open(file)?, &name_of(file))?),
        ("archive", [file]) => print_form(&read_image(open(file)?, &name_of(file))?),
        ("coverage", _) => coverage(rest),
        ("cases", _) => write_cases(rest),
        ("expect", [file]) => expect(file),
        ("speed", []) => speed(),
        ("--help" | "-h" | "help", []) => print(HELP),
        ("map" | "archive" | "expect" | "speed" | "--help" | "-h" | "help", _) => {
            wrong_number(name)
        }
        _ => Err(format!(
            "no command {}; second --help lists them",
            name_of(name)
        )),
    }
}

fn wrong_number(name: &OsStr) -> Answer {
    let name = name_of(name);
    Err(format!(
        "wrong number of arguments to {name}; second --help lists them"
    ))
}

fn name_of(argument: &OsStr) -> String {
    argument.to_string_lossy().into_owned()
}

fn print(text: &str) -> Answer {
    io::stdout()
        .write_all(text.as_bytes())
        .map_err(|error| format!("standard output: {error}"))?;
    Ok(0)
}

fn open(file: &OsStr) -> Result<File, String> {
    File::open(file).map_err(|error| format!("{}: {error}", name_of(file)))
}

fn read_all(from: impl Read, name: &str, most: u64) -> Result<Vec<u8>, String> {
    let mut bytes = Vec::new();
    from.take(most)
        .read_to_end(&mut bytes)
        .map_err(|error| format!("{name}: {error}"))?;
    Ok(bytes)
}

/// An image, or as much of one as shows that it is too long.
fn read_image(from: impl Read, name: &str) -> Result<Vec<u8>, String> {
    read_all(from, name, 65_536)
}

/// The desk's reading of the image that is named, or of standard input.
fn reading(arguments: &[OsString]) -> Answer {
    let mut given = Given::default();
    let mut files = arguments;
    while let [option, rest @ ..] = files {
        match option.to_str() {
            Some("--input") => {
                let (channel, value) = input(rest.first())?;
                given.inputs[channel] = Some(value);
            }
            Some("--requests") => given.requests = limited("--requests", rest.first(), u16::MAX)?,
            Some("--after") => given.after = limited("--after", rest.first(), u32::MAX)?,
            _ => break,
        }
        files = &rest[1..];
    }
    let image = match files {
        [] => read_image(io::stdin(), "standard input")?,
        [file] => read_image(open(file)?, &name_of(file))?,
        _ => return wrong_number("reading".as_ref()),
    };
    print(&second::desk_with(&image, &given))
}

/// The channel and the value of an input.
fn input(value: Option<&OsString>) -> Result<(usize, u16), String> {
    let pair = value.and_then(|value| value.to_str()?.split_once('='));
    let pair = pair.and_then(|(channel, value)| Some((decimal(channel)?, decimal(value)?)));
    pair.filter(|&(channel, _)| channel < 16)
        .ok_or_else(|| "--input needs CH=VALUE, 0 to 15 and 0 to 65535".into())
}

/// Digits alone, of a number that the type holds.
fn decimal<T: FromStr>(text: &str) -> Option<T> {
    let is_digits = text.bytes().all(|byte| byte.is_ascii_digit());
    text.parse().ok().filter(|_| is_digits)
}

/// The value of an option: a number up to the type's last.
fn limited<T: FromStr + Display>(
    option: &str,
    value: Option<&OsString>,
    last: T,
) -> Result<T, String> {
    let value = value.and_then(|value| decimal(value.to_str()?));
    value.ok_or_else(|| format!("{option} needs a decimal number of 0 to {last}"))
}

fn print_map(image: &[u8]) -> Answer {
    let mut map = vec![0; image.len()];
    let answer = load(image, &mut map);
    let mut text = format!("load {}{}\n", answer.number, fault_text(image));
    if answer.number == number::ACCEPTED {
        for row in map.chunks(8) {
            let row: Vec<String> = row.iter().map(|entry| format!("{entry:08x}")).collect();
            text += &row.join(" ");
            text.push('\n');
        }
    }
    print(&text)
}

/// The form is never longer than the image.
fn print_form(image: &[u8]) -> Answer {
    let (mut map, mut output) = (vec![0; image.len()], vec![0; image.len()]);
    let answer = archive(image, &mut map, &mut output);
    let mut text = format!("archive {}\n", answer.number);
    if answer.number == number::ACCEPTED {
        let form = &output[..answer.length];
        text.extend(form.iter().map(|byte| format!("{byte:02x}")));
        text.push('\n');
    }
    print(&text)
}

/// Where the code is not whole, and why; nothing where it is, or where the image
/// is refused with 1 to 6.
fn fault_text(image: &[u8]) -> String {
    let fault = parse(image).map(|program| first_fault(&program, image));
    let Ok(Some(fault)) = fault else {
        return String::new();
    };
    let Fault {
        module,
        position,
        cause,
    } = fault;
    format!(" module {module} position {position}: {cause}")
}

/// The options for generated cases, and the other arguments.
struct Generated<'a> {
    scale: &'static gen::Scale,
    seed: u64,
    count: u64,
    given: bool,
    others: Vec<&'a OsString>,
}

impl Generated<'_> {
    /// Takes `--small`, `--seed N` and the option for the number of cases.
    fn options<'a>(arguments: &'a [OsString], counts: &str) -> Result<Generated<'a>, String> {
        let mut options = Generated {
            scale: &gen::FULL,
            seed: 1,
            count: 2000,
            given: false,
            others: Vec::new(),
        };
        let mut arguments = arguments.iter();
        while let Some(argument) = arguments.next() {
            if !argument.to_string_lossy().starts_with("--") {
                options.others.push(argument);
                continue;
            }
            options.given = true;
            let name = name_of(argument);
            let mut number = || {
                let value = arguments.next().and_then(|value| value.to_str());
                value
                    .and_then(|value| value.parse().ok())
                    .ok_or_else(|| format!("{name} needs a decimal number"))
            };
            match &name[..] {
                "--small" => options.scale = &gen::SMALL,
                "--seed" => options.seed = number()?,
                _ if name == counts => options.count = number()?,
                _ => return Err(format!("no option {name}")),
            }
        }
        if options.count > u64::from(u32::MAX) {
            return Err(format!("{counts} is too large"));
        }
        Ok(options)
    }

    fn cases(&self) -> impl Iterator<Item = case::Case> {
        gen::cases(self.scale, self.seed, self.count)
    }
}

fn coverage(arguments: &[OsString]) -> Answer {
    let options = Generated::options(arguments, "--cases")?;
    let coverage = match &options.others[..] {
        [] => Coverage::of(options.cases()),
        [file] if !options.given => Coverage::of(read_cases(file)?.into_iter()),
        [file, ..] => return Err(format!("coverage takes {} alone", name_of(file))),
    };
    print(&coverage.report())?;
    let faults = coverage.faults();
    if faults.is_empty() {
        print("all opcodes, stops and refusals are covered\n")
    } else {
        for fault in &faults {
            print(&format!("missing: {fault}\n"))?;
        }
        Ok(1)
    }
}

fn write_cases(arguments: &[OsString]) -> Answer {
    let options = Generated::options(arguments, "--count")?;
    let [out] = options.others[..] else {
        return Err("cases needs one file to write".into());
    };
    let cases: Vec<case::Case> = options.cases().collect();
    std::fs::write(out, case::encode(&cases))
        .map_err(|error| format!("{}: {error}", name_of(out)))?;
    Ok(0)
}

fn read_cases(file: &OsStr) -> Result<Vec<case::Case>, String> {
    let name = name_of(file);
    let bytes = read_all(open(file)?, &name, u64::MAX)?;
    case::decode(&bytes).map_err(|error| format!("{name}: {error}"))
}

fn expect(file: &OsStr) -> Answer {
    let mut text = String::new();
    for (number, case) in read_cases(file)?.iter().enumerate() {
        text += &format!("case {number}\n{}", case::replay(case, &mut ()));
    }
    print(&text)
}

/// The least of several times of the same work, in seconds.
fn least_time(mut work: impl FnMut()) -> f64 {
    let time = |_| {
        let begin = Instant::now();
        work();
        begin.elapsed().as_secs_f64()
    };
    (0..10).map(time).fold(f64::INFINITY, f64::min)
}

/// Times the loop `LLW4 LI0 UADD SLW4 JPB`, and load, a refusal of load and run's
/// tests of one of the longest images. The loop adds 0, so that its sum never
/// leaves the range.
fn speed() -> Answer {
    const STEPS: u32 = 20_000_000;
    let code = [0o353, 1, 0o044, 0o000, 0o270, 0o064, 0o035, 5];
    let step = time_run(&[Source::plain(&code)], STEPS).1 / f64::from(STEPS);
    let mut code = vec![0o336; 32_761];
    code[32_760] = 0o354;
    let modules = [Source::plain(&code), Source::plain(&code)];
    let (load, tests) = time_run(&modules, 0);
    let refusal = time_refusal(&modules);
    print(&format!(
        "step {:.2} ns\nload of 65,529 bytes {:.0} us\nits refusal with 13 {:.0} us\n\
         run's tests of them {:.0} us\n",
        step * 1e9,
        load * 1e6,
        refusal * 1e6,
        tests * 1e6
    ))
}

/// The time of load where the last byte is an unlisted opcode.
fn time_refusal(modules: &[Source]) -> f64 {
    let mut image = encode(modules);
    let last = image.len() - 1;
    image[last] = 0o021;
    let mut map = vec![0; image.len()];
    least_time(|| assert_eq!(load(&image, &mut map).number, number::NOT_WHOLE))
}

/// The times of load and of a run of n steps.
fn time_run(modules: &[Source], n: u32) -> (f64, f64) {
    let image = encode(modules);
    let mut map = vec![0; image.len()];
    let load_time = least_time(|| assert_eq!(load(&image, &mut map).number, 0));
    let mut store = vec![0; 4_096];
    let (_, machine) = second::start(&image, &mut store);
    let mut outputs = [0; 16];
    let run_time = least_time(|| {
        let buffers = Buffers {
            image: &image,
            map: &map,
            store: &mut store,
            outputs: &mut outputs,
            inputs: &[0; 16],
        };
        let answer = second::run(machine, buffers, 0, n);
        assert_eq!(answer.count, n);
    });
    (load_time, run_time)
}
