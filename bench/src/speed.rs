//! Times both sides in turn, in one process, after their results were compared.

use crate::images::{self, Long, Loop, LINES_A_RUN, LINE_STEPS, LONG, TRAP_STEPS};
use crate::mixed;
use crate::sides::{Compared, Ours, Sides};
use crate::words::words;
use crate::writer;
use std::cell::RefCell;
use std::hint::black_box;
use std::time::Instant;

pub const WORDS: usize = 4_096;
pub const INPUTS: [u16; 16] = [3; 16];
/// Steps of a timed run, and of the compared one.
const STEPS: u32 = 1_000_000;
/// Runs with lines that are taken, in one timed work.
const LINE_RUNS: u32 = 2_000;
const ROUNDS: u32 = 40;
/// Bytes of images that are archived in one timed work, some more or less, and the rounds: short works and many rounds, since of two times
/// the difference is wanted.
const ARCHIVED: usize = 100_000;
const ARCHIVE_ROUNDS: u32 = 1_000;

/// The least times in seconds of works, done in turn, so many rounds.
fn least_times<const N: usize>(rounds: u32, mut works: [&mut dyn FnMut(); N]) -> [f64; N] {
    let mut least = [f64::INFINITY; N];
    for _ in 0..rounds {
        for (least, work) in least.iter_mut().zip(&mut works) {
            let begin = Instant::now();
            work();
            *least = least.min(begin.elapsed().as_secs_f64());
        }
    }
    least
}

/// An error of what has this name.
fn of(name: &str) -> impl Fn(String) -> String + '_ {
    move |error| format!("{name}: {error}")
}

/// A line of the table: both sides and the ratio of their times.
pub fn line(name: &str, unit: &str, [one, other]: [f64; 2], ratio: f64) {
    println!("{name:28} {one:9.2} {other:9.2} {unit:8} {ratio:6.2}");
}

/// An image that both sides accept and start.
fn begun(image: &[u8]) -> Compared<Sides> {
    let mut sides = Sides::new(image, vec![0; image.len()], vec![0; WORDS], vec![0; 16]);
    let numbers = (sides.load()?, sides.start()?);
    if numbers != (0, 0) {
        return Err(format!("load and start answer {numbers:?}"));
    }
    Ok(sides)
}

/// A program begun, with its words written.
fn begun_loop(one: &Loop) -> Compared<Sides> {
    let mut sides = begun(&one.image)?;
    for &(address, word) in &one.patches {
        sides.ours.store[usize::from(address)] = word;
        sides.theirs.store[usize::from(address)] = word;
    }
    sides.theirs.machine.m = one.mask;
    sides.ours.machine = words(&sides.theirs.machine);
    Ok(sides)
}

/// Runs n steps of a program on both sides, compares, and times so many such runs.
fn time_runs(sides: &mut Sides, one: &Loop, n: u32, runs: u32) -> Compared<[f64; 2]> {
    let given = one.requests.given;
    let ran = sides.run(&INPUTS, n, given)?;
    let [left, channels] = [one.requests.left, one.channels].map(u32::from);
    if ran != (30, [n, 0, left, channels]) {
        return Err(format!("the run answers {ran:?}"));
    }
    let Sides {
        image,
        ours,
        theirs,
    } = sides;
    Ok(least_times(
        ROUNDS,
        [
            &mut || (0..runs).for_each(|_| assert_eq!(ours.run(image, &INPUTS, n, given).0, 30)),
            &mut || {
                (0..runs).for_each(|_| assert_eq!(theirs.run(image, &INPUTS, n, given).number, 30))
            },
        ],
    ))
}

/// Times so many runs of n steps of a program, in nanoseconds for each of `count` in them, and prints them.
fn time_each_of(
    one: &Loop,
    (n, runs): (u32, u32),
    (count, unit): (u32, &str),
) -> Compared<[f64; 2]> {
    let times = time_runs(&mut begun_loop(one)?, one, n, runs)?;
    let each = times.map(|time| time * 1e9 / f64::from(count));
    line(one.name, unit, each, each[0] / each[1]);
    Ok(each)
}

fn time_loop(one: &Loop) -> Compared<[f64; 2]> {
    time_each_of(one, (STEPS, 1), (STEPS, "ns/step"))
}

/// Each line that is taken, with its way back.
fn time_lines(one: &Loop) -> Compared<[f64; 2]> {
    let lines = LINE_RUNS * LINES_A_RUN;
    time_each_of(one, (LINE_STEPS, LINE_RUNS), (lines, "ns/line"))
}

/// Each trap that is caught, with its way back. The first one comes in the compared run.
fn time_traps(one: &Loop) -> Compared<[f64; 2]> {
    time_each_of(one, (STEPS, 1), (STEPS / TRAP_STEPS, "ns/trap"))
}

/// A line for each program, and their geometric mean.
fn time_loops(loops: &[Loop]) -> Compared<()> {
    let mut logs = [0.0; 2];
    for one in loops {
        let each = time_loop(one).map_err(of(one.name))?;
        for (log, time) in logs.iter_mut().zip(each) {
            *log += time.ln() / loops.len() as f64;
        }
    }
    let mean = logs.map(f64::exp);
    line("geometric mean", "ns/step", mean, mean[0] / mean[1]);
    Ok(())
}

fn time_load(one: &Long) -> Compared<()> {
    let map = vec![0; one.image.len()];
    let mut sides = Sides::new(&one.image, map, Vec::new(), Vec::new());
    let number = sides.load()?;
    if number != one.number {
        return Err(format!("load answers {number}, not {}", one.number));
    }
    let Sides {
        image,
        ours,
        theirs,
    } = &mut sides;
    let times = least_times(
        ROUNDS,
        [&mut || assert_eq!(ours.load(image).0, number), &mut || {
            assert_eq!(u16::from(theirs.load(image).number), number)
        }],
    );
    let speed = times.map(|time| image.len() as f64 / time / 1e6);
    line(one.name, "MB/s", speed, times[0] / times[1]);
    Ok(())
}

/// An image, and buffers that all sides write in turn: where they lie is the same for each.
struct Archived<'a> {
    image: &'a [u8],
    lent: RefCell<Lent>,
    /// How often it is archived in one timed work.
    times: usize,
}

struct Lent {
    ours: Ours,
    out: Vec<u8>,
}

impl Archived<'_> {
    /// The forms by both sides and by the plain writer are compared.
    fn new(one: &Long) -> Compared<Archived<'_>> {
        let image = &one.image;
        let length = image.len();
        let mut sides = Sides::new(image, vec![0; length], Vec::new(), Vec::new());
        let number = sides.archive(&vec![0; length])?;
        if number != 0 {
            return Err(format!("archive answers {number}"));
        }
        let (mut map, mut out) = (vec![0; length], vec![0; length]);
        let mut plain_out = out.clone();
        let (_, written) = sides.ours.archive(image, &mut out);
        let plain = writer::archive(image, &mut map, &mut plain_out);
        if plain != (0, written as usize) || plain_out != out || map != sides.ours.map {
            return Err("the plain writer writes another form".into());
        }
        let ours = sides.ours;
        Ok(Archived {
            image,
            lent: RefCell::new(Lent { ours, out }),
            times: ARCHIVED.div_ceil(length),
        })
    }

    /// So many calls, each of which must be accepted.
    fn each(&self, call: impl Fn(&mut Lent) -> bool) {
        let lent = &mut self.lent.borrow_mut();
        (0..self.times).for_each(|_| assert!(call(lent)));
    }
}

/// Archive, beside load of the second interpreter with the plain writer.
fn time_archive(one: &Long) -> Compared<()> {
    let archived = Archived::new(one)?;
    let image = archived.image;
    let least = least_times(
        ARCHIVE_ROUNDS,
        [
            &mut || archived.each(|lent| lent.ours.archive(image, &mut lent.out).0 == 0),
            &mut || {
                archived
                    .each(|lent| writer::archive(image, &mut lent.ours.map, &mut lent.out).0 == 0)
            },
        ],
    );
    let each = least.map(|time| time * 1e6 / archived.times as f64);
    line(one.name, "us", each, each[0] / each[1]);
    Ok(())
}

/// What archive takes more than load, beside the plain writer with the modules at hand.
fn time_writing(one: &Long) -> Compared<()> {
    let archived = Archived::new(one)?;
    let image = archived.image;
    let modules = writer::parse(image);
    let least = least_times(
        ARCHIVE_ROUNDS,
        [
            &mut || archived.each(|lent| lent.ours.archive(image, &mut lent.out).0 == 0),
            &mut || archived.each(|lent| lent.ours.load(image).0 == 0),
            &mut || {
                archived.each(|lent| {
                    let modules = black_box(&modules);
                    writer::write_form(modules, &mut lent.out).is_some()
                })
            },
        ],
    );
    let [archive, load, plain] = least.map(|time| time * 1e9 / archived.times as f64);
    let more = archive - load;
    line(one.name, "ns/image", [more, plain], more / plain);
    Ok(())
}

fn time_tests(one: &Long) -> Compared<()> {
    let times = time_runs(&mut begun(&one.image)?, &Loop::default(), 1, 1)?;
    line(
        one.name,
        "us",
        times.map(|time| time * 1e6),
        times[0] / times[1],
    );
    Ok(())
}

/// A line for each image.
fn time_each(images: &[Long], time: fn(&Long) -> Compared<()>) -> Compared<()> {
    for one in images {
        time(one).map_err(of(one.name))?;
    }
    Ok(())
}

/// A line for each program with requests.
fn time_requests() -> Compared<()> {
    println!("steps with all lines requested, which wait");
    for one in &images::waiting_lines() {
        time_loop(one).map_err(of(one.name))?;
    }
    println!("runs that take 8 lines, an 8th of each: a line, 4 steps back, a step between");
    for one in &images::line_runs() {
        time_lines(one).map_err(of(one.name))?;
    }
    Ok(())
}

/// A line for each program whose traps are caught.
fn time_caught() -> Compared<()> {
    println!("runs that catch traps: a trap, 4 steps back to the instruction that traps again");
    for one in &images::trap_runs() {
        time_traps(one).map_err(of(one.name))?;
    }
    Ok(())
}

/// Prints a line for each image; the first difference between the sides is an error.
pub fn speed() -> Compared<()> {
    let long = images::long_images();
    println!(
        "{:28} {:>9} {:>9} {:8} {:>6}",
        "", "proved", "second", "", "ratio"
    );
    println!("steps of short loops (ratio of times: below 1 the proved engine is faster)");
    time_loops(&images::loops())?;
    println!("steps of mixed programs");
    time_loops(&mixed::programs(mixed::SEED))?;
    time_requests()?;
    time_caught()?;
    println!("load");
    time_each(&long, time_load)?;
    println!("load, refused with 13 where the code ends");
    time_each(&images::broken_images(LONG), time_load)?;
    println!("load, refused with 13 where the code ends, a quarter as long");
    time_each(&images::broken_images(LONG / 4), time_load)?;
    println!("load, refused with 8 where the code ends");
    time_each(&images::unfit_images(LONG), time_load)?;
    println!("archive, beside load of the second interpreter and a plain Rust writer");
    time_each(&images::archive_images(), time_archive)?;
    println!("what archive takes more than load, beside that writer alone, with the modules read");
    time_each(&images::archive_images(), time_writing)?;
    println!("run with n = 1: the tests of the image and the map");
    time_each(&long, time_tests)
}
