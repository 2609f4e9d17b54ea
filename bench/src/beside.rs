//! Two builds of the library in one process, each in sixteen layouts of code and store, in turn. Where the code comes to lie moves a figure by
//! some percent, where the store lies to the stack of run, modulo 4,096 bytes, moves calls at a few places by a third, and the machine has
//! slow phases. The mean of the layouts, each the least of many runs spread over the whole time, is moved little by any of them.

use crate::images::{self, Long, Loop, LINES_A_RUN, LINE_STEPS, LONG, TRAP_STEPS};
use crate::mixed;
use crate::sides::Compared;
use crate::speed::{line, INPUTS, WORDS};
use cembuxola::c::Library;
use cembuxola::{ANSWER_NUMBERS, MACHINE_WORDS, PLACE_WORDS, WRITTEN_NUMBERS};
use std::ffi::{c_char, c_int, c_void, CStr, CString};
use std::time::Instant;

/// Places of the code, in bytes from a multiple of 64: what bench/beside names its shared objects by.
const PLACES: [usize; 4] = [0, 16, 32, 48];
/// Layouts: the code at one place after another, the store 272 bytes on each time, so that it lies elsewhere in its page and in its line.
const LAYOUTS: usize = 16;
const STRIDE: usize = 272;
const PAGE: usize = 4_096;
/// Steps of a timed run, and runs with lines that are taken in one timed work.
const STEPS: u32 = 300_000;
const LINE_RUNS: u32 = 300;
/// The word of the machine that is M.
const M: usize = 7;
/// Runs in turn before the other build has its turn: the first of them teach the predictor of jumps.
const RUNS: u32 = 4;
/// Mixed programs of each size.
const MIXED: u64 = 7;
const NOW: c_int = 2;

extern "C" {
    fn dlopen(path: *const c_char, how: c_int) -> *mut c_void;
    fn dlsym(object: *mut c_void, name: *const c_char) -> *mut c_void;
}

/// The functions of a build, and how many numbers its run answers: 2 before A.7, 3 before A.9.
struct Build {
    library: Library,
    numbers: usize,
}

impl Build {
    /// What is left of the requests is the third number.
    fn takes_requests(&self) -> bool {
        self.numbers >= 3
    }
}

/// A program on one build, with buffers of its own. The store is the words from `at` on.
struct Begun<'a> {
    build: &'a Build,
    image: &'a [u8],
    map: Vec<u32>,
    form: Vec<u8>,
    words: Vec<u16>,
    at: usize,
    outputs: [u16; 16],
    machine: [u16; MACHINE_WORDS],
}

/// A shared object of the library; it stays open.
///
/// A library from before A.3 takes no place, one from before A.7 no requests: on x86-64 a C function ignores further arguments. The map of one
/// from before A.5 has a byte where it has an entry now, so the first bytes of the same buffer are enough. One from before A.9 answers no word of
/// channels, and is lent an answer of fewer numbers. One from before A.11 has no archive.
fn open(path: &str) -> Compared<Build> {
    let name = CString::new(path).map_err(|error| error.to_string())?;
    // SAFETY: a path, and the names of functions, as C strings.
    let object = unsafe { dlopen(name.as_ptr(), NOW) };
    if object.is_null() {
        return Err(format!("{path} cannot be opened"));
    }
    let optional = |name: &CStr| unsafe { dlsym(object, name.as_ptr()) };
    let function = |name: &CStr| match optional(name) {
        found if found.is_null() => Err(format!("{path} has no {name:?}")),
        found => Ok(found),
    };
    let load = function(c"cembuxola_load")?;
    let archive = optional(c"cembuxola_archive");
    let start = function(c"cembuxola_start")?;
    let run = function(c"cembuxola_run")?;
    // SAFETY: the functions are as include/cembuxola.h declares them, or take less, as said above; the object stays open.
    let library = unsafe { Library::at(load, archive, start, run) };
    let numbers = answer_numbers(&library)
        .ok_or_else(|| format!("{path}: run takes no answer of 2, 3 or 4 numbers"))?;
    Ok(Build { library, numbers })
}

/// The length of answer that is not 20.
fn answer_numbers(library: &Library) -> Option<usize> {
    (2..=ANSWER_NUMBERS).find(|&numbers| {
        let mut machine = [0; MACHINE_WORDS];
        let mut answer = vec![0; numbers];
        library.run(
            &mut machine,
            &[],
            &[],
            &mut [],
            &mut [],
            &[],
            &mut answer,
            0,
            0,
        ) != 20
    })
}

impl<'a> Begun<'a> {
    /// With the store so many bytes after a multiple of 4,096.
    fn new(build: &'a Build, image: &'a [u8], offset: usize) -> Begun<'a> {
        let words = vec![0; WORDS + PAGE / 2];
        let at = (2 * PAGE + offset - words.as_ptr() as usize % PAGE) % PAGE / 2;
        Begun {
            build,
            image,
            map: vec![0; image.len()],
            form: vec![0; image.len()],
            words,
            at,
            outputs: [0; 16],
            machine: [0; MACHINE_WORDS],
        }
    }

    /// Whether the build takes the requests, and load and start accept; the words of the program are written then. A library from before a
    /// request does not know its instructions, and one from before A.7 takes no requests.
    fn begin(&mut self, program: &Loop) -> bool {
        let requested = program.requests.given != 0;
        if requested && !self.build.takes_requests() {
            return false;
        }
        if self.load() != 0 || self.start() != 0 {
            return false;
        }
        for &(address, word) in &program.patches {
            self.words[self.at + usize::from(address)] = word;
        }
        self.machine[M] = program.mask;
        true
    }

    fn load(&mut self) -> u16 {
        let mut place = [0; PLACE_WORDS];
        self.build
            .library
            .load(self.image, &mut self.map, &mut place)
    }

    fn archive(&mut self) -> u16 {
        let mut written = [0; WRITTEN_NUMBERS];
        self.build
            .library
            .archive(self.image, &mut self.map, &mut self.form, &mut written)
    }

    fn start(&mut self) -> u16 {
        let store = &mut self.words[self.at..self.at + WORDS];
        self.build
            .library
            .start(self.image, store, &mut self.machine)
    }

    fn run(&mut self, n: u32, requests: u16) -> u16 {
        let mut answer = [0; ANSWER_NUMBERS];
        self.build.library.run(
            &mut self.machine,
            self.image,
            &self.map,
            &mut self.words[self.at..self.at + WORDS],
            &mut self.outputs,
            &INPUTS,
            &mut answer[..self.build.numbers],
            n,
            requests,
        )
    }

    /// So many runs; the first answer other than 30, if there is one.
    fn runs(&mut self, runs: u32, n: u32, requests: u16) -> u16 {
        let mut answers = (0..runs).map(|_| self.run(n, requests));
        answers.find(|&number| number != 30).unwrap_or(30)
    }
}

/// What is timed of a program.
#[derive(Clone, Copy)]
enum Kind {
    Steps,
    Lines,
    Traps,
    Load,
    Archive,
    Refused,
    Tests,
}

impl Kind {
    /// Whether the program can be timed on this build: what is refused can on any, traps that are caught not on one from before A.8, which
    /// stops at the first.
    fn begin(self, begun: &mut Begun, program: &Loop) -> bool {
        match self {
            Kind::Refused => true,
            Kind::Traps => begun.begin(program) && begun.run(STEPS, program.requests.given) == 30,
            _ => begun.begin(program),
        }
    }

    /// One timed call, in seconds, or an answer that it should not give. Where code is not whole, a library from before A.3 answers 8.
    fn time(self, begun: &mut Begun, requests: u16) -> Compared<f64> {
        let begin = Instant::now();
        let (number, wanted): (u16, &[u16]) = match self {
            Kind::Steps | Kind::Traps => (begun.run(STEPS, requests), &[30]),
            Kind::Lines => (begun.runs(LINE_RUNS, LINE_STEPS, requests), &[30]),
            Kind::Load => (begun.load(), &[0]),
            Kind::Archive => (begun.archive(), &[0]),
            Kind::Refused => (begun.load(), &[8, 13]),
            Kind::Tests => (begun.run(0, requests), &[30]),
        };
        let time = begin.elapsed().as_secs_f64();
        if wanted.contains(&number) {
            Ok(time)
        } else {
            Err(format!("{number} is answered, none of {wanted:?}"))
        }
    }

    /// What its lines count in, and how many of it a second has.
    fn unit(self) -> (&'static str, f64) {
        match self {
            Kind::Steps => ("ns/step", 1e9 / f64::from(STEPS)),
            Kind::Lines => ("ns/line", 1e9 / f64::from(LINE_RUNS * LINES_A_RUN)),
            Kind::Traps => ("ns/trap", 1e9 / f64::from(STEPS / TRAP_STEPS)),
            Kind::Load | Kind::Archive | Kind::Refused | Kind::Tests => ("us", 1e6),
        }
    }
}

/// The least seconds of each build in each layout; infinite where it refuses the program.
type Least = [[f64; LAYOUTS]; 2];

struct Work {
    name: String,
    kind: Kind,
    program: Loop,
    least: Least,
}

impl Work {
    fn new(name: &str, kind: Kind, program: Loop) -> Work {
        Work {
            name: name.to_string(),
            kind,
            program,
            least: [[f64::INFINITY; LAYOUTS]; 2],
        }
    }

    /// One more turn of each build in each layout.
    fn turn(&mut self, builds: &[[Build; PLACES.len()]; 2]) -> Compared<()> {
        for layout in 0..LAYOUTS {
            let offset = STRIDE * layout;
            for (side, build) in builds.iter().enumerate() {
                let build = &build[layout % PLACES.len()];
                let mut begun = Begun::new(build, &self.program.image, offset);
                if !self.kind.begin(&mut begun, &self.program) {
                    continue;
                }
                let least = &mut self.least[side][layout];
                for _ in 0..RUNS {
                    *least = least.min(self.kind.time(&mut begun, self.program.requests.given)?);
                }
            }
        }
        Ok(())
    }

    /// The mean of the layouts, of each build.
    fn means(&self) -> [f64; 2] {
        self.least
            .map(|times| times.iter().sum::<f64>() / times.len() as f64)
    }
}

/// The works of long images.
fn long_works(title: &str, kind: Kind, images: Vec<Long>) -> impl Iterator<Item = Work> + '_ {
    images.into_iter().map(move |long| {
        let name = format!("{title}: {}", long.name);
        let program = Loop {
            name: long.name,
            image: long.image,
            ..Loop::default()
        };
        Work::new(&name, kind, program)
    })
}

/// All works: the short loops, the mixed programs of several seeds, runs with requests, runs that catch traps, load, also of what it refuses,
/// the test of a map, and archive, if both builds have it.
fn works(with_archive: bool) -> Vec<Work> {
    let mut all = Vec::new();
    for program in images::loops() {
        all.push(Work::new(program.name, Kind::Steps, program));
    }
    for seed in mixed::SEED..mixed::SEED + MIXED {
        for program in mixed::programs(seed) {
            all.push(Work::new(program.name, Kind::Steps, program));
        }
    }
    for program in images::waiting_lines() {
        all.push(Work::new(program.name, Kind::Steps, program));
    }
    for program in images::line_runs() {
        all.push(Work::new(program.name, Kind::Lines, program));
    }
    for program in images::trap_runs() {
        all.push(Work::new(program.name, Kind::Traps, program));
    }
    for (title, kind, images) in [
        ("load", Kind::Load, images::long_images()),
        ("13", Kind::Refused, images::broken_images(LONG)),
        ("8", Kind::Refused, images::unfit_images(LONG)),
        ("n = 0", Kind::Tests, images::long_images()),
    ] {
        all.extend(long_works(title, kind, images));
    }
    if with_archive {
        let images = images::archive_images();
        all.extend(long_works("archive", Kind::Archive, images));
    }
    all
}

/// A line for the works of one name: the geometric mean of each build, infinite where one refuses.
fn print(works: &[&Work]) {
    let (unit, scale) = works[0].kind.unit();
    let mut logs = [0.0; 2];
    for work in works {
        for (log, time) in logs.iter_mut().zip(work.means()) {
            *log += (time * scale).ln() / works.len() as f64;
        }
    }
    let [one, other] = logs.map(f64::exp);
    line(&works[0].name, unit, [one, other], other / one);
}

/// Times the builds in the shared objects that bench/beside made in this folder.
pub fn beside(folder: &str, passes: u64) -> Compared<()> {
    let mut builds = Vec::new();
    for side in ["before", "after"] {
        let [a, b, c, d] = PLACES.map(|place| open(&format!("{folder}/{side}.{place}.so")));
        builds.push([a?, b?, c?, d?]);
    }
    let builds: [[Build; PLACES.len()]; 2] = builds.try_into().map_err(|_| "two builds")?;
    let with_archive = builds
        .iter()
        .flatten()
        .all(|build| build.library.has_archive());
    let mut works = works(with_archive);
    for _ in 0..passes {
        for work in &mut works {
            work.turn(&builds)
                .map_err(|error| format!("{}: {error}", work.name))?;
        }
    }
    println!(
        "{:28} {:>9} {:>9} {:8} {:>6}",
        "", "before", "after", "", "ratio"
    );
    let mut names: Vec<&str> = works.iter().map(|work| work.name.as_str()).collect();
    let mut seen = std::collections::HashSet::new();
    names.retain(|name| seen.insert(*name));
    for name in names {
        let same: Vec<&Work> = works.iter().filter(|work| work.name == name).collect();
        print(&same);
    }
    Ok(())
}
