//! Images to time: loops that run until their budget is spent, and long images. Octal literals are the paper's opcodes.

use crate::writer;
use second::assemble::{encode, Source};
use second::image::{Procedure, MOST_MODULES, ONLY_PROCEDURE};
use second::request::{self, HELD, LINES};

/// A program that runs on for ever, with words to write into its store and into M after start, the requests of each of its runs, and the word of
/// channels that each answers.
#[derive(Default)]
pub struct Loop {
    pub name: &'static str,
    pub image: Vec<u8>,
    pub patches: Vec<(u16, u16)>,
    pub mask: u16,
    pub requests: Requests,
    pub channels: u16,
}

/// The word of requests that a run is given, and what it leaves of it.
#[derive(Clone, Copy, Default)]
pub struct Requests {
    pub given: u16,
    pub left: u16,
}

/// An image whose load or archive is timed, and what load answers.
pub struct Long {
    pub name: &'static str,
    pub image: Vec<u8>,
    pub number: u16,
}

/// Bytes of code of a module of a long image, some more or less.
pub const LONG: usize = 29_600;

/// The base of the first module.
const BASE: u16 = 128;
/// The words of a module before its data.
pub const MODULE_WORDS: usize = 3;
/// Words of data of a module that `with_data` makes.
const DATA: u16 = 8;
/// S of the process that start makes, where such a module is the only one.
const FIRST_STACK: u16 = BASE + MODULE_WORDS as u16 + DATA + 12;
/// A place far from it.
const OTHER_STACK: u16 = 2100;

fn procedure(entry: usize, parameters: u8, results: u8) -> Procedure {
    Procedure {
        entry: entry as u16,
        parameters,
        results,
    }
}

/// Code under construction.
pub struct Code(pub Vec<u8>);

impl Code {
    /// Code that begins with S raised past 8 locals.
    fn new() -> Code {
        Code::with_locals(8)
    }

    pub fn with_locals(count: u8) -> Code {
        Code(vec![0o353, count])
    }

    pub fn here(&self) -> usize {
        self.0.len()
    }

    pub fn put(&mut self, bytes: &[u8]) -> &mut Code {
        self.0.extend(bytes);
        self
    }

    /// A jump back, by a byte, with this opcode.
    fn back(&mut self, opcode: u8, target: usize) -> &mut Code {
        let distance = self.here() + 1 - target;
        self.put(&[
            opcode,
            u8::try_from(distance).expect("a jump back by a byte"),
        ])
    }

    /// A jump back by a word.
    pub fn far_back(&mut self, target: usize) -> &mut Code {
        let distance = self.here() + 1 - target;
        let distance = i16::try_from(distance).expect("a jump back by a word");
        let [high, low] = (-distance).to_be_bytes();
        self.put(&[0o031, high, low])
    }

    /// A jump forward with this opcode, over the code that `body` puts.
    pub fn over(&mut self, opcode: u8, body: impl FnOnce(&mut Code)) -> &mut Code {
        self.put(&[opcode, 0]);
        let operand = self.here() - 1;
        body(self);
        self.0[operand] = u8::try_from(self.here() - operand).expect("a jump forward by a byte");
        self
    }
}

/// Code that repeats a body for ever.
fn repeated(body: &[u8]) -> Vec<u8> {
    let mut code = Code::new();
    let top = code.here();
    code.put(body).back(0o035, top);
    code.0
}

/// A module of code, with data.
fn with_data(code: Vec<u8>) -> Source {
    Source {
        data_size: DATA,
        code,
        ..Source::default()
    }
}

pub fn plain(name: &'static str, modules: &[Source]) -> Loop {
    Loop {
        name,
        image: encode(modules),
        ..Loop::default()
    }
}

/// x = ((x + 3) * 5 - 7) shifted and turned, in local 4.
fn arithmetic() -> Loop {
    let body = [
        0o044, 3, 0o270, 5, 0o272, 7, 0o271, 0o064, // + * -
        0o044, 3, 0o275, 9, 0o274, 2, 0o276, 0o064, // rotated, remainder, shifted left
        0o044, 0o045, 0o252, 0o065, // <
        0o044, 15, 0o322, 0o066, // and
    ];
    plain("arithmetic", &[with_data(repeated(&body))])
}

/// Words of the frame, of this module, of another module, and by their address.
fn loads_and_stores() -> Loop {
    let body = [
        0o044, 0o065, 0o045, 0o064, // L+4, L+5
        0o103, 0o124, 0o104, 0o123, // G+3, G+4
        0o042, 1, 4, 0o062, 1, 5, // of module 1
        0o024, 4, 0o142, 0o066, // a+2
        0o024, 4, 0o046, 0o163, // to c+3
        0o040, 6, 0o060, 7, // by a byte operand
    ];
    plain(
        "loads and stores",
        &[with_data(repeated(&body)), with_data(vec![0o354])],
    )
}

/// Counters in two words: of the frame, of this module, of another module, and by their address.
fn double_words() -> Loop {
    let body = [
        0o041, 4, 0o023, 0, 0, 0xFF, 0xF0, 0o210, 0o061, 4, // L+4 and L+5 grow by 65,520
        0o101, 3, 0o041, 4, 0o211, 0o121, 3, // G+3 and G+4 less that
        0o043, 1, 4, 0o101, 3, 0o210, 0o063, 1, 4, // of module 1
        0o024, 6, 0o025, 3, 0o202, 0o222, // to a from another address
        0o024, 4, 0o025, 3, 0o201, 2, 0o221, 4, // and with offsets
    ];
    plain(
        "double words",
        &[with_data(repeated(&body)), with_data(vec![0o354])],
    )
}

/// A function of two parameters and one result, called twice a turn.
fn local_calls() -> Loop {
    let mut code = repeated(&[1, 2, 0o361, 3, 0o360, 1, 0o064]);
    let function = code.len();
    code.extend([0o270, 0o354]);
    let module = Source {
        procedures: vec![procedure(0, 0, 0), procedure(function, 2, 1)],
        ..with_data(code)
    };
    plain("local calls", &[module])
}

/// The same function, in another module.
fn external_calls() -> Loop {
    let main = with_data(repeated(&[1, 2, 0o355, 1, 1, 3, 0o355, 1, 1, 0o064]));
    let function = Source {
        procedures: vec![procedure(2, 0, 0), procedure(0, 2, 1)],
        ..with_data(vec![0o270, 0o354, 0o354])
    };
    plain("external calls", &[main, function])
}

/// x := 1 + f(1 + f( .. f(2))), so many calls deep: what stands before a call is saved, and restored below its result.
fn nested_calls(depth: usize) -> Vec<u8> {
    let saved = [1, 0o262].repeat(depth);
    let called = [0o361, 0o260, 0o270].repeat(depth);
    [&saved[..], &[2], &called, &[0o064]].concat()
}

/// A module of this code, with the function f of one parameter behind it, which adds 1.
fn with_function(mut code: Vec<u8>) -> Source {
    let function = code.len();
    code.extend([1, 0o270, 0o354]);
    Source {
        procedures: vec![procedure(0, 0, 0), procedure(function, 1, 1)],
        ..with_data(code)
    }
}

const CALLS: &str = "calls in expressions";

/// A call in the argument of another one.
fn calls_in_expressions() -> Loop {
    plain(CALLS, &[with_function(repeated(&nested_calls(2)))])
}

/// Bytes of a string at G+3, set and read.
fn bytes() -> Loop {
    let body = [
        0o025, 3, 5, 0o044, 0o225, // byte 5 becomes x
        0o025, 3, 2, 0o044, 0o225, // byte 2 becomes x
        0o025, 3, 5, 0o205, 1, 0o270, 0o064, // x = byte 5 + 1
    ];
    plain("bytes", &[with_data(repeated(&body))])
}

fn signed_arithmetic() -> Loop {
    let body = [
        0o044, 3, 0o330, 5, 0o332, 7, 0o331, 4, 0o333, // + * - /
        0o317, 0o316, 9, 0o274, 0o064, // negated, absolute, remainder
        0o044, 5, 0o312, 0o065, 0o044, 5, 0o315, 0o066, // <, >=
    ];
    plain("signed arithmetic", &[with_data(repeated(&body))])
}

/// Two processes that transfer to each other, with `words` on the stack, two of them the addresses. Word G+3 holds the one that
/// waits. The second one's record is written into the store, and its words from `stack` up: on the first one's stack, each transfer saves
/// over what it restores.
fn transfers(name: &'static str, words: u16, stack: u16) -> Loop {
    const RECORD: u16 = 2000;
    let waiting = words - 2;
    let mut code = vec![1; usize::from(waiting)];
    let top = code.len();
    code.extend([0o025, 3, 0o025, 3, 0o256, 0]);
    let mut code = Code(code);
    code.back(0o035, top);
    let mut patches = vec![(BASE + 3, RECORD)];
    let end = stack + waiting;
    patches.extend((stack..end).map(|address| (address, address)));
    patches.push((end, waiting));
    let record = [BASE, stack, top as u16 + 6, 0, end + 1, 3000];
    patches.extend((RECORD..).zip(record));
    Loop {
        name,
        image: encode(&[with_data(code.0)]),
        patches,
        ..Loop::default()
    }
}

/// The arithmetic with all lines requested, which wait all the time.
pub fn waiting_lines() -> [Loop; 2] {
    let requests = Requests {
        given: LINES,
        left: LINES,
    };
    let masked = Loop {
        name: "arithmetic, masked by M",
        mask: LINES,
        requests,
        ..arithmetic()
    };
    let held = Loop {
        name: "arithmetic, held by word 3",
        patches: vec![(HELD as u16, LINES)],
        requests,
        ..arithmetic()
    };
    [masked, held]
}

/// Lines that a run of [`LINE_STEPS`] takes: each in five steps, with the way back, and one step of the process that is interrupted.
pub const LINES_A_RUN: u32 = LINES.count_ones();
pub const LINE_STEPS: u32 = 6 * LINES_A_RUN;

/// A process with so many words on its stack, and a process for each line, which transfers back at once. It has all lines masked, so
/// that they are taken one after another, each with the same words to save.
fn taken_lines(name: &'static str, words: usize) -> Loop {
    let mut code = Code(vec![1; words]);
    code.back(0o035, words);
    let mut procedures = vec![procedure(0, 0, 0)];
    let mut patches = Vec::new();
    for line in request::lines(LINES) {
        let (target, old) = (request::target_word(line), request::old_word(line));
        let top = code.here();
        procedures.push(procedure(top, 0, 0));
        code.put(&[0o020, target as u8, 0o020, old as u8, 0o256, 1]);
        let behind = code.here() as u16;
        code.back(0o035, top);
        // its stack is the count of its saved words, 0
        let count = OTHER_STACK + u16::from(line);
        let record = 1000 + 8 * u16::from(line);
        patches.push((target, record));
        patches.extend((record..).zip([BASE, 0, behind, LINES, count + 1, 3000]));
    }
    let module = Source {
        procedures,
        ..with_data(code.0)
    };
    Loop {
        patches,
        requests: Requests {
            given: LINES,
            left: 0,
        },
        ..plain(name, &[module])
    }
}

/// All lines requested, and taken; and what an eighth of such a run takes by itself.
pub fn line_runs() -> [Loop; 3] {
    [
        taken_lines("lines taken, 0 words", 0),
        taken_lines("lines taken, 16 words", 16),
        Loop {
            requests: Requests::default(),
            ..taken_lines("the same, no requests", 16)
        },
    ]
}

/// The words of A.8: the trap process, and the process that trapped.
const TRAP_TARGET: u8 = 14;
const TRAP_OLD: u8 = 15;
/// The steps of a trap that is caught, with the way back.
pub const TRAP_STEPS: u32 = 5;

/// A process with so many words on its stack raises S until that is trap 33, and a trap process transfers back at once: to the same
/// instruction, which traps again.
fn caught_traps(name: &'static str, words: usize) -> Loop {
    const RECORD: u16 = 1000;
    let mut code = Code(vec![1; words]);
    code.put(&[0o353, 255]).back(0o035, words);
    let top = code.here();
    code.put(&[0o020, TRAP_TARGET, 0o020, TRAP_OLD, 0o256, 1]);
    let behind = code.here() as u16;
    code.back(0o035, top);
    // its stack is the count of its saved words, 0
    let record = [BASE, 0, behind, 0, OTHER_STACK + 1, 3000];
    let mut patches = vec![(TRAP_TARGET.into(), RECORD)];
    patches.extend((RECORD..).zip(record));
    let module = Source {
        procedures: vec![procedure(0, 0, 0), procedure(top, 0, 0)],
        ..with_data(code.0)
    };
    Loop {
        patches,
        ..plain(name, &[module])
    }
}

/// Traps that are caught, one after another.
pub fn trap_runs() -> [Loop; 2] {
    [
        caught_traps("traps caught, 0 words", 0),
        caught_traps("traps caught, 16 words", 16),
    ]
}

fn input_and_output() -> Loop {
    const INPUT: u8 = 5;
    let body = [
        0o025, 3, INPUT, 0o240, // word G+3 becomes the input
        6, 0o103, 0o241, // output 6 becomes it
        7, 0o044, 0o241, 0o103, 1, 0o270, 0o064, // output 7 becomes x, and x the input and 1
    ];
    Loop {
        channels: 1 << INPUT,
        ..plain("input and output", &[with_data(repeated(&body))])
    }
}

/// Words of the module's data become inputs: 4 of 13 steps are READs.
fn inputs() -> Loop {
    const INPUTS: [u8; 4] = [0, 5, 10, 15];
    let read = |(&channel, word)| [0o025, word, channel, 0o240];
    let body: Vec<u8> = INPUTS.iter().zip(3..).flat_map(read).collect();
    Loop {
        channels: INPUTS.iter().map(|channel| 1 << channel).sum(),
        ..plain("inputs", &[with_data(repeated(&body))])
    }
}

/// The primes below 1,000, again and again: flags from G+3 on, i, j and the flags' address in locals 4, 5 and 6.
fn sieve() -> Loop {
    const BELOW: u16 = 1_000;
    let [high, low] = BELOW.to_be_bytes();
    let mut code = Code::new();
    code.put(&[0o025, 3, 0o066]);
    let again = code.here();
    code.put(&[0, 0o064]);
    let clear = code.here();
    code.put(&[0o046, 0o044, 0, 0o226, 0o044, 1, 0o270, 0o064]);
    code.put(&[0o044, 0o022, high, low, 0o255])
        .back(0o034, clear);
    code.put(&[2, 0o064]);
    let next = code.here();
    code.put(&[0o046, 0o044, 0o206, 0o327]);
    code.over(0o032, |code| {
        code.put(&[0o044, 0o044, 0o270, 0o065]);
        let strike = code.here();
        code.put(&[0o045, 0o022, high, low, 0o252]);
        code.over(0o032, |code| {
            code.put(&[0o046, 0o045, 1, 0o226, 0o045, 0o044, 0o270, 0o065]);
            code.back(0o035, strike);
        });
    });
    code.put(&[0o044, 1, 0o270, 0o064]);
    code.put(&[0o044, 0o022, high, low, 0o255])
        .back(0o034, next);
    code.back(0o035, again);
    let module = Source {
        data_size: BELOW,
        code: code.0,
        ..Source::default()
    };
    plain("sieve", &[module])
}

pub fn loops() -> Vec<Loop> {
    vec![
        arithmetic(),
        loads_and_stores(),
        double_words(),
        local_calls(),
        external_calls(),
        calls_in_expressions(),
        bytes(),
        signed_arithmetic(),
        transfers("transfers, 2 words", 2, OTHER_STACK),
        transfers("transfers, 16 words", 16, OTHER_STACK),
        transfers("transfers, 2, colliding", 2, FIRST_STACK),
        transfers("transfers, 16, colliding", 16, FIRST_STACK),
        input_and_output(),
        inputs(),
        sieve(),
    ]
}

/// Two modules of procedures with statements, a loop, a test and two calls each, all with no results or with 0 to 4 in turn: about 60 KB.
fn procedures(name: &'static str, most_results: u8, statements: u8) -> Long {
    const PROCEDURES: u8 = 240;
    const MOST_BYTES: usize = 30_000;
    let module = |other: u8| {
        let mut code = Code(Vec::new());
        let mut procedures = Vec::new();
        for index in 0..PROCEDURES {
            let results = index % (most_results + 1);
            let taken = [0o064].repeat(results.into());
            procedures.push(procedure(code.here(), 0, results));
            code.put(&[0o353, 8]);
            let top = code.here();
            code.put(&[0o044, 1, 0o270, 0o064, 0o103, 0o044, 0o270, 0o123]);
            code.put(&[0o044, 0o022, 1, 0, 0o252]);
            code.over(0o032, |code| {
                code.put(&[0o045, 3, 0o330, 0o065, 0o360, index])
                    .put(&taken);
                code.put(&[0o355, other, index]).put(&taken);
            });
            code.put(&[0o044, 0o020, 100, 0o255]).back(0o034, top);
            for local in 0..statements {
                code.put(&[0o044 + local % 8, 2, 0o272, 0o064 + local % 8]);
            }
            code.put(&[0o044].repeat(results.into())).put(&[0o354]);
        }
        assert!(code.here() <= MOST_BYTES);
        Source {
            procedures,
            ..with_data(code.0)
        }
    };
    Long {
        name,
        image: encode(&[module(1), module(0)]),
        number: 0,
    }
}

/// A module, and the position of the RTN at which all its code ends.
struct Shape {
    name: &'static str,
    module: Source,
    end: usize,
}

/// Statements without a jump.
fn straight(bytes: usize) -> Shape {
    let mut code = [0o044, 1, 0o270, 0o064].repeat(bytes / 4);
    code.push(0o354);
    Shape {
        name: "straight-line code",
        end: code.len() - 1,
        module: Source::plain(&code),
    }
}

/// Calls in expressions, one to four deep in turn.
fn saved_stacks(bytes: usize) -> Shape {
    let each: Vec<u8> = (1..=4).flat_map(nested_calls).collect();
    let mut code = [0o353, 8].to_vec();
    code.extend(each.repeat(bytes / each.len()));
    code.push(0o354);
    Shape {
        name: CALLS,
        end: code.len() - 1,
        module: with_function(code),
    }
}

/// A jump to the last of many jumps, each of which leads back to the one before it.
fn backward_jumps(bytes: usize) -> Shape {
    let [high, low] = (bytes as u16 + 1).to_be_bytes();
    let mut code = vec![0o031, high, low, 0o354, 0o035, 2];
    code.extend([0o035, 3].repeat(bytes / 2 - 1));
    Shape {
        name: "backward jumps",
        end: 3,
        module: Source::plain(&code),
    }
}

/// Tests that lead on, or to a place far away.
fn forks(bytes: usize) -> Shape {
    let forks = bytes / 4;
    let mut code = Vec::new();
    for index in 0..forks {
        let target = 4 * (index * 4_099 % forks) as i32;
        let operand = code.len() as i32 + 2;
        let [high, low] = ((target - operand) as i16).to_be_bytes();
        code.extend([1, 0o030, high, low]);
    }
    code.push(0o354);
    Shape {
        name: "forks to many targets",
        end: code.len() - 1,
        module: Source::plain(&code),
    }
}

/// Instructions of two bytes that are each other's operands: one procedure goes over the even positions, another one over the odd ones.
fn overlapping(bytes: usize) -> Shape {
    let code = [vec![0o353; bytes - 1], vec![0o354; 2]].concat();
    Shape {
        name: "overlapping code",
        end: code.len() - 1,
        module: Source {
            procedures: vec![procedure(0, 0, 0), procedure(1, 0, 0)],
            ..Source::plain(&code)
        },
    }
}

/// Two modules of a shape.
fn twice(shape: Shape) -> Long {
    let Shape { name, module, .. } = shape;
    Long {
        name,
        image: encode(&[module.clone(), module]),
        number: 0,
    }
}

pub fn long_images() -> Vec<Long> {
    vec![
        procedures("ordinary image", 0, 22),
        procedures("function procedures", 4, 20),
        twice(saved_stacks(LONG)),
        twice(straight(LONG)),
        twice(backward_jumps(LONG)),
        twice(forks(LONG)),
    ]
}

/// The longest image there can be, of two modules that end at once: next to nothing of its code is reached, so that load takes as little
/// as it can.
fn longest_code() -> Vec<u8> {
    const MOST_CODE: usize = 32_767;
    let module = |length: usize| Source::plain(&vec![0o354; length]);
    encode(&[module(MOST_CODE), module(65_535 - 1 - 3 - MOST_CODE - 3)])
}

/// The most modules, each of them ends at once, with these procedures.
fn most_modules(procedures: usize) -> Vec<u8> {
    let module = Source {
        procedures: vec![ONLY_PROCEDURE; procedures],
        ..Source::plain(&[0o354])
    };
    encode(&vec![module; MOST_MODULES])
}

/// The same image with all fields spelled out that the archive form leaves out.
fn spelled(image: &[u8]) -> Vec<u8> {
    let modules = writer::parse(image).into_iter();
    let spelled: Vec<writer::Module> = modules.map(|module| module.spelled(|| true)).collect();
    writer::encode(&spelled)
}

/// Two modules of calls in expressions, with names: as long as an example is.
fn named_calls() -> Vec<u8> {
    let body: Vec<u8> = (1..=4).flat_map(nested_calls).collect();
    let module = Source {
        name: Some(*b"cabinet7"),
        ..with_function(repeated(&body.repeat(2)))
    };
    let image = encode(&[module.clone(), module]);
    assert_eq!(image.len(), 291);
    image
}

/// Images whose archive form is timed: the longest code, the most modules, and a short one.
pub fn archive_images() -> Vec<Long> {
    let named = [
        ("longest code", longest_code()),
        ("21, all spelled out", spelled(&most_modules(0))),
        ("21 x 255 procedures", most_modules(255)),
        ("example, 291 bytes", named_calls()),
    ];
    let long = |(name, image)| Long {
        name,
        image,
        number: 0,
    };
    named.map(long).into()
}

/// Two modules of a shape, the second with another instruction where it ends.
fn ended(shape: Shape, instruction: u8, number: u16) -> Long {
    let Shape { name, module, end } = shape;
    let mut other = module.clone();
    other.code[end] = instruction;
    Long {
        name,
        image: encode(&[module, other]),
        number,
    }
}

/// The long shapes, and one in which every byte begins an instruction, refused for what stands where they end.
fn refused(bytes: usize, instruction: u8, number: u16) -> Vec<Long> {
    let shapes = [straight, backward_jumps, forks, overlapping];
    shapes
        .map(|shape| ended(shape(bytes), instruction, number))
        .into()
}

/// Refused with 13, of about twice so many bytes: an opcode that is not listed.
pub fn broken_images(bytes: usize) -> Vec<Long> {
    refused(bytes, 0o021, 13)
}

/// Refused with 8, of about twice so many bytes: TRAP with no word on the stack.
pub fn unfit_images(bytes: usize) -> Vec<Long> {
    refused(bytes, 0o304, 8)
}
