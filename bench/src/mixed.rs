//! Programs of many mixed statements, as a cabinet's program is: too large for the predictor of jumps to learn them by heart, as it does
//! the short loops. Made by a seeded generator: always the same ones. Octal literals are the paper's opcodes.

use crate::images::{plain, Code, Loop, MODULE_WORDS};
use second::assemble::Source;
use second::gen::rng::Rng;

pub const SEED: u64 = 300;
/// Words of data, and locals.
const WORDS: usize = 32;
/// The first local's and the first data word's place in the frame and in the module.
const FIRST_LOCAL: usize = 4;
const FIRST_WORD: usize = MODULE_WORDS;
/// What a short form can name.
const LAST_SHORT: usize = 15;

/// A load or store of some word from the first one on. In three of eight cases it is in the short form, which is the opcode plus the place;
/// else the place is an operand.
fn access(rng: &mut Rng, code: &mut Code, opcode: u8, first: usize) {
    let nearby = rng.once_in(2);
    let place = if nearby {
        rng.within(first, LAST_SHORT) as u8
    } else {
        rng.within(LAST_SHORT + 1, first + WORDS - 1) as u8
    };
    if nearby && !rng.once_in(4) {
        code.put(&[opcode + place]);
    } else {
        code.put(&[opcode, place]);
    }
}

/// A number, or the word of a local or of the module's data.
fn leaf(rng: &mut Rng, code: &mut Code) {
    match rng.below(10) {
        0 => _ = code.put(&[0o022, rng.byte(), rng.byte()]),
        1 => _ = code.put(&[0o020, rng.byte()]),
        2 => _ = code.put(&[rng.below(16) as u8]),
        3..=6 => access(rng, code, 0o040, FIRST_LOCAL),
        _ => access(rng, code, 0o100, FIRST_WORD),
    }
}

/// A bit operation or a comparison.
fn operation(rng: &mut Rng) -> u8 {
    if rng.once_in(2) {
        rng.pick(&[0o320, 0o321, 0o322])
    } else {
        comparison(rng)
    }
}

fn comparison(rng: &mut Rng) -> u8 {
    rng.pick(&[
        0o252, 0o253, 0o254, 0o255, 0o310, 0o311, 0o312, 0o313, 0o314, 0o315,
    ])
}

/// The sum or product of a byte of a word and a number, or their difference: never outside 0 to 65,535, so that it is the same with carries
/// or without.
fn sum(rng: &mut Rng, code: &mut Code) {
    if rng.once_in(3) {
        code.put(&[0o020, 255]);
        leaf(rng, code);
        code.put(&[0o020, 255, 0o322, 0o271]);
    } else {
        leaf(rng, code);
        code.put(&[0o020, 255, 0o322]);
        code.put(&[rng.below(16) as u8, rng.pick(&[0o270, 0o272])]);
    }
}

/// An expression of the depth 0, 1 or 2.
fn expression(rng: &mut Rng, code: &mut Code, depth: usize) {
    match depth {
        0 => leaf(rng, code),
        2 if rng.once_in(2) => sum(rng, code),
        _ => {
            let other = rng.below(depth);
            let (first, second) = rng.pick(&[(depth - 1, other), (other, depth - 1)]);
            expression(rng, code, first);
            expression(rng, code, second);
            code.put(&[operation(rng)]);
        }
    }
}

/// A local or a word of the module's data becomes the value of an expression.
fn assignment(rng: &mut Rng, code: &mut Code) {
    let depth = rng.below(3);
    expression(rng, code, depth);
    if rng.once_in(2) {
        access(rng, code, 0o060, FIRST_LOCAL);
    } else {
        access(rng, code, 0o120, FIRST_WORD);
    }
}

/// An assignment, one in five behind a test.
fn statement(rng: &mut Rng, code: &mut Code) {
    if rng.once_in(5) {
        leaf(rng, code);
        leaf(rng, code);
        code.put(&[comparison(rng)]);
        code.over(0o032, |code| assignment(rng, code));
    } else {
        assignment(rng, code);
    }
}

/// A loop of so many statements.
fn mixed(name: &'static str, statements: u32, seed: u64) -> Loop {
    let mut rng = Rng::for_case(seed, u64::from(statements));
    let mut code = Code::with_locals(WORDS as u8);
    let top = code.here();
    for _ in 0..statements {
        statement(&mut rng, &mut code);
    }
    code.far_back(top);
    let module = Source {
        data_size: WORDS as u16,
        code: code.0,
        ..Source::default()
    };
    plain(name, &[module])
}

/// The programs that `bench` times have the seed [`SEED`].
pub fn programs(seed: u64) -> [Loop; 2] {
    [
        mixed("300 mixed statements", 300, seed),
        mixed("3,000 mixed statements", 3_000, seed),
    ]
}
