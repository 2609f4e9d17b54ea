//! A.10: "Twenty-one modules."

use crate::rig::{Rig, FF, WORDS};
use crate::transfer::poke_record;
use second::api::Buffers;
use second::assemble::{encode, Source};
use second::image::{parse, MOST_MODULES};
use second::{desk, load, run, start, LoadAnswer, Machine};

const LEA: u8 = 0o027;
const UNLISTED: u8 = 0o021;
const TRA: u8 = 0o256;
const TRAP: u8 = 0o304;
const NOP: u8 = 0o336;
const RTN: u8 = 0o354;
const CX: u8 = 0o355;

/// The instructions that name a module.
const NAMING: [u8; 6] = [LEA, 0o042, 0o043, 0o062, 0o063, CX];

/// "The largest image found in any cabinet has 21 modules. That becomes the limit".
#[test]
fn the_limit() {
    assert_eq!(MOST_MODULES, 21);
}

/// Load's answer, with the map as it was unless it accepts.
fn loaded(image: &[u8], entries: usize) -> LoadAnswer {
    let mut map = vec![0x77; entries];
    let answer = load(image, &mut map);
    if answer.number != 0 {
        assert_eq!(map, vec![0x77; entries]);
    }
    answer
}

/// What each call answers to an image, with lengths that they accept. Each is refused
/// with this number and leaves everything as it was.
fn expect_refused(image: &[u8], number: u8) {
    let answer = loaded(image, image.len());
    let place = (answer.module, answer.position);
    assert_eq!((answer.number, place), (number, (0, 0)), "{image:?}");
    let mut store = vec![0xAAAA; WORDS];
    assert_eq!(start(image, &mut store), (number, Machine::default()));
    let machine = Machine {
        p: 300,
        h: 500,
        ..Machine::default()
    };
    let (mut outputs, map) = ([7; 16], vec![FF; image.len()]);
    let buffers = Buffers {
        image,
        map: &map,
        store: &mut store,
        outputs: &mut outputs,
        inputs: &[0; 16],
    };
    let answer = run(machine, buffers, 0x8001, 5);
    assert_eq!((answer.number, answer.code, answer.count), (number, 0, 0));
    assert_eq!((answer.requests, answer.channels), (0x8001, 0));
    assert_eq!(answer.machine, machine);
    assert_eq!((store, outputs), (vec![0xAAAA; WORDS], [7; 16]));
    assert_eq!(desk(image), format!("refused {number}\n"));
}

/// So many modules that return.
fn plain(count: usize) -> Vec<Source> {
    vec![Source::plain(&[RTN]); count]
}

/// "Refused: 2 now begins at 22."
#[test]
fn counts_alone() {
    expect_refused(&[0], 2);
    for count in 1..=21 {
        expect_refused(&[count], 3);
    }
    for count in 22..=255 {
        expect_refused(&[count], 2);
    }
}

/// An image of as many modules as it says, of one more, and of one less.
#[test]
fn counts_of_modules() {
    for count in 1..=21 {
        let mut image = encode(&plain(count));
        assert_eq!(loaded(&image, image.len()).number, 0);
        assert_eq!(start(&image, &mut vec![0; WORDS]).0, 0);
        assert_eq!(parse(&image).unwrap().modules.len(), count);
        image[0] += 1;
        expect_refused(&image, if count == 21 { 2 } else { 3 });
        image[0] -= 2;
        expect_refused(&image, if count == 1 { 2 } else { 4 });
    }
}

/// "22 to 255 modules are refused with 2 before anything else of the image is read": also
/// where all of them are there.
#[test]
fn nothing_else_is_at_fault() {
    for count in 22..=255 {
        let image = encode(&plain(count));
        assert_eq!(usize::from(image[0]), count);
        expect_refused(&image, 2);
    }
    // The map that fits, and the machine.
    let image = encode(&plain(22));
    let mut map = vec![FF; image.len()];
    (4..image.len()).step_by(4).for_each(|byte| map[byte] = 0);
    let (_, machine) = start(&encode(&plain(21)), &mut vec![0; WORDS]);
    let number = |image: &[u8]| {
        let buffers = Buffers {
            image,
            map: &map,
            store: &mut vec![0; WORDS],
            outputs: &mut [0; 16],
            inputs: &[0; 16],
        };
        run(machine, buffers, 0, 0).number
    };
    assert_eq!(number(&image), 2);
    assert_eq!(number(&encode(&plain(21))), 30);
}

/// 2 comes before all that a reader of the rest could find, in any module.
#[test]
fn two_comes_first() {
    let whole = encode(&plain(22));
    for length in 1..whole.len() {
        expect_refused(&whole[..length], 2);
    }
    for module in 0..22 {
        let bit_map = 1 + 4 * module;
        // A bit map, a code length of 0 and one above 32,767, code that no depths fit and
        // code that is not whole.
        for (offset, byte) in [(0, 8), (0, 255), (2, 0), (1, 128), (3, TRAP), (3, UNLISTED)] {
            let mut image = whole.clone();
            image[bit_map + offset] = byte;
            expect_refused(&image, 2);
            image.truncate(bit_map + offset + 1);
            expect_refused(&image, 2);
        }
    }
    for count in [0, 22, 23, 32, 33, 128, 255] {
        for rest in [&[0][..], &[255; 9], &[0; 300], &[2, 0, 0, 1], &[7; 40]] {
            expect_refused(&[&[count], rest].concat(), 2);
        }
    }
    expect_refused(&[&whole[..], &[0]].concat(), 2);
    // 2 before 7, 9, 10 and 11, and 1 before 2.
    assert_eq!(loaded(&whole, 0).number, 2);
    assert_eq!(start(&whole, &mut []), (2, Machine::default()));
    let buffers = Buffers {
        image: &whole,
        map: &[],
        store: &mut [],
        outputs: &mut [],
        inputs: &[],
    };
    assert_eq!(run(Machine::default(), buffers, 0, 1).number, 2);
    let mut long = vec![22; 65_536];
    expect_refused(&long, 1);
    long.pop();
    expect_refused(&long, 2);
}

/// With 21 the rest is judged as before, in the last module too.
#[test]
fn the_last_module_is_read() {
    let image = encode(&plain(21));
    let begin = image.len() - 4;
    for length in begin..image.len() {
        expect_refused(&image[..length], 3);
    }
    let with = |offset: usize, byte: u8| {
        let mut image = image.clone();
        image[begin + offset] = byte;
        image
    };
    for bit in 3..8 {
        expect_refused(&with(0, 1 << bit), 5);
    }
    expect_refused(&with(2, 0), 6);
    expect_refused(&with(1, 128), 6);
    // A byte, and a module.
    expect_refused(&[&image[..], &[0]].concat(), 4);
    expect_refused(&[&image[..], &image[begin..]].concat(), 4);
    let answer = |image: &[u8], entries: usize| {
        let LoadAnswer {
            number,
            module,
            position,
        } = load(image, &mut vec![0; entries]);
        (number, module, position)
    };
    assert_eq!(answer(&image, image.len()), (0, 0, 0));
    assert_eq!(answer(&image, image.len() - 1), (7, 0, 0));
    assert_eq!(answer(&with(3, TRAP), image.len()), (8, 0, 0));
    assert_eq!(answer(&with(3, UNLISTED), image.len()), (13, 20, 0));
}

/// 20 is the last module that an instruction can name.
#[test]
fn names_of_modules() {
    for opcode in NAMING {
        let words = match opcode {
            0o062 => 1,
            0o063 => 2,
            _ => 0,
        };
        let naming = |module: u8| [vec![1; words], vec![opcode, module, 0, 0o035, 1]].concat();
        for at in [0, 1, 20] {
            let answer = |module: u8| {
                let mut modules = plain(21);
                modules[at] = Source::plain(&naming(module));
                let image = encode(&modules);
                let answer = load(&image, &mut vec![0; image.len()]);
                (answer.number, answer.module, answer.position)
            };
            for module in 0..=20 {
                assert_eq!(answer(module), (0, 0, 0), "{opcode:03o} {module}");
            }
            for module in [21, 22, 31, 32, 255] {
                let place = (13, at as u8, words as u16);
                assert_eq!(answer(module), place, "{opcode:03o} {module}");
            }
        }
    }
}

/// "Word 32 + m is set to module m's base": 21 words, and no more.
#[test]
fn bases_are_copied() {
    let modules: Vec<Source> = (0..21)
        .map(|data_size| Source {
            data_size,
            ..Source::plain(&[RTN])
        })
        .collect();
    let rig = Rig::new(&modules, WORDS);
    let mut base = 128;
    for (word, data_size) in (32..).zip(0..21) {
        assert_eq!(rig.store[word], base, "{word}");
        base += 3 + data_size;
    }
    assert_eq!(rig.store[53..128], [0; 75]);
    assert_eq!(rig.machine.p, base);
    // The least store: Z + 36 words.
    let image = encode(&modules);
    for (words, number) in [(base + 35, 9), (base + 36, 0)] {
        assert_eq!(start(&image, &mut vec![0; words.into()]).0, number);
    }
}

/// Module 0 calls module 20, which calls module 10. All bases are 3 apart: 128, 158 and
/// 188. Z is 191.
fn calling() -> Rig {
    let mut modules = plain(21);
    modules[0] = Source::plain(&[CX, 20, 0, 5, TRAP]);
    modules[20] = Source::plain(&[NOP, CX, 10, 0, RTN]);
    Rig::new(&modules, WORDS)
}

const Z: u16 = 191;

/// By 355 to module 20 and from there, and back both times.
#[test]
fn calls_of_the_last_module() {
    let mut rig = calling();
    let (l, s) = (Z + 8, Z + 12);
    assert_eq!((rig.machine.l, rig.machine.s), (l, s));
    let called = |module: u8, l: u16| {
        move |machine: &mut Machine| {
            (machine.module, machine.pc) = (module, 0);
            (machine.l, machine.s) = (l, l + 4);
        }
    };
    let frame = |at: u16, words: [u16; 3]| [(at, words[0]), (at + 1, words[1]), (at + 2, words[2])];
    // The copies of the bases are not looked at.
    rig.poke(&[(52, 128), (53, Z)]);
    rig.expect_step(called(20, s), &frame(s, [128, l, 0x8003]));
    rig.expect_step(|machine| machine.pc = 1, &[]);
    rig.expect_step(called(10, s + 4), &frame(s + 4, [188, s, 0x8004]));
    let returned = |module: u8, pc: u16, l: u16, s: u16| {
        move |machine: &mut Machine| {
            (machine.module, machine.pc) = (module, pc);
            (machine.l, machine.s) = (l, s);
        }
    };
    rig.expect_step(returned(20, 4, s, s + 4), &[]);
    rig.expect_step(returned(0, 3, l, s), &[]);
    assert_eq!(rig.run(1).count, 1);
    rig.expect_stop(40, 5);
    // The same in one run.
    let answer = calling().run(100);
    assert_eq!((answer.number, answer.code, answer.count), (40, 5, 6));
}

/// There is no module 21, and Z is no base.
#[test]
fn nothing_is_behind_the_last_module() {
    let mut rig = calling();
    rig.machine.module = 20;
    assert_eq!(rig.clone().run(0).number, 30);
    for module in [21, 22, 255] {
        rig.machine.module = module;
        assert_eq!(rig.clone().run(0).number, 11);
    }
    // Back from module 10, at the RTN of module 20.
    let mut rig = calling();
    assert_eq!(rig.run(4).number, 30);
    assert_eq!((rig.machine.module, rig.machine.pc), (20, 4));
    let link = rig.machine.l;
    rig.poke(&[(link, Z)]);
    rig.expect_stop(34, 0);
    rig.poke(&[(link, 188), (link + 2, 0x8000)]);
    assert_eq!(rig.run(1).count, 1);
    assert_eq!((rig.machine.module, rig.machine.pc), (20, 0));
}

/// A transfer to a process in module 20, which saves its base on the way back. With Z as
/// its G there is none.
#[test]
fn transfers_to_the_last_module() {
    let transfer = [0o020, 70, 0o020, 71, TRA, 1, 0o035, 1];
    let rig = |g: u16| {
        let mut modules = plain(21);
        modules[0] = Source::plain(&transfer);
        modules[20] = modules[0].clone();
        let mut rig = Rig::new(&modules, WORDS);
        // The stack at 900 has no word: its count is at 900, and s is 901.
        poke_record(&mut rig, 800, [g, 0, 0, 0, 901, 4096]);
        rig.poke(&[(71, 800), (900, 0)]);
        assert_eq!(rig.run(2).number, 30);
        rig
    };
    let mut good = rig(188);
    assert_eq!(good.run(1).count, 1);
    assert_eq!((good.machine.module, good.machine.p), (20, 800));
    assert_eq!((good.store[70], good.store[usize::from(Z)]), (Z, 128));
    // And back, from word 70 to word 71.
    good.poke(&[(71, Z)]);
    assert_eq!(good.run(3).count, 3);
    assert_eq!((good.machine.module, good.machine.p), (0, Z));
    assert_eq!(good.store[800], 188);
    for g in [Z, Z + 1, 187, 189] {
        rig(g).expect_stop(35, 0);
    }
}
