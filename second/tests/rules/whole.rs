//! A.3: "Tell bad code from bad depths."

use crate::oracle;
use crate::rig::{FF, FOR_EVER, WORDS};
use second::api::Buffers;
use second::assemble::{encode, Source};
use second::depths::assign;
use second::gen::{self, FULL, SMALL};
use second::image::{parse, Procedure};
use second::opcode::{listed, row};
use second::walk::{first_fault, reached, Cause, Named, Way};
use second::{load, run, start, LoadAnswer, Machine};
use std::time::{Duration, Instant};

const LI1: u8 = 0o001;
const UNLISTED: u8 = 0o021;
const JPFC: u8 = 0o032;
const JPF: u8 = 0o033;
const JPBC: u8 = 0o034;
const JPB: u8 = 0o035;
const UADD: u8 = 0o270;
const TRAP: u8 = 0o304;
const NOP: u8 = 0o336;
const RTN: u8 = 0o354;

const NO_MODULE: Cause = Cause::NoSuch(Named::Module);
const NO_PROCEDURE: Cause = Cause::NoSuch(Named::Procedure);
const NO_TARGET: Cause = Cause::SuccessorOutside(Way::Target);
const NO_NEXT: Cause = Cause::SuccessorOutside(Way::Next);

/// Number, module and position.
type Answer = (u8, u8, u16);

const ACCEPTED: Answer = (0, 0, 0);
const UNFIT: Answer = (8, 0, 0);

fn parts(answer: LoadAnswer) -> Answer {
    (answer.number, answer.module, answer.position)
}

/// Load's answer to an image, "the map filled as for 8": FF over the image's
/// length, and bytes past it unchanged.
fn answer_to(image: &[u8]) -> Answer {
    let length = image.len();
    let mut map = vec![0x77; length + 2];
    let answer = parts(load(image, &mut map));
    assert_eq!(map[length..], [0x77; 2]);
    if answer.0 != 0 {
        assert_eq!(map[..length], vec![FF; length]);
    }
    answer
}

fn answer(modules: &[Source]) -> Answer {
    answer_to(&encode(modules))
}

/// Load's answer to a module of code alone.
fn answer_of(code: &[u8]) -> Answer {
    answer(&[Source::plain(code)])
}

/// 13 with this position of module 0, for this cause.
fn expect_fault(modules: &[Source], position: u16, cause: Cause) {
    let image = encode(modules);
    assert_eq!(answer_to(&image), (13, 0, position), "{modules:?}");
    let fault = first_fault(&parse(&image).unwrap(), &image).unwrap();
    assert_eq!(fault.cause, cause, "{modules:?}");
}

fn expect_fault_of(code: &[u8], position: u16, cause: Cause) {
    expect_fault(&[Source::plain(code)], position, cause);
}

/// A module whose procedures have these entries, no parameters and no results.
fn module(entries: &[u16], code: &[u8]) -> Source {
    let procedure = |&entry: &u16| Procedure {
        entry,
        parameters: 0,
        results: 0,
    };
    Source {
        procedures: entries.iter().map(procedure).collect(),
        ..Source::plain(code)
    }
}

/// Position 0 has an unlisted opcode, position 1 a return. The code follows at
/// position 2, which is the only entry. `answer` tells whether it leads to 0.
fn behind(code: &[u8]) -> Answer {
    answer(&[module(&[2], &[&[UNLISTED, RTN], code].concat())])
}

/// A jump back to position 0 behind so many bytes of [`behind`]'s code.
fn to_0(bytes: usize) -> [u8; 2] {
    [JPB, 3 + bytes as u8]
}

/// "The marked case 02 now reads 13, module 0, position 0."
#[test]
fn the_marked_case() {
    assert_eq!(answer_to(&[0x01, 0x00, 0x00, 0x01, 0x02]), (13, 0, 0));
    expect_fault_of(&[0x02], 0, NO_NEXT);
}

/// "an unlisted opcode"
#[test]
fn unlisted_opcodes() {
    let listed: Vec<u8> = listed().collect();
    for opcode in 0..=255 {
        // Its operands, if it has any, are 0: module 0, procedure 0, and jumps
        // to the operand, LI0. Sixteen procedures can be called.
        let module = module(&[0; 16], &[NOP, opcode, 0, 0, 0, 0, RTN]);
        if listed.contains(&opcode) {
            let number = answer(&[module]).0;
            assert!(number == 0 || number == 8, "{opcode:03o}");
        } else {
            expect_fault(&[module], 1, Cause::UnlistedOpcode);
        }
    }
    // 357 is no call.
    assert!(!listed.contains(&0o357));
}

/// "operands outside the code"
#[test]
fn operands_outside() {
    for opcode in listed() {
        let length = usize::from(row(opcode).length);
        for operands in 0..length - 1 {
            let cut = [vec![NOP, opcode], vec![0; operands]].concat();
            expect_fault_of(&cut, 1, Cause::OperandsOutside);
            // Not merely in the image.
            let modules = [Source::plain(&cut), Source::plain(&[RTN; 5])];
            expect_fault(&modules, 1, Cause::OperandsOutside);
        }
    }
}

/// "a missing module": 027, 042, 062, 043, 063 and 355.
#[test]
fn missing_modules() {
    for opcode in [0o027, 0o042, 0o062, 0o043, 0o063, 0o355] {
        let main = |m: u8| Source::plain(&[NOP, opcode, m, 0, RTN]);
        let others = |count: usize| vec![Source::plain(&[RTN]); count];
        for count in [1, 2, 20, 21] {
            let modules = |m: u8| [vec![main(m)], others(count - 1)].concat();
            assert_ne!(answer(&modules(0)).0, 13);
            assert_ne!(answer(&modules(count as u8 - 1)).0, 13);
            expect_fault(&modules(count as u8), 1, NO_MODULE);
            expect_fault(&modules(255), 1, NO_MODULE);
        }
    }
    // The second operand byte names none, nor does that of another opcode.
    assert_eq!(answer_of(&[0o042, 0, 255, TRAP]), ACCEPTED);
    assert_eq!(answer_of(&[0o040, 255, TRAP]), ACCEPTED);
}

/// "a missing [...] procedure": 355, 356, 360 and 361 to 377.
#[test]
fn missing_procedures() {
    for count in [1, 2, 15, 16, 255] {
        let entries = vec![0; count];
        let main = |code: &[u8]| [module(&entries, &[code, &[RTN]].concat())];
        let exists = |code: &[u8]| assert_ne!(answer(&main(code)).0, 13, "{code:?}");
        let is_missing = |code: &[u8]| expect_fault(&main(code), 0, NO_PROCEDURE);
        let last = (count - 1) as u8;
        for opcode in [0o356, 0o360] {
            exists(&[opcode, 0]);
            exists(&[opcode, last]);
            is_missing(&[opcode, last + 1]);
            is_missing(&[opcode, 255]);
        }
        exists(&[0o355, 0, last]);
        is_missing(&[0o355, 0, last + 1]);
        for number in 1..=15 {
            let call = [0o360 + number];
            if usize::from(number) < count {
                exists(&call);
            } else {
                is_missing(&call);
            }
        }
    }
    // 355 looks into the module that it names, the others into their own.
    let one = |code: &[u8]| module(&[0], code);
    let other = module(&[0, 0, 0], &[RTN]);
    let beside = |code: &[u8]| [one(code), other.clone()];
    assert_eq!(answer(&beside(&[0o355, 1, 2, RTN])), ACCEPTED);
    expect_fault(&beside(&[0o355, 1, 3, RTN]), 0, NO_PROCEDURE);
    expect_fault(&beside(&[0o355, 0, 2, RTN]), 0, NO_PROCEDURE);
    expect_fault(&beside(&[0o355, 2, 0, RTN]), 0, NO_MODULE);
    expect_fault(&beside(&[0o361, RTN]), 0, NO_PROCEDURE);
    // A module without records has procedure 0 alone.
    assert_eq!(answer_of(&[0o360, 0, RTN]), ACCEPTED);
    expect_fault_of(&[0o360, 1, RTN], 0, NO_PROCEDURE);
}

/// "a successor outside the code": the target of a jump. Its operand is at
/// position 11; positions 0 and 19 are the first and the last.
#[test]
fn targets_outside() {
    let jump = |opcode: u8, operand: &[u8]| {
        let mut code = [NOP; 20];
        code[10] = opcode;
        code[11..11 + operand.len()].copy_from_slice(operand);
        code[19] = RTN;
        code
    };
    for opcode in [0o030, 0o031] {
        for offset in [-11, -10, 0, 7, 8] {
            let code = jump(opcode, &i16::to_be_bytes(offset));
            assert_ne!(answer_of(&code).0, 13, "{opcode:03o} {offset}");
        }
        for offset in [-32_768, -13, -12, 9, 10, 32_767] {
            let code = jump(opcode, &i16::to_be_bytes(offset));
            expect_fault_of(&code, 10, NO_TARGET);
        }
    }
    for opcode in [0o032, 0o033, 0o036, 0o037] {
        for b in [0, 1, 7, 8] {
            assert_ne!(answer_of(&jump(opcode, &[b])).0, 13, "{opcode:03o} {b}");
        }
        for b in [9, 10, 255] {
            expect_fault_of(&jump(opcode, &[b]), 10, NO_TARGET);
        }
    }
    for opcode in [0o034, 0o035] {
        for b in [0, 1, 10, 11] {
            assert_ne!(answer_of(&jump(opcode, &[b])).0, 13, "{opcode:03o} {b}");
        }
        for b in [12, 13, 255] {
            expect_fault_of(&jump(opcode, &[b]), 10, NO_TARGET);
        }
    }
}

/// The next position, of all instructions but RTN, TRAP and the jumps that
/// always jump.
#[test]
fn next_positions_outside() {
    for opcode in listed() {
        let mut last = vec![NOP, opcode];
        last.resize(1 + usize::from(row(opcode).length), 0);
        if matches!(opcode, 0o032..=0o035) {
            // To position 0, or to itself.
            last[2] = if opcode >= 0o034 { 2 } else { 0 };
        }
        let module = [module(&[0; 16], &last)];
        match opcode {
            RTN | TRAP => assert_ne!(answer(&module).0, 13),
            0o031 | JPF => {
                // The operand is LI0, whose next position may be outside.
                let position = last.len() as u16 - 1;
                expect_fault(&module, position, NO_NEXT);
            }
            JPB => assert_eq!(answer(&module), ACCEPTED),
            _ => expect_fault(&module, 1, NO_NEXT),
        }
    }
}

/// Where several causes apply, the place is the same and the first one is told.
#[test]
fn several_causes_at_one_position() {
    // A missing procedure, and no next position.
    expect_fault_of(&[NOP, 0o360, 9], 1, NO_PROCEDURE);
    expect_fault_of(&[NOP, 0o042, 9, 0], 1, NO_MODULE);
    // Neither a target nor a next position.
    expect_fault_of(&[NOP, JPBC, 9], 1, NO_TARGET);
}

/// "A listed instruction at fault whose operands lie in the code is still
/// followed to its successors there": a missing module or procedure.
#[test]
fn missing_names_are_followed() {
    let calls: [&[u8]; 5] = [
        &[0o355, 9, 0],
        &[0o355, 0, 9],
        &[0o356, 9],
        &[0o360, 9],
        &[0o377],
    ];
    let others: [&[u8]; 5] = [
        &[0o027, 9, 0],
        &[0o042, 9, 0],
        &[0o062, 9, 0],
        &[0o043, 9, 0],
        &[0o063, 9, 0],
    ];
    for instruction in calls.into_iter().chain(others) {
        let code = [instruction, &to_0(instruction.len())].concat();
        assert_eq!(behind(&code), (13, 0, 0), "{instruction:?}");
        // Where it leads to nothing worse, it is named itself.
        let code = [instruction, &[RTN]].concat();
        assert_eq!(behind(&code), (13, 0, 2), "{instruction:?}");
    }
}

/// A jump whose target is outside leads to its next position, "where it has
/// one": 030, 032, 034, 036 and 037. The others have none.
#[test]
fn jumps_to_targets_outside_are_followed() {
    let conditional: [&[u8]; 6] = [
        &[0o030, 0x7F, 0xFF],
        &[0o030, 0x80, 0x00],
        &[0o032, 255],
        &[0o034, 255],
        &[0o036, 255],
        &[0o037, 255],
    ];
    for jump in conditional {
        let code = [jump, &to_0(jump.len())].concat();
        assert_eq!(behind(&code), (13, 0, 0), "{jump:?}");
    }
    let always: [&[u8]; 4] = [
        &[0o031, 0x7F, 0xFF],
        &[0o031, 0x80, 0x00],
        &[0o033, 255],
        &[0o035, 255],
    ];
    for jump in always {
        let code = [jump, &to_0(jump.len())].concat();
        assert_eq!(behind(&code), (13, 0, 2), "{jump:?}");
    }
}

/// And the other way round: a jump at the code's end leads to its target.
#[test]
fn jumps_without_a_next_position_are_followed() {
    assert_eq!(behind(&[0o034, 3]), (13, 0, 0));
    assert_eq!(behind(&[0o034, 2]), (13, 0, 2));
    assert_eq!(behind(&[0o030, 0xFF, 0xFD]), (13, 0, 0));
    assert_eq!(behind(&[0o030, 0xFF, 0xFE]), (13, 0, 2));
    // Forward there is nothing left but the own operand, LI0.
    for opcode in [0o032, 0o036, 0o037] {
        assert_eq!(behind(&[opcode, 0]), (13, 0, 2));
        let image = encode(&[Source::plain(&[opcode, 0])]);
        let program = parse(&image).unwrap();
        assert_eq!(reached(&program, &image, 0), [true, true]);
    }
    // Both outside.
    assert_eq!(behind(&[0o034, 4]), (13, 0, 2));
}

/// "After an unlisted opcode or operands outside the code nothing follows."
#[test]
fn nothing_follows_other_faults() {
    for unlisted in [0o021, 0o203, 0o357] {
        let code = [&[unlisted], &to_0(1)[..]].concat();
        assert_eq!(behind(&code), (13, 0, 2));
        let code = [&[unlisted, 0], &to_0(2)[..]].concat();
        assert_eq!(behind(&code), (13, 0, 2));
    }
    // JP and JPC with the first byte of their operand, which would lead back.
    assert_eq!(behind(&[0o031, 0xFF]), (13, 0, 2));
    assert_eq!(behind(&[0o030, 0xFF]), (13, 0, 2));
    assert_eq!(behind(&[0o035]), (13, 0, 2));
    // A cut LID: its operand bytes are a jump back, which nothing reaches.
    assert_eq!(behind(&[0o023, JPB, 4]), (13, 0, 2));
}

/// "RTN and TRAP have no successor."
#[test]
fn nothing_follows_an_end() {
    for end in [RTN, TRAP] {
        let code = [LI1, end, UNLISTED];
        assert_ne!(answer_of(&code).0, 13);
    }
}

/// "the first such module and the lowest position in it", whatever the order of
/// the walk.
#[test]
fn the_lowest_position_is_named() {
    // Two faults in a row: the second one behind a missing module.
    assert_eq!(answer_of(&[0o042, 9, 0, UNLISTED]), (13, 0, 0));
    // A jump forward to one fault; its next position is a jump back to another.
    let code = [NOP, JPF, 2, UNLISTED, LI1, JPFC, 3, JPB, 5, UNLISTED];
    assert_eq!(answer(&[module(&[4], &code)]), (13, 0, 3));
    // The other way round: the jump goes back, the next position is a fault.
    let code = [UNLISTED, LI1, JPBC, 3, UNLISTED];
    assert_eq!(answer(&[module(&[1], &code)]), (13, 0, 0));
    // Entries in any order.
    let code = [RTN, UNLISTED, UNLISTED, UNLISTED];
    for entries in [
        [1, 2, 3],
        [1, 3, 2],
        [2, 1, 3],
        [2, 3, 1],
        [3, 1, 2],
        [3, 2, 1],
    ] {
        assert_eq!(answer(&[module(&entries, &code)]), (13, 0, 1));
    }
    assert_eq!(answer(&[module(&[0, 3, 2], &code)]), (13, 0, 2));
}

/// "Follow code from the entries": each procedure of each module is one.
#[test]
fn every_entry_is_followed() {
    let code = [RTN, NOP, RTN, NOP, UNLISTED];
    assert_eq!(answer(&[module(&[0], &code)]), ACCEPTED);
    assert_eq!(answer(&[module(&[0, 1], &code)]), ACCEPTED);
    assert_eq!(answer(&[module(&[0, 1, 3], &code)]), (13, 0, 4));
    assert_eq!(answer(&[module(&[3, 0], &code)]), (13, 0, 4));
    // Nobody calls into the second module.
    let main = Source::plain(&[RTN]);
    assert_eq!(answer(&[main.clone(), module(&[3], &code)]), (13, 1, 4));
    let many = [vec![0; 254], vec![3]].concat();
    assert_eq!(answer(&[main, module(&many, &code)]), (13, 1, 4));
}

/// Bytes that nothing reaches may be anything: also a fault behind a jump, an
/// operand, and a code that ends early.
#[test]
fn what_is_not_reached_is_no_fault() {
    assert_eq!(answer_of(&[RTN, UNLISTED]), ACCEPTED);
    assert_eq!(answer_of(&[JPF, 2, UNLISTED, RTN]), ACCEPTED);
    assert_eq!(answer_of(&[0o020, UNLISTED, TRAP]), ACCEPTED);
    assert_eq!(answer_of(&[RTN, 0o042, 9, 0, 0o360, 9, 0o031]), ACCEPTED);
    // The same bytes, reached.
    assert_eq!(answer_of(&[JPF, 1, UNLISTED, RTN]), (13, 0, 2));
    assert_eq!(answer_of(&[NOP, 0o042, 9, 0, 0o360, 9, 0o031]), (13, 0, 1));
    // An operand that is reached too, by a jump back.
    assert_eq!(answer_of(&[0o020, NOP, JPB, 2]), ACCEPTED);
    assert_eq!(answer_of(&[0o020, UNLISTED, JPB, 2]), (13, 0, 1));
}

/// "Follow code [...] without regard to depth."
#[test]
fn depth_plays_no_part() {
    // Whole, but with too few words, with too many, with a link alone for a
    // call. A fault behind it is found.
    let leading: [&[u8]; 3] = [&[UADD], &[0; 17], &[0o356, 0]];
    for code in leading {
        assert_eq!(answer_of(&[code, &FOR_EVER].concat()), UNFIT, "{code:?}");
        let fault = (13, 0, code.len() as u16);
        assert_eq!(answer_of(&[code, &[UNLISTED]].concat()), fault, "{code:?}");
    }
    // A return with a word too many, and a growing loop: nothing is behind.
    let ending: [&[u8]; 2] = [&[LI1, RTN], &[LI1, JPB, 2]];
    for code in ending {
        assert_eq!(answer_of(code), UNFIT, "{code:?}");
        assert_eq!(answer_of(&[code, &[UNLISTED]].concat()), UNFIT, "{code:?}");
    }
    // 036 and 037 with b = 1: both ways meet with other depths.
    for opcode in [0o036, 0o037] {
        assert_eq!(answer_of(&[LI1, opcode, 1, RTN]), UNFIT);
        assert_eq!(answer_of(&[LI1, opcode, 1, UNLISTED]), (13, 0, 3));
    }
    // Two procedures with other parameters or results that share their code.
    let mut shared = module(&[0, 0], &FOR_EVER);
    shared.procedures[1].parameters = 1;
    assert_eq!(answer(&[shared.clone()]), UNFIT);
    shared.code = vec![UNLISTED];
    assert_eq!(answer(&[shared]), (13, 0, 0));
}

/// "8 now means that the code is whole and no depths fit": 13 is judged over
/// all modules before 8 of any.
#[test]
fn modules_in_order() {
    let good = Source::plain(&[RTN]);
    let unfit = Source::plain(&[UADD, RTN]);
    let fault = Source::plain(&[NOP, UNLISTED]);
    let other = Source::plain(&[UNLISTED]);
    let check = |modules: [&Source; 3], expected: Answer| {
        assert_eq!(answer(&modules.map(Source::clone)), expected);
    };
    check([&good, &good, &good], ACCEPTED);
    check([&good, &good, &unfit], UNFIT);
    check([&unfit, &good, &good], UNFIT);
    check([&unfit, &unfit, &unfit], UNFIT);
    check([&good, &good, &fault], (13, 2, 1));
    check([&unfit, &good, &fault], (13, 2, 1));
    check([&good, &unfit, &fault], (13, 2, 1));
    check([&unfit, &fault, &unfit], (13, 1, 1));
    check([&fault, &unfit, &good], (13, 0, 1));
    // The first module, though a later one has a lower position.
    check([&unfit, &fault, &other], (13, 1, 1));
    check([&fault, &other, &other], (13, 0, 1));
    check([&good, &other, &fault], (13, 1, 0));
}

/// The last module and the last position that there are.
#[test]
fn the_highest_places() {
    let mut modules = vec![Source::plain(&[RTN]); 21];
    modules[20] = Source::plain(&[NOP, NOP, UNLISTED]);
    assert_eq!(answer(&modules), (13, 20, 2));
    let mut code = vec![NOP; 32_767];
    assert_eq!(answer_of(&code), (13, 0, 32_766));
    code[32_766] = UNLISTED;
    assert_eq!(answer_of(&code), (13, 0, 32_766));
    code[32_766] = RTN;
    assert_eq!(answer_of(&code), ACCEPTED);
    // In one of the longest images, behind a module without depths.
    let mut unfit = code.clone();
    unfit[0] = UADD;
    let mut last = vec![NOP; 32_761];
    last[32_760] = UNLISTED;
    let image = encode(&[Source::plain(&unfit), Source::plain(&last)]);
    assert_eq!(image.len(), 65_535);
    assert_eq!(answer_to(&image), (13, 1, 32_760));
}

/// "Refused: 13, after 7 and before 8": 1 to 7 come first, and leave the map.
#[test]
fn other_refusals_come_first() {
    let image = encode(&[Source::plain(&[UNLISTED])]);
    assert_eq!(answer_to(&image), (13, 0, 0));
    for length in 0..image.len() {
        let mut map = vec![0x77; length];
        assert_eq!(parts(load(&image, &mut map)), (7, 0, 0));
        assert_eq!(map, vec![0x77; length]);
    }
    let mut map = vec![0x77; image.len()];
    assert_eq!(parts(load(&image, &mut map)), (13, 0, 0));
    assert_eq!(map, vec![FF; image.len()]);
    // A header fault behind the code, with a map that is too short.
    let later = |rest: &[u8]| [&[2, 0, 0, 1, UNLISTED], rest].concat();
    for (image, number) in [
        (vec![], 1),
        (vec![22, 0, 0, 1, UNLISTED], 2),
        (later(&[]), 3),
        (later(&[0, 0, 1]), 3),
        (later(&[0, 0, 1, RTN, 0]), 4),
        (later(&[8]), 5),
        (later(&[0, 0, 0]), 6),
    ] {
        for length in [0, 1, 20] {
            let mut map = vec![0x77; length];
            assert_eq!(parts(load(&image, &mut map)), (number, 0, 0));
            assert_eq!(map, vec![0x77; length]);
        }
    }
}

/// Module and position "are both 0 in any other answer of load", also where
/// there is something to be named in a module and at a position other than 0.
#[test]
fn other_answers_name_no_place() {
    let good = Source::plain(&[RTN]);
    let unfit = Source::plain(&[NOP, UADD, RTN]);
    let fault = Source::plain(&[NOP, UNLISTED]);
    assert_eq!(answer(&[good.clone(), good.clone()]), ACCEPTED);
    assert_eq!(answer(&[good.clone(), unfit]), UNFIT);
    let image = encode(&[good, fault]);
    assert_eq!(answer_to(&image), (13, 1, 1));
    let mut map = vec![0; image.len() - 1];
    assert_eq!(parts(load(&image, &mut map)), (7, 0, 0));
}

/// Start takes no map and does not look at the code. Run's own list stays 7, 12,
/// 9, 10, 11: no map fits where the code is not whole.
#[test]
fn start_and_run_know_no_13() {
    let image = encode(&[Source::plain(&[NOP, UNLISTED])]);
    let mut store = vec![0; WORDS];
    let (number, machine) = start(&image, &mut store);
    assert_eq!(number, 0);
    let number = |machine: Machine, map: &[u32], words: usize, channels: usize| {
        let (mut store, mut outputs) = (vec![0; words], vec![0; channels]);
        let inputs = vec![0; channels];
        let buffers = Buffers {
            image: &image,
            map,
            store: &mut store,
            outputs: &mut outputs,
            inputs: &inputs,
        };
        let answer = run(machine, buffers, 0, 5);
        assert_eq!((answer.machine, answer.count, answer.code), (machine, 0, 0));
        answer.number
    };
    let mut map = [0; 6];
    assert_eq!(parts(load(&image, &mut map)), (13, 0, 1));
    assert_eq!(number(machine, &map, WORDS, 16), 12);
    assert_eq!(number(machine, &map[..5], WORDS, 16), 7);
    let broken = Machine {
        depth: 1,
        ..machine
    };
    assert_eq!(number(broken, &map, 10, 15), 12);
    for first in [0, FF] {
        for second in (0..=255).chain([256, FF]) {
            map[4..].copy_from_slice(&[first, second]);
            assert_eq!(number(machine, &map, WORDS, 16), 12);
        }
    }
}

/// Each position is listed once: hostile code takes no longer than other code.
#[test]
fn hostile_code_takes_linear_time() {
    // Conditional jumps at all positions: to the first one, and to the next.
    let all_to_the_first = |last: u8| {
        let mut code = Vec::new();
        while code.len() + 4 < 32_767 {
            let back = -(code.len() as i16) - 1;
            code.push(0o030);
            code.extend(back.to_be_bytes());
        }
        code.push(last);
        code
    };
    // Jumps to their operands, LI0: every position is reached in two ways.
    let both = [JPBC, 0].repeat(16_383);
    // As many entries as there can be.
    let entries: Vec<u16> = (0..255).map(|i| i * 128).collect();
    let begin = Instant::now();
    for _ in 0..20 {
        let fault = all_to_the_first(UNLISTED);
        let length = fault.len() as u16;
        assert_eq!(answer_of(&fault), (13, 0, length - 1));
        assert_eq!(answer_of(&all_to_the_first(RTN)), UNFIT);
        assert_eq!(answer_of(&both), (13, 0, 32_764));
        let fault = module(&entries, &vec![NOP; 32_767]);
        assert_eq!(answer(&[fault]), (13, 0, 32_766));
    }
    assert!(begin.elapsed() < Duration::from_secs(10));
}

/// Numbers below a bound, always the same ones for a seed.
fn numbers(mut state: u64) -> impl FnMut(usize) -> usize {
    move |bound| {
        state = state
            .wrapping_mul(6_364_136_223_846_793_005)
            .wrapping_add(1);
        (state >> 33) as usize % bound
    }
}

/// Up to three modules of short code, with up to three procedures each. Half of
/// the bytes are small numbers: operands that stay inside, and literals.
fn random_image(random: &mut impl FnMut(usize) -> usize) -> Vec<u8> {
    const OPCODES: [u8; 32] = [
        0o020, 0o022, 0o023, 0o027, 0o030, 0o031, 0o032, 0o033, 0o034, 0o035, 0o036, 0o037, 0o042,
        0o043, 0o062, 0o063, 0o265, 0o270, 0o304, 0o336, 0o336, 0o354, 0o354, 0o355, 0o356, 0o360,
        0o361, 0o362, 0o363, 0o021, 0o260, 0o262,
    ];
    let modules: Vec<Source> = (0..1 + random(3))
        .map(|_| {
            let mut code: Vec<u8> = (0..1 + random(16))
                .map(|_| match random(2) {
                    0 => random(6) as u8,
                    _ => OPCODES[random(OPCODES.len())],
                })
                .collect();
            if random(3) > 0 {
                code.push([RTN, RTN, TRAP][random(3)]);
            }
            let entries: Vec<u16> = (0..random(4)).map(|_| random(code.len()) as u16).collect();
            let mut module = module(&entries, &code);
            for procedure in module.procedures.iter_mut().skip(1) {
                procedure.parameters = random(3) as u8;
                procedure.results = random(3) as u8;
            }
            module
        })
        .collect();
    encode(&modules)
}

/// Compares load with the oracle, and with the depths alone. Answers the number
/// of an image that has a program.
fn compare(image: &[u8]) -> Option<u8> {
    let program = parse(image).ok()?;
    let (number, module, position) = answer_to(image);
    let fault = oracle::first_fault(&program, image);
    assert_eq!(number == 13, fault.is_some(), "{image:?}");
    assert_eq!((module, position), fault.unwrap_or((0, 0)), "{image:?}");
    // Where depths fit, the code is whole.
    let mut map = vec![0; image.len()];
    let fit = assign(&program, image, &mut map);
    assert_eq!(fit, number == 0, "{image:?}");
    if fit {
        let mut marked = Vec::new();
        let mut expected = Vec::new();
        for (number, module) in program.modules.iter().enumerate() {
            let code = &map[module.code_range()];
            let positions = (0..code.len() as i64).filter(|&p| code[p as usize] != FF);
            marked.push(positions.collect::<Vec<i64>>());
            let reached = oracle::reached(&program, image, number);
            expected.push(reached.into_iter().collect::<Vec<i64>>());
        }
        // Marked are just the positions reached.
        assert_eq!(marked, expected, "{image:?}");
    }
    Some(number)
}

/// Counts 0, 8 and 13.
fn compare_all(images: impl Iterator<Item = Vec<u8>>) -> [usize; 3] {
    let mut counts = [0; 3];
    for number in images.filter_map(|image| compare(&image)) {
        let kind = [0, 8, 13].iter().position(|&kind| kind == number);
        counts[kind.unwrap()] += 1;
    }
    counts
}

#[test]
fn random_images_agree_with_the_oracle() {
    let mut random = numbers(1313);
    let mut causes = [0; Cause::ALL.len()];
    let images = (0..200_000).map(|_| {
        let image = random_image(&mut random);
        if let Some(fault) = parse(&image).map_or(None, |it| first_fault(&it, &image)) {
            let kind = Cause::ALL.iter().position(|&cause| cause == fault.cause);
            causes[kind.unwrap()] += 1;
        }
        image
    });
    let counts = compare_all(images);
    assert!(counts.iter().all(|&count| count > 2_000), "{counts:?}");
    assert!(causes.iter().all(|&count| count > 2_000), "{causes:?}");
}

#[test]
fn generated_images_agree_with_the_oracle() {
    let images = |scale, seed, count| gen::cases(scale, seed, count).map(|case| case.image);
    let counts = compare_all(images(&SMALL, 31, 6_000).chain(images(&FULL, 32, 1_500)));
    assert!(counts.iter().all(|&count| count > 300), "{counts:?}");
}

/// The table has the lengths that the oracle goes by.
#[test]
fn the_oracle_has_the_tables_lengths() {
    for opcode in 0..=255 {
        let operands = oracle::operands(opcode).map(|operands| operands as u8 + 1);
        assert_eq!(operands.unwrap_or(0), row(opcode).length, "{opcode:03o}");
    }
}
