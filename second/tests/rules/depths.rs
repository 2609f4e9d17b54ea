//! The depth rules: hand cases, and the fewest assignment against all others.

use crate::oracle::{fewest, first_fault};
use crate::rig::{entry_of, procedure, run_number, Rig, FF, FOR_EVER, WORDS};
use second::api::Buffers;
use second::assemble::{encode, Source};
use second::depths::fits;
use second::image::{parse, Procedure};
use second::{load, run};

/// Load's marks, or its refusal with module and position.
type Marks = Result<Vec<u32>, (u8, u8, u16)>;

/// "8 now means that the code is whole and no depths fit."
const UNFIT: Marks = Err((8, 0, 0));

/// 13 with this position of module 0.
fn not_whole(position: u16) -> Marks {
    Err((13, 0, position))
}

/// Load's marks of a single module's code.
fn marks(code: &[u8]) -> Marks {
    module_marks(&[Source::plain(code)])
}

/// A code with an endless jump behind it, which fits at any depth.
fn then_for_ever(code: &[u8]) -> Vec<u8> {
    [code, &FOR_EVER].concat()
}

/// Load's marks of the last module.
fn module_marks(modules: &[Source]) -> Marks {
    let image = encode(modules);
    let mut map = vec![0x77; image.len()];
    let length = modules.last().unwrap().code.len();
    let answer = load(&image, &mut map);
    if answer.number == 0 {
        return Ok(map[image.len() - length..].to_vec());
    }
    assert_eq!(map, vec![FF; image.len()]);
    Err((answer.number, answer.module, answer.position))
}

#[test]
fn operands_lie_in_the_code() {
    assert_eq!(marks(&[0o020]), not_whole(0));
    assert_eq!(marks(&[0o022, 1]), not_whole(0));
    assert_eq!(marks(&[0o020, 1]), not_whole(0));
    assert_eq!(marks(&[0o020, 1, 0o304]), Ok(vec![0, FF, 1]));
    assert_eq!(marks(&[0o022, 1, 2, 0o304]), Ok(vec![0, FF, FF, 1]));
    // A jump that needs no next position needs its operand.
    assert_eq!(marks(&[0o033]), not_whole(0));
    assert_eq!(marks(&[0o035]), not_whole(0));
    assert_eq!(marks(&[0o031, 0xFF]), not_whole(0));
    // Not merely in the image: LIB at the end of module 0.
    assert_eq!(
        module_marks(&[Source::plain(&[0o020]), Source::plain(&[0o354])]),
        not_whole(0)
    );
}

/// LID has four bytes of operands, the longest instruction.
#[test]
fn the_operands_of_lid_lie_in_the_code() {
    let whole = [0o023, 1, 2, 3, 4];
    for length in 1..5 {
        assert_eq!(marks(&whole[..length]), not_whole(0));
        // Bytes of the next module are no operands.
        let cut = Source::plain(&whole[..length]);
        let next = Source::plain(&[0o354; 5]);
        assert_eq!(module_marks(&[cut, next]), not_whole(0));
    }
    // All operands, but no next position.
    assert_eq!(marks(&whole), not_whole(0));
    assert_eq!(
        marks(&[0o023, 1, 2, 3, 4, 0o304]),
        Ok(vec![0, FF, FF, FF, FF, 2])
    );
    // The operand bytes may be marked themselves: a jump back into them.
    assert_eq!(
        marks(&[0o023, 0o336, 0o336, 0o336, 0o336, 0o061, 4, 0o035, 5]),
        UNFIT,
        "reached with depth 2 and with depth 0"
    );
    assert_eq!(
        marks(&[0o023, 0o336, 0o336, 0o336, 0o336, 0o035, 5]),
        Ok(vec![0, 2, 2, 2, 2, 2, FF])
    );
    // Run tests a mark at the code's end too.
    for length in 1..5 {
        let code = [&[0o354], &whole[..length]].concat();
        let mut part = vec![FF; code.len()];
        part[0] = 0;
        assert_eq!(run_number(&code, &part), 30);
        part[1] = 0;
        assert_eq!(run_number(&code, &part), 12);
    }
    let code = [0o354, 0o023, 1, 2, 3, 4, 0o304];
    assert_eq!(run_number(&code, &[0, 0, FF, FF, FF, FF, 2]), 30);
    assert_eq!(run_number(&code, &[0, 14, FF, FF, FF, FF, 16]), 30);
    assert_eq!(run_number(&code, &[0, 15, FF, FF, FF, FF, 16]), 12);
    assert_eq!(run_number(&code, &[0, 0, FF, FF, FF, FF, 1]), 12);
}

/// Instructions of double words, with what they take and leave.
const DOUBLES: [(&[u8], usize, usize); 13] = [
    (&[0o023, 0, 1, 0, 2], 0, 2),
    (&[0o041, 9], 0, 2),
    (&[0o043, 0, 9], 0, 2),
    (&[0o101, 9], 0, 2),
    (&[0o201, 9], 1, 2),
    (&[0o202], 1, 2),
    (&[0o061, 9], 2, 0),
    (&[0o063, 0, 9], 2, 0),
    (&[0o121, 9], 2, 0),
    (&[0o221, 9], 3, 0),
    (&[0o222], 3, 0),
    (&[0o210], 4, 2),
    (&[0o211], 4, 2),
];

#[test]
fn double_words_are_there_and_find_room() {
    for (instruction, taken, left) in DOUBLES {
        for depth in 0..=16 {
            let code = then_for_ever(&[&vec![0o001; depth], instruction].concat());
            let fits = depth >= taken && depth - taken + left <= 16;
            let expected = fits.then(|| {
                let mut marks: Vec<u32> = (0..=depth as u32).collect();
                marks.extend(vec![FF; instruction.len() - 1]);
                marks.extend([(depth + left - taken) as u32, FF]);
                marks
            });
            let expected = expected.map_or(UNFIT, Ok);
            assert_eq!(marks(&code), expected, "{instruction:?} at {depth}");
        }
    }
    // A pair is put over 14 words, not over 15 or 16; LSD takes one before.
    let over = |words: usize, last: &[u8]| then_for_ever(&[&vec![0o001; words], last].concat());
    for load in [&[0o023, 0, 0, 0, 0][..], &[0o041, 0], &[0o101, 0]] {
        assert!(marks(&over(14, load)).is_ok());
        assert_eq!(marks(&over(15, load)), UNFIT);
        assert_eq!(marks(&over(16, load)), UNFIT);
    }
    assert!(marks(&over(15, &[0o202])).is_ok());
    assert_eq!(marks(&over(16, &[0o202])), UNFIT);
    // Sums take four words, not three.
    assert_eq!(marks(&over(3, &[0o210])), UNFIT);
    assert!(marks(&over(4, &[0o210])).is_ok());
}

/// "043 and 063 name a module, which must exist, as 042 and 062 do."
#[test]
fn modules_of_pairs_exist() {
    let code = |words: usize, opcode: u8, module: u8| {
        then_for_ever(&[vec![0o001; words], vec![opcode, module, 9]].concat())
    };
    let other = Source::plain(&[0o354]);
    for (words, opcode) in [(0, 0o043), (2, 0o063)] {
        let alone = |module| marks(&code(words, opcode, module));
        let position = words as u16;
        assert!(alone(0).is_ok());
        for module in [1, 2, 20, 21, 255] {
            assert_eq!(alone(module), not_whole(position));
        }
        let last_of_two = |module| {
            let last = Source::plain(&code(words, opcode, module));
            module_marks(&[other.clone(), last])
        };
        assert!(last_of_two(0).is_ok());
        assert!(last_of_two(1).is_ok());
        assert_eq!(last_of_two(2), Err((13, 1, position)));
        // A later module exists too.
        let first = Source::plain(&code(words, opcode, 1));
        assert!(module_marks(&[first, other.clone()]).is_ok());
        // Where nothing reaches it, any module may stand; run tests a mark.
        let unreached = [&[0o354], &code(0, opcode, 1)[..]].concat();
        assert_eq!(marks(&unreached), Ok(vec![0, FF, FF, FF, FF, FF]));
        let depth = words as u32;
        let left = 2 - depth;
        assert_eq!(run_number(&unreached, &[0, depth, FF, FF, left, FF]), 12);
        let good = [&[0o354], &code(0, opcode, 0)[..]].concat();
        assert_eq!(run_number(&good, &[0, depth, FF, FF, left, FF]), 30);
    }
}

#[test]
fn opcodes_are_listed_where_they_are_reached() {
    assert_eq!(marks(&[0o021]), not_whole(0));
    assert_eq!(marks(&[0o033, 2, 0o021, 0o354]), Ok(vec![0, FF, FF, 0]));
}

#[test]
fn words_taken_are_there() {
    assert_eq!(marks(&then_for_ever(&[0o270])), UNFIT);
    assert_eq!(marks(&then_for_ever(&[0o001, 0o270])), UNFIT);
    assert_eq!(marks(&[0o001, 0o001, 0o270, 0o304]), Ok(vec![0, 1, 2, 1]));
    assert_eq!(marks(&[0o304]), UNFIT);
}

#[test]
fn at_most_16_are_left() {
    // Sixteen literals, COPT puts a seventeenth.
    let code =
        |literals: usize, last: u8| then_for_ever(&[vec![0o001; literals], vec![last]].concat());
    assert!(marks(&code(15, 0o265)).is_ok());
    assert_eq!(marks(&code(16, 0o265)), UNFIT);
    assert!(marks(&code(15, 0o001)).is_ok());
    assert_eq!(marks(&code(16, 0o001)), UNFIT);
    assert!(marks(&code(16, 0o336)).is_ok());
    assert!(marks(&code(16, 0o140)).is_ok());
}

#[test]
fn successors_lie_in_the_code() {
    // A jump may come last, other instructions may not.
    assert_eq!(marks(&[0o336]), not_whole(0));
    assert_eq!(marks(&[0o336, 0o035, 2]), Ok(vec![0, 0, FF]));
    assert_eq!(marks(&[0o035, 2]), not_whole(0));
    assert_eq!(marks(&[0o033, 1]), not_whole(0));
    assert_eq!(marks(&[0o033, 1, 0o354]), Ok(vec![0, FF, 0]));
    assert_eq!(marks(&[0o033, 255, 0o354]), not_whole(0));
    assert_eq!(marks(&[0o031, 0xFF, 0xFE]), not_whole(0));
    assert_eq!(marks(&[0o031, 0xFF, 0xFF]), Ok(vec![0, FF, FF]));
    assert_eq!(marks(&[0o031, 0x80, 0x00]), not_whole(0));
    assert_eq!(marks(&[0o031, 0x7F, 0xFF]), not_whole(0));
    // Both ways of a conditional jump.
    assert_eq!(marks(&[0o001, 0o032, 1]), not_whole(1));
    assert_eq!(marks(&[0o001, 0o032, 2, 0o354]), not_whole(1));
    assert_eq!(
        marks(&[0o001, 0o032, 2, 0o336, 0o354]),
        Ok(vec![0, 1, FF, 0, 0])
    );
    assert_eq!(marks(&[0o001, 0o034, 2]), not_whole(1));
    assert_eq!(marks(&[0o001, 0o034, 2, 0o354]), Ok(vec![0, 1, FF, 0]));
    assert_eq!(
        marks(&[0o001, 0o030, 0xFF, 0xFE, 0o354]),
        Ok(vec![0, 1, FF, FF, 0])
    );
}

#[test]
fn short_circuit_jumps_leave_1_where_they_jump() {
    for opcode in [0o036, 0o037] {
        // The code between puts one word.
        assert_eq!(
            marks(&[0o001, opcode, 2, 0o001, 0o304]),
            Ok(vec![0, 1, FF, 0, 1])
        );
        // With b = 1 both ways meet at once, with different depths.
        assert_eq!(marks(&then_for_ever(&[0o001, opcode, 1])), UNFIT);
        // With b = 0 it goes to its own operand, LI0, at depth 1, which then
        // leads to depth 2 where going on leads to 0.
        assert_eq!(marks(&then_for_ever(&[0o001, opcode, 0])), UNFIT);
    }
}

#[test]
fn operand_bytes_may_be_marked() {
    // JPF 0 goes to its operand, LI0.
    assert_eq!(marks(&[0o033, 0, 0o304]), Ok(vec![0, 0, 1]));
}

#[test]
fn module_and_procedure_operands_exist() {
    for (good, bad) in [
        ([0o027, 0, 9], [0o027, 1, 9]),
        ([0o042, 0, 9], [0o042, 1, 9]),
    ] {
        assert!(marks(&then_for_ever(&good)).is_ok());
        assert_eq!(marks(&then_for_ever(&bad)), not_whole(0));
    }
    assert!(marks(&[0o001, 0o062, 0, 9, 0o354]).is_ok());
    assert_eq!(marks(&[0o001, 0o062, 1, 9, 0o354]), not_whole(1));
    assert!(marks(&[0o360, 0, 0o354]).is_ok());
    assert_eq!(marks(&[0o360, 1, 0o354]), not_whole(0));
    assert_eq!(marks(&[0o361, 0o354]), not_whole(0));
    assert!(marks(&[0o001, 0o356, 0, 0o354]).is_ok());
    assert_eq!(marks(&[0o001, 0o356, 1, 0o354]), not_whole(1));
    assert!(marks(&[0o355, 0, 0, 0o354]).is_ok());
    assert_eq!(marks(&[0o355, 0, 1, 0o354]), not_whole(0));
    assert_eq!(marks(&[0o355, 1, 0, 0o354]), not_whole(0));
}

#[test]
fn a_call_has_just_the_parameters_and_leaves_the_results() {
    // Procedure 1 takes 1 and gives 3: its TRAP is marked 1 + 17 × 3.
    let module = |code: &[u8]| {
        let mut code = code.to_vec();
        code.push(0o304);
        let entry = code.len() as u16 - 1;
        Source {
            procedures: vec![procedure(0, 0, 0), procedure(entry, 1, 3)],
            code,
            ..Source::default()
        }
    };
    let calls = |code: &[u8]| module_marks(&[module(code)]);
    assert_eq!(calls(&[0o361, 0o304]), UNFIT);
    assert_eq!(calls(&[0o001, 0o361, 0o304]), Ok(vec![0, 1, 3, 97]));
    assert_eq!(calls(&[0o001, 0o001, 0o361, 0o304]), UNFIT);
    assert_eq!(calls(&[0o001, 0o360, 1, 0o304]), Ok(vec![0, 1, FF, 3, 97]));
    // CI's link is taken first.
    assert_eq!(calls(&[0o001, 0o356, 1, 0o304]), UNFIT);
    assert_eq!(
        calls(&[0o001, 0o001, 0o356, 1, 0o304]),
        Ok(vec![0, 1, 2, FF, 3, 97])
    );
    assert_eq!(
        calls(&[0o001, 0o355, 0, 1, 0o304]),
        Ok(vec![0, 1, FF, FF, 3, 97])
    );
    assert_eq!(calls(&[0o355, 0, 1, 0o304]), UNFIT);
    // A call may not come last.
    let last = Source {
        procedures: vec![procedure(0, 0, 0)],
        ..Source::plain(&[0o360, 0])
    };
    assert_eq!(module_marks(&[last]), not_whole(0));
}

#[test]
fn every_procedure_is_an_entry() {
    let module = |procedures: &[Procedure], code: &[u8]| Source {
        procedures: procedures.to_vec(),
        ..Source::plain(code)
    };
    // One that is never called, at an unlisted opcode.
    assert_eq!(
        module_marks(&[module(
            &[procedure(0, 0, 0), procedure(1, 0, 0)],
            &[0o354, 0o021]
        )]),
        not_whole(1)
    );
    // Two may share an entry if their parameters agree, and their results.
    let shared = |parameters| {
        [
            procedure(0, 0, 0),
            procedure(1, 2, 0),
            procedure(1, parameters, 0),
        ]
    };
    let code = [0o354, 0o304];
    assert_eq!(module_marks(&[module(&shared(2), &code)]), Ok(vec![0, 2]));
    assert_eq!(module_marks(&[module(&shared(3), &code)]), UNFIT);
    // An entry that the code reaches with another depth.
    let reached = [procedure(0, 0, 0), procedure(1, 2, 0)];
    let code_reached = then_for_ever(&[0o336]);
    assert_eq!(module_marks(&[module(&reached, &code_reached)]), UNFIT);
    // 16 parameters.
    let full = [procedure(0, 0, 0), procedure(1, 16, 0)];
    assert_eq!(module_marks(&[module(&full, &code)]), Ok(vec![0, 16]));
}

#[test]
fn the_largest_code_is_marked_to_its_end() {
    let mut code = vec![0o336; 32_766];
    code.push(0o354);
    assert_eq!(marks(&code), Ok(vec![0; 32_767]));
    // The longest jumps: forward by 32,765 from position 1, and back.
    let mut code = vec![0; 32_767];
    code[..3].copy_from_slice(&[0o031, 0x7F, 0xFB]);
    code[32_764..].copy_from_slice(&[0o031, 0x80, 0x03]);
    let marks = marks(&code).unwrap();
    assert_eq!(marks.iter().filter(|&&mark| mark != FF).count(), 2);
    assert_eq!(marks[32_764], 0);
}

#[test]
fn run_tests_a_lent_map() {
    // LI1, JPF to 5, (NOP, NOP), SLW4, RTN
    let code = [0o001, 0o033, 3, 0o336, 0o336, 0o064, 0o354];
    let fewest = [0, 1, FF, FF, FF, 1, 0];
    assert_eq!(marks(&code).unwrap(), fewest);
    assert_eq!(run_number(&code, &fewest), 30);
    // Marks beyond the fewest are allowed, where they fit.
    assert_eq!(run_number(&code, &[0, 1, FF, FF, 1, 1, 0]), 30);
    assert_eq!(run_number(&code, &[0, 1, FF, 1, 1, 1, 0]), 30);
    assert_eq!(run_number(&code, &[0, 1, FF, 1, FF, 1, 0]), 12);
    assert_eq!(run_number(&code, &[0, 1, FF, FF, 0, 1, 0]), 12);
    assert_eq!(run_number(&code, &[0, 1, FF, 0, 0, 1, 0]), 12);
    // The operand 3 is the opcode LI3.
    assert_eq!(run_number(&code, &[0, 1, 0, 1, 1, 1, 0]), 30);
    assert_eq!(run_number(&code, &[0, 1, 1, 1, 1, 1, 0]), 12);
    // Less than the fewest, or another depth.
    assert_eq!(run_number(&code, &[0, 1, FF, FF, FF, 1, FF]), 12);
    assert_eq!(run_number(&code, &[FF, FF, FF, FF, FF, FF, FF]), 12);
    assert_eq!(run_number(&code, &[FF, 1, FF, FF, FF, 1, 0]), 12);
    assert_eq!(run_number(&code, &[1, 2, FF, FF, FF, 2, 1]), 12);
    // The most words: a TRAP that nothing reaches, and an SLW4 before it.
    let takes = [0o354, 0o064, 0o304];
    assert_eq!(run_number(&takes, &[0, FF, 16]), 30);
    assert_eq!(run_number(&takes, &[0, FF, 0]), 12);
    assert_eq!(run_number(&takes, &[0, 16, 15]), 30);
    assert_eq!(run_number(&takes, &[0, 15, 16]), 12);
}

#[test]
fn image_bytes_outside_the_code_have_ff() {
    let module = Source {
        data_size: 1,
        name: Some(*b"cabinets"),
        procedures: vec![procedure(0, 0, 0)],
        ..Source::plain(&[0o354])
    };
    let good = Rig::new(&[module.clone(), module], WORDS);
    for position in 0..good.image.len() {
        let mut rig = good.clone();
        let inside = rig.map[position] != FF;
        rig.map[position] = if inside { FF } else { 0 };
        assert_eq!(rig.run(0).number, 12, "{position}");
    }
    // Bytes past the image are not looked at.
    let mut rig = good.clone();
    rig.map.extend([0, 0x55, FF]);
    assert_eq!(rig.run(0).number, 30);
}

/// The marks of the lent map count, also beyond the fewest: a return may go
/// to one, and a machine may stand there.
#[test]
fn run_goes_by_the_lent_marks() {
    let code = [0o354, 0o336, 0o354];
    let mut rig = Rig::plain(&code);
    assert_eq!(rig.map[4..], [0, FF, FF]);
    let mark = usize::from(rig.machine.l) + 2;
    rig.store[mark] = 1;
    rig.expect_stop(34, 0);
    rig.map[4..].copy_from_slice(&[0, 0, 0]);
    let answer = rig.run(2);
    assert_eq!((answer.number, answer.count, rig.machine.pc), (30, 2, 2));
}

/// Numbers below a bound, always the same ones for a seed.
fn numbers(mut state: u64) -> impl FnMut(u64) -> u64 {
    move |bound| {
        state = state
            .wrapping_mul(6_364_136_223_846_793_005)
            .wrapping_add(1);
        (state >> 33) % bound
    }
}

/// Small codes of few opcodes: a position's byte is an opcode or an operand.
fn small_code(random: &mut impl FnMut(u64) -> u64) -> Vec<u8> {
    const BYTES: [u8; 15] = [
        0o000, 0o001, 0o002, 0o003, 0o032, 0o033, 0o034, 0o035, 0o036, 0o037, 0o270, 0o265, 0o336,
        0o304, 0o354,
    ];
    small_code_of(&BYTES, random)
}

fn small_code_of(bytes: &[u8], random: &mut impl FnMut(u64) -> u64) -> Vec<u8> {
    let length = 1 + random(5) as usize;
    let mut code: Vec<u8> = (0..length)
        .map(|_| bytes[random(bytes.len() as u64) as usize])
        .collect();
    // Most of them end as a code can.
    match random(4) {
        0 => code[length - 1] = 0o304,
        1 | 2 => code[length - 1] = 0o354,
        _ => {}
    }
    code
}

/// A module of this code with 0 to 2 results. One in three has another
/// procedure, which begins anywhere and may have other results.
fn small_module(code: &[u8], random: &mut impl FnMut(u64) -> u64) -> Source {
    let mut procedures = vec![procedure(0, 0, random(3) as u8)];
    if random(3) == 0 {
        let entry = random(code.len() as u64) as u16;
        procedures.push(procedure(entry, random(3) as u8, random(3) as u8));
    }
    Source {
        procedures,
        ..Source::plain(code)
    }
}

/// "every other fitting assignment marks these positions too, with the same
/// depths", and with the same result counts: tries all assignments of these map
/// entries to a module's code. Answers whether load accepts it, and how many fit.
fn try_every_assignment(module: &Source, values: &[u32]) -> (bool, usize) {
    let image = encode(std::slice::from_ref(module));
    let program = parse(&image).unwrap();
    let fewest = module_marks(std::slice::from_ref(module)).ok();
    let mut map = vec![FF; image.len()];
    let part = program.modules[0].code_range();
    let mut found = 0;
    for choice in 0..values.len().pow(part.len() as u32) {
        let mut rest = choice;
        for mark in &mut map[part.clone()] {
            *mark = values[rest % values.len()];
            rest /= values.len();
        }
        if !fits(&program, &image, &map) {
            continue;
        }
        found += 1;
        let fewest = fewest.as_ref().expect("load refused, but this fits");
        for (mark, least) in map[part.clone()].iter().zip(fewest) {
            assert!(*least == FF || mark == least, "{module:?} {map:?}");
        }
    }
    if let Some(fewest) = &fewest {
        map[part].copy_from_slice(fewest);
        assert!(fits(&program, &image, &map), "{module:?}");
        assert!(found > 0, "{module:?}");
    } else {
        assert_eq!(found, 0, "{module:?}");
    }
    (fewest.is_some(), found)
}

/// Tries every assignment of each module. The choice of modules is a good one:
/// enough of them fit and do not, with this many fitting assignments or more.
fn try_all(modules: impl Iterator<Item = Source>, values: &[u32], assignments: usize) {
    let (mut fitting_codes, mut unfit_codes, mut all) = (0, 0, 0);
    for module in modules {
        let (fitting, found) = try_every_assignment(&module, values);
        fitting_codes += usize::from(fitting);
        unfit_codes += usize::from(!fitting);
        all += found;
    }
    assert!(
        fitting_codes > 200 && unfit_codes > 200 && all > assignments,
        "{fitting_codes} {unfit_codes} {all}"
    );
}

#[test]
fn the_fewest_is_in_every_other() {
    let mut random = numbers(12_345);
    // Five bytes put at most five words.
    let values: Vec<u32> = (0..=6).chain([FF]).collect();
    let modules = (0..1000).map(|_| Source::plain(&small_code(&mut random)));
    try_all(modules, &values, 500);
}

/// The same with results, which marks beyond the fewest may have as they like.
#[test]
fn the_fewest_is_in_every_other_with_results() {
    let mut random = numbers(54_321);
    // Two parameters, and at most one word for each of three bytes.
    let marks = (0..=2).flat_map(|results| (0..=5).map(move |depth| entry_of(depth, results, &[])));
    let values: Vec<u32> = marks.chain([FF]).collect();
    let modules = (0..3000).map(|_| {
        let mut code = small_code(&mut random);
        code.truncate(3);
        small_module(&code, &mut random)
    });
    try_all(modules, &values, 1000);
}

/// What load must answer: 13 before 8.
fn naive_answer(module: &Source) -> Marks {
    let image = encode(std::slice::from_ref(module));
    match first_fault(&parse(&image).unwrap(), &image) {
        Some((module, position)) => Err((13, module, position)),
        None => fewest(&module.code, &module.procedures).map_or(UNFIT, Ok),
    }
}

#[test]
fn the_worklist_agrees_with_naive_sweeps() {
    let mut random = numbers(99);
    let mut accepted = [0; 3];
    for _ in 0..100_000 {
        // Several small codes in a row make longer ones.
        let code: Vec<u8> = (0..1 + random(4))
            .flat_map(|_| small_code(&mut random))
            .collect();
        let module = small_module(&code, &mut random);
        let expected = naive_answer(&module);
        let results = usize::from(module.procedures[0].results);
        accepted[results] += usize::from(expected.is_ok());
        assert_eq!(module_marks(&[module]), expected, "{code:?}");
    }
    assert!(accepted.iter().sum::<usize>() > 5_000, "{accepted:?}");
    assert!(accepted.iter().all(|&count| count > 1_000), "{accepted:?}");
}

/// The same with double words among few others, so that many codes fit.
#[test]
fn the_worklist_agrees_on_double_words() {
    const BYTES: [u8; 12] = [
        0o001, 0o003, 0o023, 0o023, 0o023, 0o202, 0o222, 0o210, 0o033, 0o035, 0o336, 0o336,
    ];
    let mut random = numbers(1976);
    let (mut accepted, mut with_lid) = (0, 0);
    for _ in 0..100_000 {
        let code: Vec<u8> = (0..1 + random(4))
            .flat_map(|_| small_code_of(&BYTES, &mut random))
            .collect();
        let module = small_module(&code, &mut random);
        let expected = naive_answer(&module);
        assert_eq!(module_marks(&[module]), expected, "{code:?}");
        if let Ok(marks) = expected {
            let lid = |(&byte, &mark): (&u8, &u32)| byte == 0o023 && mark != FF;
            accepted += 1;
            with_lid += usize::from(code.iter().zip(&marks).any(lid));
        }
    }
    assert!(
        accepted > 5_000 && with_lid > 1_000,
        "{accepted} {with_lid}"
    );
}

/// Pieces of code that save and restore, in any order; mostly there is a word for
/// the TRAP at the end.
fn saving_code(most: u64, random: &mut impl FnMut(u64) -> u64) -> Vec<u8> {
    const PIECES: [&[u8]; 12] = [
        &[0o001],
        &[0o001],
        &[0o262],
        &[0o262],
        &[0o001, 0o262],
        &[0o001, 0o262],
        &[0o260],
        &[0o001, 0o260],
        &[0o270],
        &[0o361],
        &[0o032, 2],
        &[0o035, 3],
    ];
    const ENDS: [&[u8]; 4] = [&[0o304], &[0o001, 0o304], &[0o354], &[0o035, 1]];
    let mut code = Vec::new();
    for _ in 0..random(most) {
        code.extend(PIECES[random(12) as usize]);
    }
    code.extend(ENDS[random(4) as usize]);
    code
}

/// The same with words that are saved and restored.
#[test]
fn the_fewest_is_in_every_other_with_saved_depths() {
    const LISTS: [&[u32]; 6] = [&[], &[0], &[1], &[2], &[0, 0], &[0, 1]];
    let mut random = numbers(262);
    let marks = LISTS
        .iter()
        .flat_map(|list| (0..=3).map(|depth| entry_of(depth, 0, list)));
    let values: Vec<u32> = marks.chain([FF]).collect();
    let modules = (0..2500).map(|_| {
        let mut code = saving_code(4, &mut random);
        code.truncate(3);
        Source::plain(&code)
    });
    try_all(modules, &values, 500);
}

/// The worklist agrees with naive sweeps on saved depths and calls too. Many
/// codes fit, also with the most that can be saved.
#[test]
fn the_worklist_agrees_on_saved_depths() {
    let mut random = numbers(260);
    let mut accepted = [0; 5];
    for _ in 0..200_000 {
        let code = saving_code(16, &mut random);
        let module = small_module(&code, &mut random);
        let expected = naive_answer(&module);
        if let Ok(marks) = &expected {
            let lengths = marks.iter().filter(|&&mark| mark != FF);
            let most = lengths.map(|mark| mark >> 8 & 7).max().unwrap_or(0);
            accepted[most as usize] += 1;
        }
        assert_eq!(module_marks(&[module]), expected, "{code:?}");
    }
    assert!(accepted.iter().all(|&count| count > 40), "{accepted:?}");
}

/// Run and load agree: every map that load made is one that run takes.
#[test]
fn load_makes_maps_that_run_takes() {
    let image = encode(&[Source::plain(&[0o001, 0o064, 0o033, 2, 0o021, 0o354])]);
    let mut map = vec![0; image.len() + 3];
    assert_eq!(load(&image, &mut map).number, 0);
    let mut store = vec![0; WORDS];
    let (_, machine) = second::start(&image, &mut store);
    let buffers = Buffers {
        image: &image,
        map: &map,
        store: &mut store,
        outputs: &mut [0; 16],
        inputs: &[0; 16],
    };
    let answer = run(machine, buffers, 0, 9);
    assert_eq!((answer.number, answer.count), (31, 3));
}
