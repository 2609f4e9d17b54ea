//! STORE and LODFW: code that nests them, code that A.5 alone refuses, and
//! entries of a map that are no marks.

use super::rng::Rng;
use super::{add_procedure, literals};
use crate::assemble::Source;
use crate::image::Procedure;
use crate::lent::{Rule, BIT_31, DEPTH, FLAWS, LENGTH, RESULTS, SAVED_DEPTH, UNUSED_BIT};
use crate::mark::{saved_bit, Mark, Saved, MOST, MOST_SAVED};
use crate::opcode::*;

/// A function of one parameter that gives it back.
pub const SAME: Procedure = Procedure {
    entry: 0,
    parameters: 1,
    results: 1,
};

/// Adds such a function, and one more procedure that nests STORE and LODFW so
/// many times. Answers the latter's entry.
pub fn add_nested(rng: &mut Rng, modules: &mut [Source], count: usize) -> u16 {
    let module = rng.below(modules.len());
    let source = &mut modules[module];
    let entry = source.code.len() as u16;
    add_procedure(source, Procedure { entry, ..SAME });
    let function = source.procedures.len() - 1;
    source.code.push(RTN);
    let entry = source.code.len() as u16;
    add_procedure(
        source,
        Procedure {
            entry,
            parameters: 0,
            results: 0,
        },
    );
    source.code.extend(nested(rng, module, function, count));
    entry
}

/// Words are saved so many times, and restored in turn below a result. Where the
/// last are 16, the code ends there.
fn nested(rng: &mut Rng, module: usize, function: usize, count: usize) -> Vec<u8> {
    let mut depths = some_depths(rng, count);
    if rng.once_in(4) {
        *depths.last_mut().expect("at least one") = MOST;
    }
    let saved = stores(rng, &depths);
    let mut result = rng.below(16) as u8;
    let mut code = [&saved[..], &[result]].concat();
    // Behind the last STORE there are no words.
    for words in saved.split(|&opcode| opcode == STORE).rev().skip(1) {
        code.extend(some_call(rng, module, function));
        if words.len() == MOST.into() {
            break;
        }
        code.push(LODFW);
        result = add_operators(rng, &mut code, words, result);
    }
    code.push(TRAP);
    code
}

/// The operators of [`nested`].
pub const NESTED_OPERATORS: [u8; 4] = [UADD, USUB, XOR, AND];

/// Operators that make one word of these and a result above them. None goes below
/// 0 or above a byte. Answers that word.
fn add_operators(rng: &mut Rng, code: &mut Vec<u8>, words: &[u8], result: u8) -> u8 {
    words.iter().rev().fold(result, |a, &c| {
        let results = [c.checked_add(a), c.checked_sub(a), Some(c ^ a), Some(c & a)];
        let both = NESTED_OPERATORS.into_iter().zip(results);
        let inside: Vec<(u8, u8)> = both
            .filter_map(|(it, result)| Some((it, result?)))
            .collect();
        let (operator, result) = rng.pick(&inside);
        code.push(operator);
        result
    })
}

/// Depths that can be restored.
pub fn some_depths(rng: &mut Rng, count: usize) -> Vec<u8> {
    (0..count).map(|_| rng.below(MOST.into()) as u8).collect()
}

/// Literals and a STORE for each of these depths.
pub fn stores(rng: &mut Rng, depths: &[u8]) -> Vec<u8> {
    let one = |&depth: &u8| [literals(rng, depth.into()), vec![STORE]].concat();
    depths.iter().flat_map(one).collect()
}

/// A call of the function in any way, or none. It finds its parameter.
fn some_call(rng: &mut Rng, module: usize, function: usize) -> Vec<u8> {
    let (module, number) = (module as u8, function as u8);
    match rng.below(5) {
        0 => vec![CX, module, number],
        1 => vec![rng.below(16) as u8, CI, number],
        2 => vec![CL, number],
        3 if number <= 15 => vec![CL + number],
        _ => vec![],
    }
}

/// Adds a procedure in which marks break one rule of A.5, and nothing else is
/// wrong.
pub fn add_unfit(rng: &mut Rng, module: &mut Source, rule: Rule) {
    let results = rng.below(3) as u8;
    let (code, other) = unfit(rng, rule, results);
    let begin = module.code.len();
    for entry in [Some(0), other].into_iter().flatten() {
        let procedure = Procedure {
            entry: (begin + entry) as u16,
            parameters: 0,
            results,
        };
        add_procedure(module, procedure);
    }
    module.code.extend(code);
}

/// Code without parameters that breaks one rule, and where another entry has to
/// be for that.
pub fn unfit(rng: &mut Rng, rule: Rule, results: u8) -> (Vec<u8>, Option<usize>) {
    let count = match rule {
        Rule::StoreAtFour => MOST_SAVED + 1,
        _ => rng.within(1, MOST_SAVED),
    };
    let mut depths = some_depths(rng, count);
    if rule == Rule::RestoreSixteen {
        depths[count - 1] = MOST;
    }
    let saved = stores(rng, &depths);
    let begin = match rule {
        Rule::StoreAtFour | Rule::Entry => saved,
        Rule::RestoreDepth => {
            let depth = rng.pick(&[0, 2, 2, 3, 15, 16]);
            [saved, literals(rng, depth), vec![LODFW]].concat()
        }
        Rule::RestoreNone => vec![1, LODFW],
        Rule::RestoreSixteen => [&saved[..], &[1, LODFW]].concat(),
        Rule::Return => {
            let code = [saved, literals(rng, results.into()), vec![RTN]].concat();
            return (code, None);
        }
        Rule::Successor => clash(rng),
    };
    let entry = (rule == Rule::Entry).then_some(begin.len());
    ([&begin[..], &[1, TRAP]].concat(), entry)
}

/// Two ways to a position, with other saved depths: LI, JPFC to the second way;
/// the first one, JPF behind the second; the second one.
fn clash(rng: &mut Rng) -> Vec<u8> {
    let count = rng.within(1, MOST_SAVED);
    let one = some_depths(rng, count);
    let mut other = one.clone();
    match rng.below(3) {
        0 => other.clear(),
        1 => other.truncate(count - 1),
        _ => {
            let i = rng.below(count);
            other[i] = (one[i] + rng.within(1, 15) as u8) % MOST;
        }
    }
    let [first, second] = [one, other].map(|depths| stores(rng, &depths));
    let over_first = first.len() as u8 + 3;
    let over_second = second.len() as u8 + 1;
    [
        &[0, JPFC, over_first][..],
        &first,
        &[JPF, over_second],
        &second,
    ]
    .concat()
}

/// Code for a map that marks it beyond the fewest with one flaw, by its index in
/// [`FLAWS`]: a TRAP, which takes one word, or a loop. And its mark without it.
pub fn flawed_code(rng: &mut Rng, flaw: usize) -> (Vec<u8>, Mark) {
    let saved = match flaw {
        DEPTH | RESULTS => rng.below(MOST_SAVED + 1),
        LENGTH => MOST_SAVED,
        SAVED_DEPTH => rng.within(1, MOST_SAVED),
        UNUSED_BIT..BIT_31 => flaw - UNUSED_BIT,
        _ => flaw - BIT_31,
    };
    let mark = Mark {
        depth: rng.within(1, MOST.into()) as u8,
        results: rng.below(5) as u8,
        saved: Saved::of(&some_depths(rng, saved)),
    };
    let code = match flaw {
        DEPTH => vec![TRAP],
        _ => rng
            .pick(&[&[TRAP][..], &[JPB, 1], &[0o336, JPB, 2]])
            .to_vec(),
    };
    (code, mark)
}

/// The mark's entry with one flaw, by its index in [`FLAWS`], where it has as
/// many saved depths as the flaw wants; else with one near it.
pub fn flawed_entry(rng: &mut Rng, mark: Mark, flaw: usize) -> u32 {
    debug_assert!(flaw < FLAWS.len());
    let entry = mark.encode();
    let saved = mark.saved.depths().len();
    let set =
        |first: usize, bits: u32, value: usize| entry & !(bits << first) | (value as u32) << first;
    let above = saved_bit(saved);
    // Often the least that is too much.
    let [more, deeper] = [(5, 7), (17, 31)].map(|(least, most)| {
        let any = rng.within(least, most);
        rng.pick(&[least, any])
    });
    match flaw {
        DEPTH => set(0, 0x1F, deeper),
        RESULTS => set(5, 7, more),
        LENGTH => set(8, 7, more),
        SAVED_DEPTH if saved > 0 => set(saved_bit(rng.below(saved)), 0x1F, deeper),
        UNUSED_BIT..BIT_31 if saved < MOST_SAVED => entry | 1 << rng.within(above, 30),
        _ => entry | 1 << 31,
    }
}

/// The mark with other saved depths: one more, one less, or another one.
pub fn other_saved(rng: &mut Rng, mark: Mark) -> Mark {
    let mut depths = mark.saved.depths().to_vec();
    match (rng.below(3), depths.len()) {
        (0, 1..) => {
            depths.pop();
        }
        (1, 1..) | (_, MOST_SAVED) => {
            let i = rng.below(depths.len());
            depths[i] = (depths[i] + rng.within(1, 16) as u8) % (MOST + 1);
        }
        _ => depths.push(rng.within(0, MOST.into()) as u8),
    }
    Mark {
        saved: Saved::of(&depths),
        ..mark
    }
}
