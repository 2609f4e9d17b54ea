//! A.5: "Function calls inside expressions", STORE and LODFW.

use crate::rig::{at_instruction, entry_of, here, module, procedure, run_number, set_stack};
use crate::rig::{Rig, BASE_0, FF, FOR_EVER, H, L, S, WORDS};
use second::api::Buffers;
use second::assemble::{encode, Source};
use second::image::Procedure;
use second::mark::{Mark, Saved};
use second::{desk, load, run, Machine};

const LI1: u8 = 0o001;
const JPFC: u8 = 0o032;
const JPF: u8 = 0o033;
const LODFW: u8 = 0o260;
const STORE: u8 = 0o262;
const TRAP: u8 = 0o304;
const NOP: u8 = 0o336;
const RTN: u8 = 0o354;

/// Load's entries of a code, or None for refusal 8, which leaves all ones over
/// the image's length and the rest as it was.
fn marks_of(procedures: &[Procedure], code: &[u8]) -> Option<Vec<u32>> {
    let image = encode(&[module(procedures, code)]);
    let mut map = vec![0x7777_7777; image.len() + 1];
    let answer = load(&image, &mut map);
    assert_eq!((answer.module, answer.position), (0, 0));
    assert_eq!(map.pop(), Some(0x7777_7777));
    match answer.number {
        0 => Some(map.split_off(image.len() - code.len())),
        8 => {
            assert_eq!(map, vec![FF; image.len()]);
            None
        }
        number => panic!("load {number}"),
    }
}

fn marks(code: &[u8]) -> Option<Vec<u32>> {
    marks_of(&[], code)
}

/// So many words, and then these bytes.
fn words_and(count: usize, rest: &[u8]) -> Vec<u8> {
    [&vec![LI1; count], rest].concat()
}

/// All lists of saved depths, of the lengths 0 to 3; and some of 4, in which
/// each depth stands at each place.
fn lists() -> Vec<Vec<u8>> {
    let mut all = vec![vec![]];
    let mut last = all.clone();
    for _ in 0..3 {
        let longer = |list: &Vec<u8>| {
            let list = list.clone();
            (0..=16).map(move |depth| [&list[..], &[depth]].concat())
        };
        last = last.iter().flat_map(longer).collect();
        all.extend(last.clone());
    }
    let four = |list: &Vec<u8>| [&list[..], &[(list[0] + 3 * list[1] + 5) % 17]].concat();
    all.extend(last.iter().map(four));
    all
}

/// "depth in bits 0 to 4, results 5 to 7, list length 8 to 10, then five bits for
/// each saved depth from the front, unused bits 0": each mark has one entry, and
/// that one stands for it.
#[test]
fn each_mark_has_its_entry() {
    for list in lists() {
        let saved = Saved::of(&list);
        assert_eq!(saved.depths(), list);
        let wide: Vec<u32> = list.iter().map(|&depth| depth.into()).collect();
        for (depth, results) in [(0, 0), (16, 0), (0, 4), (16, 4), (7, 3)] {
            let mark = Mark {
                depth,
                results,
                saved,
            };
            assert_eq!(mark.encode(), entry_of(depth.into(), results.into(), &wide));
            assert_eq!(Mark::decode(mark.encode()), Some(mark));
        }
    }
    for depth in 0..=16 {
        for results in 0..=4 {
            let mark = Mark {
                depth,
                results,
                saved: Saved::of(&[1, 2, 3, 4]),
            };
            assert_eq!(Mark::decode(mark.encode()), Some(mark));
        }
    }
    // By hand: depth 16, results 4, the list 1, 2, 3, 16.
    let list = 1 << 11 | 2 << 16 | 3 << 21 | 16 << 26;
    let expected = Mark {
        depth: 16,
        results: 4,
        saved: Saved::of(&[1, 2, 3, 16]),
    };
    assert_eq!(expected.encode(), 0x490 | list);
    assert_eq!(Mark::decode(0x490 | list), Some(expected));
}

/// Whether an entry stands for a mark, by the paper's sentence.
fn is_mark(entry: u32) -> bool {
    let length = entry >> 8 & 7;
    let used = 11 + 5 * length;
    entry & 31 <= 16
        && entry >> 5 & 7 <= 4
        && length <= 4
        && (0..length).all(|i| entry >> (11 + 5 * i) & 31 <= 16)
        && u64::from(entry) >> used == 0
}

/// Entries of which each field runs over all its values, and each bit alone is
/// another one: those of no mark are none, and the others come back.
#[test]
fn other_entries_are_no_marks() {
    let mut entries = vec![0, FF, FF - 1, FF >> 1, 1 << 31];
    for length in 0..8 {
        for depth in [0, 1, 16, 17, 31] {
            for results in [0, 4, 5, 7] {
                for list in [0, 0x8_4210, 0x8_4211, 0xF_FFFF, 1, 0x10, 0x11, 0x11 << 5] {
                    entries.push(depth | results << 5 | length << 8 | list << 11);
                }
            }
        }
    }
    for entry in entries.clone() {
        entries.extend((0..32).map(|bit| entry ^ 1 << bit));
    }
    let (mut some, mut none) = (0, 0);
    for entry in entries {
        let mark = Mark::decode(entry);
        assert_eq!(mark.is_some(), is_mark(entry), "{entry:08x}");
        assert!(mark.is_none_or(|mark| mark.encode() == entry));
        some += usize::from(mark.is_some());
        none += usize::from(mark.is_none());
    }
    assert!(some > 1000 && none > 10_000, "{some} {none}");
}

/// "STORE adds its depth to the front", "The depth is then 0." 16 words may be
/// saved.
#[test]
fn store_saves_the_depth() {
    for depth in 0..=16 {
        let code = words_and(depth, &[STORE, NOP, LI1, TRAP]);
        let saved = [depth as u32];
        let mut expected: Vec<u32> = (0..=depth as u32).collect();
        expected.extend([0, 0, 1].map(|depth| entry_of(depth, 0, &saved)));
        assert_eq!(marks(&code), Some(expected));
    }
}

/// "LODFW removes the front one, which must be at most 15": the result is put
/// over the words. "LODFW needs depth 1".
#[test]
fn lodfw_restores_the_front() {
    for depth in 0..=16 {
        for words in 0..=16 {
            let rest = words_and(words, &[LODFW, FOR_EVER[0], FOR_EVER[1]]);
            let code = words_and(depth, &[&[STORE], &rest[..]].concat());
            let mut expected: Vec<u32> = (0..=depth as u32).collect();
            let inside = |words| entry_of(words, 0, &[depth as u32]);
            expected.extend((0..=words as u32).map(inside));
            expected.extend([depth as u32 + 1, FF]);
            let fits = words == 1 && depth <= 15;
            assert_eq!(marks(&code), fits.then_some(expected), "{depth} {words}");
        }
    }
}

/// "a list of at most four saved depths": a fifth STORE does not fit.
#[test]
fn at_most_four_are_saved() {
    let code = |count| [vec![STORE; count], vec![LI1, TRAP]].concat();
    let expected = [&[][..], &[0], &[0, 0], &[0, 0, 0], &[0, 0, 0, 0]];
    let mut expected: Vec<u32> = expected.iter().map(|list| entry_of(0, 0, list)).collect();
    expected.push(entry_of(1, 0, &[0, 0, 0, 0]));
    assert_eq!(marks(&code(4)), Some(expected));
    assert_eq!(marks(&code(5)), None);
    // The front first: 3, 2, 1, then 4 in front of them.
    let code = [1, 2, 3, 4]
        .map(|depth| words_and(depth, &[STORE]))
        .concat();
    let map = marks(&[&code[..], &[LI1, TRAP]].concat()).unwrap();
    assert_eq!(map[code.len()], entry_of(0, 0, &[4, 3, 2, 1]));
    assert_eq!(
        map[code.len()],
        0x400 | 4 << 11 | 3 << 16 | 2 << 21 | 1 << 26
    );
    // They come back in turn.
    let back = [LI1, LODFW, TRAP];
    let map = marks(&[&code[..], &back].concat()).unwrap();
    assert_eq!(map[code.len() + 2], entry_of(5, 0, &[3, 2, 1]));
}

/// "LODFW removes the front one": there must be one.
#[test]
fn lodfw_needs_saved_depths() {
    assert_eq!(marks(&[LI1, LODFW, TRAP]), None);
    assert!(marks(&[STORE, LI1, LODFW, TRAP]).is_some());
    assert_eq!(marks(&[STORE, LI1, LODFW, LODFW, TRAP]), None);
    assert!(marks(&[STORE, STORE, LI1, LODFW, LODFW, TRAP]).is_some());
}

/// "An entry starts with none, and RTN needs none." TRAP needs nothing.
#[test]
fn a_return_needs_none_saved() {
    for results in 0..=4 {
        let own = [procedure(0, 0, results)];
        let return_with = |code: &[u8], put: u8| {
            let code = [code, &vec![LI1; put.into()], &[RTN]].concat();
            marks_of(&own, &code)
        };
        assert!(return_with(&[], results).is_some());
        assert_eq!(return_with(&[STORE], results), None);
        assert_eq!(return_with(&[LI1, STORE], results), None);
        // The result is one of those promised.
        let restored = return_with(&[STORE, LI1, LODFW], results.saturating_sub(1));
        assert_eq!(restored.is_some(), results > 0);
        assert!(marks_of(&own, &[STORE, LI1, TRAP]).is_some());
    }
}

/// "Every other instruction passes its list on": jumps to both of their
/// successors, and the results too.
#[test]
fn other_instructions_pass_the_list_on() {
    // LI1, STORE, LI1, JPFC to the TRAP, LI1, LI1, UADD, JPF to itself, LI1, TRAP.
    let code = [
        LI1, STORE, LI1, JPFC, 7, LI1, LI1, 0o270, JPF, 2, NOP, LI1, TRAP,
    ];
    let with = |depth| entry_of(depth, 2, &[1]);
    let expected = vec![
        entry_of(0, 2, &[]),
        entry_of(1, 2, &[]),
        with(0),
        with(1),
        FF,
        with(0),
        with(1),
        with(2),
        with(1),
        FF,
        FF,
        with(0),
        with(1),
    ];
    // Two ways with other depths to the same LI1.
    assert_eq!(marks_of(&[procedure(0, 0, 2)], &code), None);
    let mut right = code;
    right[9] = 3;
    assert_eq!(marks_of(&[procedure(0, 0, 2)], &right), Some(expected));
}

/// "a call to the next position": the callee's entry has none, and its results
/// are the depth there.
#[test]
fn a_call_passes_the_list_to_the_next_position() {
    let calls: [&[u8]; 4] = [&[0o361], &[0o360, 1], &[0o355, 0, 1], &[LI1, 0o356, 1]];
    for call in calls {
        // LI1, LI1, STORE, LI1, the call, LODFW, TRAP; the function returns.
        let code = [&[LI1, LI1, STORE, LI1], call, &[LODFW, TRAP, RTN]].concat();
        let entry = code.len() as u16 - 1;
        let procedures = [procedure(0, 0, 4), procedure(entry, 1, 1)];
        let map = marks_of(&procedures, &code).unwrap();
        let behind = 4 + call.len();
        assert_eq!(map[4], entry_of(1, 4, &[2]));
        assert_eq!(map[behind], entry_of(1, 4, &[2]));
        assert_eq!(map[behind + 1], entry_of(3, 4, &[]));
        assert_eq!(map[usize::from(entry)], entry_of(1, 1, &[]));
    }
}

/// A position has one list, whichever way leads to it.
#[test]
fn lists_agree_where_ways_meet() {
    // LI1, JPFC to the second way, the first one, JPF behind the second.
    let ways = |first: &[u8], second: &[u8]| {
        let over_first = first.len() as u8 + 3;
        let over_second = second.len() as u8 + 1;
        let code = [
            &[LI1, JPFC, over_first][..],
            first,
            &[JPF, over_second],
            second,
        ];
        marks(&[&code.concat()[..], &[LI1, TRAP]].concat()).is_some()
    };
    assert!(ways(&[], &[]));
    assert!(ways(&[STORE], &[STORE]));
    assert!(!ways(&[STORE], &[]));
    assert!(!ways(&[LI1, STORE], &[STORE]));
    assert!(!ways(&[STORE, STORE], &[STORE]));
    assert!(!ways(&[LI1, STORE, STORE], &[STORE, LI1, STORE]));
    assert!(!ways(&[LI1, STORE, STORE], &[STORE, STORE]));
    assert!(ways(&[LI1, STORE, STORE], &[LI1, STORE, STORE]));
    // An entry has none: code that saves does not run into one.
    let into_entry = |code: &[u8]| {
        let entry = code.len() as u16;
        let procedures = [procedure(0, 0, 0), procedure(entry, 0, 0)];
        marks_of(&procedures, &[code, &[LI1, TRAP]].concat()).is_some()
    };
    assert!(into_entry(&[NOP]));
    assert!(!into_entry(&[STORE]));
}

/// STORE and LODFW are listed for A.3, with a next position.
#[test]
fn they_need_a_next_position() {
    let answer = |code: &[u8]| {
        let image = encode(&[Source::plain(code)]);
        let answer = load(&image, &mut vec![0; image.len()]);
        (answer.number, answer.position)
    };
    assert_eq!(answer(&[NOP, STORE]), (13, 1));
    assert_eq!(answer(&[NOP, LODFW]), (13, 1));
    // What is behind them is followed without regard to depth.
    assert_eq!(answer(&[LODFW, 0o021]), (13, 1));
    assert_eq!(answer(&[STORE, STORE, STORE, STORE, STORE, 0o021]), (13, 5));
    assert_eq!(answer(&[LODFW, RTN]), (8, 0));
}

/// "STORE writes the expression stack from S up, top first, then its count, and
/// raises S".
#[test]
fn store_writes_the_stack() {
    for depth in 0..=16u16 {
        let words: Vec<u16> = (1..=depth).map(|i| 100 * i).collect();
        let mut rig = at_instruction(&[STORE], &words);
        let saved = |machine: &mut Machine| {
            machine.pc = here(&words) + 1;
            machine.s = S + depth + 1;
            set_stack(machine, &[]);
        };
        let mut writes: Vec<(u16, u16)> = (S..).zip(words.iter().rev().copied()).collect();
        writes.push((S + depth, depth));
        rig.expect_step(saved, &writes);
    }
}

/// "beyond H it is trap 33": S + depth + 1 above H.
#[test]
fn store_stops_beyond_h() {
    for depth in [0, 1, 7, 15, 16] {
        let at = |s: u16| {
            let mut rig = at_instruction(&[STORE], &vec![5; depth.into()]);
            rig.machine.s = s;
            rig
        };
        let last = H - depth - 1;
        let mut rig = at(last);
        assert_eq!((rig.run(1).count, rig.machine.s), (1, H));
        at(last + 1).expect_stop(33, 0);
        at(H).expect_stop(33, 0);
    }
    // Sums compared with H are not reduced: the largest store.
    let mut rig = Rig::new(
        &[Source::plain(&words_and(16, &[STORE, LI1, TRAP]))],
        65_535,
    );
    assert_eq!(rig.run(16).count, 16);
    rig.machine.s = rig.machine.h;
    rig.expect_stop(33, 0);
    rig.machine.s = rig.machine.h - 17;
    assert_eq!((rig.run(1).count, rig.machine.s), (1, rig.machine.h));
}

/// A rig before a LODFW that finds these words saved, and this result.
fn at_lodfw(words: &[u16], result: u16) -> Rig {
    let [high, low] = result.to_be_bytes();
    let code = [STORE, 0o022, high, low, LODFW];
    let mut rig = at_instruction(&code, words);
    assert_eq!(rig.run(2).count, 2);
    rig
}

/// "it takes the result, lowers S past the count and the words, restores them and
/// puts the result on top."
#[test]
fn lodfw_restores_the_words() {
    for depth in 0..=15u16 {
        let words: Vec<u16> = (1..=depth).map(|i| 100 * i).collect();
        let mut rig = at_lodfw(&words, 7);
        rig.expect_step(
            |machine| {
                machine.pc += 1;
                machine.s = S;
                set_stack(machine, &[&words[..], &[7]].concat());
            },
            &[],
        );
    }
}

/// What is restored are the words of the store, whoever wrote them.
#[test]
fn lodfw_reads_the_store() {
    let mut rig = at_lodfw(&[1, 2, 3], 7);
    rig.poke(&[(S, 30), (S + 1, 20), (S + 2, 10), (S + 3, 3)]);
    assert_eq!(rig.run(1).count, 1);
    assert_eq!(rig.stack(), [10, 20, 30, 7]);
    // Elsewhere too: S may have been moved.
    let mut rig = at_lodfw(&[1, 2, 3], 7);
    rig.poke(&[(4, 6), (5, 5), (6, 4), (7, 3)]);
    rig.machine.s = 8;
    assert_eq!(rig.run(1).count, 1);
    assert_eq!((rig.stack(), rig.machine.s), (&[4, 5, 6, 7][..], 4));
}

/// "At run time a count other than the recorded front, or fewer words below S, is
/// trap 34."
#[test]
fn lodfw_stops_at_another_count() {
    for depth in [0, 1, 3, 15] {
        let at = || at_lodfw(&vec![9; depth.into()], 7);
        let count = S + depth;
        let others = [
            depth + 1,
            depth.wrapping_sub(1),
            depth + 256,
            16,
            17,
            65_535,
        ];
        for other in others {
            let mut rig = at();
            rig.poke(&[(count, other)]);
            rig.expect_stop(34, 0);
            rig.poke(&[(count, depth)]);
            assert_eq!(rig.run(1).count, 1);
        }
        // Fewer words below S than the right count says.
        for s in 0..=depth {
            let mut rig = at();
            rig.machine.s = s;
            if s > 0 {
                rig.poke(&[(s - 1, depth)]);
            }
            rig.expect_stop(34, 0);
        }
        let mut rig = at();
        rig.machine.s = depth + 1;
        rig.poke(&[(depth, depth)]);
        assert_eq!((rig.run(1).count, rig.machine.s), (1, 0));
        // S raised in between, by an ENTR or by hand: the word below is no count.
        let mut rig = at();
        rig.machine.s += 1;
        rig.poke(&[(count + 1, 16)]);
        rig.expect_stop(34, 0);
    }
}

/// The front is that of the LODFW's own position, in the lent map: the words of
/// an outer STORE are not restored by an inner LODFW.
#[test]
fn the_front_is_the_positions_own() {
    // LI1, STORE, LI1, LI1, STORE, LI1, LODFW, TRAP.
    let code = [LI1, STORE, LI1, LI1, STORE, LI1, LODFW, TRAP];
    let mut rig = Rig::plain(&code);
    assert_eq!(rig.run(6).count, 6);
    assert_eq!(rig.map[4 + 6], entry_of(1, 0, &[2, 1]));
    let s = rig.machine.s;
    // The outer one: its count is 1.
    rig.machine.s -= 3;
    rig.expect_stop(34, 0);
    rig.machine.s = s;
    assert_eq!(rig.run(1).count, 1);
    assert_eq!(rig.machine.depth, 3);
    // The same code behind a RTN, marked with other lists.
    let code = [RTN, LI1, LODFW, FOR_EVER[0], FOR_EVER[1]];
    for front in 0..=15u32 {
        let mut rig = Rig::plain(&code);
        let inside = |depth| entry_of(depth, 0, &[front, 16]);
        let behind = entry_of(front + 1, 0, &[16]);
        rig.map[5..8].copy_from_slice(&[inside(0), inside(1), behind]);
        rig.machine.pc = 1;
        let s = rig.machine.s;
        rig.poke(&[(s - 1, front as u16)]);
        assert_eq!(rig.run(2).count, 2);
        assert_eq!(u32::from(rig.machine.depth), front + 1);
        assert_eq!(rig.machine.s, s - front as u16 - 1);
    }
}

/// f(1) + f(2) × f(f(3)) with f(x) = x + 1: calls inside expressions, nested.
#[test]
fn nested_calls() {
    let main = [
        0o001, 0o361, // f(1)
        STORE, 0o002, 0o361, LODFW, // f(2), over f(1)
        STORE, 0o003, 0o361, 0o361, LODFW, // f(f(3)), over both
        0o272, 0o270, 0o304,
    ];
    let code = [&main[..], &[0o353, 2, LI1, 0o270, RTN]].concat();
    let procedures = [procedure(0, 0, 0), procedure(main.len() as u16, 1, 1)];
    let mut rig = Rig::new(&[module(&procedures, &code)], WORDS);
    let before = rig.machine;
    let answer = rig.run(1000);
    assert_eq!((answer.number, answer.code), (40, 2 + 3 * 5));
    assert_eq!((rig.machine.s, rig.machine.l), (before.s, before.l));
}

/// "A landing still compares the depth only": a return goes on where other
/// depths are saved, and the LODFW there finds its words or stops.
#[test]
fn a_landing_compares_the_depth_only() {
    let code = [RTN, STORE, LI1, LODFW, FOR_EVER[0], FOR_EVER[1]];
    let mut rig = Rig::plain(&code);
    let part = [0, 0, entry_of(0, 0, &[0]), entry_of(1, 0, &[0]), 1, FF];
    rig.map[4..].copy_from_slice(&part);
    rig.machine.l = 1000;
    rig.poke(&[(1000, BASE_0), (1001, L), (1002, 2)]);
    assert_eq!(rig.run(1).count, 1);
    assert_eq!((rig.machine.pc, rig.machine.s), (2, 1000));
    assert_eq!(rig.run(1).count, 1);
    rig.poke(&[(999, 1)]);
    rig.expect_stop(34, 0);
    rig.poke(&[(999, 0)]);
    assert_eq!((rig.run(1).count, rig.machine.s), (1, 999));
}

/// The same of a restore, and of what a machine is.
#[test]
fn a_restore_and_a_machine_compare_the_depth_only() {
    let code = [
        LI1,
        LI1,
        0o256,
        0,
        RTN,
        LI1,
        LODFW,
        FOR_EVER[0],
        FOR_EVER[1],
    ];
    let mut rig = Rig::plain(&code);
    let inside = |depth| entry_of(depth, 0, &[3, 2]);
    rig.map[9..12].copy_from_slice(&[inside(0), inside(1), entry_of(4, 0, &[2])]);
    let mut other = rig.clone();
    assert_eq!(rig.run(2).count, 2);
    // The process at word 1000, named by word 1; no word is restored.
    rig.poke(&[(1, 1000), (2000, 0)]);
    let record = [BASE_0, 0, 5, 0, 2001, 3000];
    rig.poke(&(1000..).zip(record).collect::<Vec<_>>());
    assert_eq!(rig.run(1).count, 1);
    assert_eq!((rig.machine.pc, rig.machine.depth), (5, 0));
    (other.machine.pc, other.machine.depth) = (6, 1);
    assert_eq!(other.run(0).number, 30);
    other.machine.depth = 3;
    assert_eq!(other.run(0).number, 11);
}

/// Run's number for one entry of a jump to itself behind a RTN, and in place of
/// the only mark that it can have.
fn lent_entry(entry: u32) -> [u8; 2] {
    let code = [RTN, FOR_EVER[0], FOR_EVER[1]];
    [
        run_number(&code, &[0, entry, FF]),
        run_number(&FOR_EVER, &[entry, FF]),
    ]
}

/// Run tests each entry: one that no mark has never fits, though it agrees with
/// itself; a mark fits with any list.
#[test]
fn entries_of_no_mark_are_12() {
    let lists: [&[u32]; 5] = [&[], &[16], &[0, 5], &[1, 2, 3], &[16, 16, 16, 16]];
    for list in lists {
        let good = entry_of(16, 4, list);
        assert_eq!(lent_entry(good), [30, 12]);
        for bit in 0..32 {
            let entry = good ^ 1 << bit;
            let number = if is_mark(entry) { 30 } else { 12 };
            assert_eq!(lent_entry(entry), [number, 12], "{entry:08x}");
        }
    }
    for depth in 0..=31 {
        let number = if depth <= 16 { 30 } else { 12 };
        assert_eq!(lent_entry(depth)[0], number);
        assert_eq!(lent_entry(1 << 8 | depth << 11)[0], number);
        assert_eq!(lent_entry(4 << 8 | depth << 26)[0], number);
        // A TRAP takes a word: 17 would leave 16.
        let trap = if (1..=16).contains(&depth) { 30 } else { 12 };
        assert_eq!(run_number(&[RTN, TRAP], &[0, depth]), trap);
    }
    for results in 0..=7 {
        let number = if results <= 4 { 30 } else { 12 };
        assert_eq!(lent_entry(results << 5)[0], number);
    }
    for length in 0..=7 {
        let number = if length <= 4 { 30 } else { 12 };
        assert_eq!(lent_entry(length << 8)[0], number);
    }
    assert_eq!(lent_entry(FF), [30, 12]);
}

/// Lists for lent maps.
const LISTS: [&[u32]; 6] = [&[], &[0], &[2], &[15, 1], &[16], &[1, 2, 3, 4]];

/// Run's number where a map fits or not.
fn number(fits: bool) -> u8 {
    if fits {
        30
    } else {
        12
    }
}

/// Run tests in a lent map what returns, TRAPs, entries and other instructions
/// make of saved depths.
#[test]
fn run_tests_lists_that_are_passed_on() {
    for list in LISTS {
        let with = |depth| entry_of(depth, 0, list);
        let none = number(list.is_empty());
        assert_eq!(run_number(&[RTN, RTN], &[0, with(0)]), none);
        assert_eq!(run_number(&FOR_EVER, &[with(0), FF]), none);
        assert_eq!(run_number(&[RTN, TRAP], &[0, with(1)]), 30);
        for other in LISTS {
            let code = [RTN, NOP, FOR_EVER[0], FOR_EVER[1]];
            let part = [0, with(3), entry_of(3, 0, other), FF];
            assert_eq!(run_number(&code, &part), number(other == list));
        }
    }
}

/// The same of STORE and LODFW.
#[test]
fn run_tests_lists_that_change() {
    for list in LISTS {
        let with = |depth| entry_of(depth, 0, list);
        // STORE, and behind it depth 0 and one more in front.
        let behind_store = |before: u32, after: u32| {
            let code = [RTN, STORE, FOR_EVER[0], FOR_EVER[1]];
            run_number(&code, &[0, with(before), after, FF])
        };
        let more = [&[5], list].concat();
        if list.len() < 4 {
            assert_eq!(behind_store(5, entry_of(0, 0, &more)), 30);
            assert_eq!(behind_store(4, entry_of(0, 0, &more)), 12);
            assert_eq!(behind_store(5, entry_of(1, 0, &more)), 12);
        }
        assert_eq!(behind_store(5, with(0)), 12);
        // LODFW, and behind it one word more than the front.
        let behind_lodfw = |before: u32, after: u32| {
            let code = [RTN, LODFW, FOR_EVER[0], FOR_EVER[1]];
            run_number(&code, &[0, with(before), after, FF])
        };
        let (front, rest) = list.split_at(list.len().min(1));
        let restored = |depth| entry_of(depth, 0, rest);
        let after = front.first().map_or(1, |front| front + 1).min(16);
        let fits = matches!(front, [0..=15]);
        assert_eq!(behind_lodfw(1, restored(after)), number(fits));
        assert_eq!(behind_lodfw(2, restored(after)), 12);
        assert_eq!(behind_lodfw(1, restored(after - 1)), 12);
        assert_eq!(behind_lodfw(1, with(after)), 12);
    }
}

/// "The desk program's map has 16,384 entries, so a longer image that passes the
/// earlier checks prints refusal 7."
#[test]
fn the_desks_map() {
    let image = |length: usize, last: u8| {
        let mut code = vec![NOP; length - 4];
        code[length - 5] = last;
        encode(&[Source::plain(&code)])
    };
    assert_eq!(image(16_384, RTN).len(), 16_384);
    assert!(desk(&image(16_384, RTN)).starts_with("stop 30 code 0 steps 1000 "));
    assert_eq!(desk(&image(16_385, RTN)), "refused 7\n");
    // Before 13 and 8, and after 1 to 6.
    assert_eq!(desk(&image(16_384, 0o021)), "refused 13\n");
    assert_eq!(desk(&image(16_385, 0o021)), "refused 7\n");
    assert_eq!(desk(&image(16_384, TRAP)), "refused 8\n");
    assert_eq!(desk(&image(16_385, TRAP)), "refused 7\n");
    let mut longer = image(16_385, RTN);
    longer.push(0);
    assert_eq!(desk(&longer), "refused 4\n");
    assert_eq!(desk(&longer[..16_384]), "refused 3\n");
    longer[1] = 8;
    assert_eq!(desk(&longer), "refused 5\n");
}

/// "7 counts entries": fewer than image bytes.
#[test]
fn seven_counts_entries() {
    let image = encode(&[Source::plain(&[LI1, STORE, LI1, TRAP])]);
    assert_eq!(image.len(), 8);
    let mut map = vec![5; 7];
    assert_eq!(load(&image, &mut map).number, 7);
    assert_eq!(map, [5; 7]);
    let mut map = vec![5; 8];
    assert_eq!(load(&image, &mut map).number, 0);
    let rig = Rig::plain(&[LI1, STORE, LI1, TRAP]);
    let number = |entries: usize| {
        let (mut store, mut outputs) = (rig.store.clone(), [0; 16]);
        let buffers = Buffers {
            image: &image,
            map: &map[..entries],
            store: &mut store,
            outputs: &mut outputs,
            inputs: &[0; 16],
        };
        run(rig.machine, buffers, 0, 9).number
    };
    assert_eq!((number(7), number(8)), (7, 40));
}
