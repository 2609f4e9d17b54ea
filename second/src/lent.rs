//! What cases reach of A.5 in lent maps: why run refuses one with 12, for no
//! other reason than saved depths or an entry that no mark has.

use crate::case::{each_run, Case, Outcome};
use crate::coverage::{named, Reached};
use crate::depths::{entry_marks, fits, position_fits, MOST_RESTORED};
use crate::image::{parse, Module, Program};
use crate::mark::{saved_bit, Mark, MOST, MOST_RESULTS, MOST_SAVED, UNMARKED};
use crate::number::*;
use crate::opcode::*;
use std::cell::RefCell;
use std::fmt;

/// Counts of runs refused with 12; each must be reached.
#[derive(Default)]
pub struct LentMaps {
    /// By [`Rule::ALL`].
    rules: [u64; Rule::ALL.len()],
    /// By [`FLAWS`], at one position that load marks, in place of its mark. The
    /// last is a mark with other saved depths.
    replaced: [u64; FLAWS.len() + 1],
    /// By [`FLAWS`], at positions that load does not mark and that lead to one
    /// another alone.
    beyond: [u64; FLAWS.len()],
}

/// A rule of A.5 that marks may break.
#[derive(Clone, Copy, Debug, PartialEq, Eq)]
pub enum Rule {
    /// "a list of at most four saved depths"
    StoreAtFour,
    /// "LODFW needs depth 1"
    RestoreDepth,
    /// "LODFW removes the front one"
    RestoreNone,
    /// "which must be at most 15"
    RestoreSixteen,
    /// "RTN needs none."
    Return,
    /// "Every other instruction passes its list on", and STORE and LODFW theirs.
    Successor,
    /// "An entry starts with none".
    Entry,
}

impl Rule {
    pub const ALL: [Rule; 7] = [
        Rule::StoreAtFour,
        Rule::RestoreDepth,
        Rule::RestoreNone,
        Rule::RestoreSixteen,
        Rule::Return,
        Rule::Successor,
        Rule::Entry,
    ];
}

impl fmt::Display for Rule {
    /// What breaks it.
    fn fmt(&self, f: &mut fmt::Formatter) -> fmt::Result {
        f.write_str(match self {
            Rule::StoreAtFour => "a STORE at four saved depths",
            Rule::RestoreDepth => "a LODFW at another depth than 1",
            Rule::RestoreNone => "a LODFW without saved depths",
            Rule::RestoreSixteen => "a LODFW with 16 words saved",
            Rule::Return => "a RTN with saved depths",
            Rule::Successor => "other saved depths at a position",
            Rule::Entry => "saved depths at an entry",
        })
    }
}

/// Ways in which an entry is no mark. The last ones depend on the number of saved
/// depths.
pub const FLAWS: [&str; 13] = [
    "a depth above 16",
    "results above 4",
    "more than four saved depths",
    "a saved depth above 16",
    "an unused bit below 31 with none saved",
    "an unused bit below 31 with 1 saved",
    "an unused bit below 31 with 2 saved",
    "an unused bit below 31 with 3 saved",
    "bit 31 with none saved",
    "bit 31 with 1 saved",
    "bit 31 with 2 saved",
    "bit 31 with 3 saved",
    "bit 31 with 4 saved",
];
pub const DEPTH: usize = 0;
pub const RESULTS: usize = 1;
pub const LENGTH: usize = 2;
pub const SAVED_DEPTH: usize = 3;
pub const UNUSED_BIT: usize = 4;
pub const BIT_31: usize = 8;

impl LentMaps {
    /// Adds a case and what came of it.
    pub fn add(&mut self, case: &Case, outcome: &Outcome) {
        let Ok(program) = parse(&case.image) else {
            return;
        };
        each_run(case, outcome, |_, run, map| {
            if run.answer.number == MAP_UNFIT {
                let it = Lent {
                    program: &program,
                    image: &case.image,
                    map: &map[..case.image.len()],
                    loaded: &outcome.map[..case.image.len()],
                };
                self.add_map(&it);
            }
        });
    }

    fn add_map(&mut self, it: &Lent) {
        if let Some(rule) = only_rule(it.program, it.image, it.map) {
            self.rules[rule as usize] += 1;
        }
        if let Some(kind) = it.replaced() {
            self.replaced[kind] += 1;
        }
        if let Some(flaw) = it.beyond() {
            self.beyond[flaw] += 1;
        }
    }

    /// The lines of the report: what was reached, its kinds and their counts.
    pub fn reached(&self) -> Vec<Reached> {
        let other = ["a mark with other saved depths"];
        vec![
            (
                "runs refused with 12 only for marks with",
                named(&Rule::ALL, &self.rules),
            ),
            (
                "runs refused with 12 only for one entry with",
                named(&[&FLAWS[..], &other].concat(), &self.replaced),
            ),
            (
                "runs refused with 12 only for entries beyond load's marks with",
                named(&FLAWS, &self.beyond),
            ),
        ]
    }
}

/// The only rule that a map breaks, at one position or several; None where it
/// breaks one beside A.5 or none at all.
pub fn only_rule(program: &Program, image: &[u8], map: &[u32]) -> Option<Rule> {
    let mut rules = Vec::new();
    for index in 0..program.modules.len() {
        rules.extend(broken_rules(program, image, map, index));
    }
    let is_marked = |&place: &usize| map[place] != UNMARKED;
    let in_code = program.modules.iter().flat_map(Module::code_range);
    if (0..map.len()).filter(is_marked).count() != in_code.filter(is_marked).count() {
        return None;
    }
    let first = *rules.first()?;
    first.filter(|_| rules.iter().all(|&rule| rule == first))
}

/// The rules that marks of a module break; None is one beside A.5.
fn broken_rules(program: &Program, image: &[u8], map: &[u32], index: usize) -> Vec<Option<Rule>> {
    let range = program.modules[index].code_range();
    let (code, part) = (&image[range.clone()], &map[range]);
    let entries = entry_marks(program, index);
    let rules = RefCell::new(Vec::new());
    let must_have = |position: usize, mark: Mark| {
        if part[position] != mark.encode() {
            let at_entry = entries.iter().any(|&(entry, _)| entry == position);
            let rule = if at_entry {
                Rule::Entry
            } else {
                Rule::Successor
            };
            let same = Mark::decode(part[position])
                .is_some_and(|other| (other.depth, other.results) == (mark.depth, mark.results));
            rules.borrow_mut().push(same.then_some(rule));
        }
        true
    };
    for &(entry, mark) in &entries {
        must_have(entry, mark);
    }
    for (position, &entry) in part.iter().enumerate().filter(|(_, &e)| e != UNMARKED) {
        let mark = Mark::decode(entry);
        let fits = |mark| position_fits(program, index, code, position, mark, must_have);
        if !mark.is_some_and(fits) {
            let rule = mark.and_then(|mark| broken_rule(code[position], mark));
            rules.borrow_mut().push(rule);
        }
    }
    rules.into_inner()
}

/// The rule that a mark breaks where it stands, if it is the only one.
fn broken_rule(opcode: u8, mark: Mark) -> Option<Rule> {
    match opcode {
        STORE if mark.saved.depths().len() == MOST_SAVED => Some(Rule::StoreAtFour),
        LODFW => match (mark.depth, mark.saved.front()) {
            (1, None) => Some(Rule::RestoreNone),
            (1, Some(MOST)) => Some(Rule::RestoreSixteen),
            (0 | 2.., Some(..=MOST_RESTORED)) => Some(Rule::RestoreDepth),
            _ => None,
        },
        RTN if mark.depth == mark.results => Some(Rule::Return),
        _ => None,
    }
}

/// A map that does not fit, and the one that load left.
struct Lent<'a> {
    program: &'a Program,
    image: &'a [u8],
    map: &'a [u32],
    loaded: &'a [u32],
}

impl Lent<'_> {
    /// The positions in the code with entries that are no marks.
    fn flawed(&self) -> Vec<usize> {
        let positions = self.program.modules.iter().flat_map(Module::code_range);
        positions
            .filter(|&p| self.map[p] != UNMARKED && Mark::decode(self.map[p]).is_none())
            .collect()
    }

    /// The index in [`FLAWS`] or one more, where a single entry is not load's.
    fn replaced(&self) -> Option<usize> {
        let mut differing = (0..self.map.len()).filter(|&p| self.map[p] != self.loaded[p]);
        let (Some(position), None) = (differing.next(), differing.next()) else {
            return None;
        };
        let (entry, loaded) = (self.map[position], self.loaded[position]);
        let mark = Mark::decode(loaded)?;
        match Mark::decode(entry) {
            Some(other) => {
                let saved = other.saved;
                (other == Mark { saved, ..mark }).then_some(FLAWS.len())
            }
            None => {
                let (kind, bits) = flaw(entry).filter(|_| entry != UNMARKED)?;
                ((entry ^ loaded) & !bits == 0).then_some(kind)
            }
        }
    }

    /// The index in [`FLAWS`], where load marks none of the positions with
    /// entries that are no marks, they and others do not lead to one another,
    /// and the map fits with the flaw taken away.
    fn beyond(&self) -> Option<usize> {
        let flawed = self.flawed();
        let mut mended = self.map.to_vec();
        let mut only = None;
        for &position in &flawed {
            let (kind, bits) = flaw(self.map[position])?;
            let beyond = self.loaded[position] == UNMARKED;
            let other = only.is_some_and(|other| other != kind) || !self.leaves_room(position);
            if !beyond || other {
                return None;
            }
            only = Some(kind);
            mended[position] = self.map[position] & !bits | IN_RANGE.get(kind).unwrap_or(&0);
        }
        let fits = fits(self.program, self.image, &mended) && self.apart(&flawed, &mended);
        only.filter(|_| fits)
    }

    /// Whether an instruction "leaves at most 16", also where its depth is none.
    fn leaves_room(&self, position: usize) -> bool {
        let row = row(self.image[position]);
        (self.map[position] & 0x1F) + u32::from(row.left) <= u32::from(MOST + row.taken)
    }

    /// Whether these positions and the others do not lead to one another.
    fn apart(&self, flawed: &[usize], map: &[u32]) -> bool {
        let is_flawed = |position: usize| flawed.binary_search(&position).is_ok();
        self.program
            .modules
            .iter()
            .enumerate()
            .all(|(index, module)| {
                let range = module.code_range();
                let code = &self.image[range.clone()];
                range.clone().all(|place| {
                    let same = |to: usize, _| is_flawed(range.start + to) == is_flawed(place);
                    let position = place - range.start;
                    Mark::decode(map[place]).is_none_or(|mark| {
                        position_fits(self.program, index, code, position, mark, same)
                    })
                })
            })
    }
}

/// What stands for a flaw that is taken away: a depth of 16, no results, four
/// saved depths; for the others 0.
const IN_RANGE: [u32; 3] = [MOST as u32, 0, (MOST_SAVED as u32) << 8];

/// The only way in which an entry is no mark, as an index in [`FLAWS`], and the
/// bits at fault.
fn flaw(entry: u32) -> Option<(usize, u32)> {
    let field = |first: usize, bits: usize| (entry >> first & ((1 << bits) - 1)) << first;
    let over = |first: usize, bits: usize, most: u8| match field(first, bits) {
        value if value > u32::from(most) << first => ((1 << bits) - 1) << first,
        _ => 0,
    };
    let used = (field(8, 3) as usize >> 8).min(MOST_SAVED);
    let above = saved_bit(used);
    let flaws = [
        (DEPTH, over(0, 5, MOST)),
        (RESULTS, over(5, 3, MOST_RESULTS)),
        (LENGTH, over(8, 3, MOST_SAVED as u8)),
        (
            SAVED_DEPTH,
            (0..used).map(|i| over(saved_bit(i), 5, MOST)).sum(),
        ),
        (UNUSED_BIT + used, field(above, 31 - above)),
        (BIT_31 + used, field(31, 1)),
    ];
    let mut found = flaws.into_iter().filter(|&(_, bits)| bits != 0);
    match (found.next(), found.next()) {
        (Some(flaw), None) => Some(flaw),
        _ => None,
    }
}
