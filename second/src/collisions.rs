//! What cases reach of changes of process, by TRANSFER, by a line or by a trap:
//! whether the words that are read and written are the same ones.

use crate::coverage::{named, Reached};
use crate::machine::Machine;
use std::ops::Range;

/// A change of process: the machine before and after it.
pub struct Change<'a> {
    pub old: &'a Machine,
    pub new: &'a Machine,
    /// How many words are saved.
    pub saved: u8,
    /// The address of the word that the old process goes to.
    pub word: u16,
}

/// Counts of what was reached, where at most so many words are saved; each must
/// be.
#[derive(Default)]
pub struct Collisions<const MOST_SAVED: u8> {
    /// By how many words are restored, by how many are saved, and by
    /// [`COLLISIONS`].
    restored: [[u64; COLLISIONS.len()]; 3],
    saved: [[u64; COLLISIONS.len()]; 3],
}

/// The index of a number of words: none, some, the most.
fn size(words: u8, most: u8) -> usize {
    match words {
        0 => 0,
        words if words < most => 1,
        _ => 2,
    }
}

/// The most words that are restored.
const MOST_RESTORED: u8 = 16;

/// Whether a change of process is of a kind.
type Test = fn(&Change) -> bool;

/// What lies over what. A stack is its words and their count. The first ones have
/// this name; the others are behind the name of the word that the old process goes
/// to; the last has nothing that touches.
const COLLISIONS: [(&str, Test); 10] = [
    ("the saved stack over the target's record", |it| {
        meet(it.saved_stack(), it.target_record())
    }),
    ("the saved stack over the target's stack", |it| {
        meet(it.saved_stack(), it.target_stack())
    }),
    ("the saved stack over the own record", |it| {
        meet(it.saved_stack(), it.own_record())
    }),
    ("the own record over the target's record", |it| {
        meet(it.own_record(), it.target_record())
    }),
    ("the own record over the target's stack", |it| {
        meet(it.own_record(), it.target_stack())
    }),
    ("in the target's record", |it| {
        it.target_record().contains(&it.word.into())
    }),
    ("in the target's stack", |it| {
        it.target_stack().contains(&it.word.into())
    }),
    ("in the own record", |it| {
        it.own_record().contains(&it.word.into())
    }),
    ("in the saved stack", |it| {
        it.saved_stack().contains(&it.word.into())
    }),
    ("nothing touching", |it| {
        COLLISIONS[..COLLISIONS.len() - 1]
            .iter()
            .all(|(_, touches)| !touches(it))
    }),
];

/// The names of the collisions, where the old process goes to this word.
fn names(word: &str) -> [String; COLLISIONS.len()] {
    COLLISIONS.map(|(name, _)| match name.strip_prefix("in ") {
        Some(place) => format!("{word} in {place}"),
        None => name.to_string(),
    })
}

impl<const MOST_SAVED: u8> Collisions<MOST_SAVED> {
    pub fn add(&mut self, it: &Change) {
        let restored = &mut self.restored[size(it.new.depth, MOST_RESTORED)];
        let saved = &mut self.saved[size(it.saved, MOST_SAVED)];
        for (i, (_, collides)) in COLLISIONS.iter().enumerate() {
            restored[i] += u64::from(collides(it));
            saved[i] += u64::from(collides(it));
        }
    }

    /// The lines of the report, with titles for none, some and the most words that
    /// are restored, and the same that are saved.
    pub fn reached(&self, titles: [&'static str; 6], word: &str) -> Vec<Reached> {
        let names = names(word);
        let counts = self.restored.iter().chain(&self.saved);
        let lines = titles.into_iter().zip(counts);
        lines
            .map(|(title, counts)| (title, named(&names, counts)))
            .collect()
    }
}

impl Change<'_> {
    pub fn saved_stack(&self) -> Range<usize> {
        saved_stack(self.old, self.saved)
    }

    /// "S = s−1−k": from S up the words that were restored, and their count.
    pub fn target_stack(&self) -> Range<usize> {
        range(self.new.s, usize::from(self.new.depth) + 1)
    }

    pub fn own_record(&self) -> Range<usize> {
        record(self.old.p)
    }

    pub fn target_record(&self) -> Range<usize> {
        record(self.new.p)
    }
}

/// Where so many words of a machine are saved: "the remaining stack from S up, top
/// first, then its count".
pub fn saved_stack(machine: &Machine, words: u8) -> Range<usize> {
    range(machine.s, usize::from(words) + 1)
}

/// The words of a record that are read and written: "P..P+5".
pub fn record(first: u16) -> Range<usize> {
    range(first, 6)
}

fn range(first: u16, length: usize) -> Range<usize> {
    let first = usize::from(first);
    first..first + length
}

fn meet(one: Range<usize>, other: Range<usize>) -> bool {
    one.start < other.end && other.start < one.end
}
