//! The entries of a map.

/// The entry of a position that is not marked.
pub const UNMARKED: u32 = u32::MAX;

/// What a map says of a position that can be reached.
#[derive(Clone, Copy, Debug, PartialEq, Eq, Hash)]
pub struct Mark(u32);

/// The first bit of the saved depths, and the bits of each.
const SAVED: u32 = 11;
const EACH: u32 = 5;

impl Mark {
    /// The mark that an entry is. None where it is [`UNMARKED`], and where it is in no map that fits: a number out of its range, or a bit
    /// that is not used.
    pub fn of(entry: u32) -> Option<Mark> {
        let mark = Mark(entry);
        let in_range = mark.depth() <= 16
            && mark.results() <= 4
            && mark.length() <= 4
            && mark.saved().all(|depth| depth <= 16)
            && entry >> (SAVED + EACH * mark.length()) == 0;
        in_range.then_some(mark)
    }

    /// The words on the expression stack, 0 to 16.
    pub fn depth(self) -> u16 {
        self.bits(0, EACH)
    }

    /// The results of the procedure that the position belongs to, 0 to 4.
    pub fn results(self) -> u16 {
        self.bits(5, 3)
    }

    /// How many words each STORE saved that LODFW is yet to restore, the last STORE first: at most four.
    pub fn saved(self) -> impl Iterator<Item = u16> {
        (0..self.length()).map(move |place| self.bits(SAVED + EACH * place, EACH))
    }

    fn length(self) -> u32 {
        self.bits(8, 3).into()
    }

    fn bits(self, first: u32, count: u32) -> u16 {
        (self.0 >> first & ((1 << count) - 1)) as u16
    }
}
