//! Marks and their map entries: a depth, a result count since A.2, and a list
//! of saved depths since A.5.

use crate::image::Procedure;

/// "all ones is unmarked"
pub const UNMARKED: u32 = u32::MAX;

/// The operand stack has 16 words.
pub const MOST: u8 = 16;

/// A procedure has at most 4 results.
pub const MOST_RESULTS: u8 = 4;

/// "a list of at most four saved depths"
pub const MOST_SAVED: usize = 4;

/// Saved depths, the front first.
#[derive(Clone, Copy, Debug, Default, PartialEq, Eq)]
pub struct Saved {
    length: u8,
    /// Those beyond the length are 0.
    depths: [u8; MOST_SAVED],
}

impl Saved {
    /// "An entry starts with none".
    pub const NONE: Saved = Saved {
        length: 0,
        depths: [0; MOST_SAVED],
    };

    /// These depths, at most four.
    pub fn of(depths: &[u8]) -> Saved {
        let mut saved = Saved::NONE;
        saved.length = depths.len() as u8;
        saved.depths[..depths.len()].copy_from_slice(depths);
        saved
    }

    pub fn depths(&self) -> &[u8] {
        &self.depths[..self.length.into()]
    }

    pub fn front(&self) -> Option<u8> {
        self.depths().first().copied()
    }

    /// The list with one more in front, where there is room.
    pub fn with(&self, depth: u8) -> Option<Saved> {
        let list = [&[depth], self.depths()].concat();
        (list.len() <= MOST_SAVED).then(|| Saved::of(&list))
    }

    /// The list without its front one; an empty one stays so.
    pub fn without_front(&self) -> Saved {
        Saved::of(self.depths().get(1..).unwrap_or_default())
    }
}

/// What a marked position has.
#[derive(Clone, Copy, Debug, PartialEq, Eq)]
pub struct Mark {
    pub depth: u8,
    /// A.2: "a result count of 0 to 4 besides its depth".
    pub results: u8,
    pub saved: Saved,
}

/// The first of the "five bits for each saved depth from the front".
pub const fn saved_bit(place: usize) -> usize {
    11 + 5 * place
}

impl Mark {
    /// An entry is marked "with its parameter count", and with the result
    /// count of its procedure. A.5: it "starts with none" saved.
    pub fn entry(procedure: &Procedure) -> Mark {
        Mark {
            depth: procedure.parameters,
            results: procedure.results,
            saved: Saved::NONE,
        }
    }

    /// "depth in bits 0 to 4, results 5 to 7, list length 8 to 10, then five
    /// bits for each saved depth from the front, unused bits 0".
    pub fn encode(self) -> u32 {
        let [depth, results, length] = [self.depth, self.results, self.saved.length];
        let depths = self.saved.depths.iter().enumerate();
        let list = depths.map(|(i, &depth)| u32::from(depth) << saved_bit(i));
        u32::from(depth) | u32::from(results) << 5 | u32::from(length) << 8 | list.sum::<u32>()
    }

    /// The mark that an entry stands for. All ones is unmarked, and an entry
    /// that no mark has is in no map that fits.
    pub fn decode(entry: u32) -> Option<Mark> {
        let field = |first: usize, bits: usize| (entry >> first & ((1 << bits) - 1)) as u8;
        let length = field(8, 3);
        let depth = |i: usize| {
            if i < length.into() {
                field(saved_bit(i), 5)
            } else {
                0
            }
        };
        let saved = Saved {
            length,
            depths: std::array::from_fn(depth),
        };
        let mark = Mark {
            depth: field(0, 5),
            results: field(5, 3),
            saved,
        };
        let in_range = mark.depth <= MOST
            && mark.results <= MOST_RESULTS
            && usize::from(length) <= MOST_SAVED
            && saved.depths.iter().all(|&depth| depth <= MOST);
        // Unused bits are 0.
        (in_range && mark.encode() == entry).then_some(mark)
    }
}
