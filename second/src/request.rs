//! The word of requests: which lines are open, and the words of the store that
//! belong to a line. A.7: "bit i has weight 2 to the i".

/// "Lines are 8 to 15; [...] bits 0 to 7 are ignored and returned as given."
pub const LINES: u16 = 0xFF00;

/// The first line and the last.
pub const FIRST: u8 = 8;
pub const LAST: u8 = 15;

/// The store word that holds lines back: "not in store word 3".
pub const HELD: usize = 3;

/// The bit of a line.
pub fn bit(line: u8) -> u16 {
    1 << line
}

/// The lines that are "in the requests, not in M and not in store word 3".
#[inline(always)]
pub fn open(requests: u16, m: u16, held: u16) -> u16 {
    requests & LINES & !m & !held
}

/// The highest of some lines.
#[inline(always)]
pub fn highest(lines: u16) -> Option<u8> {
    lines.checked_ilog2().map(|line| line as u8)
}

/// The lines among some bits, the lowest first.
pub fn lines(bits: u16) -> impl Iterator<Item = u8> {
    (FIRST..=LAST).filter(move |&line| bits & bit(line) != 0)
}

/// "the target in word 2i"
pub fn target_word(line: u8) -> u16 {
    2 * u16::from(line)
}

/// "the old process to word 2i + 1"
pub fn old_word(line: u8) -> u16 {
    target_word(line) + 1
}
