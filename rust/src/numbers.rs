//! The numbers of refusals and stops, with their words.

use crate::{MOST_MODULES, PLACE_WORDS};
use std::fmt;

/// Why a call was refused. Nothing was changed, but for the map at [`Refusal::NoDepths`] and [`Refusal::NotWhole`], and at
/// [`Refusal::OutputShort`], where it is filled.
#[derive(Clone, Copy, Debug, PartialEq, Eq, Hash)]
pub enum Refusal {
    ImageSize,
    ModuleCount,
    ImageEnds,
    BytesAfter,
    BitMap,
    Field,
    MapShort,
    NoDepths,
    StoreSize,
    ChannelCount,
    NotAMachine,
    MapUnfit,
    /// Of load with the first module that is not whole and the lowest position at fault in it; of archive without a place.
    NotWhole(Option<Place>),
    OutputShort,
}

/// A position in a module's code.
#[derive(Clone, Copy, Debug, PartialEq, Eq, Hash)]
pub struct Place {
    pub module: u16,
    pub position: u16,
}

/// The refusals without a place, with their numbers and words; a number that ends the words is written behind them.
const REFUSALS: [(Refusal, u16, &str); 14] = [
    (Refusal::ImageSize, 1, "image of 0 or over 65,535 bytes"),
    (Refusal::ModuleCount, 2, "module count 0 or over"),
    (Refusal::ImageEnds, 3, "image ends inside a part"),
    (Refusal::BytesAfter, 4, "bytes after the last module"),
    (Refusal::BitMap, 5, "bit 3 to 7 of a bit map"),
    (Refusal::Field, 6, "a field out of range"),
    (Refusal::MapShort, 7, "map shorter than image"),
    (
        Refusal::NoDepths,
        8,
        "no depths fit the code, which is whole",
    ),
    (Refusal::StoreSize, 9, "W below Z + 36 or over 65,535"),
    (Refusal::ChannelCount, 10, "inputs or outputs not 16 words"),
    (Refusal::NotAMachine, 11, "not a machine"),
    (Refusal::MapUnfit, 12, "map does not fit"),
    (Refusal::NotWhole(None), 13, "the code is not whole"),
    (Refusal::OutputShort, 14, "output shorter than the form"),
];

impl Refusal {
    /// The number of the C functions.
    pub fn number(self) -> u16 {
        self.numbered_words().0
    }

    fn numbered_words(self) -> (u16, &'static str) {
        let placeless = match self {
            Refusal::NotWhole(_) => Refusal::NotWhole(None),
            other => other,
        };
        let row = REFUSALS.iter().find(|row| row.0 == placeless);
        let &(_, number, words) = row.expect("every refusal has a row");
        (number, words)
    }

    /// The refusal of a number that a C function answered to this wrapper, without a place: never 20, since a place's and a machine's words
    /// and the numbers of an answer and of what is written are as many as they must be.
    pub(crate) fn numbered(number: u16) -> Refusal {
        let row = REFUSALS.iter().find(|row| row.1 == number);
        row.unwrap_or_else(|| panic!("{number} is no refusal")).0
    }

    /// Of load, archive and start, which answer 0 where they accept.
    pub(crate) fn accepted(number: u16) -> Result<(), Refusal> {
        match number {
            0 => Ok(()),
            _ => Err(Refusal::numbered(number)),
        }
    }

    /// Of load, with the place that it wrote.
    pub(crate) fn loaded(number: u16, place: [u16; PLACE_WORDS]) -> Result<(), Refusal> {
        let [module, position] = place;
        Refusal::accepted(number).map_err(|refusal| match refusal {
            Refusal::NotWhole(None) => Refusal::NotWhole(Some(Place { module, position })),
            other => other,
        })
    }
}

impl fmt::Display for Refusal {
    fn fmt(&self, f: &mut fmt::Formatter) -> fmt::Result {
        let (number, words) = self.numbered_words();
        write!(f, "refused {number}: {words}")?;
        match self {
            Refusal::ModuleCount => write!(f, " {MOST_MODULES}"),
            Refusal::NotWhole(Some(place)) => write!(f, " ({place})"),
            _ => Ok(()),
        }
    }
}

impl std::error::Error for Refusal {}

impl fmt::Display for Place {
    fn fmt(&self, f: &mut fmt::Formatter) -> fmt::Result {
        write!(f, "module {}, position {}", self.module, self.position)
    }
}

/// How a run stopped. A trap and an end leave everything as before their instruction, at which the machine stands.
#[derive(Clone, Copy, Debug, PartialEq, Eq, Hash)]
pub enum Stop {
    Spent,
    Ended,
    Address,
    StackLimit,
    ReturnMark,
    Process,
    Divisor,
    /// A result that no word holds: signed outside -32,768 to 32,767, unsigned outside 0 to 65,535.
    ResultRange,
    Check,
    Channel,
    /// With the program's own code.
    Program(u16),
}

const STOPS: [(Stop, &str); 10] = [
    (Stop::Spent, "spent"),
    (Stop::Ended, "ended"),
    (Stop::Address, "address"),
    (Stop::StackLimit, "stack limit"),
    (Stop::ReturnMark, "return mark"),
    (Stop::Process, "process"),
    (Stop::Divisor, "divisor"),
    (Stop::ResultRange, "result range"),
    (Stop::Check, "check"),
    (Stop::Channel, "channel"),
];

const FIRST_STOP: u16 = 30;
const PROGRAM: u16 = 40;

impl Stop {
    /// 30 to 40.
    pub fn number(self) -> u16 {
        match STOPS.iter().position(|row| row.0 == self) {
            Some(place) => FIRST_STOP + place as u16,
            None => PROGRAM,
        }
    }

    /// The program's code, else 0.
    pub fn code(self) -> u16 {
        match self {
            Stop::Program(code) => code,
            _ => 0,
        }
    }

    pub(crate) fn numbered(number: u16, code: u16) -> Option<Stop> {
        if number == PROGRAM {
            return Some(Stop::Program(code));
        }
        let place = number.checked_sub(FIRST_STOP)?;
        STOPS.get(usize::from(place)).map(|row| row.0)
    }
}

impl fmt::Display for Stop {
    fn fmt(&self, f: &mut fmt::Formatter) -> fmt::Result {
        match STOPS.iter().find(|row| row.0 == *self) {
            Some((_, words)) => f.write_str(words),
            None => write!(f, "program, code {}", self.code()),
        }
    }
}
