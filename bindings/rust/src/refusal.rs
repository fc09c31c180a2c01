//! The refusals of document 01, alone and with what a load or a list of steps says beside the number.

use crate::numbered::numbered;
use std::error::Error;
use std::fmt;

numbered! {
    /// Why a call was refused. A refused call leaves every lent byte as it was, but for the steps of a list before the
    /// refused one.
    Refusal, "refusal":
    FileEnds 1 "file ends in or before a number",
    NotANumber 2 "number not shortest or too large",
    CabinetsOutOfRange 3 "S outside its range",
    UnknownsOutOfRange 4 "V outside its range",
    RecordsOutOfRange 5 "R outside its range",
    TooManyParts 6 "more than 4 parts",
    PartNotAnUnknown 7 "part not an unknown",
    TooManyStatements 8 "E above 64",
    NoSuchCabinet 9 "cabinet not below S",
    NoSuchEntry 10 "side not below V+R",
    BytesLeft 11 "bytes left after the last statement",
    WrongLength 12 "a lent buffer has the wrong length",
    NoSuchPlace 13 "place not below the pending count",
    Waits 14 "the statement waits",
    Clashed 15 "run has clashed",
    ItemsPending 16 "map asked with items pending",
    NotSound 17 "run not sound",
    ListFull 18 "step would leave more than 12,672 items",
    NotAsLoaded 19 "write asked of a sound run that isn't as loaded",
}

impl Error for Refusal {}

impl Refusal {
    /// A call's `number`: 0 is done.
    pub(crate) fn check(number: usize) -> Result<(), Refusal> {
        match number {
            0 => Ok(()),
            _ => Err(Refusal::of(number)),
        }
    }
}

/// A file that was not loaded.
#[derive(Clone, Copy, Debug, PartialEq, Eq, Hash)]
pub struct LoadRefused {
    /// The first fault in reading order.
    pub refusal: Refusal,
    /// Where the faulty number starts, or the first byte left over; 0 if a buffer has the wrong length.
    pub position: usize,
}

/// As the map program prints it, and then the refusal's text.
impl fmt::Display for LoadRefused {
    fn fmt(&self, f: &mut fmt::Formatter<'_>) -> fmt::Result {
        write!(f, "refused {} at {}: {}", self.refusal.number(), self.position, self.refusal)
    }
}

impl Error for LoadRefused {
    fn source(&self) -> Option<&(dyn Error + 'static)> {
        Some(&self.refusal)
    }
}

/// A list of steps that stopped. The steps done stay done.
#[derive(Clone, Copy, Debug, PartialEq, Eq, Hash)]
pub struct StepsRefused {
    /// Why the list, or the place after those done, was refused.
    pub refusal: Refusal,
    /// How many steps were done.
    pub done: usize,
}

impl fmt::Display for StepsRefused {
    fn fmt(&self, f: &mut fmt::Formatter<'_>) -> fmt::Result {
        write!(f, "refused {} after {} steps: {}", self.refusal.number(), self.done, self.refusal)
    }
}

impl Error for StepsRefused {
    fn source(&self) -> Option<&(dyn Error + 'static)> {
        Some(&self.refusal)
    }
}
