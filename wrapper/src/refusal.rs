//! The table of numbers that a caller can get back. 14 is the program's alone and not here.

use core::error::Error;
use core::fmt;

/// A refusal, with its number in the table.
#[derive(Clone, Copy, PartialEq, Eq, PartialOrd, Ord, Hash, Debug)]
#[repr(u8)]
pub enum Refusal {
    Field = 1,
    Count = 2,
    Length = 3,
    Degree = 4,
    Heights = 5,
    Symbol = 6,
    Repeated = 7,
    Wanted = 8,
    Short = 9,
    Note = 10,
    Rows = 11,
    Early = 12,
    Unvouched = 13,
    Departure = 15,
}

/// `Ok` is number 0.
pub type Outcome = Result<(), Refusal>;

impl Refusal {
    pub const ALL: [Refusal; 14] = [
        Refusal::Field,
        Refusal::Count,
        Refusal::Length,
        Refusal::Degree,
        Refusal::Heights,
        Refusal::Symbol,
        Refusal::Repeated,
        Refusal::Wanted,
        Refusal::Short,
        Refusal::Note,
        Refusal::Rows,
        Refusal::Early,
        Refusal::Unvouched,
        Refusal::Departure,
    ];

    pub fn number(self) -> u8 {
        self as u8
    }

    fn meaning(self) -> &'static str {
        match self {
            Refusal::Field => "p is not in the list 3, 5, 7, 11, 13, 16, 17, 19, 23, 29, 31",
            Refusal::Count => "n below 3 or above p",
            Refusal::Length => "the word's length is not n",
            Refusal::Degree => "k below 2 or above n-1",
            Refusal::Heights => "m or l out of its range",
            Refusal::Symbol => "a point or symbol is p or more",
            Refusal::Repeated => "two points are equal",
            Refusal::Wanted => "t below 1 or above n",
            Refusal::Short => "a lent buffer is too short",
            Refusal::Note => "the note: 1, 2, 4 or 5 would apply to it, or r is outside 1 to l+1",
            Refusal::Rows => "the rows are not as a turn leaves them",
            Refusal::Early => "finish asked with r below l+1",
            Refusal::Unvouched => "m·t is not above the curve's weight",
            Refusal::Departure => {
                "a boat, day or minute is out of its range, or a message is no departure"
            }
        }
    }
}

impl fmt::Display for Refusal {
    fn fmt(&self, f: &mut fmt::Formatter) -> fmt::Result {
        write!(f, "number {}: {}", self.number(), self.meaning())
    }
}

impl Error for Refusal {}

/// The outcome that a number of the table stands for. The jobs are proved to give no other.
pub(crate) fn outcome(number: u8) -> Outcome {
    if number == 0 {
        return Ok(());
    }
    let mut all = Refusal::ALL.into_iter();
    let refusal = all.find(|refusal| refusal.number() == number);
    Err(refusal.expect("a number of the table"))
}
