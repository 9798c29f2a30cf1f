//! The jobs but turn, which is the note's.

use crate::calls::{self, BACK_BYTES, NOTE_BYTES};
use crate::note::Note;
use crate::refusal::{outcome, Outcome};

/// What start and list are asked about: a received word, with the numbers that belong to it.
#[derive(Clone, Copy, PartialEq, Eq, Debug)]
pub struct Request<'a> {
    /// The field size, a prime or 16: there the bits of a symbol are the coefficients of a polynomial, modulo x^4+x+1.
    pub p: u8,
    pub points: &'a [u8],
    pub word: &'a [u8],
    /// The symbols of a message.
    pub k: u8,
    /// The multiplicity.
    pub m: u8,
    /// The greatest height.
    pub l: u8,
}

/// What start says. After a refusal the note is all zeros.
#[must_use]
#[derive(Clone, PartialEq, Eq, Debug)]
pub struct Started {
    pub outcome: Outcome,
    pub note: Note,
}

/// What finish says of the curve. After a refusal both numbers are zero.
#[must_use]
#[derive(Clone, Copy, PartialEq, Eq, Debug)]
pub struct Finished {
    pub outcome: Outcome,
    pub weight: u8,
    pub height: u8,
}

/// What list says. After a refusal all numbers are zero.
#[must_use]
#[derive(Clone, Copy, PartialEq, Eq, Debug)]
pub struct Near {
    pub outcome: Outcome,
    /// The messages listed, at most l.
    pub count: u8,
    /// All updates made.
    pub updates: u16,
    /// The curve's weight.
    pub weight: u8,
}

/// What a job hands back beside its number, zero where it has none.
#[derive(Default)]
pub(crate) struct Back {
    bytes: [u8; BACK_BYTES],
}

impl Back {
    pub(crate) fn bytes(&mut self) -> &mut [u8; BACK_BYTES] {
        &mut self.bytes
    }

    pub(crate) fn updates(&self) -> u16 {
        u16::from_le_bytes([self.bytes[0], self.bytes[1]])
    }

    fn weight(&self) -> u8 {
        self.bytes[2]
    }

    fn height(&self) -> u8 {
        self.bytes[3]
    }

    fn count(&self) -> u8 {
        self.bytes[4]
    }
}

/// Encodes a message of k symbols: one symbol of the word for each point. Refusals: 1, 2, 4, 6, 7, 9.
pub fn encode(p: u8, points: &[u8], message: &[u8], word: &mut [u8]) -> Outcome {
    outcome(calls::encode(p, points, message, word))
}

/// Starts an interpolation in the rows, [`rows_bytes`](crate::rows_bytes) of them. Refusals: 1 to 7, 9.
pub fn start(request: &Request, rows: &mut [u8]) -> Started {
    let mut note = [0; NOTE_BYTES];
    let number = calls::start(request, rows, &mut note);
    Started {
        outcome: outcome(number),
        note: Note::from(note),
    }
}

/// Writes the curve: the row with the smallest leading term, made monic, in [`curve_bytes`](crate::curve_bytes).
/// Refusals: 10, 9, 12, 11.
pub fn finish(note: &Note, rows: &[u8], curve: &mut [u8]) -> Finished {
    let mut back = Back::default();
    let number = calls::finish(note.bytes(), rows, curve, back.bytes());
    Finished {
        outcome: outcome(number),
        weight: back.weight(),
        height: back.height(),
    }
}

/// Lists the messages that agree with the word at t places or more, k symbols each, ascending. Needs
/// [`WORKING_ROOM`](crate::WORKING_ROOM) bytes of room and [`messages_bytes`](crate::messages_bytes). Refusals: 1 to 9, 13.
pub fn list(request: &Request, t: u8, room: &mut [u8], messages: &mut [u8]) -> Near {
    let mut back = Back::default();
    let number = calls::list(request, t, room, messages, back.bytes());
    Near {
        outcome: outcome(number),
        count: back.count(),
        updates: back.updates(),
        weight: back.weight(),
    }
}
