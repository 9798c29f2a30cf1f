//! The note of an interpolation, and the turn.

use crate::calls::{self, NOTE_BYTES};
use crate::jobs::Back;
use crate::refusal::{outcome, Outcome};
use crate::rooms::{curve_bytes, rows_bytes};

/// Six bytes: p, n, k, m, l and the current row r. Any six bytes make one, and the jobs check it.
#[derive(Clone, PartialEq, Eq, Debug)]
pub struct Note {
    bytes: [u8; NOTE_BYTES],
}

/// What a turn says. After 11 updates may have been made: rows, note and count are those just before the one that
/// would have made a row zero. After any other refusal there are none.
#[must_use]
#[derive(Clone, Copy, PartialEq, Eq, Debug)]
pub struct Turned {
    pub outcome: Outcome,
    pub updates: u16,
}

impl From<[u8; NOTE_BYTES]> for Note {
    fn from(bytes: [u8; NOTE_BYTES]) -> Note {
        Note { bytes }
    }
}

impl From<Note> for [u8; NOTE_BYTES] {
    fn from(note: Note) -> [u8; NOTE_BYTES] {
        note.bytes
    }
}

impl Note {
    /// Makes at most `allowance` updates of the rows. Refusals: 10, 9, 11.
    ///
    /// The note is altered in place, as the rows are: so no old note is left that could be handed in with new rows.
    pub fn turn(&mut self, rows: &mut [u8], allowance: u16) -> Turned {
        let mut back = Back::default();
        let number = calls::turn(&mut self.bytes, rows, allowance, back.bytes());
        Turned {
            outcome: outcome(number),
            updates: back.updates(),
        }
    }

    /// Whether r is l + 1: there is nothing left to do but finish.
    pub fn is_finished(&self) -> bool {
        u16::from(self.r()) == u16::from(self.l()) + 1
    }

    pub fn bytes(&self) -> &[u8; NOTE_BYTES] {
        &self.bytes
    }

    pub fn p(&self) -> u8 {
        self.bytes[0]
    }

    pub fn n(&self) -> u8 {
        self.bytes[1]
    }

    pub fn k(&self) -> u8 {
        self.bytes[2]
    }

    pub fn m(&self) -> u8 {
        self.bytes[3]
    }

    pub fn l(&self) -> u8 {
        self.bytes[4]
    }

    /// The current row.
    pub fn r(&self) -> u8 {
        self.bytes[5]
    }

    /// The bytes that the rows take.
    pub fn rows_bytes(&self) -> usize {
        rows_bytes(self.n(), self.k(), self.m(), self.l())
    }

    /// The bytes that the curve takes.
    pub fn curve_bytes(&self) -> usize {
        curve_bytes(self.n(), self.k(), self.m(), self.l())
    }
}
