//! A call with all that is given to it, and an answer with all that is handed back.

use crate::departure::Departure;
use crate::hear::Heard;
use crate::list::Listed;
use crate::request::Request;
use crate::setting::Note;

/// Of a lent buffer the length is given. A note is given, or else the board's own is taken.
#[derive(Clone, PartialEq, Eq, Debug)]
pub enum Call {
    Encode {
        p: u8,
        points: Vec<u8>,
        message: Vec<u8>,
        word: usize,
    },
    Start {
        request: Request,
        rows: usize,
    },
    Turn {
        in_place: bool,
        note: Option<Note>,
        rows: usize,
        allowance: u16,
    },
    Finish {
        note: Option<Note>,
        rows: usize,
        curve: usize,
    },
    List {
        request: Request,
        t: u8,
        room: usize,
        messages: usize,
    },
    Program {
        text: Vec<u8>,
    },
    Write {
        departure: Departure,
        message: usize,
    },
    Read {
        message: Vec<u8>,
    },
    Show {
        departure: Departure,
        text: usize,
    },
    Hear {
        points: Vec<u8>,
        word: Vec<u8>,
        m: u8,
        l: u8,
        t: u8,
        room: usize,
    },
    /// No job: one byte of the board's rows is written.
    Change {
        place: usize,
        byte: u8,
    },
}

/// Buffers are given whole, as they stand after the call.
#[derive(Clone, PartialEq, Eq, Debug)]
pub enum Answer {
    Encode {
        number: u8,
        word: Vec<u8>,
    },
    Start {
        number: u8,
        note: Note,
        rows: Vec<u8>,
    },
    Turn {
        number: u8,
        note: Note,
        updates: u32,
        rows: Vec<u8>,
    },
    Finish {
        number: u8,
        weight: u8,
        height: u8,
        curve: Vec<u8>,
    },
    List {
        listed: Listed,
        room: Vec<u8>,
        messages: Vec<u8>,
    },
    Program {
        text: Vec<u8>,
    },
    Write {
        number: u8,
        message: Vec<u8>,
    },
    Read {
        number: u8,
        departure: Departure,
    },
    Show {
        number: u8,
        text: Vec<u8>,
    },
    Hear {
        heard: Heard,
        room: Vec<u8>,
    },
    Change,
}
