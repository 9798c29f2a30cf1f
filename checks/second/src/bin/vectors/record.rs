//! A call as a record.

use second::cases::Call;
use second::{Departure, Note, Request};

const HEADER: usize = 24;

struct Record {
    header: [u8; HEADER],
    bytes: Vec<u8>,
}

pub fn record(call: &Call) -> Vec<u8> {
    let Record { header, bytes } = match call {
        Call::Encode {
            p,
            points,
            message,
            word,
        } => encode(*p, points, message, *word),
        Call::Start { request, rows } => Record::new(2).request(request).number(12, *rows),
        Call::Turn {
            in_place,
            note,
            rows,
            allowance,
        } => turn(*in_place, *note, *rows, *allowance),
        Call::Finish { note, rows, curve } => Record::new(5).note(*note).lengths(*rows, *curve),
        Call::List {
            request,
            t,
            room,
            messages,
        } => list(request, *t, *room, *messages),
        Call::Program { text } => Record::new(7).number(12, text.len()).followed_by(text),
        Call::Change { place, byte } => Record::new(8).number(10, *place).place(16, *byte),
        Call::Write { departure, message } => departs(9, *departure, *message),
        Call::Read { message } => Record::new(10).symbols(&[], message),
        Call::Show { departure, text } => departs(11, *departure, *text),
        Call::Hear {
            points,
            word,
            m,
            l,
            t,
            room,
        } => hear(points, word, [*m, *l, *t], *room),
    };
    [header.as_slice(), &bytes].concat()
}

fn encode(p: u8, points: &[u8], message: &[u8], word: usize) -> Record {
    let record = Record::new(1).place(1, p);
    record.symbols(points, message).number(12, word)
}

fn turn(in_place: bool, note: Option<Note>, rows: usize, allowance: u16) -> Record {
    let record = Record::new(if in_place { 4 } else { 3 }).note(note);
    record.number(10, allowance.into()).number(12, rows)
}

fn list(request: &Request, t: u8, room: usize, messages: usize) -> Record {
    let record = Record::new(6).request(request).place(8, t);
    record.lengths(room, messages)
}

/// Write and show are given the same.
fn departs(job: u8, departure: Departure, lent: usize) -> Record {
    let Departure { boat, day, minute } = departure;
    let record = Record::new(job).place(1, boat).number(12, lent);
    record.number(10, day.into()).number(14, minute.into())
}

fn hear(points: &[u8], word: &[u8], [m, l, t]: [u8; 3], room: usize) -> Record {
    let record = Record::new(12).symbols(points, word).number(12, room);
    record.place(5, m).place(6, l).place(8, t)
}

impl Record {
    fn new(job: u8) -> Record {
        let record = Record {
            header: [0; HEADER],
            bytes: Vec::new(),
        };
        record.place(0, job)
    }

    fn place(mut self, at: usize, byte: u8) -> Record {
        self.header[at] = byte;
        self
    }

    /// Two bytes, the low one first.
    fn number(mut self, at: usize, number: usize) -> Record {
        let number = u16::try_from(number).expect("two bytes hold it");
        self.header[at..at + 2].copy_from_slice(&number.to_le_bytes());
        self
    }

    fn lengths(self, first: usize, second: usize) -> Record {
        self.number(12, first).number(14, second)
    }

    fn followed_by(mut self, bytes: &[u8]) -> Record {
        self.bytes.extend(bytes);
        self
    }

    fn symbols(self, points: &[u8], symbols: &[u8]) -> Record {
        let length = |bytes: &[u8]| u8::try_from(bytes.len()).expect("a byte holds it");
        self.place(2, length(points))
            .place(3, length(symbols))
            .followed_by(points)
            .followed_by(symbols)
    }

    fn request(self, request: &Request) -> Record {
        self.place(1, request.p)
            .symbols(&request.points, &request.word)
            .place(4, request.k)
            .place(5, request.m)
            .place(6, request.l)
    }

    fn note(self, note: Option<Note>) -> Record {
        match note {
            None => self.place(9, 1),
            Some(Note { p, n, k, m, l, r }) => [(1, p), (2, n), (4, k), (5, m), (6, l), (7, r)]
                .into_iter()
                .fold(self, |record, (at, number)| record.place(at, number)),
        }
    }
}
