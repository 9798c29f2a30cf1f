//! A board: some program's jobs, and the rows and the note that are kept between calls.

use super::{Answer, Call, FILL, ROWS_KEPT};
use crate::departure::Departure;
use crate::hear::Heard;
use crate::list::Listed;
use crate::request::Request;
use crate::setting::Note;

/// The jobs as docs/RULES.md has them, handed back in the order of the second program's functions.
pub trait Jobs {
    fn encode(&self, p: u8, points: &[u8], message: &[u8], word: &mut [u8]) -> u8;
    fn start(&self, request: &Request, rows: &mut [u8]) -> (u8, Note);
    fn turn(&self, note: Note, rows: &mut [u8], allowance: u16) -> (u8, Note, u32);
    fn finish(&self, note: Note, rows: &[u8], curve: &mut [u8]) -> (u8, u8, u8);
    fn list(&self, request: &Request, t: u8, room: &mut [u8], messages: &mut [u8]) -> Listed;
    fn program(&self, text: &[u8]) -> Vec<u8>;
    fn write(&self, departure: Departure, message: &mut [u8]) -> u8;
    fn read(&self, message: &[u8]) -> (u8, Departure);
    fn show(&self, departure: Departure, text: &mut [u8]) -> u8;
    fn hear(&self, points: &[u8], word: &[u8], m: u8, l: u8, t: u8, room: &mut [u8]) -> Heard;
}

/// The jobs of the second program.
pub struct Second;

impl Jobs for Second {
    fn encode(&self, p: u8, points: &[u8], message: &[u8], word: &mut [u8]) -> u8 {
        crate::encode(p, points, message, word)
    }

    fn start(&self, request: &Request, rows: &mut [u8]) -> (u8, Note) {
        crate::start(request, rows)
    }

    fn turn(&self, note: Note, rows: &mut [u8], allowance: u16) -> (u8, Note, u32) {
        crate::turn(note, rows, allowance)
    }

    fn finish(&self, note: Note, rows: &[u8], curve: &mut [u8]) -> (u8, u8, u8) {
        crate::finish(note, rows, curve)
    }

    fn list(&self, request: &Request, t: u8, room: &mut [u8], messages: &mut [u8]) -> Listed {
        crate::list(request, t, room, messages)
    }

    fn program(&self, text: &[u8]) -> Vec<u8> {
        crate::listing(text)
    }

    fn write(&self, departure: Departure, message: &mut [u8]) -> u8 {
        crate::write(departure, message)
    }

    fn read(&self, message: &[u8]) -> (u8, Departure) {
        crate::read(message)
    }

    fn show(&self, departure: Departure, text: &mut [u8]) -> u8 {
        crate::show(departure, text)
    }

    fn hear(&self, points: &[u8], word: &[u8], m: u8, l: u8, t: u8, room: &mut [u8]) -> Heard {
        crate::hear(points, word, m, l, t, room)
    }
}

pub struct Board<J> {
    jobs: J,
    rows: Vec<u8>,
    note: Note,
}

impl<J: Jobs> Board<J> {
    pub fn new(jobs: J) -> Board<J> {
        Board {
            jobs,
            rows: vec![FILL; ROWS_KEPT],
            note: Note::default(),
        }
    }

    pub fn rows(&self) -> &[u8] {
        &self.rows
    }

    pub fn note(&self) -> Note {
        self.note
    }

    /// Makes the call. The note that start or turn hands back is kept, whatever the number.
    pub fn take(&mut self, call: &Call) -> Answer {
        match call {
            Call::Encode {
                p,
                points,
                message,
                word,
            } => self.encode(*p, points, message, *word),
            Call::Start { request, rows } => self.start(request, *rows),
            Call::Turn {
                note,
                rows,
                allowance,
                ..
            } => self.turn(*note, *rows, *allowance),
            Call::Finish { note, rows, curve } => self.finish(*note, *rows, *curve),
            Call::List {
                request,
                t,
                room,
                messages,
            } => self.list(request, *t, *room, *messages),
            Call::Program { text } => self.program(text),
            Call::Write { departure, message } => self.write(*departure, *message),
            Call::Read { message } => self.read(message),
            Call::Show { departure, text } => self.show(*departure, *text),
            Call::Hear {
                points,
                word,
                m,
                l,
                t,
                room,
            } => self.hear(points, word, [*m, *l, *t], *room),
            Call::Change { place, byte } => self.change(*place, *byte),
        }
    }

    fn encode(&mut self, p: u8, points: &[u8], message: &[u8], word: usize) -> Answer {
        let mut word = vec![FILL; word];
        let number = self.jobs.encode(p, points, message, &mut word);
        Answer::Encode { number, word }
    }

    fn start(&mut self, request: &Request, rows: usize) -> Answer {
        self.rows.fill(FILL);
        let lent = &mut self.rows[..rows];
        let (number, note) = self.jobs.start(request, lent);
        self.note = note;
        let rows = lent.to_vec();
        Answer::Start { number, note, rows }
    }

    fn turn(&mut self, note: Option<Note>, rows: usize, allowance: u16) -> Answer {
        let given = note.unwrap_or(self.note);
        let lent = &mut self.rows[..rows];
        let (number, note, updates) = self.jobs.turn(given, lent, allowance);
        self.note = note;
        Answer::Turn {
            number,
            note,
            updates,
            rows: lent.to_vec(),
        }
    }

    fn finish(&mut self, note: Option<Note>, rows: usize, curve: usize) -> Answer {
        let given = note.unwrap_or(self.note);
        let mut curve = vec![FILL; curve];
        let (number, weight, height) = self.jobs.finish(given, &self.rows[..rows], &mut curve);
        Answer::Finish {
            number,
            weight,
            height,
            curve,
        }
    }

    fn list(&mut self, request: &Request, t: u8, room: usize, messages: usize) -> Answer {
        let (mut room, mut messages) = (vec![FILL; room], vec![FILL; messages]);
        let listed = self.jobs.list(request, t, &mut room, &mut messages);
        Answer::List {
            listed,
            room,
            messages,
        }
    }

    fn program(&self, text: &[u8]) -> Answer {
        let text = self.jobs.program(text);
        Answer::Program { text }
    }

    fn write(&self, departure: Departure, message: usize) -> Answer {
        let mut message = vec![FILL; message];
        let number = self.jobs.write(departure, &mut message);
        Answer::Write { number, message }
    }

    fn read(&self, message: &[u8]) -> Answer {
        let (number, departure) = self.jobs.read(message);
        Answer::Read { number, departure }
    }

    fn show(&self, departure: Departure, text: usize) -> Answer {
        let mut text = vec![FILL; text];
        let number = self.jobs.show(departure, &mut text);
        Answer::Show { number, text }
    }

    fn hear(&self, points: &[u8], word: &[u8], [m, l, t]: [u8; 3], room: usize) -> Answer {
        let mut room = vec![FILL; room];
        let heard = self.jobs.hear(points, word, m, l, t, &mut room);
        Answer::Hear { heard, room }
    }

    fn change(&mut self, place: usize, byte: u8) -> Answer {
        self.rows[place] = byte;
        Answer::Change
    }
}
