//! The library's jobs: the calls through `pluck`, and the program `listing` as a process.

use pluck::Outcome;
use second::cases::Jobs;
use second::{Departure, Heard, Listed, Note, Request};
use std::io::Write;
use std::path::PathBuf;
use std::process::{Command, Stdio};

pub struct Library {
    listing: PathBuf,
}

impl Library {
    /// The sentence says what is missing.
    pub fn new() -> Result<Library, String> {
        let top = PathBuf::from(env!("CARGO_MANIFEST_DIR")).join("../..");
        let listing = top.join("crates/listing/out/listing");
        if listing.exists() {
            Ok(Library { listing })
        } else {
            let missing = "crates/listing/out/listing is missing";
            let build = "`rt run < stdin` in crates/listing builds it";
            Err(format!("{missing}; {build}"))
        }
    }
}

fn number(outcome: Outcome) -> u8 {
    outcome.err().map_or(0, |refusal| refusal.number())
}

fn asked(request: &Request) -> pluck::Request<'_> {
    pluck::Request {
        p: request.p,
        points: &request.points,
        word: &request.word,
        k: request.k,
        m: request.m,
        l: request.l,
    }
}

fn given(note: Note) -> pluck::Note {
    let Note { p, n, k, m, l, r } = note;
    pluck::Note::from([p, n, k, m, l, r])
}

fn handed_back(note: &pluck::Note) -> Note {
    let [p, n, k, m, l, r] = *note.bytes();
    Note { p, n, k, m, l, r }
}

fn sent(departure: Departure) -> pluck::Departure {
    let Departure { boat, day, minute } = departure;
    pluck::Departure { boat, day, minute }
}

fn received(departure: pluck::Departure) -> Departure {
    let pluck::Departure { boat, day, minute } = departure;
    Departure { boat, day, minute }
}

impl Jobs for Library {
    fn encode(&self, p: u8, points: &[u8], message: &[u8], word: &mut [u8]) -> u8 {
        number(pluck::encode(p, points, message, word))
    }

    fn start(&self, request: &Request, rows: &mut [u8]) -> (u8, Note) {
        let started = pluck::start(&asked(request), rows);
        (number(started.outcome), handed_back(&started.note))
    }

    fn turn(&self, note: Note, rows: &mut [u8], allowance: u16) -> (u8, Note, u32) {
        let mut note = given(note);
        let turned = note.turn(rows, allowance);
        let updates = u32::from(turned.updates);
        (number(turned.outcome), handed_back(&note), updates)
    }

    fn finish(&self, note: Note, rows: &[u8], curve: &mut [u8]) -> (u8, u8, u8) {
        let finished = pluck::finish(&given(note), rows, curve);
        (number(finished.outcome), finished.weight, finished.height)
    }

    fn list(&self, request: &Request, t: u8, room: &mut [u8], messages: &mut [u8]) -> Listed {
        let near = pluck::list(&asked(request), t, room, messages);
        let updates = u32::from(near.updates);
        (number(near.outcome), near.count, updates, near.weight)
    }

    fn program(&self, text: &[u8]) -> Vec<u8> {
        let mut command = Command::new(&self.listing);
        command.stdin(Stdio::piped()).stdout(Stdio::piped());
        let mut listing = command.spawn().expect("listing runs");
        let mut input = listing.stdin.take().expect("it was piped");
        // A program that ends before it has read everything is judged by what it printed.
        let _ = input.write_all(text);
        drop(input);
        let output = listing.wait_with_output().expect("listing ends");
        assert!(output.status.success(), "listing: {}", output.status);
        output.stdout
    }

    fn write(&self, departure: Departure, message: &mut [u8]) -> u8 {
        number(pluck::write_departure(sent(departure), message))
    }

    fn read(&self, message: &[u8]) -> (u8, Departure) {
        match pluck::read_departure(message) {
            Ok(departure) => (0, received(departure)),
            Err(refusal) => (refusal.number(), Departure::default()),
        }
    }

    fn show(&self, departure: Departure, text: &mut [u8]) -> u8 {
        number(pluck::show_departure(sent(departure), text))
    }

    fn hear(&self, points: &[u8], word: &[u8], m: u8, l: u8, t: u8, room: &mut [u8]) -> Heard {
        match pluck::hear(points, word, m, l, t, room) {
            Ok(pluck::Heard::None) => Heard::None,
            Ok(pluck::Heard::One(departure)) => Heard::One(received(departure)),
            Ok(pluck::Heard::Several) => Heard::Several,
            Err(refusal) => Heard::Refused(refusal.number()),
        }
    }
}
