//! Compares the library with the second program: the same calls to both, and every number, note, count and lent byte of
//! their answers.
//!
//! `compare SEED [COUNT]` goes through COUNT sessions, 20,000 if none is given, in each of which every job is called at least
//! once, on a word of its own, and prints what was compared as Markdown. `compare field P SEED [COUNT]` does the same with all
//! words in the field of size P, and leaves out the jobs on departures, which are in the field of 31. Faults stay: a request
//! with a wrong p is in no field, and a wrong note or a spoiled text may say another. `compare departures` goes through every
//! departure that there is. At the first difference the whole case is printed, and the status is 1.

mod departures;
mod library;
mod report;
mod tally;

use library::Library;
use second::cases::{Answer, Board, Call, Case, Cases, Jobs, Scale, Second};
use second::field::FIELDS;
use second::limits::BOAT_MOST;
use second::Note;
use std::process::ExitCode;
use std::time::Instant;
use tally::Tally;

const DEFAULT_COUNT: usize = 20_000;

/// A case that the library answers otherwise than the second program, and the note and rows that stood before it.
struct Difference {
    case: Case,
    note: Note,
    rows: Vec<u8>,
    library: Answer,
}

/// So many sessions from a seed.
struct Sessions {
    scale: Scale,
    seed: u64,
    count: usize,
}

fn compare(sessions: &Sessions, library: impl Jobs) -> Result<Tally, Box<Difference>> {
    let &Sessions { scale, seed, count } = sessions;
    let mut board = Board::new(library);
    let mut tally = Tally::default();
    for case in Cases::new(seed, count, scale) {
        let (note, rows) = given(&board, &case.call);
        let library = board.take(&case.call);
        if library != case.answer {
            return Err(Box::new(Difference {
                case,
                note,
                rows,
                library,
            }));
        }
        tally.count(&case, note);
    }
    Ok(tally)
}

/// The note and the rows that turn and finish are given.
fn given(board: &Board<impl Jobs>, call: &Call) -> (Note, Vec<u8>) {
    match call {
        Call::Turn { note, rows, .. } | Call::Finish { note, rows, .. } => {
            let note = note.unwrap_or(board.note());
            (note, board.rows()[..*rows].to_vec())
        }
        _ => (Note::default(), Vec::new()),
    }
}

enum Asked {
    Sessions(Sessions),
    Departures,
}

fn arguments() -> Option<Asked> {
    let given: Vec<String> = std::env::args().skip(1).collect();
    let given: Vec<&str> = given.iter().map(String::as_str).collect();
    match &given[..] {
        ["departures"] => Some(Asked::Departures),
        ["field", p, sessions @ ..] => asked(Scale::InField(field_size(p)?), sessions),
        sessions => asked(Scale::Wide, sessions),
    }
}

fn field_size(p: &str) -> Option<u8> {
    let p = p.parse().ok()?;
    FIELDS.contains(&p).then_some(p)
}

/// Sessions with a seed and perhaps a count.
fn asked(scale: Scale, given: &[&str]) -> Option<Asked> {
    let (seed, count) = match given {
        [seed] => (seed.parse().ok()?, DEFAULT_COUNT),
        [seed, count] => (seed.parse().ok()?, count.parse().ok()?),
        _ => return None,
    };
    Some(Asked::Sessions(Sessions { scale, seed, count }))
}

/// Which words a run has, where they are not those of all fields.
fn words_of(scale: Scale) -> String {
    match scale {
        Scale::InField(p) => format!("Field {p} alone, without departures. "),
        _ => String::new(),
    }
}

/// What is printed: the tables, or as the error the first case that differs.
fn run(asked: Asked, library: Library) -> Result<String, String> {
    let begun = Instant::now();
    let seconds = || begun.elapsed().as_secs();
    match asked {
        Asked::Sessions(sessions) => {
            let tally = compare(&sessions, library).map_err(|found| report::difference(&found))?;
            let Sessions { scale, seed, count } = sessions;
            let (words, seconds) = (words_of(scale), seconds());
            let head = format!("{words}Seed {seed}, {count} sessions, {seconds} seconds.");
            Ok(format!("{head}\n\n{}", report::report(&tally)))
        }
        Asked::Departures => {
            let lines = departures::compare([&Second, &library], 0..=BOAT_MOST)?;
            let head = format!("Every departure, {} seconds.", seconds());
            Ok(format!("{head}\n\n{}", report::departures(&lines)))
        }
    }
}

fn main() -> ExitCode {
    let Some(asked) = arguments() else {
        eprintln!(
            "usage: compare SEED [COUNT], compare field P SEED [COUNT], or compare departures"
        );
        return ExitCode::FAILURE;
    };
    let library = match Library::new() {
        Ok(library) => library,
        Err(missing) => {
            eprintln!("{missing}");
            return ExitCode::FAILURE;
        }
    };
    match run(asked, library) {
        Ok(tables) => {
            print!("{tables}");
            ExitCode::SUCCESS
        }
        Err(difference) => {
            print!("{difference}");
            ExitCode::FAILURE
        }
    }
}

#[cfg(test)]
mod tests {
    use super::*;
    use second::{Departure, Heard, Listed, Request};
    use tally::{Job, JobTally};

    /// The second program again, with one job that is wrong in one number or byte.
    struct Wrong(Job);

    impl Wrong {
        fn spoil(&self, job: Job, bytes: &mut [u8]) {
            if let (true, Some(last)) = (self.0 == job, bytes.last_mut()) {
                *last ^= 1;
            }
        }
    }

    impl Jobs for Wrong {
        fn encode(&self, p: u8, points: &[u8], message: &[u8], word: &mut [u8]) -> u8 {
            let number = Second.encode(p, points, message, word);
            self.spoil(Job::Encode, word);
            number
        }

        fn start(&self, request: &Request, rows: &mut [u8]) -> (u8, Note) {
            let started = Second.start(request, rows);
            self.spoil(Job::Start, rows);
            started
        }

        fn turn(&self, note: Note, rows: &mut [u8], allowance: u16) -> (u8, Note, u32) {
            let (number, note, updates) = Second.turn(note, rows, allowance);
            (number, note, updates + u32::from(self.0 == Job::Turn))
        }

        fn finish(&self, note: Note, rows: &[u8], curve: &mut [u8]) -> (u8, u8, u8) {
            let finished = Second.finish(note, rows, curve);
            self.spoil(Job::Finish, curve);
            finished
        }

        fn list(&self, request: &Request, t: u8, room: &mut [u8], messages: &mut [u8]) -> Listed {
            let near = Second.list(request, t, room, messages);
            self.spoil(Job::List, room);
            near
        }

        fn program(&self, text: &[u8]) -> Vec<u8> {
            let mut printed = Second.program(text);
            self.spoil(Job::Program, &mut printed);
            printed
        }

        fn write(&self, departure: Departure, message: &mut [u8]) -> u8 {
            let number = Second.write(departure, message);
            self.spoil(Job::Write, message);
            number
        }

        fn read(&self, message: &[u8]) -> (u8, Departure) {
            let (number, mut departure) = Second.read(message);
            departure.minute ^= u16::from(self.0 == Job::Read);
            (number, departure)
        }

        fn show(&self, departure: Departure, text: &mut [u8]) -> u8 {
            let number = Second.show(departure, text);
            self.spoil(Job::Show, text);
            number
        }

        fn hear(&self, points: &[u8], word: &[u8], m: u8, l: u8, t: u8, room: &mut [u8]) -> Heard {
            let heard = Second.hear(points, word, m, l, t, room);
            self.spoil(Job::Hear, room);
            heard
        }
    }

    fn wide(seed: u64, count: usize) -> Sessions {
        let scale = Scale::Wide;
        Sessions { scale, seed, count }
    }

    fn in_field(p: u8, seed: u64, count: usize) -> Sessions {
        let scale = Scale::InField(p);
        Sessions { scale, seed, count }
    }

    #[test]
    fn the_library_says_the_same() {
        let tally = compare(&wide(2, 60), Library::new().unwrap());
        assert!(tally.is_ok_and(|tally| tally.calls() > 600));
    }

    #[test]
    fn the_library_says_the_same_in_every_field() {
        for p in FIELDS {
            let tally = compare(&in_field(p, 2, 20), Library::new().unwrap());
            assert!(tally.is_ok_and(|tally| tally.calls() > 100), "{p}");
        }
    }

    #[test]
    fn a_wrong_job_is_found() {
        for (job, name) in report::JOBS {
            assert!(compare(&wide(2, 1), Wrong(job)).is_err(), "{name}");
            let found = compare(&in_field(16, 2, 1), Wrong(job)).is_err();
            assert_eq!(found, job.has_field(), "{name}");
        }
    }

    #[test]
    fn every_job_has_a_word_of_its_own_in_each_session() {
        let tally = compare(&wide(3, 40), Second).ok().unwrap();
        for (job, name) in report::JOBS {
            assert!(tally.of(job).words >= 40, "{name}");
        }
    }

    #[test]
    fn all_words_but_spoiled_texts_are_in_the_one_field_or_in_none() {
        for (place, p) in FIELDS.into_iter().enumerate() {
            let tally = compare(&in_field(p, 3, 40), Second).ok().unwrap();
            for (job, name) in report::JOBS {
                let JobTally { words, fields, .. } = tally.of(job);
                let in_it_or_none = fields[place] + fields[FIELDS.len()];
                assert!(job == Job::Program || in_it_or_none == *words, "{name}");
                assert!(!job.has_field() || fields[place] >= 20, "{name}");
            }
        }
    }

    #[test]
    fn every_departure_of_a_boat_goes_there_and_back() {
        let library = Library::new().unwrap();
        for boat in [0, BOAT_MOST] {
            let lines = departures::compare([&Second, &library], boat..=boat).unwrap();
            let counts: Vec<[usize; 2]> =
                lines.iter().map(|line| [line.done, line.refused]).collect();
            let (all, past) = ([961 * 1_800, 0], [0, 225 + 64_575 + 63_736]);
            let last = [1_800, 31 * 31 * 31 - 1_800];
            assert_eq!(counts, [all, all, all, past, past, last]);
        }
    }

    #[test]
    fn a_wrong_departure_is_found() {
        for job in [Job::Write, Job::Read, Job::Show] {
            assert!(departures::compare([&Second, &Wrong(job)], 0..=0).is_err());
        }
    }

    #[test]
    fn a_departure_that_both_read_wrong_is_found() {
        assert!(departures::compare([&Wrong(Job::Read); 2], 0..=0).is_err());
    }
}
