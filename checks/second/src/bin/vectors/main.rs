//! Makes the two files of the gate's replay program: the calls, and what it has to print for them.
//!
//! `vectors SEED COUNT FOLDER` writes COUNT sessions to FOLDER/stdin and FOLDER/stdout; the same numbers give the same
//! files everywhere. Whoever replays them keeps what a board keeps: the rows, 65,536 bytes that are all 195 at
//! first, and the note, all zeros at first.
//!
//! `stdin` is a sequence of records, each a header of 24 bytes and what follows it:
//!
//! | byte | holds |
//! |---|---|
//! | 0 | job: 1 encode, 2 start, 3 turn, 4 turn in place, 5 finish, 6 list, 7 program, 8 change, 9 write, 10 read, 11 show, 12 hear |
//! | 1 | p; for write and show the boat |
//! | 2 | n, the number of points that follow |
//! | 3 | how many symbols follow the points: the word; for encode and read the message |
//! | 4, 5, 6 | k, m, l |
//! | 7 | r, of a given note |
//! | 8 | t |
//! | 9 | turn, turn in place, finish: 1 if they take the kept note, 0 if the note p, n, k, m, l, r given here |
//! | 10, 11 | the allowance, low byte first; for change the place in the rows; for write and show the day |
//! | 12, 13 | a length, low byte first: encode's word, the working room of list and hear, write's message, show's text, else the rows lent |
//! | | for program the bytes of its text, at most 512 |
//! | 14, 15 | a second length: finish's curve, list's messages; for write and show the minute |
//! | 16 | for change, the byte to write |
//! | 17 to 23 | zero |
//!
//! After the header of encode, start, list and hear come the points, then the symbols; after that of read the message;
//! after that of program its text; after the others nothing. Encode's word, finish's curve, the working room of list and
//! hear, list's messages, write's message and show's text are full of 195 before the call. Start first fills all kept
//! rows with 195. It, turn, turn in place and finish are lent the first bytes of the kept rows. The note that start, turn
//! and turn in place hand back is kept, whatever the number. Change writes one byte.
//!
//! `stdout` has one line for each record but change, words separated by one space, numbers decimal:
//!
//! ```text
//! encode NUMBER word B B B ...
//! start NUMBER note P N K M L R rows SUM
//! turn NUMBER note P N K M L R updates U rows SUM
//! turn_in_place NUMBER note P N K M L R updates U rows SUM
//! finish NUMBER weight W height H curve SUM
//! list NUMBER count C updates U weight W room SUM messages B B B ...
//! program LENGTH
//! write NUMBER message B B B ...
//! read NUMBER departure BOAT DAY MINUTE
//! show NUMBER text B B B ...
//! hear NUMBER count C departure BOAT DAY MINUTE room SUM
//! ```
//!
//! Of hear C is 0 for none, 1 for one, 2 for several, and the departure is zeros where there is not one. Beside another
//! number than 0 all of them are zeros. B stands for every byte lent; with none the line ends before it. After the line of
//! program come LENGTH bytes: what `listing` prints for the text. SUM goes over every byte lent: from s = 0, for each byte
//! b in order, s = (257 s + b + 1) mod 4294967291.

mod line;
mod record;

use second::cases::{Cases, Scale};
use std::path::Path;
use std::process::ExitCode;

/// The calls, and what is printed for them.
fn files(seed: u64, count: usize) -> (Vec<u8>, Vec<u8>) {
    let (mut calls, mut printed) = (Vec::new(), Vec::new());
    for case in Cases::new(seed, count, Scale::Kept) {
        calls.extend(record::record(&case.call));
        printed.extend(line::line(&case));
    }
    (calls, printed)
}

fn write(seed: u64, count: usize, folder: &Path) -> std::io::Result<()> {
    let (calls, printed) = files(seed, count);
    std::fs::write(folder.join("stdin"), calls)?;
    std::fs::write(folder.join("stdout"), printed)
}

fn main() -> ExitCode {
    let given: Vec<String> = std::env::args().skip(1).collect();
    let numbers = match given.as_slice() {
        [seed, count, _] => seed.parse().ok().zip(count.parse().ok()),
        _ => None,
    };
    let Some((seed, count)) = numbers else {
        eprintln!("usage: vectors SEED COUNT FOLDER");
        return ExitCode::FAILURE;
    };
    match write(seed, count, Path::new(&given[2])) {
        Ok(()) => ExitCode::SUCCESS,
        Err(error) => {
            eprintln!("{}: {error}", given[2]);
            ExitCode::FAILURE
        }
    }
}

#[cfg(test)]
mod tests {
    use super::*;
    use second::cases::{Answer, Call, Case};
    use second::field::FIELDS;
    use second::limits::{FIELD_MOST, HEIGHT_MOST, MULTIPLICITY_MOST};
    use second::{Note, Request};
    use std::collections::BTreeSet;

    /// What stands in the README: the seed and the count of the files that are shipped.
    const SHIPPED: (u64, usize) = (1, 340);

    /// The job with its number; the late 11 is told from the other by its updates, what is heard by its count.
    fn outcome(line: &str) -> Option<String> {
        let words: Vec<&str> = line.split(' ').collect();
        match words.as_slice() {
            ["turn" | "turn_in_place", "11", .., "updates", updates, "rows", _]
                if *updates != "0" =>
            {
                Some(format!("{} late 11", words[0]))
            }
            ["hear", "0", "count", count, ..] => Some(format!("hear 0 count {count}")),
            ["program", _] => None,
            [job, number, ..] => Some(format!("{job} {number}")),
            [answer] => answer
                .strip_prefix("answer=")
                .map(|number| format!("program {number}")),
            [] => None,
        }
    }

    #[test]
    fn every_job_gives_each_of_its_numbers() {
        let (seed, count) = SHIPPED;
        let printed = String::from_utf8(files(seed, count).1).unwrap();
        let met: BTreeSet<String> = printed.lines().filter_map(outcome).collect();
        let all: [(&str, &[u8]); 11] = [
            ("encode", &[0, 1, 2, 4, 6, 7, 9]),
            ("start", &[0, 1, 2, 3, 4, 5, 6, 7, 9]),
            ("turn", &[0, 9, 10, 11]),
            ("turn_in_place", &[0, 9, 10, 11]),
            ("finish", &[0, 9, 10, 11, 12]),
            ("list", &[0, 1, 2, 3, 4, 5, 6, 7, 8, 9, 13]),
            ("program", &[0, 1, 2, 3, 4, 5, 6, 7, 8, 13, 14]),
            ("write", &[0, 9, 15]),
            ("read", &[0, 15]),
            ("show", &[0, 9, 15]),
            ("hear", &[2, 3, 4, 5, 6, 7, 8, 9, 13, 15]),
        ];
        let numbers = all.iter().flat_map(|(job, numbers)| {
            let numbers = numbers.iter();
            numbers.map(move |number| format!("{job} {number}"))
        });
        let late = ["turn", "turn_in_place"].map(|job| format!("{job} late 11"));
        let heard = [0, 1, 2].map(|count| format!("hear 0 count {count}"));
        assert_eq!(met, numbers.chain(late).chain(heard).collect());
    }

    #[test]
    fn every_value_is_met() {
        let (seed, count) = SHIPPED;
        let mut met = [(); 6].map(|()| BTreeSet::new());
        for case in Cases::new(seed, count, Scale::Kept) {
            let (request, t) = match case.call {
                Call::Start { request, .. } => (request, None),
                Call::List { request, t, .. } => (request, Some(t)),
                _ => continue,
            };
            let Request {
                p, points, k, m, l, ..
            } = request;
            let values = [
                Some(p),
                Some(points.len() as u8),
                Some(k),
                Some(m),
                Some(l),
                t,
            ];
            for (met, value) in met.iter_mut().zip(values) {
                met.extend(value);
            }
        }
        assert!(FIELDS.iter().all(|p| met[0].contains(p)));
        let ranges = [
            3..=FIELD_MOST,
            2..=FIELD_MOST - 1,
            1..=MULTIPLICITY_MOST,
            1..=HEIGHT_MOST,
            1..=FIELD_MOST,
        ];
        for (met, mut range) in met[1..].iter().zip(ranges) {
            assert!(range.all(|value| met.contains(&value)));
        }
    }

    #[test]
    fn every_byte_lent_is_in_the_sum() {
        let lent = |rows: &[u8]| {
            let answer = Answer::Start {
                number: 0,
                note: Note::default(),
                rows: rows.to_vec(),
            };
            let call = Call::Change { place: 0, byte: 0 };
            line::line(&Case { call, answer })
        };
        assert_eq!(lent(&[]), b"start 0 note 0 0 0 0 0 0 rows 0\n");
        assert_eq!(lent(&[0, 1]), b"start 0 note 0 0 0 0 0 0 rows 259\n");
    }

    #[test]
    fn the_same_seed_gives_the_same_files() {
        let (calls, printed) = files(7, 6);
        assert_eq!(files(7, 6), (calls.clone(), printed.clone()));
        assert_ne!(files(8, 6).0, calls);
        let (first_calls, first_printed) = files(7, 3);
        assert!(calls.starts_with(&first_calls) && printed.starts_with(&first_printed));
    }
}
