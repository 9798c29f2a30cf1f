//! What was compared, counted.

use second::cases::{Answer, Call, Case};
use second::field::FIELDS;
use second::limits::HEIGHT_MOST;
use second::{Departure, Heard, Note, Request};
use std::collections::BTreeSet;

#[derive(Clone, Copy, PartialEq, Eq)]
pub enum Job {
    Encode,
    Start,
    Turn,
    Finish,
    List,
    Program,
    Write,
    Read,
    Show,
    Hear,
}

impl Job {
    /// Whether it is asked in any field; departures have no other than that of 31.
    pub fn has_field(self) -> bool {
        !matches!(self, Job::Write | Job::Read | Job::Show | Job::Hear)
    }
}

/// The names of the values that a call is about: first those of [`Numbers`], then a departure's.
pub const VALUES: [&str; 9] = ["p", "n", "k", "m", "l", "t", "boat", "day", "minute"];

/// None where the job has no such value.
type Values = [Value; VALUES.len()];
type Value = Option<u16>;

/// p, n, k, m, l and t, for the jobs on words.
type Numbers = [Option<u8>; 6];

#[derive(Default)]
pub struct JobTally {
    pub calls: usize,
    pub words: usize,
    /// The words by their fields, in the order of `FIELDS`; the last are those whose p is no field's, and texts that cannot be read.
    pub fields: [usize; FIELDS.len() + 1],
    pub numbers: [usize; 16],
    /// Of the calls with number 11, those that made updates.
    pub late: usize,
    /// The values met in calls that were answered with 0.
    pub met: [BTreeSet<u16>; VALUES.len()],
    /// The p of the word that the last start gave, if this job has not been called on it.
    awaited: Option<Value>,
}

#[derive(Default)]
pub struct Tally {
    jobs: [JobTally; 10],
    /// Lists that were answered with 0, by the number of their messages.
    pub lists: [usize; HEIGHT_MOST as usize + 1],
    /// Words that were heard with number 0: none, one, several.
    pub heard: [usize; 3],
}

struct Seen {
    job: Job,
    number: u8,
    updates: u32,
    values: Values,
}

impl Tally {
    pub fn of(&self, job: Job) -> &JobTally {
        &self.jobs[job as usize]
    }

    pub fn calls(&self) -> usize {
        self.jobs.iter().map(|job| job.calls).sum()
    }

    /// Counts a case that does not differ, with the note that turn and finish were given.
    pub fn count(&mut self, case: &Case, note: Note) {
        if let Some(seen) = seen(case, note) {
            self.add(&seen);
        }
        match case.answer {
            Answer::List {
                listed: (0, count, ..),
                ..
            } => self.lists[usize::from(count)] += 1,
            Answer::Hear { heard, .. } => self.count_heard(heard),
            _ => {}
        }
    }

    fn count_heard(&mut self, heard: Heard) {
        match heard {
            Heard::None => self.heard[0] += 1,
            Heard::One(_) => self.heard[1] += 1,
            Heard::Several => self.heard[2] += 1,
            Heard::Refused(_) => {}
        }
    }

    fn add(&mut self, seen: &Seen) {
        if seen.job == Job::Start && seen.number == 0 {
            for job in [Job::Turn, Job::Finish] {
                self.jobs[job as usize].awaited = Some(seen.p());
            }
        }
        self.jobs[seen.job as usize].add(seen);
    }
}

impl JobTally {
    fn add(&mut self, seen: &Seen) {
        let word = match seen.job {
            Job::Turn | Job::Finish => self.awaited.take(),
            _ => Some(seen.p()),
        };
        if let Some(p) = word {
            self.words += 1;
            self.fields[place(p)] += 1;
        }
        self.calls += 1;
        self.numbers[usize::from(seen.number)] += 1;
        self.late += usize::from(seen.number == 11 && seen.updates > 0);
        if seen.number == 0 {
            for (met, value) in self.met.iter_mut().zip(seen.values) {
                met.extend(value);
            }
        }
    }
}

impl Seen {
    /// The field size; a text that cannot be read has none.
    fn p(&self) -> Value {
        self.values[0].filter(|_| self.number != 14)
    }
}

/// Where the words of a field are counted.
fn place(p: Value) -> usize {
    let mut sizes = FIELDS.into_iter();
    let found = sizes.position(|size| p == Some(size.into()));
    found.unwrap_or(FIELDS.len())
}

fn seen(case: &Case, note: Note) -> Option<Seen> {
    let (job, number, updates) = match &case.answer {
        Answer::Encode { number, .. } => (Job::Encode, *number, 0),
        Answer::Start { number, .. } => (Job::Start, *number, 0),
        Answer::Turn {
            number, updates, ..
        } => (Job::Turn, *number, *updates),
        Answer::Finish { number, .. } => (Job::Finish, *number, 0),
        Answer::List { listed, .. } => (Job::List, listed.0, 0),
        Answer::Program { text } => (Job::Program, answer(text), 0),
        Answer::Write { number, .. } => (Job::Write, *number, 0),
        Answer::Read { number, .. } => (Job::Read, *number, 0),
        Answer::Show { number, .. } => (Job::Show, *number, 0),
        Answer::Hear { heard, .. } => (Job::Hear, refused(*heard), 0),
        Answer::Change => return None,
    };
    Some(Seen {
        job,
        number,
        updates,
        values: values(case, note),
    })
}

fn refused(heard: Heard) -> u8 {
    match heard {
        Heard::Refused(number) => number,
        _ => 0,
    }
}

fn values(case: &Case, note: Note) -> Values {
    let [p, n, k, m, l, t] = numbers(&case.call, note).map(|number| number.map(u16::from));
    let departure = departure(case);
    let boat = departure.map(|departure| departure.boat.into());
    let day = departure.map(|departure| departure.day);
    let minute = departure.map(|departure| departure.minute);
    [p, n, k, m, l, t, boat, day, minute]
}

/// The departure that was given, read or heard.
fn departure(case: &Case) -> Option<Departure> {
    match (&case.call, &case.answer) {
        (Call::Write { departure, .. } | Call::Show { departure, .. }, _) => Some(*departure),
        (_, Answer::Read { departure, .. }) => Some(*departure),
        (
            _,
            Answer::Hear {
                heard: Heard::One(departure),
                ..
            },
        ) => Some(*departure),
        _ => None,
    }
}

fn numbers(call: &Call, note: Note) -> Numbers {
    match call {
        Call::Encode {
            p, points, message, ..
        } => {
            let (n, k) = (points.len() as u8, message.len() as u8);
            [Some(*p), Some(n), Some(k), None, None, None]
        }
        Call::Start { request, .. } => asked(request, None),
        Call::Turn { .. } | Call::Finish { .. } => {
            let Note { p, n, k, m, l, .. } = note;
            [Some(p), Some(n), Some(k), Some(m), Some(l), None]
        }
        Call::List { request, t, .. } => asked(request, Some(*t)),
        Call::Program { text } => read(&String::from_utf8_lossy(text)),
        Call::Hear {
            points, m, l, t, ..
        } => {
            let n = points.len() as u8;
            [None, Some(n), None, Some(*m), Some(*l), Some(*t)]
        }
        Call::Write { .. } | Call::Read { .. } | Call::Show { .. } | Call::Change { .. } => {
            Numbers::default()
        }
    }
}

fn asked(request: &Request, t: Option<u8>) -> Numbers {
    let Request {
        p, points, k, m, l, ..
    } = request;
    let n = points.len() as u8;
    [Some(*p), Some(n), Some(*k), Some(*m), Some(*l), t]
}

/// The numbers in a text that the program can read.
fn read(text: &str) -> Numbers {
    let lines: Vec<&str> = text
        .lines()
        .filter_map(|line| line.split_once('='))
        .map(|(_, value)| value)
        .collect();
    let [p, k, m, l, t, points, _] = lines[..] else {
        return Numbers::default();
    };
    let number = |digits: &str| digits.parse().ok();
    let m = number(m).or(Some(1));
    let n = points.split(',').count() as u8;
    let l = number(l).or(m);
    [number(p), Some(n), number(k), m, l, number(t)]
}

/// The number on the first line that the program prints.
fn answer(text: &[u8]) -> u8 {
    let text = String::from_utf8_lossy(text);
    let line = text
        .lines()
        .next()
        .and_then(|line| line.strip_prefix("answer="));
    line.and_then(|number| number.parse().ok())
        .expect("the second program prints an answer")
}
