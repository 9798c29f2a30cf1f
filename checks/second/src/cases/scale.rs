//! How large the cases are, and in which fields.

use crate::field::FIELDS;
use crate::limits::{DEPARTURE_FIELD, DEPARTURE_SYMBOLS};
use crate::limits::{FIELD_MOST, HEIGHT_MOST, MULTIPLICITY_MOST};
use crate::random::Random;
use crate::request::Request;
use crate::sample;

#[derive(Clone, Copy, PartialEq, Eq, Debug)]
pub enum Scale {
    /// For files that are kept: mostly small numbers, and few bytes of the rows altered at a time.
    Kept,
    /// For comparing in memory: any numbers, and any rows.
    Wide,
    /// The same with every word in the field of this size, and without the jobs on departures, which are in the field of 31.
    InField(u8),
}

impl Scale {
    /// A request that no job refuses; the largest rooms are in each scale, once in eight times.
    pub(super) fn request(self, random: &mut Random) -> Request {
        match (random.below(8), self) {
            (0, Scale::InField(p)) => largest(random, p),
            (1, Scale::InField(p)) => crowded(random, p),
            (_, Scale::InField(p)) => sample::in_field(random, p),
            (0, _) => largest(random, FIELD_MOST),
            (1..=3, Scale::Kept) => small(random, 10, 3, 5),
            (4 | 5, Scale::Kept) => small(random, 5, 2, 3),
            (_, Scale::Kept) => evenly(random),
            (1, Scale::Wide) => crowded_in_any(random),
            (_, Scale::Wide) => sample::request(random),
        }
    }

    /// A request of hear's, at all points more often than at fewer.
    pub(super) fn heard(self, random: &mut Random) -> Request {
        let most = usize::from(DEPARTURE_FIELD);
        let any = random.between(DEPARTURE_SYMBOLS + 1, most);
        let n = random.pick(&[any, most]);
        let (most_m, most_l) = match (random.below(8), self) {
            (0, _) => (MULTIPLICITY_MOST, HEIGHT_MOST),
            (_, Scale::Kept) => (2, 4),
            _ => (3, 6),
        };
        let m = random.between(1, most_m.into());
        let l = random.between(m, most_l.into());
        sample::heard(random, n, m, l)
    }

    /// The kinds of faults; the last, lengths that no byte holds, is not for files.
    pub(super) fn faults(self) -> usize {
        match self {
            Scale::Kept => 10,
            _ => 11,
        }
    }

    /// The most bytes of the rows that are altered between two calls.
    pub(super) fn most_changes(self) -> usize {
        match self {
            Scale::Kept => 56,
            _ => usize::MAX,
        }
    }

    pub(super) fn has_departures(self) -> bool {
        !matches!(self, Scale::InField(_))
    }
}

fn largest(random: &mut Random, p: u8) -> Request {
    let n = usize::from(p);
    let k = random.between(2, n - 1);
    let (m, l) = (MULTIPLICITY_MOST.into(), HEIGHT_MOST.into());
    sample::with_numbers(random, p, n, k, m, l)
}

/// Every n as often as any other, so that few requests meet them all.
fn evenly(random: &mut Random) -> Request {
    let n = random.between(3, FIELD_MOST.into());
    let fields: Vec<u8> = FIELDS
        .into_iter()
        .filter(|&p| usize::from(p) >= n)
        .collect();
    let p = random.pick(&fields);
    let k = random.between(2, n - 1);
    let m = random.between(1, MULTIPLICITY_MOST.into());
    let l = random.between(m, HEIGHT_MOST.into());
    sample::with_numbers(random, p, n, k, m, l)
}

/// In a small field, where lists are longest.
fn crowded_in_any(random: &mut Random) -> Request {
    let p = random.pick(&[5, 7, 11, 13, 16]);
    crowded(random, p)
}

/// Short messages at all points.
fn crowded(random: &mut Random, p: u8) -> Request {
    let k = random.between(2, usize::from(p - 1).min(3));
    let m = random.between(2, MULTIPLICITY_MOST.into());
    sample::with_numbers(random, p, p.into(), k, m, HEIGHT_MOST.into())
}

fn small(random: &mut Random, most_n: usize, most_m: usize, most_l: usize) -> Request {
    let p = random.pick(&FIELDS);
    let n = random.between(3, most_n.min(p.into()));
    let k = random.between(2, n - 1);
    let m = random.between(1, most_m);
    let l = random.between(m, most_l);
    sample::with_numbers(random, p, n, k, m, l)
}
