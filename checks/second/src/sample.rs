//! Random requests that no job refuses, and rows that turn accepts, for the tests and for the cases.

use crate::curve::{Curve, Term};
use crate::departure::{self, Departure};
use crate::encode;
use crate::field::{Field, FIELDS};
use crate::limits::{BOAT_MOST, DAY_MOST, DEPARTURE_FIELD, DEPARTURE_SYMBOLS, MINUTE_MOST};
use crate::limits::{HEIGHT_MOST, MULTIPLICITY_MOST};
use crate::poly::{self, value};
use crate::random::Random;
use crate::request::Request;
use crate::setting::{Note, Setting};
use crate::slots::write_rows;

/// Any field, any number of points, any k, m and l.
pub fn request(random: &mut Random) -> Request {
    let p = random.pick(&FIELDS);
    in_field(random, p)
}

/// Any number of points, any k, m and l, in the field of size p.
pub fn in_field(random: &mut Random, p: u8) -> Request {
    let n = random.between(3, usize::from(p));
    let k = random.between(2, n - 1);
    let m = random.between(1, MULTIPLICITY_MOST.into());
    let l = random.between(m, HEIGHT_MOST.into());
    with_numbers(random, p, n, k, m, l)
}

/// Random points and a word of some kind for the given numbers.
pub fn with_numbers(random: &mut Random, p: u8, n: usize, k: usize, m: usize, l: usize) -> Request {
    let points = points(random, p, n);
    let word = word(random, p, &points, k);
    let (k, m, l) = (k as u8, m as u8, l as u8);
    Request {
        p,
        points,
        word,
        k,
        m,
        l,
    }
}

fn points(random: &mut Random, p: u8, n: usize) -> Vec<u8> {
    let mut points: Vec<u8> = (0..p).collect();
    random.shuffle(&mut points);
    points.truncate(n);
    if random.once_in(2) {
        points.sort();
    }
    points
}

fn word(random: &mut Random, p: u8, points: &[u8], k: usize) -> Vec<u8> {
    let n = points.len();
    match random.below(6) {
        0 => symbols(random, p, n),
        1 => vec![random.below(usize::from(p)) as u8; n],
        2 => between_messages(random, p, points, k),
        3 => beside_a_message(random, p, points, k),
        _ => near_a_message(random, p, points, k),
    }
}

pub fn symbols(random: &mut Random, p: u8, count: usize) -> Vec<u8> {
    (0..count)
        .map(|_| random.below(usize::from(p)) as u8)
        .collect()
}

fn encoded(p: u8, points: &[u8], message: &[u8]) -> Vec<u8> {
    let mut word = vec![0; points.len()];
    encode(p, points, message, &mut word);
    word
}

fn encoded_message(random: &mut Random, p: u8, points: &[u8], k: usize) -> Vec<u8> {
    encoded(p, points, &symbols(random, p, k))
}

/// A word with at most so many errors.
fn disturbed(random: &mut Random, p: u8, mut word: Vec<u8>, most: usize) -> Vec<u8> {
    for _ in 0..random.between(0, most) {
        let place = random.below(word.len());
        word[place] = random.below(usize::from(p)) as u8;
    }
    word
}

/// An encoded message with at most n - k errors.
fn near_a_message(random: &mut Random, p: u8, points: &[u8], k: usize) -> Vec<u8> {
    let word = encoded_message(random, p, points, k);
    disturbed(random, p, word, points.len() - k)
}

/// Each symbol from one of two or more messages, so that lists of two and more come up.
fn between_messages(random: &mut Random, p: u8, points: &[u8], k: usize) -> Vec<u8> {
    let words: Vec<Vec<u8>> = (0..random.pick(&[2, 2, 3, 4, 6]))
        .map(|_| encoded_message(random, p, points, k))
        .collect();
    mixed(random, &words)
}

fn mixed(random: &mut Random, words: &[Vec<u8>]) -> Vec<u8> {
    let places = 0..words[0].len();
    places
        .map(|place| words[random.below(words.len())][place])
        .collect()
}

/// Any departure in range, the ends of the ranges more often than others.
pub fn departure(random: &mut Random) -> Departure {
    let mut number = |most: u16| {
        let any = random.between(0, most.into()) as u16;
        random.pick(&[any, any, any, any, 0, most])
    };
    Departure {
        boat: number(BOAT_MOST.into()) as u8,
        day: number(DAY_MOST),
        minute: number(MINUTE_MOST),
    }
}

/// The message of some departure.
pub fn departure_message(random: &mut Random) -> Vec<u8> {
    let mut message = vec![0; DEPARTURE_SYMBOLS];
    departure::write(departure(random), &mut message);
    message
}

/// The request of a list that hear makes: most words are near the messages of departures.
pub fn heard(random: &mut Random, n: usize, m: usize, l: usize) -> Request {
    let points = points(random, DEPARTURE_FIELD, n);
    Request {
        p: DEPARTURE_FIELD,
        word: heard_word(random, &points),
        points,
        k: DEPARTURE_SYMBOLS as u8,
        m: m as u8,
        l: l as u8,
    }
}

/// Few errors leave the message alone, with many others may come near; of six symbols most spell no departure.
fn heard_word(random: &mut Random, points: &[u8]) -> Vec<u8> {
    let (p, most) = (DEPARTURE_FIELD, points.len() - DEPARTURE_SYMBOLS);
    let sent = |random: &mut Random| encoded(p, points, &departure_message(random));
    match random.below(8) {
        0 => word(random, p, points, DEPARTURE_SYMBOLS),
        1 => {
            let word = encoded_message(random, p, points, DEPARTURE_SYMBOLS);
            disturbed(random, p, word, most / 2)
        }
        2 | 3 => {
            let words = [sent(random), sent(random)];
            mixed(random, &words)
        }
        4 => {
            let word = sent(random);
            disturbed(random, p, word, 2 * most)
        }
        _ => {
            let word = sent(random);
            disturbed(random, p, word, most / 2)
        }
    }
}

/// Any six bytes, most of them so small that the note is sometimes accepted.
pub fn any_note(random: &mut Random) -> Note {
    let mut byte = |small: usize| {
        if random.once_in(8) {
            random.byte()
        } else {
            random.between(0, small) as u8
        }
    };
    Note {
        p: byte(7),
        n: byte(7),
        k: byte(4),
        m: byte(MULTIPLICITY_MOST.into()),
        l: byte(HEIGHT_MOST.into()),
        r: byte(usize::from(HEIGHT_MOST) + 1),
    }
}

/// A message and one term of higher degree: many messages agree with such a word, and lists are long.
fn beside_a_message(random: &mut Random, p: u8, points: &[u8], k: usize) -> Vec<u8> {
    let mut longer = symbols(random, p, k);
    longer.resize(random.between(k, (k + 3).min(points.len() - 1)), 0);
    longer.push(random.between(1, usize::from(p) - 1) as u8);
    let field = Field::of_size(p).expect("p is in the list");
    let longer = poly::symbols(&longer);
    let values = points.iter().map(|&a| value(field, &longer, a.into()));
    values.map(|symbol| symbol as u8).collect()
}

/// Random rows that number 11 does not refuse at entry, although no start ever leads to them.
pub fn free_rows(random: &mut Random, setting: &Setting, r: usize) -> Vec<u8> {
    bytes_of(setting, &free_curves(random, setting, r))
}

/// The same, but row r, which is at most l, is a combination of those below it: sooner or later an update would make
/// it zero, which is the late 11.
pub fn dependent_rows(random: &mut Random, setting: &Setting, r: usize) -> Vec<u8> {
    let mut curves = free_curves(random, setting, r);
    curves[r] = combination(random, setting, &curves[..r]);
    bytes_of(setting, &curves)
}

fn free_curves(random: &mut Random, setting: &Setting, r: usize) -> Vec<Curve> {
    let rows = 0..=setting.l;
    rows.map(|i| {
        let height = i.max(r).min(setting.l);
        let y = if i < r { i } else { random.between(0, height) };
        let most = setting.greatest_weight() - setting.u() * y;
        let x = if random.once_in(2) {
            random.between(0, most)
        } else {
            random.between(0, most.min(4))
        };
        led_by(random, setting, Term::new(setting.u(), x, y), height)
    })
    .collect()
}

/// A random curve of at most the given height with the given leading term.
fn led_by(random: &mut Random, setting: &Setting, lead: Term, height: usize) -> Curve {
    let p = setting.field.symbols().end as usize;
    let scarcity = random.between(1, 5);
    let mut terms = vec![(lead, random.between(1, p - 1) as i64)];
    for y in 0..=height {
        let xs = 0..=lead.weight;
        let smaller = xs
            .map(|x| Term::new(setting.u(), x, y))
            .filter(|t| *t < lead);
        for term in smaller {
            if random.once_in(scarcity) {
                terms.push((term, random.below(p) as i64));
            }
        }
    }
    Curve::gather(setting.field, terms)
}

/// A nonzero combination of rows, each taken with one power of x, that weighs at most W.
pub fn combination(random: &mut Random, setting: &Setting, rows: &[Curve]) -> Curve {
    let (field, greatest) = (setting.field, setting.greatest_weight());
    let p = field.symbols().end as usize;
    let multiple = |random: &mut Random, row: &Curve| {
        let weight = row.lead().map_or(0, |(term, _)| term.weight);
        let d = random.between(0, greatest - weight);
        row.scaled(field, random.between(1, p - 1) as i64, d)
    };
    let first = random.below(rows.len());
    let sum = multiple(random, &rows[first]);
    let others = rows[..first].iter().chain(&rows[first + 1..]);
    // Rows that lead at different powers of y never cancel, so the sum stays nonzero.
    others.fold(sum, |sum, row| {
        if random.once_in(2) {
            sum.minus(field, &multiple(random, row))
        } else {
            sum
        }
    })
}

fn bytes_of(setting: &Setting, curves: &[Curve]) -> Vec<u8> {
    let mut bytes = vec![0; setting.rows_room()];
    write_rows(setting, curves, &mut bytes);
    bytes
}
