//! What the tests measure by: the definitions of docs/RULES.md, worked out by other means than the jobs use.
#![allow(dead_code)]

use second::curve::{Curve, Term};
use second::field::Field;
use second::limits::ALLOWANCE_MOST;
use second::random::Random;
use second::sample;
use second::{finish, start, turn, Note, Request, Setting};

/// A start that was not refused.
pub struct Session {
    pub request: Request,
    pub setting: Setting,
    pub note: Note,
    pub rows: Vec<u8>,
}

/// Tries the starts of so many random requests.
pub fn for_sessions(seed: u64, count: usize, check: impl Fn(&mut Random, Session)) {
    let mut random = Random::new(seed);
    for _ in 0..count {
        let request = sample::request(&mut random);
        let (note, rows) = started(&request);
        let session = Session {
            setting: request.setting(),
            request,
            note,
            rows,
        };
        check(&mut random, session);
    }
}

/// The note and the rows after a start.
pub fn started(request: &Request) -> (Note, Vec<u8>) {
    let mut rows = vec![99; request.setting().rows_room()];
    let (number, note) = start(request, &mut rows);
    assert_eq!((number, note.r), (0, 1));
    (note, rows)
}

/// What start, one turn and finish give.
#[derive(PartialEq, Eq, Debug)]
pub struct Interpolated {
    pub updates: u32,
    pub curve: Curve,
    pub weight: u8,
    pub height: u8,
}

pub fn interpolated(request: &Request) -> Interpolated {
    let setting = request.setting();
    let (note, mut rows) = started(request);
    let (number, note, updates) = turn(note, &mut rows, ALLOWANCE_MOST);
    assert_eq!((number, note.r), (0, request.l + 1));
    let mut bytes = vec![99; setting.curve_room()];
    let (number, weight, height) = finish(note, &rows, &mut bytes);
    assert_eq!(number, 0);
    Interpolated {
        updates,
        curve: read_curve(&setting, &bytes),
        weight,
        height,
    }
}

/// The coefficient of x^i y^j in f(x+a, y+b), the binomials counted in the field.
pub fn shifted_coefficient(
    field: Field,
    curve: &Curve,
    (a, b): (i64, i64),
    (i, j): (usize, usize),
) -> i64 {
    let terms = curve.terms().iter().filter(|(t, _)| t.x >= i && t.y >= j);
    field.total(terms.map(|&(t, c)| field.product(c, condition(field, t, (a, b), (i, j)))))
}

/// What a single term, with coefficient 1, gives to the coefficient of x^i y^j after the shift.
pub fn condition(field: Field, t: Term, (a, b): (i64, i64), (i, j): (usize, usize)) -> i64 {
    if t.x < i || t.y < j {
        return 0;
    }
    let ways = field.product(field.binomial(t.x, i), field.binomial(t.y, j));
    let at = field.product(field.power(a, t.x - i), field.power(b, t.y - j));
    field.product(ways, at)
}

/// The pairs (i, j) with i + j < m.
pub fn low_orders(m: usize) -> Vec<(usize, usize)> {
    (0..m)
        .flat_map(|i| (0..m - i).map(move |j| (i, j)))
        .collect()
}

/// Whether the curve has multiplicity at least m at (a, b).
pub fn has_multiplicity(field: Field, curve: &Curve, m: usize, place: (i64, i64)) -> bool {
    let zero = |&order: &_| shifted_coefficient(field, curve, place, order) == 0;
    low_orders(m).iter().all(zero)
}

/// The received points: each point with the symbol at its place.
pub fn places(request: &Request) -> Vec<(i64, i64)> {
    let places = request.points.iter().zip(&request.word);
    places
        .map(|(&a, &b)| (i64::from(a), i64::from(b)))
        .collect()
}

/// Whether the curve is one of the set: height at most l, multiplicity at least m at every received point.
pub fn in_the_set(request: &Request, curve: &Curve) -> bool {
    let setting = request.setting();
    let everywhere = places(request)
        .into_iter()
        .all(|place| has_multiplicity(setting.field, curve, setting.m, place));
    curve.height() <= setting.l && everywhere
}

/// A curve read from slots by looking at every byte.
pub fn read_curve(setting: &Setting, bytes: &[u8]) -> Curve {
    let terms = (0..setting.curve_room()).map(|place| {
        let (y, x) = (place / setting.slot(), place % setting.slot());
        (Term::new(setting.u(), x, y), i64::from(bytes[place]))
    });
    Curve::gather(setting.field, terms)
}

pub fn read_rows(setting: &Setting, bytes: &[u8]) -> Vec<Curve> {
    let rows = bytes[..setting.rows_room()].chunks(setting.curve_room());
    rows.map(|row| read_curve(setting, row)).collect()
}

/// The smallest monic curve of the set by linear algebra: terms are taken in rising order until one depends, by the
/// multiplicity conditions, on those before it.
pub fn smallest_by_algebra(request: &Request) -> Curve {
    let setting = request.setting();
    let terms = rising_terms(&setting);
    let mut pivots: Vec<Combination> = Vec::new();
    for (place, &term) in terms.iter().enumerate() {
        let mut combination = Combination {
            conditions: conditions(request, term),
            coefficients: vec![0; terms.len()],
        };
        combination.coefficients[place] = 1;
        for pivot in &pivots {
            combination.reduce_by(setting.field, pivot);
        }
        if combination.conditions.iter().all(|&c| c == 0) {
            return Curve::gather(
                setting.field,
                terms.into_iter().zip(combination.coefficients),
            );
        }
        pivots.push(combination);
    }
    unreachable!("e^m is in the set")
}

/// A sum of terms, by its coefficients, with the values that its conditions should have as zero.
struct Combination {
    conditions: Vec<i64>,
    coefficients: Vec<i64>,
}

impl Combination {
    /// Clears the condition that is the pivot's first nonzero one.
    fn reduce_by(&mut self, field: Field, pivot: &Combination) {
        let at = pivot.conditions.iter().position(|&c| c != 0).unwrap();
        let factor = field.quotient(self.conditions[at], pivot.conditions[at]);
        if factor == 0 {
            return;
        }
        let subtract = |from: &mut [i64], other: &[i64]| {
            for (entry, &taken) in from.iter_mut().zip(other) {
                *entry = field.difference(*entry, field.product(factor, taken));
            }
        };
        subtract(&mut self.conditions, &pivot.conditions);
        subtract(&mut self.coefficients, &pivot.coefficients);
    }
}

/// All terms of height at most l and weight at most W, rising.
fn rising_terms(setting: &Setting) -> Vec<Term> {
    let greatest = setting.greatest_weight();
    let mut terms: Vec<Term> = (0..=setting.l)
        .flat_map(|y| (0..=greatest).map(move |x| Term::new(setting.u(), x, y)))
        .filter(|term| term.weight <= greatest)
        .collect();
    terms.sort();
    terms
}

fn conditions(request: &Request, term: Term) -> Vec<i64> {
    let setting = request.setting();
    let orders = low_orders(setting.m);
    let places = places(request);
    let pairs = places
        .iter()
        .flat_map(|&place| orders.iter().map(move |&order| (place, order)));
    pairs
        .map(|(place, order)| condition(setting.field, term, place, order))
        .collect()
}

/// Every message of k symbols, ascending, compared from the constant up.
pub fn all_messages(p: u8, k: usize) -> Vec<Vec<u8>> {
    (0..k).fold(vec![Vec::new()], |shorter, _| {
        let longer = shorter.into_iter().flat_map(|message: Vec<u8>| {
            (0..p).map(move |symbol| [message.as_slice(), &[symbol]].concat())
        });
        longer.collect()
    })
}

/// The places where two words have the same symbol.
pub fn agreement(one: &[u8], other: &[u8]) -> usize {
    one.iter().zip(other).filter(|(a, b)| a == b).count()
}
