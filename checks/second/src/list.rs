//! The job list: the roots of the smallest curve, and of these the messages that agree often enough.

use crate::checks::{self, require, Refusal, DONE};
use crate::curve::{Curve, Term};
use crate::field::Field;
use crate::limits::WORKING_ROOM;
use crate::poly::{symbols, value, Poly};
use crate::request::Request;
use crate::rows::{smallest, starting_rows, take_turn};
use crate::setting::Setting;

/// The number, the count, the updates made and the curve's weight.
pub type Listed = (u8, u8, u32, u8);

/// Lists the near messages.
pub fn list(request: &Request, t: u8, room: &mut [u8], messages: &mut [u8]) -> Listed {
    let checked = checks::request(request).and_then(|setting| {
        require(t >= 1 && usize::from(t) <= setting.n, Refusal::Agreements)?;
        checks::room(room, WORKING_ROOM)?;
        checks::room(messages, setting.messages_room())?;
        Ok(setting)
    });
    let answer = checked.and_then(|setting| {
        // This program has no use for the working room but to leave it zero.
        room[..WORKING_ROOM].fill(0);
        let (points, word) = (symbols(&request.points), symbols(&request.word));
        near(&setting, &points, &word, usize::from(t))
    });
    match answer {
        Err(refusal) => (refusal.number(), 0, 0, 0),
        Ok(near) => {
            let bytes = near.messages.iter().flatten().map(|&symbol| symbol as u8);
            for (place, byte) in messages.iter_mut().zip(bytes) {
                *place = byte;
            }
            (
                DONE,
                near.messages.len() as u8,
                near.updates,
                near.weight as u8,
            )
        }
    }
}

struct Near {
    messages: Vec<Poly>,
    updates: u32,
    weight: usize,
}

fn near(setting: &Setting, points: &[i64], word: &[i64], t: usize) -> Result<Near, Refusal> {
    let mut rows = starting_rows(setting, points, word);
    // The formula's bound would do, but the second program is there to check it, not to lean on it.
    let end = take_turn(setting, &mut rows, 1, u32::MAX);
    let curve = smallest(setting, &rows).ok_or(Refusal::Rows)?;
    let weight = curve.lead().map_or(0, |(term, _)| term.weight);
    require(setting.m * t > weight, Refusal::Weight)?;
    let agreements = |message: &Poly| {
        let places = points.iter().zip(word);
        places
            .filter(|&(&a, &b)| value(setting.field, message, a) == b)
            .count()
    };
    let mut messages = roots(setting.field, setting.u(), &curve, setting.k);
    messages.retain(|message| agreements(message) >= t);
    messages.sort();
    messages.dedup();
    Ok(Near {
        messages,
        updates: end.updates,
        weight,
    })
}

/// All g of k symbols with f(x, g(x)) = 0, by the method of Roth and Ruckenstein: the first symbol of a root is a
/// root of the curve at x = 0, and what remains of the root is one of the curve at y = symbol + x y.
pub fn roots(field: Field, u: usize, curve: &Curve, k: usize) -> Vec<Poly> {
    let mut branches = vec![(Vec::new(), without_x(field, u, curve))];
    for _ in 0..k {
        let longer = branches.iter().flat_map(|(chosen, rest)| {
            let fitting = field.symbols().filter(|&c| is_root_at_zero(field, rest, c));
            fitting.map(|c| {
                let chosen: Poly = chosen.iter().copied().chain([c]).collect();
                (chosen, after(field, u, rest, c))
            })
        });
        branches = longer.collect();
    }
    // A branch may have been followed for k symbols without being a root as a whole.
    let followed = branches.into_iter().map(|(chosen, _)| chosen);
    followed.filter(|g| curve.at(field, g).is_empty()).collect()
}

/// Whether the symbol is a root of the curve at x = 0.
fn is_root_at_zero(field: Field, curve: &Curve, symbol: i64) -> bool {
    let constant = curve.terms().iter().filter(|(term, _)| term.x == 0);
    let values = constant.map(|&(term, a)| field.product(a, field.power(symbol, term.y)));
    field.total(values) == 0
}

/// The curve at y = symbol + x y, divided by its highest power of x.
fn after(field: Field, u: usize, curve: &Curve, symbol: i64) -> Curve {
    let expanded = curve.terms().iter().flat_map(|&(term, a)| {
        (0..=term.y).map(move |y| {
            let factor = field.product(field.binomial(term.y, y), field.power(symbol, term.y - y));
            (Term::new(u, term.x + y, y), field.product(a, factor))
        })
    });
    without_x(field, u, &Curve::gather(field, expanded))
}

/// The curve divided by its highest power of x.
fn without_x(field: Field, u: usize, curve: &Curve) -> Curve {
    let lowest = curve
        .terms()
        .iter()
        .map(|(term, _)| term.x)
        .min()
        .unwrap_or(0);
    let terms = curve.terms().iter();
    Curve::gather(
        field,
        terms.map(|&(term, a)| (Term::new(u, term.x - lowest, term.y), a)),
    )
}
