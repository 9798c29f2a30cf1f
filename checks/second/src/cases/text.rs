//! What the program reads: the lines of a request, now and then spoiled.

use super::faults::Asked;
use super::{Call, Scale};
use crate::limits::FIELD_MOST;
use crate::random::Random;
use crate::request::Request;
use crate::sample;

const MOST_BYTES: usize = 512;

pub fn program(random: &mut Random, scale: Scale) -> Call {
    let asked = Asked::near(random, scale);
    let mut text = lines(random, &asked.request, asked.t).into_bytes();
    if random.once_in(5) {
        spoil(random, &mut text);
    }
    text.truncate(MOST_BYTES);
    Call::Program { text }
}

fn lines(random: &mut Random, request: &Request, t: u8) -> String {
    let Request { p, k, .. } = request;
    let m = perhaps_empty(random, request.m);
    let l = perhaps_empty(random, request.l);
    let points = numbers(random, &request.points);
    let word = numbers(random, &request.word);
    format!("field={p}\nk={k}\nm={m}\nl={l}\nt={t}\npoints={points}\nword={word}\n")
}

fn perhaps_empty(random: &mut Random, number: u8) -> String {
    if random.once_in(8) {
        String::new()
    } else {
        number.to_string()
    }
}

/// Numbers with commas, now and then with leading zeros.
fn numbers(random: &mut Random, bytes: &[u8]) -> String {
    let width = if random.once_in(8) { 3 } else { 1 };
    let numbers: Vec<String> = bytes.iter().map(|byte| format!("{byte:0width$}")).collect();
    numbers.join(",")
}

fn spoil(random: &mut Random, text: &mut Vec<u8>) {
    let place = random.below(text.len());
    match random.below(8) {
        0 => text[place] = random.byte(),
        1 => text.insert(place, random.pick(b"0123456789,=\n\r +-")),
        2 => drop(text.remove(place)),
        3 => text.truncate(place),
        4 => drop(text.pop()),
        5 => text.push(random.pick(b"\n x0")),
        6 => text.extend_from_within(..),
        _ => *text = sample::symbols(random, FIELD_MOST, place),
    }
}
