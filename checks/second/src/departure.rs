//! A departure as six symbols, and the time that it prints: the jobs write, read and show.

use crate::checks::{self, require, Check, Refusal, DONE};
use crate::limits::{
    BOAT_MOST, DAY_MOST, DEPARTURE_FIELD, DEPARTURE_SYMBOLS, MINUTE_MOST, TIME_BYTES,
};

/// All zeros where read refused.
#[derive(Clone, Copy, PartialEq, Eq, PartialOrd, Ord, Hash, Debug, Default)]
pub struct Departure {
    pub boat: u8,
    /// The service day, which ends when the last boat ties up.
    pub day: u16,
    /// The minute of the service day.
    pub minute: u16,
}

const MINUTES_OF_AN_HOUR: u16 = 60;

/// Writes the six symbols into the first bytes of `message`.
pub fn write(departure: Departure, message: &mut [u8]) -> u8 {
    match checked(departure, message, DEPARTURE_SYMBOLS) {
        Err(refusal) => refusal.number(),
        Ok(()) => {
            message[..DEPARTURE_SYMBOLS].copy_from_slice(&symbols(departure));
            DONE
        }
    }
}

/// Reads a message; hands back the number and the departure.
pub fn read(message: &[u8]) -> (u8, Departure) {
    match spelled(message) {
        Err(refusal) => (refusal.number(), Departure::default()),
        Ok(departure) => (DONE, departure),
    }
}

/// Writes the time into the first five bytes of `text`.
pub fn show(departure: Departure, text: &mut [u8]) -> u8 {
    match checked(departure, text, TIME_BYTES) {
        Err(refusal) => refusal.number(),
        Ok(()) => {
            text[..TIME_BYTES].copy_from_slice(time(departure.minute).as_bytes());
            DONE
        }
    }
}

/// What write and show test: 15, then 9.
fn checked(departure: Departure, lent: &[u8], needed: usize) -> Check {
    let Departure { boat, day, minute } = departure;
    let within = boat <= BOAT_MOST && day <= DAY_MOST && minute <= MINUTE_MOST;
    require(within, Refusal::Departure)?;
    checks::room(lent, needed)
}

fn symbols(departure: Departure) -> Vec<u8> {
    let Departure { boat, day, minute } = departure;
    [vec![boat], digits(day, 2), digits(minute, 3)].concat()
}

/// So many digits in base 31, high first: each place takes its value from the number as often as it goes.
fn digits(number: u16, count: u32) -> Vec<u8> {
    let mut left = number;
    let places = (0..count).rev();
    places
        .map(|place| {
            let (times, rest) = taken(left, u16::from(DEPARTURE_FIELD).pow(place));
            left = rest;
            times
        })
        .collect()
}

fn time(minute: u16) -> String {
    let (hours, minutes) = taken(minute, MINUTES_OF_AN_HOUR);
    format!("{hours:02}:{minutes:02}")
}

/// How often a part can be taken from the number, and what is left then; no division.
fn taken(number: u16, part: u16) -> (u8, u16) {
    let (mut times, mut left) = (0, number);
    while left >= part {
        left -= part;
        times += 1;
    }
    (times, left)
}

/// The departure that a message spells, or 15.
fn spelled(message: &[u8]) -> Result<Departure, Refusal> {
    require(message.len() == DEPARTURE_SYMBOLS, Refusal::Departure)?;
    let symbols = message.iter().all(|&symbol| symbol < DEPARTURE_FIELD);
    let (boat, day, minute) = (message[0], value(&message[1..3]), value(&message[3..]));
    let in_time = minute <= u32::from(MINUTE_MOST);
    require(symbols && in_time, Refusal::Departure)?;
    Ok(Departure {
        boat,
        day: day as u16,
        minute: minute as u16,
    })
}

/// The number that digits spell, as the sum of each digit times the value of its place.
fn value(digits: &[u8]) -> u32 {
    let places = std::iter::successors(Some(1), |place| Some(place * u32::from(DEPARTURE_FIELD)));
    let terms = digits.iter().rev().zip(places);
    terms.map(|(&digit, place)| u32::from(digit) * place).sum()
}
