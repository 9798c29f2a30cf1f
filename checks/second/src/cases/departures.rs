//! What write, read and show are asked, once in three times with a fault or two.

use super::faults::excess;
use super::{Call, Scale};
use crate::departure::Departure;
use crate::limits::{
    BOAT_MOST, DAY_MOST, DEPARTURE_FIELD, DEPARTURE_SYMBOLS, MINUTE_MOST, TIME_BYTES,
};
use crate::random::Random;
use crate::sample;

pub fn write(random: &mut Random) -> Call {
    let (departure, message) = asked(random, DEPARTURE_SYMBOLS);
    Call::Write { departure, message }
}

pub fn show(random: &mut Random) -> Call {
    let (departure, text) = asked(random, TIME_BYTES);
    Call::Show { departure, text }
}

/// A departure, and the length of what is lent: 15, 9, or both at once, apply once in nine times each.
fn asked(random: &mut Random, needed: usize) -> (Departure, usize) {
    let departure = sample::departure(random);
    let sound = needed + excess(random);
    let short = random.pick(&[0, needed - 1, needed - 1]);
    match random.below(9) {
        0 => (out_of_range(random, departure), sound),
        1 => (departure, short),
        2 => (out_of_range(random, departure), short),
        _ => (departure, sound),
    }
}

/// With one to three of its numbers too large.
fn out_of_range(random: &mut Random, departure: Departure) -> Departure {
    let mut spoiled = departure;
    for _ in 0..random.pick(&[1, 1, 2, 3]) {
        match random.below(3) {
            0 => spoiled.boat = above(random, BOAT_MOST.into(), u8::MAX.into()) as u8,
            1 => spoiled.day = above(random, DAY_MOST, u16::MAX),
            _ => spoiled.minute = above(random, MINUTE_MOST, u16::MAX),
        }
    }
    spoiled
}

fn above(random: &mut Random, most: u16, largest: u16) -> u16 {
    let any = random.between(usize::from(most) + 1, largest.into()) as u16;
    random.pick(&[most + 1, most + 1, any, largest])
}

pub fn read(random: &mut Random, scale: Scale) -> Call {
    let mut message = sample::departure_message(random);
    match random.below(12) {
        0 => message.resize(wrong_length(random, scale), 0),
        1 => spoil_symbol(random, &mut message),
        2 => {
            spoil_symbol(random, &mut message);
            message.resize(wrong_length(random, scale), 0);
        }
        3 => message[3..].copy_from_slice(&past_the_last(random)),
        _ => {}
    }
    Call::Read { message }
}

fn wrong_length(random: &mut Random, scale: Scale) -> usize {
    let lengths = [0, 5, 7, 12, 255, 6 + (1 << 8), 6 + (1 << 16)];
    let met = match scale {
        Scale::Kept => 5,
        _ => lengths.len(),
    };
    random.pick(&lengths[..met])
}

fn spoil_symbol(random: &mut Random, message: &mut [u8]) {
    let place = random.below(message.len());
    message[place] = random.pick(&[DEPARTURE_FIELD, DEPARTURE_FIELD + 1, 255]);
}

/// The last three symbols of minute 1,800, or of any later one.
fn past_the_last(random: &mut Random) -> [u8; 3] {
    let mut symbol = |least: u8| random.between(least.into(), 30) as u8;
    let any = [symbol(2), symbol(0), symbol(0)];
    random.pick(&[[1, 27, 2], any])
}
