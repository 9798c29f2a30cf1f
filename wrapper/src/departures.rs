//! The jobs on departures. Beside a refusal they say nothing, so each hands back one result.

use crate::calls::{self, DEPARTURE_BYTES, HEARD_BYTES};
use crate::refusal::{outcome, Outcome, Refusal};

/// A boat, a service day and a minute of that day. Any numbers make one, and the jobs check it.
#[derive(Clone, Copy, PartialEq, Eq, Hash, Debug)]
pub struct Departure {
    /// At most [`BOAT_MOST`](crate::BOAT_MOST).
    pub boat: u8,
    /// At most [`DAY_MOST`](crate::DAY_MOST).
    pub day: u16,
    /// At most [`MINUTE_MOST`](crate::MINUTE_MOST): it is not wrapped at midnight, 24:15 is minute 1,455.
    pub minute: u16,
}

/// What stands near a received word.
#[must_use]
#[derive(Clone, Copy, PartialEq, Eq, Hash, Debug)]
pub enum Heard {
    /// No message.
    None,
    /// This departure, alone.
    One(Departure),
    /// Two messages or more, whatever they spell.
    Several,
}

impl Departure {
    fn from_bytes([boat, days @ .., low, high]: [u8; DEPARTURE_BYTES]) -> Departure {
        Departure {
            boat,
            day: u16::from_le_bytes(days),
            minute: u16::from_le_bytes([low, high]),
        }
    }
}

/// Writes the departure's [`DEPARTURE_SYMBOLS`](crate::DEPARTURE_SYMBOLS) into the message. Refusals: 15, 9.
pub fn write_departure(departure: Departure, message: &mut [u8]) -> Outcome {
    outcome(calls::write_departure(departure, message))
}

/// The departure that a message spells. Refusal: 15.
pub fn read_departure(message: &[u8]) -> Result<Departure, Refusal> {
    let mut departure = [0; DEPARTURE_BYTES];
    outcome(calls::read_departure(message, &mut departure))?;
    Ok(Departure::from_bytes(departure))
}

/// Writes the departure's time, such as `24:15`, into the text: [`TIME_BYTES`](crate::TIME_BYTES). Refusals: 15, 9.
pub fn show_departure(departure: Departure, text: &mut [u8]) -> Outcome {
    outcome(calls::show_departure(departure, text))
}

/// Hears the departure that is alone among the messages that agree with the word at t places or more, in field 31 with six
/// symbols. Needs [`WORKING_ROOM`](crate::WORKING_ROOM) bytes of room. Refusals: 2 to 9, 13, 15.
pub fn hear(
    points: &[u8], word: &[u8], m: u8, l: u8, t: u8, room: &mut [u8],
) -> Result<Heard, Refusal> {
    let mut heard = [0; HEARD_BYTES];
    outcome(calls::hear(points, word, m, l, t, room, &mut heard))?;
    let [departure @ .., count] = heard;
    Ok(match count {
        0 => Heard::None,
        1 => Heard::One(Departure::from_bytes(departure)),
        _ => Heard::Several,
    })
}
