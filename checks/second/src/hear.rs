//! The job hear: the departure that is alone near a received word.

use crate::checks::DONE;
use crate::departure::{read, Departure};
use crate::limits::{DEPARTURE_FIELD, DEPARTURE_SYMBOLS};
use crate::list::list;
use crate::request::Request;

#[derive(Clone, Copy, PartialEq, Eq, Debug)]
pub enum Heard {
    None,
    One(Departure),
    Several,
    Refused(u8),
}

/// Lists the messages near the word and reads the one that is alone.
pub fn hear(points: &[u8], word: &[u8], m: u8, l: u8, t: u8, room: &mut [u8]) -> Heard {
    let request = Request {
        p: DEPARTURE_FIELD,
        points: points.to_vec(),
        word: word.to_vec(),
        k: DEPARTURE_SYMBOLS as u8,
        m,
        l,
    };
    let mut messages = vec![0; usize::from(l) * DEPARTURE_SYMBOLS];
    let (number, count, ..) = list(&request, t, room, &mut messages);
    let listed = messages.chunks(DEPARTURE_SYMBOLS).take(count.into());
    match (number, listed.collect::<Vec<_>>().as_slice()) {
        (DONE, []) => Heard::None,
        (DONE, [alone]) => alone_near(alone),
        (DONE, _) => Heard::Several,
        _ => Heard::Refused(number),
    }
}

fn alone_near(message: &[u8]) -> Heard {
    match read(message) {
        (DONE, departure) => Heard::One(departure),
        (number, _) => Heard::Refused(number),
    }
}
