//! Departures: there and back, what is heard, every refusal, and what stands in each byte lent.

mod common;

use common::{untouched, FILL};
use pluck::{encode, hear, read_departure, show_departure, write_departure};
use pluck::{Departure, Heard, Outcome, Refusal};
use pluck::{BOAT_MOST, DAY_MOST, DEPARTURE_FIELD, DEPARTURE_SYMBOLS, HEIGHT_MOST, MINUTE_MOST};
use pluck::{TIME_BYTES, WORKING_ROOM};

const FERRY: Departure = Departure {
    boat: 7,
    day: 100,
    minute: 1_455,
};

/// Minute 1,800: six symbols that spell no departure.
const NO_DEPARTURE: [u8; DEPARTURE_SYMBOLS] = [7, 3, 7, 1, 27, 2];

#[test]
fn a_departure_is_read_as_it_was_written() {
    // Every day, and every minute more than once.
    for day in 0..=DAY_MOST {
        let boat = (day % 31) as u8;
        for minute in (day % 7..=MINUTE_MOST).step_by(7) {
            let departure = Departure { boat, day, minute };
            let mut message = [FILL; DEPARTURE_SYMBOLS];
            assert_eq!(write_departure(departure, &mut message), Ok(()));
            assert_eq!(read_departure(&message), Ok(departure));
        }
    }
}

#[test]
fn the_time_is_that_of_the_service_day() {
    for minute in 0..=MINUTE_MOST {
        let mut text = [FILL; TIME_BYTES];
        let departure = Departure { minute, ..FERRY };
        assert_eq!(show_departure(departure, &mut text), Ok(()));
        let time = format!("{:02}:{:02}", minute / 60, minute % 60);
        assert_eq!(text, time.as_bytes());
    }
}

/// 15, then 9, and nothing written after either; else so many bytes and no more.
fn assert_lends(needed: usize, job: impl Fn(Departure, &mut [u8]) -> Outcome) {
    let past = [
        (BOAT_MOST + 1, 100, 1_455),
        (7, DAY_MOST + 1, 1_455),
        (7, 100, MINUTE_MOST + 1),
        (255, u16::MAX, u16::MAX),
    ];
    for length in 0..needed + 3 {
        let mut lent = vec![FILL; length];
        for (boat, day, minute) in past {
            let outcome = job(Departure { boat, day, minute }, &mut lent);
            assert_eq!(outcome, Err(Refusal::Departure));
        }
        assert!(untouched(&lent));
        if length < needed {
            assert_eq!(job(FERRY, &mut lent), Err(Refusal::Short));
            assert!(untouched(&lent));
        } else {
            assert_eq!(job(FERRY, &mut lent), Ok(()));
            assert!(!lent[..needed].contains(&FILL) && untouched(&lent[needed..]));
        }
    }
}

#[test]
fn write_and_show_give_15_before_9() {
    assert_lends(DEPARTURE_SYMBOLS, write_departure);
    assert_lends(TIME_BYTES, show_departure);
}

#[test]
fn read_gives_15() {
    let refused = Err(Refusal::Departure);
    for length in [0, 5, 7, 12, 255, 6 + 256, 6 + 65_536] {
        assert_eq!(read_departure(&vec![0; length]), refused);
    }
    for place in 0..DEPARTURE_SYMBOLS {
        for symbol in [31, 32, 255] {
            let mut message = [0; DEPARTURE_SYMBOLS];
            message[place] = symbol;
            assert_eq!(read_departure(&message), refused);
        }
    }
    assert_eq!(read_departure(&NO_DEPARTURE), refused);
}

fn points(n: u8) -> Vec<u8> {
    (0..n).collect()
}

/// A message sent at all points, with so many symbols disturbed.
fn received(message: &[u8], errors: usize) -> Vec<u8> {
    let mut word = vec![0; 31];
    assert_eq!(
        encode(DEPARTURE_FIELD, &points(31), message, &mut word),
        Ok(())
    );
    for symbol in &mut word[..errors] {
        *symbol = (*symbol + 1) % DEPARTURE_FIELD;
    }
    word
}

fn message(departure: Departure) -> [u8; DEPARTURE_SYMBOLS] {
    let mut message = [FILL; DEPARTURE_SYMBOLS];
    assert_eq!(write_departure(departure, &mut message), Ok(()));
    message
}

/// Hears a word at all points; the working room is zero then, its excess as it was.
fn heard(word: &[u8], m: u8, l: u8, t: u8) -> Result<Heard, Refusal> {
    let mut room = vec![FILL; WORKING_ROOM + 3];
    let heard = hear(&points(31), word, m, l, t, &mut room);
    assert_eq!(room[..WORKING_ROOM], [0; WORKING_ROOM]);
    assert!(untouched(&room[WORKING_ROOM..]));
    heard
}

#[test]
fn none_one_several_13_and_15() {
    let ferry = message(FERRY);
    let through_errors = heard(&received(&ferry, 15), 2, 4, 16);
    assert_eq!(through_errors, Ok(Heard::One(FERRY)));
    assert_eq!(heard(&received(&ferry, 1), 1, 1, 31), Ok(Heard::None));
    let (one, other) = (received(&ferry, 0), received(&NO_DEPARTURE, 0));
    let between = [&one[..16], &other[16..]].concat();
    assert_eq!(heard(&between, 1, 2, 11), Ok(Heard::Several));
    assert_eq!(heard(&other, 1, 1, 5), Err(Refusal::Unvouched));
    assert_eq!(heard(&other, 1, 1, 6), Err(Refusal::Departure));
}

#[test]
fn hear_gives_2_to_9_and_writes_nothing() {
    let word = received(&message(FERRY), 0);
    let assert_refuses = |points: &[u8], word: &[u8], [m, l, t]: [u8; 3], room, refusal| {
        let mut room = vec![FILL; room];
        assert_eq!(hear(points, word, m, l, t, &mut room), Err(refusal));
        assert!(untouched(&room));
    };
    let all = points(31);
    let sound = [1, 2, 16];
    let with = |points: &[u8], word: &[u8], numbers, refusal| {
        assert_refuses(points, word, numbers, WORKING_ROOM, refusal);
    };
    with(&all[..2], &word[..2], sound, Refusal::Count);
    with(&points(32), &[0; 32], sound, Refusal::Count);
    with(&all, &word[..30], sound, Refusal::Length);
    with(&all[..6], &word[..6], [1, 2, 6], Refusal::Degree);
    with(&all, &word, [1, HEIGHT_MOST + 1, 16], Refusal::Heights);
    with(&all, &[31; 31], sound, Refusal::Symbol);
    with(&[3; 31], &word, sound, Refusal::Repeated);
    with(&all, &word, [1, 2, 32], Refusal::Wanted);
    assert_refuses(&all, &word, sound, WORKING_ROOM - 1, Refusal::Short);
    assert_refuses(&[], &[], sound, 0, Refusal::Count);
    assert_refuses(&all, &word, sound, 0, Refusal::Short);
}
