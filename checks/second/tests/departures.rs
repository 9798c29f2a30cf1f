//! Write, read and show: every digit against counting, the refusals and their order, and what stands in each byte.

use second::limits::{
    BOAT_MOST, DAY_MOST, DEPARTURE_FIELD, DEPARTURE_SYMBOLS, MINUTE_MOST, TIME_BYTES,
};
use second::random::Random;
use second::{read, show, write, Departure};
use std::collections::BTreeSet;

const FILL: u8 = 0xc3;

fn written(departure: Departure) -> [u8; DEPARTURE_SYMBOLS] {
    let mut message = [FILL; DEPARTURE_SYMBOLS];
    assert_eq!(write(departure, &mut message), 0);
    message
}

fn shown(departure: Departure) -> String {
    let mut text = [FILL; TIME_BYTES];
    assert_eq!(show(departure, &mut text), 0);
    String::from_utf8(text.to_vec()).unwrap()
}

/// Counts digits up by one, the last first; those after the highest number are all zero.
fn count_up(digits: &mut [u8]) {
    for digit in digits.iter_mut().rev() {
        if *digit < DEPARTURE_FIELD - 1 {
            *digit += 1;
            return;
        }
        *digit = 0;
    }
}

#[test]
fn days_and_minutes_are_counted_up_in_base_31() {
    for boat in [0, 17, BOAT_MOST] {
        let mut message = [boat, 0, 0, 0, 0, 0];
        for day in 0..=DAY_MOST {
            message[3..].fill(0);
            for minute in 0..=MINUTE_MOST {
                let departure = Departure { boat, day, minute };
                assert_eq!(written(departure), message);
                assert_eq!(read(&message), (0, departure));
                count_up(&mut message[3..]);
            }
            count_up(&mut message[1..3]);
        }
        // The highest day is the highest that two digits spell.
        assert_eq!(message[..3], [boat, 0, 0]);
    }
}

#[test]
fn every_boat_is_its_own_first_symbol() {
    for boat in 0..=BOAT_MOST {
        let (day, minute) = (100, 1_455);
        let departure = Departure { boat, day, minute };
        assert_eq!(written(departure), [boat, 3, 7, 1, 15, 29]);
        assert_eq!(read(&[boat, 3, 7, 1, 15, 29]), (0, departure));
    }
}

#[test]
fn a_message_is_read_exactly_up_to_the_last_minute() {
    let mut message = [7, 3, 7, 0, 0, 0];
    let (boat, day) = (7, 100);
    for minute in 0..u16::from(DEPARTURE_FIELD).pow(3) {
        let expected = if minute <= MINUTE_MOST {
            (0, Departure { boat, day, minute })
        } else {
            (15, Departure::default())
        };
        assert_eq!(read(&message), expected);
        count_up(&mut message[3..]);
    }
    assert_eq!(message, [7, 3, 7, 0, 0, 0]);
}

#[test]
fn departures_are_equal_exactly_when_their_symbols_are() {
    let mut random = Random::new(60);
    let mut departures = BTreeSet::new();
    for _ in 0..20_000 {
        departures.insert(Departure {
            boat: random.between(0, 2) as u8,
            day: random.between(0, 40) as u16,
            minute: random.between(0, MINUTE_MOST.into()) as u16,
        });
    }
    let messages: BTreeSet<_> = departures.iter().map(|&one| written(one)).collect();
    assert_eq!(messages.len(), departures.len());
}

#[test]
fn no_two_minutes_print_alike() {
    let (boat, day) = (7, 100);
    let mut times = BTreeSet::new();
    for minute in 0..=MINUTE_MOST {
        let time = shown(Departure { boat, day, minute });
        let (hours, minutes) = time.split_once(':').unwrap();
        assert_eq!((hours.len(), minutes.len()), (2, 2));
        let [hours, minutes] = [hours, minutes].map(|digits| digits.parse::<u16>().unwrap());
        assert!(hours <= 29 && minutes <= 59);
        assert_eq!(60 * hours + minutes, minute);
        times.insert(time);
    }
    assert_eq!(times.len(), 1_800);
}

#[test]
fn the_time_is_that_of_the_minute_alone() {
    for minute in [0, 59, 60, 1_439, 1_440, 1_455, 1_799] {
        let first = Departure {
            minute,
            ..Departure::default()
        };
        let time = shown(first);
        for (boat, day) in [(BOAT_MOST, 0), (0, DAY_MOST), (BOAT_MOST, DAY_MOST)] {
            assert_eq!(shown(Departure { boat, day, minute }), time);
        }
    }
    let after_midnight = Departure {
        minute: 1_440,
        ..Departure::default()
    };
    assert_eq!(shown(after_midnight), "24:00");
}

/// Departures in range to the edge, and those just past it and far past it.
fn at_the_edges() -> Vec<(Departure, bool)> {
    let boats = [0, BOAT_MOST, BOAT_MOST + 1, 255];
    let days = [0, DAY_MOST, DAY_MOST + 1, 1_024, u16::MAX];
    let minutes = [0, MINUTE_MOST, MINUTE_MOST + 1, 2_048, u16::MAX];
    let mut departures = Vec::new();
    for boat in boats {
        for day in days {
            for minute in minutes {
                let within = boat <= 30 && day <= 960 && minute <= 1_799;
                departures.push((Departure { boat, day, minute }, within));
            }
        }
    }
    departures
}

/// 15 before 9, nothing written after either, and no excess after 0.
fn assert_lends(needed: usize, job: impl Fn(Departure, &mut [u8]) -> u8) {
    for (departure, within) in at_the_edges() {
        for length in 0..needed + 4 {
            let mut lent = vec![FILL; length];
            let expected = match (within, length >= needed) {
                (false, _) => 15,
                (true, false) => 9,
                (true, true) => 0,
            };
            assert_eq!(job(departure, &mut lent), expected, "{departure:?}");
            let written = if expected == 0 { needed } else { 0 };
            assert!(lent[..written].iter().all(|&byte| byte != FILL));
            assert!(lent[written..].iter().all(|&byte| byte == FILL));
        }
    }
}

#[test]
fn write_and_show_give_15_before_9_and_write_no_more_than_they_say() {
    assert_lends(DEPARTURE_SYMBOLS, write);
    assert_lends(TIME_BYTES, show);
}

fn assert_is_none(message: &[u8]) {
    assert_eq!(read(message), (15, Departure::default()), "{message:?}");
}

#[test]
fn a_message_of_another_length_is_no_departure() {
    let sound = [7, 3, 7, 1, 15, 29];
    for length in (0..20).chain([255, 256, 262, 65_536 + 6]) {
        let message: Vec<u8> = sound.iter().copied().cycle().take(length).collect();
        if length != DEPARTURE_SYMBOLS {
            assert_is_none(&message);
            assert_is_none(&vec![0; length]);
        }
    }
    assert_eq!(read(&sound).0, 0);
}

#[test]
fn a_symbol_of_31_or_more_is_no_departures() {
    for place in 0..DEPARTURE_SYMBOLS {
        for symbol in DEPARTURE_FIELD..=255 {
            // With the place's own digit too large the minute may still be in range.
            let mut message = [0; DEPARTURE_SYMBOLS];
            message[place] = symbol;
            assert_is_none(&message);
        }
    }
}

#[test]
fn any_bytes_are_answered() {
    let mut random = Random::new(61);
    for _ in 0..50_000 {
        let [high, low, later, last] = [(); 4].map(|()| random.byte());
        let departure = Departure {
            boat: random.byte(),
            day: u16::from_le_bytes([low, high]),
            minute: u16::from_le_bytes([later, last]),
        };
        let mut lent = vec![FILL; random.below(9)];
        write(departure, &mut lent);
        show(departure, &mut lent);
        let message: Vec<u8> = (0..random.below(9)).map(|_| random.byte() % 40).collect();
        let (number, departure) = read(&message);
        // What is read is written back as the same message.
        assert!(number == 15 || written(departure) == message[..]);
    }
}
