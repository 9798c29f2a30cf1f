//! The figures of docs/RULES.md. Field 7, but for the departures; those of the field of 16 are in sixteen.rs.

mod common;

use common::{started, EXAMPLE_19, POINTS, WORD};
use pluck::{encode, finish, list, start, Near, Note, Refusal, Request};
use pluck::{read_departure, show_departure, write_departure, Departure};
use pluck::{ALLOWANCE_MOST, MESSAGES_MOST, WORKING_ROOM};

fn request(word: &[u8], k: u8, m: u8, l: u8) -> Request<'_> {
    Request {
        word,
        points: &POINTS[..word.len()],
        k,
        m,
        l,
        ..EXAMPLE_19
    }
}

/// What start, one turn and finish give.
#[derive(PartialEq, Debug)]
struct Interpolated {
    updates: u16,
    weight: u8,
    height: u8,
    curve: Vec<u8>,
}

fn interpolated(request: &Request) -> Interpolated {
    let (mut note, mut rows) = started(request);
    let turned = note.turn(&mut rows, ALLOWANCE_MOST);
    assert_eq!((turned.outcome, note.is_finished()), (Ok(()), true));
    let mut curve = vec![99; note.curve_bytes()];
    let finished = finish(&note, &rows, &mut curve);
    assert_eq!(finished.outcome, Ok(()));
    Interpolated {
        updates: turned.updates,
        weight: finished.weight,
        height: finished.height,
        curve,
    }
}

/// A curve's bytes from its x-polynomials, lowest power of y first and each lowest power of x first.
fn curve(slot: usize, polys: &[&[u8]]) -> Vec<u8> {
    let slots = polys.iter().map(|poly| {
        let mut slot = vec![0; slot];
        slot[..poly.len()].copy_from_slice(poly);
        slot
    });
    slots.flatten().collect()
}

fn near(request: &Request, t: u8) -> (Near, Vec<u8>) {
    let (mut room, mut messages) = (vec![1; WORKING_ROOM], vec![99; MESSAGES_MOST]);
    let near = list(request, t, &mut room, &mut messages);
    messages.truncate(usize::from(near.count) * usize::from(request.k));
    (near, messages)
}

#[test]
fn encoded_words() {
    let mut word = [0; 6];
    assert_eq!(encode(7, &POINTS, &[5, 2, 6], &mut word), Ok(()));
    assert_eq!(word, [6, 5, 2, 4, 4, 2]);
    assert_eq!(encode(7, &POINTS, &[1, 3, 4], &mut word), Ok(()));
    assert_eq!(word, [1, 2, 4, 0, 4, 2]);
}

#[test]
fn the_line_through_1_2_3() {
    let expected = Interpolated {
        updates: 0,
        weight: 1,
        height: 1,
        curve: curve(4, &[&[0, 6], &[1]]),
    };
    assert_eq!(interpolated(&request(&[1, 2, 3], 2, 1, 1)), expected);
}

#[test]
fn the_word_0_0_1() {
    let case = request(&[0, 0, 1], 2, 1, 1);
    let expected = Interpolated {
        updates: 1,
        weight: 2,
        height: 1,
        curve: curve(4, &[&[2, 4, 1], &[5]]),
    };
    assert_eq!(interpolated(&case), expected);
    let empty = Near {
        outcome: Ok(()),
        count: 0,
        updates: 1,
        weight: 2,
    };
    assert_eq!(near(&case, 3), (empty, vec![]));
    let refused = Near {
        outcome: Err(Refusal::Unvouched),
        count: 0,
        updates: 0,
        weight: 0,
    };
    assert_eq!(near(&case, 2), (refused, vec![]));
}

#[test]
fn the_zero_word_gives_a_power_of_y() {
    for (n, k, m, l) in [(3, 2, 2, 2), (6, 2, 1, 3), (6, 3, 3, 3), (6, 4, 4, 8)] {
        let found = interpolated(&request(&[0; 6][..n], k, m, l));
        let mut polys: Vec<&[u8]> = vec![&[]; usize::from(l) + 1];
        polys[usize::from(m)] = &[1];
        let slot = pluck::greatest_weight(n as u8, k, m, l) + 1;
        let expected = Interpolated {
            updates: 0,
            weight: m * (k - 1),
            height: m,
            curve: curve(slot, &polys),
        };
        assert_eq!(found, expected);
    }
}

/// The printed curve leads with x y^3 and is the finished row 3; the smallest leading term, x^3 y^2, is another row's.
#[test]
fn the_curve_of_example_19() {
    let found = interpolated(&EXAMPLE_19);
    assert_eq!((found.weight, found.height), (7, 3));
    let smallest: [&[u8]; 4] = [
        &[1, 6, 5, 3, 4, 4, 3, 3],
        &[5, 1, 1, 3, 1, 4],
        &[2, 3, 0, 1],
        &[6],
    ];
    assert_eq!(found.curve, curve(15, &smallest));

    let (mut note, mut rows) = started(&EXAMPLE_19);
    assert_eq!(note.turn(&mut rows, ALLOWANCE_MOST).outcome, Ok(()));
    let printed: [&[u8]; 4] = [
        &[1, 3, 3, 5, 4, 5, 6],
        &[3, 0, 2, 6, 6, 3],
        &[3, 4, 4, 4],
        &[0, 1],
    ];
    assert_eq!(rows[3 * 60..], curve(15, &printed));
}

#[test]
fn the_list_of_example_19() {
    let (listed, messages) = near(&EXAMPLE_19, 4);
    assert_eq!(
        (listed.outcome, listed.count, listed.weight),
        (Ok(()), 2, 7)
    );
    assert_eq!(messages, [1, 3, 4, 5, 2, 6]);
    assert_eq!(near(&EXAMPLE_19, 3).0.outcome, Err(Refusal::Unvouched));
}

#[test]
fn the_rows_of_example_19_take_240_bytes() {
    assert_eq!(pluck::rows_bytes(6, 3, 2, 3), 240);
    assert_eq!(start(&EXAMPLE_19, &mut [0; 240]).outcome, Ok(()));
    let short = start(&EXAMPLE_19, &mut [0; 239]);
    assert_eq!(short.outcome, Err(Refusal::Short));
    assert_eq!(short.note, Note::from([0; 6]));
}

#[test]
fn the_numbers_of_the_figures() {
    let outcome = |p, word: &[u8], k, m, l, t| {
        let request = request(word, k, m, l);
        near(&Request { p, ..request }, t).0.outcome
    };
    assert_eq!(outcome(9, &WORD, 3, 2, 3, 4), Err(Refusal::Field));
    assert_eq!(outcome(33, &WORD, 3, 2, 3, 4), Err(Refusal::Field));
    assert_eq!(outcome(2, &WORD, 3, 2, 3, 4), Err(Refusal::Field));
    assert_eq!(outcome(31, &WORD, 3, 2, 3, 6), Ok(()));
    assert_eq!(outcome(7, &WORD[..2], 3, 2, 3, 4), Err(Refusal::Count));
    assert_eq!(outcome(7, &WORD, 6, 2, 3, 4), Err(Refusal::Degree));
    assert_eq!(outcome(7, &WORD, 1, 2, 3, 4), Err(Refusal::Degree));
    assert_eq!(outcome(7, &WORD, 5, 2, 3, 6), Ok(()));
    assert_eq!(outcome(7, &WORD, 3, 2, 9, 4), Err(Refusal::Heights));
    assert_eq!(outcome(7, &WORD, 3, 2, 1, 4), Err(Refusal::Heights));
    assert_eq!(outcome(7, &WORD, 3, 2, 3, 0), Err(Refusal::Wanted));
    assert_eq!(outcome(7, &WORD, 3, 2, 3, 7), Err(Refusal::Wanted));
    assert_eq!(outcome(7, &[6, 2, 4, 4, 4, 2], 3, 2, 3, 4), Ok(()));
    let seven = outcome(7, &[7, 2, 4, 4, 4, 2], 3, 2, 3, 4);
    assert_eq!(seven, Err(Refusal::Symbol));
}

/// The last three symbols of a minute and the time that it prints, which no boat and no day changes.
fn assert_minute(minute: u16, digits: [u8; 3], time: &str) {
    for boat in 0..=30 {
        for day in 0..=960 {
            let departure = Departure { boat, day, minute };
            let (mut message, mut text) = ([99; 6], [99; 5]);
            assert_eq!(write_departure(departure, &mut message), Ok(()));
            assert_eq!(show_departure(departure, &mut text), Ok(()));
            assert_eq!((&message[3..], &text[..]), (&digits[..], time.as_bytes()));
        }
    }
}

#[test]
fn the_minutes_1455_and_1799() {
    assert_minute(1_455, [1, 15, 29], "24:15");
    assert_minute(1_799, [1, 27, 1], "29:59");
}

#[test]
fn the_last_departure_and_those_past_it() {
    let outcomes = |boat, day, minute| {
        let departure = Departure { boat, day, minute };
        let written = write_departure(departure, &mut [99; 6]);
        (written, show_departure(departure, &mut [99; 5]))
    };
    let refused = (Err(Refusal::Departure), Err(Refusal::Departure));
    assert_eq!(outcomes(30, 960, 1_799), (Ok(()), Ok(())));
    assert_eq!(outcomes(31, 960, 1_799), refused);
    assert_eq!(outcomes(30, 961, 1_799), refused);
    assert_eq!(outcomes(30, 960, 1_800), refused);
}

#[test]
fn the_message_of_the_last_minute_and_those_that_are_no_departure() {
    let (boat, day, minute) = (7, 100, 1_799);
    let last = Departure { boat, day, minute };
    let refused = Err(Refusal::Departure);
    assert_eq!(read_departure(&[7, 3, 7, 1, 27, 1]), Ok(last));
    assert_eq!(read_departure(&[7, 3, 7, 1, 27, 2]), refused);
    assert_eq!(read_departure(&[7, 3, 7, 1, 15, 31]), refused);
    assert_eq!(read_departure(&[7, 3, 7, 1, 15]), refused);
}
