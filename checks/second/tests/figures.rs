//! The figures of docs/RULES.md, one after another. Field 7, but for the departures; of the field of 16 the curve is here, and the others are
//! in sixteen.rs.

mod common;

use common::{interpolated, started, Interpolated};
use second::curve::{Curve, Term};
use second::limits::{ALLOWANCE_MOST, MESSAGES_MOST, WORKING_ROOM};
use second::{encode, list, listing, read, show, start, turn, write};
use second::{Departure, Note, Request, Setting};

const FIRST_SIX: [u8; 6] = [1, 2, 3, 4, 5, 6];
const WORD_19: [u8; 6] = [6, 2, 4, 4, 4, 2];

/// Points 1 to n.
fn request(word: &[u8], k: u8, m: u8, l: u8) -> Request {
    let points = (1..=word.len() as u8).collect();
    let word = word.to_vec();
    Request {
        p: 7,
        points,
        word,
        k,
        m,
        l,
    }
}

fn example_19() -> Request {
    request(&WORD_19, 3, 2, 3)
}

/// A curve from its x-polynomials, lowest power of y first and each lowest power of x first.
fn curve(setting: &Setting, polys: &[&[i64]]) -> Curve {
    let terms = polys.iter().enumerate().flat_map(|(y, poly)| {
        let terms = poly.iter().enumerate();
        terms.map(move |(x, &c)| (Term::new(setting.u(), x, y), c))
    });
    Curve::gather(setting.field, terms)
}

fn number_of_list(request: &Request, t: u8) -> u8 {
    let mut room = vec![1; WORKING_ROOM];
    let mut messages = vec![1; MESSAGES_MOST];
    list(request, t, &mut room, &mut messages).0
}

#[test]
fn encoded_words() {
    let mut word = [0; 6];
    assert_eq!(encode(7, &FIRST_SIX, &[5, 2, 6], &mut word), 0);
    assert_eq!(word, [6, 5, 2, 4, 4, 2]);
    assert_eq!(encode(7, &FIRST_SIX, &[1, 3, 4], &mut word), 0);
    assert_eq!(word, [1, 2, 4, 0, 4, 2]);
}

#[test]
fn the_line_through_1_2_3() {
    let line = request(&[1, 2, 3], 2, 1, 1);
    let expected = Interpolated {
        updates: 0,
        curve: curve(&line.setting(), &[&[0, 6], &[1]]),
        weight: 1,
        height: 1,
    };
    assert_eq!(interpolated(&line), expected);
}

#[test]
fn the_word_0_0_1_is_answered_by_row_0() {
    let case = request(&[0, 0, 1], 2, 1, 1);
    assert_eq!(case.setting().update_bound(), 1);
    let expected = Interpolated {
        updates: 1,
        curve: curve(&case.setting(), &[&[2, 4, 1], &[5]]),
        weight: 2,
        height: 1,
    };
    assert_eq!(interpolated(&case), expected);

    let (mut room, mut messages) = (vec![1; WORKING_ROOM], [1; 2]);
    let mut near = |t| list(&case, t, &mut room, &mut messages);
    assert_eq!(near(3), (0, 0, 1, 2));
    assert_eq!(near(2), (13, 0, 0, 0));
}

#[test]
fn the_zero_word_gives_a_power_of_y() {
    for (n, k, m, l) in [
        (3, 2, 2, 2),
        (6, 2, 1, 3),
        (6, 3, 3, 3),
        (6, 4, 4, 8),
        (6, 5, 2, 4),
    ] {
        let zero = request(&vec![0; n], k, m, l);
        let mut polys: Vec<&[i64]> = vec![&[]; m.into()];
        polys.push(&[1]);
        let expected = Interpolated {
            updates: 0,
            curve: curve(&zero.setting(), &polys),
            weight: m * (k - 1),
            height: m,
        };
        assert_eq!(interpolated(&zero), expected);
    }
}

/// The curve printed in example 19 is in the set with weight 7 but leads with x y^3. The one with the smallest
/// leading term leads with x^3 y^2; the order of docs/RULES.md decides for it.
#[test]
fn the_curve_of_example_19() {
    let request = example_19();
    let setting = request.setting();
    let printed = curve(
        &setting,
        &[
            &[1, 3, 3, 5, 4, 5, 6],
            &[3, 0, 2, 6, 6, 3],
            &[3, 4, 4, 4],
            &[0, 1],
        ],
    );
    let smallest = curve(
        &setting,
        &[
            &[1, 6, 5, 3, 4, 4, 3, 3],
            &[5, 1, 1, 3, 1, 4],
            &[2, 3, 0, 1],
            &[6],
        ],
    );
    assert!(common::in_the_set(&request, &printed));
    assert!(common::in_the_set(&request, &smallest));
    assert_eq!(printed.lead().unwrap().0, Term::new(2, 1, 3));
    assert_eq!(smallest.lead().unwrap().0, Term::new(2, 3, 2));
    assert!(Term::new(2, 3, 2) < Term::new(2, 1, 3));

    let found = interpolated(&request);
    assert_eq!((found.weight, found.height), (7, 3));
    assert_eq!(found.curve, smallest);
    assert!(found.updates as usize <= setting.update_bound());
    // The printed curve is the finished row 3 and has the same weight.
    let (note, mut rows) = started(&request);
    turn(note, &mut rows, ALLOWANCE_MOST);
    assert_eq!(common::read_rows(&setting, &rows)[3], printed);
}

#[test]
fn the_rows_of_example_19_end_as_the_paper_prints_them() {
    let request = example_19();
    let (note, mut rows) = started(&request);
    turn(note, &mut rows, ALLOWANCE_MOST);
    // Degree and leading coefficient of each x-polynomial, highest power of y first.
    let expected: [&[Option<(usize, i64)>]; 4] = [
        &[None, Some((0, 1)), Some((4, 5)), Some((8, 1))],
        &[None, Some((2, 1)), Some((6, 6)), Some((7, 5))],
        &[Some((0, 1)), Some((3, 6)), Some((5, 3)), Some((7, 4))],
        &[Some((1, 1)), Some((3, 4)), Some((5, 3)), Some((6, 6))],
    ];
    let rows = common::read_rows(&request.setting(), &rows);
    for (row, tops) in rows.iter().zip(expected) {
        let found: Vec<_> = (0..=3).rev().map(|y| row.top_at(y)).collect();
        assert_eq!(found, tops);
    }
}

#[test]
fn the_list_of_example_19() {
    let (mut room, mut messages) = (vec![1; WORKING_ROOM], [99; 9]);
    let (number, count, _, weight) = list(&example_19(), 4, &mut room, &mut messages);
    assert_eq!((number, count, weight), (0, 2, 7));
    assert_eq!(messages, [1, 3, 4, 5, 2, 6, 99, 99, 99]);
    assert!(room.iter().all(|&byte| byte == 0));
    assert_eq!(number_of_list(&example_19(), 3), 13);
}

#[test]
fn the_rows_of_example_19_take_240_bytes() {
    let number = |length| {
        let mut rows = vec![0; length];
        start(&example_19(), &mut rows)
    };
    assert_eq!(number(240).0, 0);
    assert_eq!(number(239), (9, Note::default()));
}

#[test]
fn refusals_of_the_figures() {
    assert_eq!(number_of_list(&request(&WORD_19[..2], 3, 2, 3), 4), 2);
    let numbers = |p, k, m, l, t| {
        let example = request(&WORD_19, k, m, l);
        number_of_list(&Request { p, ..example }, t)
    };
    assert_eq!(numbers(9, 3, 2, 3, 4), 1);
    assert_eq!(numbers(33, 3, 2, 3, 4), 1);
    assert_eq!(numbers(2, 3, 2, 3, 4), 1);
    assert_eq!(numbers(31, 3, 2, 3, 6), 0);
    assert_eq!(numbers(7, 6, 2, 3, 4), 4);
    assert_eq!(numbers(7, 1, 2, 3, 4), 4);
    assert_eq!(numbers(7, 5, 2, 3, 6), 0);
    assert_eq!(numbers(7, 3, 2, 9, 4), 5);
    assert_eq!(numbers(7, 3, 2, 1, 4), 5);
    assert_eq!(numbers(7, 3, 2, 3, 0), 8);
    assert_eq!(numbers(7, 3, 2, 3, 7), 8);
    let with = |symbol| number_of_list(&request(&[symbol, 2, 4, 4, 4, 2], 3, 2, 3), 4);
    assert_eq!(with(6), 0);
    assert_eq!(with(7), 6);
}

/// The last three symbols of a minute and the time that it prints, which no boat and no day changes.
fn assert_minute(minute: u16, digits: [u8; 3], time: &str) {
    for boat in 0..=30 {
        for day in 0..=960 {
            let departure = Departure { boat, day, minute };
            let (mut message, mut text) = ([99; 6], [99; 5]);
            assert_eq!(write(departure, &mut message), 0);
            assert_eq!(show(departure, &mut text), 0);
            assert_eq!((&message[3..], &text[..]), (&digits[..], time.as_bytes()));
        }
    }
}

#[test]
fn the_minutes_1455_and_1799() {
    assert_minute(1_455, [1, 15, 29], "24:15");
    assert_minute(1_799, [1, 27, 1], "29:59");
}

#[test]
fn the_last_departure_and_those_past_it() {
    let numbers = |boat, day, minute| {
        let departure = Departure { boat, day, minute };
        let written = write(departure, &mut [99; 6]);
        (written, show(departure, &mut [99; 5]))
    };
    assert_eq!(numbers(30, 960, 1_799), (0, 0));
    assert_eq!(numbers(31, 960, 1_799), (15, 15));
    assert_eq!(numbers(30, 961, 1_799), (15, 15));
    assert_eq!(numbers(30, 960, 1_800), (15, 15));
}

#[test]
fn the_message_of_the_last_minute_and_those_that_are_no_departure() {
    let (boat, day, minute) = (7, 100, 1_799);
    let last = Departure { boat, day, minute };
    assert_eq!(read(&[7, 3, 7, 1, 27, 1]), (0, last));
    let none = Departure::default();
    assert_eq!(read(&[7, 3, 7, 1, 27, 2]), (15, none));
    assert_eq!(read(&[7, 3, 7, 1, 15, 31]), (15, none));
    assert_eq!(read(&[7, 3, 7, 1, 15]), (15, none));
}

#[test]
fn the_whole_case_of_the_program() {
    let input = b"field=7\nk=2\nm=1\nl=1\nt=2\npoints=1,2,3\nword=1,2,3\n";
    let expected = "answer=0\nupdates=0\nweight=1\ncount=1\nmessage=0,1\n";
    assert_eq!(String::from_utf8(listing(input)).unwrap(), expected);
}

/// Eight places of 1 + 2x and eight of x: the product of y - 1 - 2x and y - x, where minus is plus.
#[test]
fn the_curve_of_two_lines_over_sixteen() {
    let case = Request {
        p: 16,
        points: (0..16).collect(),
        word: vec![1, 3, 5, 7, 9, 11, 13, 15, 8, 9, 10, 11, 12, 13, 14, 15],
        k: 2,
        m: 1,
        l: 2,
    };
    let found = interpolated(&case);
    let product = curve(&case.setting(), &[&[0, 1, 2], &[1, 3], &[1]]);
    assert_eq!(found.curve, product);
    assert_eq!((found.weight, found.height), (2, 2));
}
