//! Every number from every job that can give it, with nothing written.

mod common;

use common::{started, untouched, EXAMPLE_19, FILL, POINTS, WORD};
use pluck::{encode, finish, list, start, Finished, Near, Note, Refusal, Request, Turned};
use pluck::{messages_bytes, HEIGHT_MOST, WORKING_ROOM};

/// Example 19 with one fault, for each of the numbers 1 to 7.
fn faulty() -> [(Refusal, Request<'static>); 7] {
    let sound = EXAMPLE_19;
    let (two_points, two_symbols) = (&POINTS[..2], &WORD[..2]);
    [
        (Refusal::Field, Request { p: 9, ..sound }),
        (
            Refusal::Count,
            Request {
                points: two_points,
                word: two_symbols,
                ..sound
            },
        ),
        (
            Refusal::Length,
            Request {
                word: two_symbols,
                ..sound
            },
        ),
        (Refusal::Degree, Request { k: 6, ..sound }),
        (
            Refusal::Heights,
            Request {
                l: HEIGHT_MOST + 1,
                ..sound
            },
        ),
        (
            Refusal::Symbol,
            Request {
                word: &[7; 6],
                ..sound
            },
        ),
        (
            Refusal::Repeated,
            Request {
                points: &[1; 6],
                ..sound
            },
        ),
    ]
}

#[test]
fn encode_gives_1_2_4_6_7_9() {
    let outcome = |p, points: &[u8], message: &[u8], room| {
        let mut word = vec![FILL; room];
        let outcome = encode(p, points, message, &mut word);
        assert!(untouched(&word));
        outcome
    };
    let message = [5, 2, 6];
    assert_eq!(outcome(9, &POINTS, &message, 6), Err(Refusal::Field));
    assert_eq!(outcome(7, &POINTS[..2], &message, 6), Err(Refusal::Count));
    assert_eq!(outcome(7, &POINTS, &[5], 6), Err(Refusal::Degree));
    assert_eq!(outcome(7, &POINTS, &[5, 2, 7], 6), Err(Refusal::Symbol));
    assert_eq!(outcome(7, &[1; 6], &message, 6), Err(Refusal::Repeated));
    assert_eq!(outcome(7, &POINTS, &message, 5), Err(Refusal::Short));
}

#[test]
fn start_gives_1_to_7_and_9() {
    let assert_refuses = |request: &Request, room, refusal| {
        let mut rows = vec![FILL; room];
        let started = start(request, &mut rows);
        assert_eq!(started.outcome, Err(refusal));
        assert_eq!(started.note, Note::from([0; 6]));
        assert!(untouched(&rows));
    };
    for (refusal, request) in faulty() {
        assert_refuses(&request, 240, refusal);
    }
    assert_refuses(&EXAMPLE_19, 239, Refusal::Short);
}

#[test]
fn list_gives_1_to_9_and_13() {
    let assert_refuses = |request: &Request, t, room, messages, refusal| {
        let (mut room, mut messages) = (vec![FILL; room], vec![FILL; messages]);
        let near = list(request, t, &mut room, &mut messages);
        let expected = Near {
            outcome: Err(refusal),
            count: 0,
            updates: 0,
            weight: 0,
        };
        assert_eq!(near, expected);
        assert!(untouched(&messages));
        room
    };
    for (refusal, request) in faulty() {
        let room = assert_refuses(&request, 4, WORKING_ROOM, 9, refusal);
        assert!(untouched(&room));
    }
    let refuses =
        |t, room, messages, refusal| assert_refuses(&EXAMPLE_19, t, room, messages, refusal);
    assert_eq!(messages_bytes(3, 3), 9);
    assert!(untouched(&refuses(0, WORKING_ROOM, 9, Refusal::Wanted)));
    assert!(untouched(&refuses(4, WORKING_ROOM - 1, 9, Refusal::Short)));
    assert!(untouched(&refuses(4, WORKING_ROOM, 8, Refusal::Short)));
    // 13 comes after the work, which leaves the working room zero.
    let room = refuses(3, WORKING_ROOM + 1, 9, Refusal::Unvouched);
    assert_eq!(room[..WORKING_ROOM], [0; WORKING_ROOM]);
    assert_eq!(room[WORKING_ROOM], FILL);
}

fn assert_turn_refuses(note: [u8; 6], rows: &[u8], refusal: Refusal) {
    let (mut turned_note, mut turned_rows) = (Note::from(note), rows.to_vec());
    let turned = turned_note.turn(&mut turned_rows, 100);
    let expected = Turned {
        outcome: Err(refusal),
        updates: 0,
    };
    assert_eq!(turned, expected);
    assert_eq!((turned_note.bytes(), turned_rows.as_slice()), (&note, rows));
}

fn assert_finish_refuses(note: [u8; 6], rows: &[u8], room: usize, refusal: Refusal) {
    let mut curve = vec![FILL; room];
    let expected = Finished {
        outcome: Err(refusal),
        weight: 0,
        height: 0,
    };
    assert_eq!(finish(&Note::from(note), rows, &mut curve), expected);
    assert!(untouched(&curve));
}

#[test]
fn turn_gives_10_9_11() {
    let (_, mut rows) = started(&EXAMPLE_19);
    let sound = [7, 6, 3, 2, 3, 1];
    assert_turn_refuses([9, 6, 3, 2, 3, 1], &rows, Refusal::Note);
    assert_turn_refuses([255; 6], &rows, Refusal::Note);
    assert_turn_refuses([7, 6, 3, 2, 3, 5], &rows, Refusal::Note);
    assert_turn_refuses(sound, &rows[..239], Refusal::Short);
    rows[0] = 7;
    assert_turn_refuses(sound, &rows, Refusal::Rows);
}

#[test]
fn finish_gives_10_9_12_11() {
    let (_, rows) = started(&EXAMPLE_19);
    let (early, finished) = ([7, 6, 3, 2, 3, 1], [7, 6, 3, 2, 3, 4]);
    assert_finish_refuses([0; 6], &rows, 60, Refusal::Note);
    assert_finish_refuses(finished, &rows[..239], 60, Refusal::Short);
    assert_finish_refuses(finished, &rows, 59, Refusal::Short);
    assert_finish_refuses(early, &rows, 60, Refusal::Early);
    assert_finish_refuses(finished, &rows, 60, Refusal::Rows);
}

#[test]
fn nothing_lent_is_refused_like_anything_too_short() {
    let nothing = Request {
        points: &[],
        word: &[],
        ..EXAMPLE_19
    };
    assert_eq!(encode(7, &[], &[], &mut []), Err(Refusal::Count));
    assert_eq!(encode(7, &POINTS, &[], &mut []), Err(Refusal::Degree));
    assert_eq!(encode(7, &POINTS, &[1, 2], &mut []), Err(Refusal::Short));
    assert_eq!(start(&nothing, &mut []).outcome, Err(Refusal::Count));
    assert_eq!(start(&EXAMPLE_19, &mut []).outcome, Err(Refusal::Short));
    assert_turn_refuses([7, 6, 3, 2, 3, 1], &[], Refusal::Short);
    assert_finish_refuses([7, 6, 3, 2, 3, 4], &[], 0, Refusal::Short);
    let listed = |request| list(request, 4, &mut [], &mut []).outcome;
    assert_eq!(listed(&nothing), Err(Refusal::Count));
    assert_eq!(listed(&EXAMPLE_19), Err(Refusal::Short));
}

#[test]
fn the_same_bytes_may_be_given_twice() {
    let mut word = [0; 6];
    assert_eq!(encode(7, &POINTS, &POINTS[..2], &mut word), Ok(()));
    assert_eq!(word, [3, 5, 0, 2, 4, 6]);
    let line = Request {
        word: &POINTS,
        ..EXAMPLE_19
    };
    let near = list(&line, 6, &mut vec![0; WORKING_ROOM], &mut [0; 9]);
    assert_eq!((near.outcome, near.count), (Ok(()), 1));
}

#[test]
fn a_refusal_says_its_number_and_its_meaning() {
    let numbers: Vec<u8> = Refusal::ALL
        .iter()
        .map(|refusal| refusal.number())
        .collect();
    assert_eq!(numbers, (1..=13).chain([15]).collect::<Vec<u8>>());
    let short = Refusal::Short.to_string();
    assert_eq!(short, "number 9: a lent buffer is too short");
}
