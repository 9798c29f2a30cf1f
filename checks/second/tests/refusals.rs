//! Refusals: every number, the order of each job, and buffers that stay untouched.

mod common;

use common::{for_sessions, started, Session};
use second::field::FIELDS;
use second::limits::{ALLOWANCE_MOST, HEIGHT_MOST, MULTIPLICITY_MOST, ROWS_MOST, WORKING_ROOM};
use second::random::Random;
use second::sample::{any_note, symbols};
use second::{encode, finish, list, start, turn, Note, Request};

const FILL: u8 = 0xc3;

/// All that encode, start or list can be asked, with the sizes of the buffers lent.
#[derive(Clone)]
struct Asked {
    request: Request,
    message: Vec<u8>,
    t: u8,
    rows: usize,
    room: usize,
    messages: usize,
    encoded: usize,
}

fn sound() -> Asked {
    Asked {
        request: Request {
            p: 7,
            points: vec![1, 2, 3, 4, 5, 6],
            word: vec![6, 2, 4, 4, 4, 2],
            k: 3,
            m: 2,
            l: 3,
        },
        message: vec![5, 2, 6],
        t: 4,
        rows: 240,
        room: WORKING_ROOM,
        messages: 9,
        encoded: 6,
    }
}

/// Makes the request fail the test behind one number, and none behind a smaller one.
fn spoil(asked: &mut Asked, number: u8) {
    let request = &mut asked.request;
    match number {
        1 => request.p = 9,
        2 => {
            request.points.truncate(2);
            request.word.truncate(2);
        }
        3 => request.word.push(0),
        4 => {
            request.k = 1;
            asked.message.truncate(1);
        }
        5 => request.l = HEIGHT_MOST + 1,
        6 => {
            request.word[1] = 255;
            asked.message[0] = 7;
        }
        7 => request.points[1] = request.points[0],
        8 => asked.t = 0,
        9 => {
            asked.rows = 0;
            asked.room -= 1;
            asked.encoded = 1;
        }
        other => unreachable!("{other}"),
    }
}

/// Makes every single and double fault among the numbers; the smaller number must be given.
fn assert_order(numbers: &[u8], job: impl Fn(&Asked) -> u8) {
    assert_eq!(job(&sound()), 0);
    for (place, &first) in numbers.iter().enumerate() {
        for &second in &numbers[place..] {
            let mut asked = sound();
            spoil(&mut asked, second);
            if second != first {
                spoil(&mut asked, first);
            }
            assert_eq!(job(&asked), first, "faults {first} and {second}");
        }
    }
}

#[test]
fn order_of_encode() {
    assert_order(&[1, 2, 4, 6, 7, 9], |asked| {
        let mut word = vec![FILL; asked.encoded];
        let Request { p, points, .. } = &asked.request;
        let number = encode(*p, points, &asked.message, &mut word);
        assert!(number == 0 || word.iter().all(|&byte| byte == FILL));
        number
    });
}

#[test]
fn order_of_start() {
    assert_order(&[1, 2, 3, 4, 5, 6, 7, 9], |asked| {
        let mut rows = vec![FILL; asked.rows];
        let (number, note) = start(&asked.request, &mut rows);
        let untouched = rows.iter().all(|&byte| byte == FILL);
        assert!(number == 0 || (untouched && note == Note::default()));
        number
    });
}

#[test]
fn order_of_list() {
    assert_order(&[1, 2, 3, 4, 5, 6, 7, 8, 9], |asked| {
        let (mut room, mut messages) = (vec![FILL; asked.room], vec![FILL; asked.messages]);
        let answer = list(&asked.request, asked.t, &mut room, &mut messages);
        let untouched = room.iter().chain(&messages).all(|&byte| byte == FILL);
        assert!(answer.0 == 0 || (untouched && answer == (answer.0, 0, 0, 0)));
        answer.0
    });
}

#[test]
fn list_asks_for_both_buffers_before_13() {
    let number = |t, room, messages| {
        let (mut room, mut messages) = (vec![FILL; room], vec![FILL; messages]);
        let number = list(&sound().request, t, &mut room, &mut messages).0;
        (number, room, messages)
    };
    assert_eq!(number(3, WORKING_ROOM - 1, 9).0, 9);
    assert_eq!(number(3, WORKING_ROOM, 8).0, 9);
    let (number, room, messages) = number(3, WORKING_ROOM + 2, 10);
    assert_eq!(number, 13);
    // The working bytes are zero, the excess and the message room are as they were.
    assert!(room[..WORKING_ROOM].iter().all(|&byte| byte == 0));
    assert_eq!(room[WORKING_ROOM..], [FILL; 2]);
    assert_eq!(messages, [FILL; 10]);
}

#[test]
fn boundaries_of_every_number() {
    let number = |p: u8, n: usize, k: u8, m: u8, l: u8| {
        let request = Request {
            p,
            points: (0..n).map(|place| place as u8).collect(),
            word: vec![0; n],
            k,
            m,
            l,
        };
        let mut rows = vec![0; ROWS_MOST];
        start(&request, &mut rows).0
    };
    for p in 0..=255 {
        let expected = if FIELDS.contains(&p) { 0 } else { 1 };
        assert_eq!(number(p, 3, 2, 1, 1), expected);
    }
    for p in FIELDS {
        for n in (0..=usize::from(p) + 1).chain([255, 256, 257, 300]) {
            let refused = n < 3 || n > p.into();
            assert_eq!(number(p, n, 2, 1, 1), if refused { 2 } else { 0 });
        }
    }
    for k in 0..=255 {
        let expected = if (2..=6).contains(&k) { 0 } else { 4 };
        assert_eq!(number(7, 7, k, 1, 1), expected);
    }
    for m in 0..=255 {
        for l in 0..=255 {
            let fits = (1..=MULTIPLICITY_MOST).contains(&m) && (m..=HEIGHT_MOST).contains(&l);
            assert_eq!(number(3, 3, 2, m, l), if fits { 0 } else { 5 });
        }
    }
}

#[test]
fn excess_bytes_are_never_written() {
    for_sessions(30, 100, |_, session| {
        let Session {
            request, setting, ..
        } = session;
        let mut encoded = vec![FILL; setting.n + 5];
        let message = &request.word[..setting.k];
        assert_eq!(encode(request.p, &request.points, message, &mut encoded), 0);
        assert_eq!(encoded[setting.n..], [FILL; 5]);

        let mut rows = vec![FILL; setting.rows_room() + 5];
        let (_, note) = start(&request, &mut rows);
        assert_eq!(rows[setting.rows_room()..], [FILL; 5]);
        let (_, note, _) = turn(note, &mut rows, ALLOWANCE_MOST);
        assert_eq!(rows[setting.rows_room()..], [FILL; 5]);

        let mut curve = vec![FILL; setting.curve_room() + 5];
        assert_eq!(finish(note, &rows, &mut curve).0, 0);
        assert_eq!(curve[setting.curve_room()..], [FILL; 5]);
    });
}

/// The rows of example 19 at the note's row, for the tests of 10 to 12.
fn example_19() -> (Note, Vec<u8>) {
    started(&sound().request)
}

fn assert_turn_refuses(note: Note, rows: &[u8], number: u8) {
    let mut lent = rows.to_vec();
    assert_eq!(turn(note, &mut lent, 100), (number, note, 0));
    assert_eq!(lent, rows);
}

fn assert_finish_refuses(note: Note, rows: &[u8], room: usize, number: u8) {
    let mut curve = vec![FILL; room];
    assert_eq!(finish(note, rows, &mut curve), (number, 0, 0));
    assert!(curve.iter().all(|&byte| byte == FILL));
}

#[test]
fn a_note_out_of_its_ranges_is_10() {
    let (_, rows) = example_19();
    // The note of example 19 is 7, 6, 3, 2, 3, 1.
    let spoiled = [
        [9, 6, 3, 2, 3, 1],
        [7, 2, 3, 2, 3, 1],
        [7, 8, 3, 2, 3, 1],
        [7, 6, 1, 2, 3, 1],
        [7, 6, 6, 2, 3, 1],
        [7, 6, 3, 0, 3, 1],
        [7, 6, 3, 4, 3, 1],
        [7, 6, 3, 2, 1, 1],
        [7, 6, 3, 2, HEIGHT_MOST + 1, 1],
        [7, 6, 3, 2, 3, 0],
        [7, 6, 3, 2, 3, 5],
        [7, 6, 3, 2, 3, 255],
        [0; 6],
    ];
    for [p, n, k, m, l, r] in spoiled {
        let note = Note { p, n, k, m, l, r };
        // 10 comes before everything else, even with no buffer at all.
        assert_turn_refuses(note, &rows, 10);
        assert_turn_refuses(note, &[], 10);
        assert_finish_refuses(note, &rows, 60, 10);
        assert_finish_refuses(note, &[], 0, 10);
    }
}

#[test]
fn short_buffers_are_9_before_12_and_11() {
    let (note, mut rows) = example_19();
    rows[0] = 7;
    assert_turn_refuses(note, &rows[..239], 9);
    assert_turn_refuses(note, &rows, 11);
    assert_finish_refuses(note, &rows[..239], 60, 9);
    assert_finish_refuses(note, &rows, 59, 9);
    assert_finish_refuses(note, &rows, 60, 12);
    assert_finish_refuses(Note { r: 4, ..note }, &rows, 60, 11);
}

/// Rows of 15 bytes a slot: k = 3, so y weighs 2, and W = 14.
fn at(row: usize, y: usize, x: usize) -> usize {
    (row * 4 + y) * 15 + x
}

#[test]
fn every_clause_of_11() {
    let (note, rows) = example_19();
    let (_, note, _) = {
        let mut rows = rows.clone();
        turn(note, &mut rows, 0)
    };
    assert_eq!(note.r, 1);
    let spoiled = |place: usize, byte: u8| {
        let mut rows = rows.clone();
        rows[place] = byte;
        rows
    };
    // A coefficient of p or more; 6 goes in the same place.
    assert_turn_refuses(note, &spoiled(at(0, 0, 3), 7), 11);
    assert_eq!(turn(note, &mut spoiled(at(0, 0, 3), 6), 0).0, 0);
    // A weight above W; W itself goes.
    assert_turn_refuses(note, &spoiled(at(3, 1, 13), 1), 11);
    assert_eq!(turn(note, &mut spoiled(at(3, 1, 12), 1), 0).0, 0);
    // A row i up to r with height above r; height r goes.
    assert_turn_refuses(note, &spoiled(at(0, 2, 0), 1), 11);
    assert_turn_refuses(note, &spoiled(at(1, 2, 0), 1), 11);
    assert_eq!(turn(note, &mut spoiled(at(0, 1, 0), 1), 0).0, 0);
    // A row i above r with height above i.
    assert_turn_refuses(note, &spoiled(at(2, 3, 0), 1), 11);
    // A row i below r that does not lead at y^i: row 0 leads with x^12.
    assert_turn_refuses(note, &spoiled(at(0, 1, 10), 1), 11);
    assert_eq!(turn(note, &mut spoiled(at(0, 1, 9), 1), 0).0, 0);
    // A zero row.
    for row in 0..4 {
        let mut zeroed = rows.clone();
        zeroed[at(row, 0, 0)..at(row + 1, 0, 0)].fill(0);
        assert_turn_refuses(note, &zeroed, 11);
    }
}

#[test]
fn a_finished_note_with_unfinished_rows_is_11() {
    let (note, rows) = example_19();
    assert_turn_refuses(Note { r: 4, ..note }, &rows, 11);
    assert_finish_refuses(Note { r: 4, ..note }, &rows, 60, 11);
}

#[test]
fn any_bytes_are_answered() {
    let mut random = Random::new(31);
    for _ in 0..20_000 {
        let note = any_note(&mut random);
        let Note { m, l, n: t, .. } = any_note(&mut random);
        let length = random.below(700);
        let mut rows: Vec<u8> = (0..length).map(|_| random.below(3) as u8).collect();
        turn(note, &mut rows, random.below(300) as u16);
        finish(note, &rows, &mut vec![0; random.below(100)]);
        let [points, word] = [(); 2].map(|()| {
            let length = random.below(8);
            symbols(&mut random, 8, length)
        });
        let Note { p, k, .. } = note;
        encode(p, &points, &word, &mut vec![0; random.below(9)]);
        let request = Request {
            p,
            points,
            word,
            k,
            m,
            l,
        };
        start(&request, &mut rows);
        let mut room = vec![0; random.below(2 * WORKING_ROOM)];
        list(&request, t, &mut room, &mut rows);
    }
}
