//! The field of 16: products, words and lists by another arithmetic than the program's, and where its numbers end.

mod common;

use common::{agreement, all_messages, started};
use second::field::Field;
use second::limits::{HEIGHT_MOST, MESSAGES_MOST, MULTIPLICITY_MOST, ROWS_MOST, WORKING_ROOM};
use second::random::Random;
use second::sample::with_numbers;
use second::{encode, list, listing, start, turn, Note, Request};

const P: u8 = 16;
const POINTS: [u8; 16] = [0, 1, 2, 3, 4, 5, 6, 7, 8, 9, 10, 11, 12, 13, 14, 15];

/// The word of 1 + 2x: the doubles, with 19 for x^4+x+1 taken away from 16 on without a borrow, and then the last bit turned.
const WORD: [u8; 16] = [1, 3, 5, 7, 9, 11, 13, 15, 2, 0, 6, 4, 10, 8, 14, 12];

/// The product as polynomials over 0 and 1, then what long division by x^4+x+1 leaves of it.
fn product(a: u8, b: u8) -> u8 {
    let terms = (0..4).filter(|bit| b >> bit & 1 == 1).map(|bit| a << bit);
    let whole = terms.fold(0, |sum, term| sum ^ term);
    (0..3).rev().fold(whole, |rest, bit| {
        let divisible = rest >> (bit + 4) & 1 == 1;
        rest ^ if divisible { 0b1_0011 << bit } else { 0 }
    })
}

/// The values at the points, from the highest power down.
fn word_of(message: &[u8], points: &[u8]) -> Vec<u8> {
    let from_the_top = |&point: &u8| {
        let symbols = message.iter().rev();
        symbols.fold(0, |value, symbol| product(value, point) ^ symbol)
    };
    points.iter().map(from_the_top).collect()
}

fn request(word: &[u8], k: u8, m: u8, l: u8) -> Request {
    Request {
        p: P,
        points: POINTS.to_vec(),
        word: word.to_vec(),
        k,
        m,
        l,
    }
}

/// The number and the messages listed.
fn listed(request: &Request, t: usize) -> (u8, Vec<Vec<u8>>) {
    let (mut room, mut messages) = (vec![1; WORKING_ROOM], vec![1; MESSAGES_MOST]);
    let (number, count, ..) = list(request, t as u8, &mut room, &mut messages);
    let messages = messages.chunks(request.k.into()).take(count.into());
    (number, messages.map(<[u8]>::to_vec).collect())
}

#[test]
fn products_are_those_of_bit_polynomials() {
    let field = Field::of_size(P).unwrap();
    for (a, b) in POINTS.into_iter().flat_map(|a| POINTS.map(|b| (a, b))) {
        let found = field.product(a.into(), b.into());
        assert_eq!(found, i64::from(product(a, b)), "{a} {b}");
    }
}

#[test]
fn a_word_by_hand() {
    let mut word = [99; 16];
    assert_eq!(encode(P, &POINTS, &[1, 2], &mut word), 0);
    assert_eq!(word, WORD);
}

#[test]
fn words_are_those_of_bit_polynomials() {
    let mut random = Random::new(70);
    for k in 2..16 {
        let mut points = POINTS;
        random.shuffle(&mut points);
        let message = second::sample::symbols(&mut random, P, k);
        let mut word = [99; 16];
        assert_eq!(encode(P, &points, &message, &mut word), 0);
        assert_eq!(word[..], word_of(&message, &points));
    }
}

/// Half of the word is 1 + 2x, the other half x. Both have 14 at 14, so the first agrees at nine places and the second at eight; the
/// curve is the product of their lines, and weighs 2.
#[test]
fn a_list_by_hand() {
    let halves = [&WORD[..8], &POINTS[8..]].concat();
    let near = |t| listed(&request(&halves, 2, 1, 2), t);
    assert_eq!(near(10), (0, vec![]));
    assert_eq!(near(9), (0, vec![vec![1, 2]]));
    assert_eq!(near(8), (0, vec![vec![0, 1], vec![1, 2]]));
    assert_eq!(near(3), near(8));
    assert_eq!(near(2), (13, vec![]));
}

#[test]
fn the_list_is_that_of_trying_all_256_messages() {
    let mut random = Random::new(71);
    let (mut answered, mut longest) = (0, 0);
    for _ in 0..60 {
        let m = random.between(1, MULTIPLICITY_MOST.into());
        let l = random.between(m, HEIGHT_MOST.into());
        let request = with_numbers(&mut random, P, 16, 2, m, l);
        let agreements =
            |message: &[u8]| agreement(&word_of(message, &request.points), &request.word);
        for t in 1..=16 {
            let (number, found) = listed(&request, t);
            if number == 13 {
                continue;
            }
            let mut wanted = all_messages(P, 2);
            wanted.retain(|message| agreements(message) >= t);
            assert_eq!((number, &found), (0, &wanted));
            answered += 1;
            longest = longest.max(found.len());
        }
    }
    assert!(answered > 300 && longest >= 3, "{answered} {longest}");
}

#[test]
fn sixteen_points_go_and_seventeen_give_2() {
    let numbers = |n: u8| {
        let (points, word) = ((0..n).collect(), vec![0; n.into()]);
        let request = Request {
            points,
            word,
            ..request(&[], 2, 1, 1)
        };
        let encoded = encode(P, &request.points, &[1, 2], &mut [0; 17]);
        let started = start(&request, &mut [0; ROWS_MOST]).0;
        [encoded, started, listed(&request, 3).0]
    };
    assert_eq!(numbers(16), [0; 3]);
    assert_eq!(numbers(17), [2; 3]);
}

#[test]
fn a_symbol_15_goes_and_16_gives_6() {
    let numbers = |symbol: u8| {
        let mut points = POINTS;
        points[15] = symbol;
        let mut word = WORD;
        word[0] = symbol;
        let with_point = Request {
            points: points.to_vec(),
            ..request(&WORD, 2, 1, 1)
        };
        let encoded = |points, message| encode(P, points, message, &mut [0; 16]);
        [
            encoded(&points, &[1, 2]),
            encoded(&POINTS, &[1, symbol]),
            listed(&with_point, 9).0,
            listed(&request(&word, 2, 1, 1), 9).0,
        ]
    };
    assert_eq!(numbers(15), [0; 4]);
    assert_eq!(numbers(16), [6; 4]);
    assert_eq!(numbers(31), [6; 4]);
}

#[test]
fn the_sizes_beside_it_still_give_1() {
    for p in [2, 4, 8, 9, 14, 15, 18, 25, 27, 32] {
        let points = [0, 1, 2];
        assert_eq!(encode(p, &points, &[1, 1], &mut [0; 3]), 1);
    }
}

#[test]
fn a_note_and_its_rows_end_at_16_too() {
    let (note, rows) = started(&request(&WORD, 2, 1, 1));
    let number = |note, byte| {
        let mut rows = rows.clone();
        rows[0] = byte;
        turn(note, &mut rows, 0).0
    };
    assert_eq!((note.p, note.n), (16, 16));
    assert_eq!((number(note, 15), number(note, 16)), (0, 11));
    assert_eq!(number(Note { n: 17, ..note }, 15), 10);
    assert_eq!(number(Note { p: 15, ..note }, 15), 10);
}

#[test]
fn the_program_takes_field_16() {
    let input = "field=16\nk=2\nm=1\nl=2\nt=3\npoints=0,1,2,3,14,15\nword=1,3,5,7,14,15\n";
    let printed = String::from_utf8(listing(input.as_bytes())).unwrap();
    let lines: Vec<&str> = printed.lines().collect();
    assert_eq!((lines[0], lines[3]), ("answer=0", "count=1"));
    assert_eq!(lines[4..], ["message=1,2"]);
    let refused = input.replacen("15\nword", "16\nword", 1);
    assert_eq!(listing(refused.as_bytes()), b"answer=6\n");
}
