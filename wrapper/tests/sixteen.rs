//! The field of 16 through the calls: a word and a list worked out by hand, and where its numbers end.

use pluck::{encode, list, start, Outcome, Refusal, Request};
use pluck::{messages_bytes, rows_bytes, WORKING_ROOM};

const POINTS: [u8; 16] = [0, 1, 2, 3, 4, 5, 6, 7, 8, 9, 10, 11, 12, 13, 14, 15];

/// The word of 1 + 2x: the doubles, with 19 for x^4+x+1 taken away from 16 on without a borrow, and then the last bit turned.
const WORD: [u8; 16] = [1, 3, 5, 7, 9, 11, 13, 15, 2, 0, 6, 4, 10, 8, 14, 12];

const REQUEST: Request = Request {
    p: 16,
    points: &POINTS,
    word: &WORD,
    k: 2,
    m: 1,
    l: 2,
};

fn encoded(points: &[u8], message: &[u8]) -> (Outcome, [u8; 16]) {
    let mut word = [99; 16];
    (encode(16, points, message, &mut word), word)
}

/// The outcome and the messages listed.
fn near(request: &Request, t: u8) -> (Outcome, Vec<u8>) {
    let mut room = vec![1; WORKING_ROOM];
    let mut messages = vec![99; messages_bytes(request.k, request.l)];
    let near = list(request, t, &mut room, &mut messages);
    messages.truncate(usize::from(near.count) * usize::from(request.k));
    (near.outcome, messages)
}

#[test]
fn a_word_by_hand() {
    assert_eq!(encoded(&POINTS, &[1, 2]), (Ok(()), WORD));
}

/// Half of the word is 1 + 2x, the other half x. Both have 14 at 14, so the first agrees at nine places and the second at
/// eight; the curve is the product of their lines, and weighs 2.
#[test]
fn a_list_by_hand() {
    let halves = [&WORD[..8], &POINTS[8..]].concat();
    let near = |t| {
        let word = &halves;
        near(&Request { word, ..REQUEST }, t)
    };
    assert_eq!(near(10), (Ok(()), vec![]));
    assert_eq!(near(9), (Ok(()), vec![1, 2]));
    assert_eq!(near(8), (Ok(()), vec![0, 1, 1, 2]));
    assert_eq!(near(2), (Err(Refusal::Unvouched), vec![]));
}

#[test]
fn fifteen_is_a_symbol_and_sixteen_is_none() {
    let outcomes = |symbol: u8| {
        let (mut points, mut word) = (POINTS, WORD);
        (points[15], word[0]) = (symbol, symbol);
        let (points, word) = (&points, &word);
        [
            encoded(points, &[1, 2]).0,
            encoded(&POINTS, &[1, symbol]).0,
            near(&Request { points, ..REQUEST }, 9).0,
            near(&Request { word, ..REQUEST }, 9).0,
        ]
    };
    assert_eq!(outcomes(15), [Ok(()); 4]);
    assert_eq!(outcomes(16), [Err(Refusal::Symbol); 4]);
}

#[test]
fn sixteen_points_go_and_seventeen_are_too_many() {
    let outcome = |n: u8| {
        let (points, word) = ((0..n).collect::<Vec<u8>>(), vec![0; n.into()]);
        let (points, word) = (&points, &word);
        let request = Request {
            points,
            word,
            ..REQUEST
        };
        let mut rows = vec![0; rows_bytes(n, 2, 1, 2)];
        start(&request, &mut rows).outcome
    };
    assert_eq!(outcome(16), Ok(()));
    assert_eq!(outcome(17), Err(Refusal::Count));
}
