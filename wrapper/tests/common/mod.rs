//! The case that most tests start from: example 19, in field 7.
#![allow(dead_code)]

use pluck::{start, Note, Request};

pub const POINTS: [u8; 6] = [1, 2, 3, 4, 5, 6];
pub const WORD: [u8; 6] = [6, 2, 4, 4, 4, 2];

pub const EXAMPLE_19: Request = Request {
    p: 7,
    points: &POINTS,
    word: &WORD,
    k: 3,
    m: 2,
    l: 3,
};

/// What a byte is that no job should write.
pub const FILL: u8 = 0xc3;

pub fn untouched(bytes: &[u8]) -> bool {
    bytes.iter().all(|&byte| byte == FILL)
}

/// The note and the rows after a start that is not refused.
pub fn started(request: &Request) -> (Note, Vec<u8>) {
    let n = request.points.len() as u8;
    let mut rows = vec![FILL; pluck::rows_bytes(n, request.k, request.m, request.l)];
    let started = start(request, &mut rows);
    assert_eq!(started.outcome, Ok(()));
    (started.note, rows)
}
