//! The second program's jobs for C: the calls of crates/boards/include/pluck.h under other names, so that the benchmark can
//! take either. What that header asks of whoever calls is asked here too: addresses are not null, rooms do not overlap.

#![allow(clippy::missing_safety_doc)]

use second::{Note, Request};

const SHORT: u8 = 9;

unsafe fn given<'a>(room: *const u8, length: usize) -> &'a [u8] {
    std::slice::from_raw_parts(room, length)
}

unsafe fn lent<'a>(room: *mut u8, length: usize) -> &'a mut [u8] {
    std::slice::from_raw_parts_mut(room, length)
}

fn note_of(bytes: &[u8]) -> Option<Note> {
    let &[p, n, k, m, l, r] = bytes.first_chunk()?;
    Some(Note { p, n, k, m, l, r })
}

fn write_note(note: Note, bytes: &mut [u8]) {
    let Note { p, n, k, m, l, r } = note;
    bytes[..6].copy_from_slice(&[p, n, k, m, l, r]);
}

fn write_back(updates: u32, weight: u8, height: u8, count: u8, back: &mut [u8; 5]) {
    let [low, high, ..] = updates.to_le_bytes();
    *back = [low, high, weight, height, count];
}

#[no_mangle]
pub unsafe extern "C" fn second_encode(
    p: u8, points: *const u8, points_len: usize, message: *const u8, message_len: usize,
    word: *mut u8, word_len: usize,
) -> u8 {
    let (points, message) = (given(points, points_len), given(message, message_len));
    second::encode(p, points, message, lent(word, word_len))
}

#[no_mangle]
pub unsafe extern "C" fn second_start(
    p: u8, points: *const u8, points_len: usize, word: *const u8, word_len: usize, k: u8, m: u8,
    l: u8, rows: *mut u8, rows_len: usize, note: *mut u8, note_len: usize,
) -> u8 {
    let (points, word) = (
        given(points, points_len).to_vec(),
        given(word, word_len).to_vec(),
    );
    let note = lent(note, note_len);
    if note_of(note).is_none() {
        return SHORT;
    }
    let request = Request {
        p,
        points,
        word,
        k,
        m,
        l,
    };
    let (number, started) = second::start(&request, lent(rows, rows_len));
    write_note(started, note);
    number
}

#[no_mangle]
pub unsafe extern "C" fn second_turn(
    note: *mut u8, note_len: usize, rows: *mut u8, rows_len: usize, allowance: u16, back: *mut u8,
    back_len: usize,
) -> u8 {
    let (note, back) = (lent(note, note_len), lent(back, back_len));
    let (Some(given), Some(back)) = (note_of(note), back.first_chunk_mut()) else {
        return SHORT;
    };
    let (number, next, updates) = second::turn(given, lent(rows, rows_len), allowance);
    write_note(next, note);
    write_back(updates, 0, 0, 0, back);
    number
}

#[no_mangle]
pub unsafe extern "C" fn second_finish(
    note: *const u8, note_len: usize, rows: *const u8, rows_len: usize, curve: *mut u8,
    curve_len: usize, back: *mut u8, back_len: usize,
) -> u8 {
    let (note, back) = (given(note, note_len), lent(back, back_len));
    let (Some(note), Some(back)) = (note_of(note), back.first_chunk_mut()) else {
        return SHORT;
    };
    let (number, weight, height) =
        second::finish(note, given(rows, rows_len), lent(curve, curve_len));
    write_back(0, weight, height, 0, back);
    number
}

#[no_mangle]
pub unsafe extern "C" fn second_list(
    p: u8, points: *const u8, points_len: usize, word: *const u8, word_len: usize, k: u8, m: u8,
    l: u8, t: u8, room: *mut u8, room_len: usize, messages: *mut u8, messages_len: usize,
    back: *mut u8, back_len: usize,
) -> u8 {
    let (points, word) = (
        given(points, points_len).to_vec(),
        given(word, word_len).to_vec(),
    );
    let Some(back) = lent(back, back_len).first_chunk_mut() else {
        return SHORT;
    };
    let request = Request {
        p,
        points,
        word,
        k,
        m,
        l,
    };
    let (room, messages) = (lent(room, room_len), lent(messages, messages_len));
    let (number, count, updates, weight) = second::list(&request, t, room, messages);
    write_back(updates, weight, 0, count, back);
    number
}
