//! The calls of crates/boards/include/pluck.h, and all that is unsafe here. A slice passes as its address, which is never
//! null, and its length. What is lent as `&mut` overlaps nothing else; two that are only read may be the same bytes,
//! which no call can tell. The functions are proved to stay within what they are lent.

use crate::departures::Departure;
use crate::jobs::Request;

pub const NOTE_BYTES: usize = 6;
pub const BACK_BYTES: usize = 5;
pub const DEPARTURE_BYTES: usize = 5;
pub const HEARD_BYTES: usize = 6;

extern "C" {
    fn pluck_encode(
        p: u8, points: *const u8, points_len: usize, message: *const u8, message_len: usize,
        word: *mut u8, word_len: usize,
    ) -> u8;

    fn pluck_start(
        p: u8, points: *const u8, points_len: usize, word: *const u8, word_len: usize, k: u8,
        m: u8, l: u8, rows: *mut u8, rows_len: usize, note: *mut u8, note_len: usize,
    ) -> u8;

    fn pluck_turn(
        note: *mut u8, note_len: usize, rows: *mut u8, rows_len: usize, allowance: u16,
        back: *mut u8, back_len: usize,
    ) -> u8;

    fn pluck_finish(
        note: *const u8, note_len: usize, rows: *const u8, rows_len: usize, curve: *mut u8,
        curve_len: usize, back: *mut u8, back_len: usize,
    ) -> u8;

    fn pluck_list(
        p: u8, points: *const u8, points_len: usize, word: *const u8, word_len: usize, k: u8,
        m: u8, l: u8, t: u8, room: *mut u8, room_len: usize, messages: *mut u8,
        messages_len: usize, back: *mut u8, back_len: usize,
    ) -> u8;

    fn pluck_write_departure(
        boat: u8, day: u16, minute: u16, message: *mut u8, message_len: usize,
    ) -> u8;

    fn pluck_read_departure(
        message: *const u8, message_len: usize, departure: *mut u8, departure_len: usize,
    ) -> u8;

    fn pluck_show_departure(boat: u8, day: u16, minute: u16, text: *mut u8, text_len: usize) -> u8;

    fn pluck_hear(
        points: *const u8, points_len: usize, word: *const u8, word_len: usize, m: u8, l: u8,
        t: u8, room: *mut u8, room_len: usize, heard: *mut u8, heard_len: usize,
    ) -> u8;
}

pub fn encode(p: u8, points: &[u8], message: &[u8], word: &mut [u8]) -> u8 {
    // SAFETY: every room is a slice, as this file's head says; likewise below.
    unsafe {
        pluck_encode(
            p,
            points.as_ptr(),
            points.len(),
            message.as_ptr(),
            message.len(),
            word.as_mut_ptr(),
            word.len(),
        )
    }
}

pub fn start(request: &Request, rows: &mut [u8], note: &mut [u8; NOTE_BYTES]) -> u8 {
    let Request { points, word, .. } = request;
    unsafe {
        pluck_start(
            request.p,
            points.as_ptr(),
            points.len(),
            word.as_ptr(),
            word.len(),
            request.k,
            request.m,
            request.l,
            rows.as_mut_ptr(),
            rows.len(),
            note.as_mut_ptr(),
            note.len(),
        )
    }
}

pub fn turn(
    note: &mut [u8; NOTE_BYTES], rows: &mut [u8], allowance: u16, back: &mut [u8; BACK_BYTES],
) -> u8 {
    unsafe {
        pluck_turn(
            note.as_mut_ptr(),
            note.len(),
            rows.as_mut_ptr(),
            rows.len(),
            allowance,
            back.as_mut_ptr(),
            back.len(),
        )
    }
}

pub fn finish(
    note: &[u8; NOTE_BYTES], rows: &[u8], curve: &mut [u8], back: &mut [u8; BACK_BYTES],
) -> u8 {
    unsafe {
        pluck_finish(
            note.as_ptr(),
            note.len(),
            rows.as_ptr(),
            rows.len(),
            curve.as_mut_ptr(),
            curve.len(),
            back.as_mut_ptr(),
            back.len(),
        )
    }
}

pub fn list(
    request: &Request, t: u8, room: &mut [u8], messages: &mut [u8], back: &mut [u8; BACK_BYTES],
) -> u8 {
    let Request { points, word, .. } = request;
    unsafe {
        pluck_list(
            request.p,
            points.as_ptr(),
            points.len(),
            word.as_ptr(),
            word.len(),
            request.k,
            request.m,
            request.l,
            t,
            room.as_mut_ptr(),
            room.len(),
            messages.as_mut_ptr(),
            messages.len(),
            back.as_mut_ptr(),
            back.len(),
        )
    }
}

pub fn write_departure(departure: Departure, message: &mut [u8]) -> u8 {
    let Departure { boat, day, minute } = departure;
    unsafe { pluck_write_departure(boat, day, minute, message.as_mut_ptr(), message.len()) }
}

pub fn read_departure(message: &[u8], departure: &mut [u8; DEPARTURE_BYTES]) -> u8 {
    unsafe {
        pluck_read_departure(
            message.as_ptr(),
            message.len(),
            departure.as_mut_ptr(),
            departure.len(),
        )
    }
}

pub fn show_departure(departure: Departure, text: &mut [u8]) -> u8 {
    let Departure { boat, day, minute } = departure;
    unsafe { pluck_show_departure(boat, day, minute, text.as_mut_ptr(), text.len()) }
}

pub fn hear(
    points: &[u8], word: &[u8], m: u8, l: u8, t: u8, room: &mut [u8], heard: &mut [u8; HEARD_BYTES],
) -> u8 {
    unsafe {
        pluck_hear(
            points.as_ptr(),
            points.len(),
            word.as_ptr(),
            word.len(),
            m,
            l,
            t,
            room.as_mut_ptr(),
            room.len(),
            heard.as_mut_ptr(),
            heard.len(),
        )
    }
}
