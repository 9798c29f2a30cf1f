//! The jobs start, turn and finish, on lent bytes.

use crate::checks::{self, require, Refusal, DONE};
use crate::curve::Curve;
use crate::poly::symbols;
use crate::request::Request;
use crate::rows::{as_a_turn_leaves, smallest, starting_rows, take_turn};
use crate::setting::{Note, Setting};
use crate::slots::{read_rows, write_curve, write_rows};

/// Starts an interpolation; hands back the number and the note.
pub fn start(request: &Request, rows: &mut [u8]) -> (u8, Note) {
    let checked = checks::request(request).and_then(|setting| {
        checks::room(rows, setting.rows_room())?;
        Ok(setting)
    });
    match checked {
        Err(refusal) => (refusal.number(), Note::default()),
        Ok(setting) => {
            let started =
                starting_rows(&setting, &symbols(&request.points), &symbols(&request.word));
            write_rows(&setting, &started, rows);
            (DONE, Note::first(request))
        }
    }
}

/// Takes a turn; hands back the number, the next note and the updates made.
pub fn turn(note: Note, rows: &mut [u8], allowance: u16) -> (u8, Note, u32) {
    match rows_for_turn(note, rows) {
        Err(refusal) => (refusal.number(), note, 0),
        Ok((setting, mut curves)) => {
            let r = usize::from(note.r);
            let end = take_turn(&setting, &mut curves, r, u32::from(allowance));
            write_rows(&setting, &curves, rows);
            let number = if end.stopped {
                Refusal::Rows.number()
            } else {
                DONE
            };
            let r = end.r as u8;
            (number, Note { r, ..note }, end.updates)
        }
    }
}

fn rows_for_turn(note: Note, rows: &[u8]) -> Result<(Setting, Vec<Curve>), Refusal> {
    let setting = checks::note(note)?;
    checks::room(rows, setting.rows_room())?;
    Ok((setting, accepted_rows(&setting, note, rows)?))
}

/// Finishes; hands back the number, the curve's weight and its height.
pub fn finish(note: Note, rows: &[u8], curve: &mut [u8]) -> (u8, u8, u8) {
    match smallest_of(note, rows, curve) {
        Err(refusal) => (refusal.number(), 0, 0),
        Ok((setting, found)) => {
            write_curve(&setting, &found, curve);
            let weight = found.lead().map_or(0, |(term, _)| term.weight);
            (DONE, weight as u8, found.height() as u8)
        }
    }
}

fn smallest_of(note: Note, rows: &[u8], curve: &[u8]) -> Result<(Setting, Curve), Refusal> {
    let setting = checks::note(note)?;
    checks::room(rows, setting.rows_room())?;
    checks::room(curve, setting.curve_room())?;
    require(usize::from(note.r) > setting.l, Refusal::Unfinished)?;
    let accepted = accepted_rows(&setting, note, rows)?;
    let found = smallest(&setting, &accepted).ok_or(Refusal::Rows)?;
    Ok((setting, found))
}

/// Number 11 at entry.
fn accepted_rows(setting: &Setting, note: Note, rows: &[u8]) -> Result<Vec<Curve>, Refusal> {
    let curves = read_rows(setting, rows)?;
    let as_left = as_a_turn_leaves(&curves, usize::from(note.r));
    require(as_left, Refusal::Rows)?;
    Ok(curves)
}
