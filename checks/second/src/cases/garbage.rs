//! Notes and rows as they should not be: damaged, or such that no start leads to them.

use crate::curve::Curve;
use crate::random::Random;
use crate::rows::as_a_turn_leaves;
use crate::sample;
use crate::setting::{Note, Setting};
use crate::slots::{read_rows, write_rows};

/// Any six bytes, or a note with one of its numbers wrong.
pub fn wrong_note(random: &mut Random, note: Note) -> Note {
    match random.below(4) {
        0 => sample::any_note(random),
        1 => Note {
            r: wrong_row_number(random, note),
            ..note
        },
        _ => wrong_number(random, note),
    }
}

fn wrong_row_number(random: &mut Random, note: Note) -> u8 {
    let near = [note.r.wrapping_sub(1), note.r.wrapping_add(1)];
    random.pick(&[0, near[0], near[1], note.l.wrapping_add(1), 255])
}

fn wrong_number(random: &mut Random, mut note: Note) -> Note {
    let numbers = [
        &mut note.p,
        &mut note.n,
        &mut note.k,
        &mut note.m,
        &mut note.l,
    ];
    let place = random.below(numbers.len());
    let old = *numbers[place];
    *numbers[place] = random.pick(&[0, old.wrapping_sub(1), old.wrapping_add(1), 255]);
    note
}

/// The rows with one of them zero, or with another in its place, or with a few coefficients altered, or others altogether.
pub fn damaged(random: &mut Random, setting: &Setting, note: Note, rows: &[u8]) -> Vec<u8> {
    match random.below(6) {
        0 => with_a_zero_row(random, setting, rows),
        1 => with_a_row_twice(random, setting, rows),
        2 => sample::free_rows(random, setting, row_number(setting, note)),
        _ => with_few_altered(random, setting, rows),
    }
}

/// The rows with row r a combination of those below it, which leads a turn to the late 11; none where the note has
/// no such row.
pub fn dependent(
    random: &mut Random,
    setting: &Setting,
    note: Note,
    rows: &[u8],
) -> Option<Vec<u8>> {
    let r = usize::from(note.r);
    if !(1..=setting.l).contains(&r) {
        return None;
    }
    match accepted(setting, r, rows) {
        None => Some(sample::dependent_rows(random, setting, r)),
        Some(mut curves) => {
            curves[r] = sample::combination(random, setting, &curves[..r]);
            let mut written = rows.to_vec();
            write_rows(setting, &curves, &mut written);
            Some(written)
        }
    }
}

fn accepted(setting: &Setting, r: usize, rows: &[u8]) -> Option<Vec<Curve>> {
    let curves = read_rows(setting, rows).ok()?;
    as_a_turn_leaves(&curves, r).then_some(curves)
}

/// The note's row number, or the nearest within the range.
fn row_number(setting: &Setting, note: Note) -> usize {
    usize::from(note.r).clamp(1, setting.l + 1)
}

fn with_a_zero_row(random: &mut Random, setting: &Setting, rows: &[u8]) -> Vec<u8> {
    let mut rows = rows.to_vec();
    let length = setting.curve_room();
    let at = length * random.below(setting.l + 1);
    rows[at..at + length].fill(0);
    rows
}

fn with_a_row_twice(random: &mut Random, setting: &Setting, rows: &[u8]) -> Vec<u8> {
    let mut rows = rows.to_vec();
    let length = setting.curve_room();
    let [from, to] = [(); 2].map(|()| length * random.below(setting.l + 1));
    rows.copy_within(from..from + length, to);
    rows
}

/// One to three bytes, most of them symbols, so that the rows are sometimes still accepted.
pub fn with_few_altered(random: &mut Random, setting: &Setting, rows: &[u8]) -> Vec<u8> {
    let mut rows = rows.to_vec();
    let p = setting.field.symbols().end as usize;
    for _ in 0..random.between(1, 3) {
        let place = random.below(rows.len());
        rows[place] = match random.below(4) {
            0 => p as u8,
            1 => random.byte(),
            _ => random.below(p) as u8,
        };
    }
    rows
}
