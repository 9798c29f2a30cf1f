//! Rows and curves in lent bytes: slots of W+1 bytes, row by row, in each row by rising power of y.

use crate::checks::{require, Refusal};
use crate::curve::{Curve, Term};
use crate::setting::Setting;

/// The rows that stand in the slots; 11 if a coefficient is p or more, or one of weight above W is not zero.
pub fn read_rows(setting: &Setting, lent: &[u8]) -> Result<Vec<Curve>, Refusal> {
    let slots = &lent[..setting.rows_room()];
    let rows = slots.chunks(setting.curve_room());
    rows.map(|row| read_curve(setting, row)).collect()
}

fn read_curve(setting: &Setting, slots: &[u8]) -> Result<Curve, Refusal> {
    let mut terms = Vec::new();
    for (y, slot) in slots.chunks(setting.slot()).enumerate() {
        for (x, &byte) in slot.iter().enumerate().filter(|(_, &byte)| byte != 0) {
            let term = Term::new(setting.u(), x, y);
            let coefficient = i64::from(byte);
            let reduced = setting.field.symbols().contains(&coefficient);
            let light = term.weight <= setting.greatest_weight();
            require(reduced && light, Refusal::Rows)?;
            terms.push((term, coefficient));
        }
    }
    Ok(Curve::gather(setting.field, terms))
}

/// Writes the rows' slots and nothing beyond them.
pub fn write_rows(setting: &Setting, rows: &[Curve], lent: &mut [u8]) {
    for (slots, row) in lent.chunks_mut(setting.curve_room()).zip(rows) {
        write_curve(setting, row, slots);
    }
}

/// Writes one curve's slots and nothing beyond them.
pub fn write_curve(setting: &Setting, curve: &Curve, lent: &mut [u8]) {
    let slots = &mut lent[..setting.curve_room()];
    slots.fill(0);
    for &(term, coefficient) in curve.terms() {
        slots[term.y * setting.slot() + term.x] = coefficient as u8;
    }
}
