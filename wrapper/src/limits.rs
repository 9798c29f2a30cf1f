//! The limits (docs/RULES.md), by the names of crates/boards/include/pluck.h. Those of rooms are in bytes.

use crate::rooms::{curve_bytes, greatest_weight, messages_bytes, rows_bytes};

/// The largest field size, so the most points.
pub const FIELD_MOST: u8 = 31;

/// The greatest m.
pub const MULTIPLICITY_MOST: u8 = 4;

/// The greatest l.
pub const HEIGHT_MOST: u8 = 8;

/// The greatest k: a message has fewer symbols than there are points.
const SYMBOLS_MOST: u8 = FIELD_MOST - 1;

/// The greatest W.
pub const WIDTH_MOST: usize =
    greatest_weight(FIELD_MOST, SYMBOLS_MOST, MULTIPLICITY_MOST, HEIGHT_MOST);

/// The largest curve.
pub const CURVE_MOST: usize = curve_bytes(FIELD_MOST, SYMBOLS_MOST, MULTIPLICITY_MOST, HEIGHT_MOST);

/// The largest rows.
pub const ROWS_MOST: usize = rows_bytes(FIELD_MOST, SYMBOLS_MOST, MULTIPLICITY_MOST, HEIGHT_MOST);

/// The working room of a list, and of hear.
pub const WORKING_ROOM: usize = 32_768;

/// The most messages.
pub const MESSAGES_MOST: usize = messages_bytes(SYMBOLS_MOST, HEIGHT_MOST);

/// The most updates from a start: the formula with the greatest n, m and l, and k = 2.
pub const UPDATES_MOST: u16 = 3_886;

/// The largest allowance.
pub const ALLOWANCE_MOST: u16 = 65_535;

/// The field size of a departure's message.
pub const DEPARTURE_FIELD: u8 = 31;

/// The symbols of a departure's message.
pub const DEPARTURE_SYMBOLS: usize = 6;

/// The largest boat.
pub const BOAT_MOST: u8 = 30;

/// The largest service day.
pub const DAY_MOST: u16 = 960;

/// The largest minute of a service day.
pub const MINUTE_MOST: u16 = 1_799;

/// The time that a departure prints.
pub const TIME_BYTES: usize = 5;
