//! The limits, from the rules (docs/RULES.md): those that stand there, and those that follow from them. Of rooms, in bytes.

use crate::field::FIELDS;

/// The largest field size, so the most points.
pub const FIELD_MOST: u8 = FIELDS[FIELDS.len() - 1];

/// The greatest m.
pub const MULTIPLICITY_MOST: u8 = 4;

/// The greatest l.
pub const HEIGHT_MOST: u8 = 8;

/// The greatest W.
pub const WIDTH_MOST: usize = 240;

/// The largest curve: a slot of W+1 for each power of y.
pub const CURVE_MOST: usize = (HEIGHT_MOST as usize + 1) * (WIDTH_MOST + 1);

/// The largest rows: l+1 curves.
pub const ROWS_MOST: usize = (HEIGHT_MOST as usize + 1) * CURVE_MOST;

/// The working room of a list, and of hear.
pub const WORKING_ROOM: usize = 32_768;

/// The most messages: l of them, each with fewer symbols than there are points.
pub const MESSAGES_MOST: usize = HEIGHT_MOST as usize * (FIELD_MOST as usize - 1);

/// The most updates from a start.
pub const UPDATES_MOST: usize = 3_886;

/// The largest allowance.
pub const ALLOWANCE_MOST: u16 = 65_535;

/// The field size of a departure's message.
pub const DEPARTURE_FIELD: u8 = 31;

/// The symbols of a departure's message.
pub const DEPARTURE_SYMBOLS: usize = 6;

/// The largest boat: one symbol.
pub const BOAT_MOST: u8 = 30;

/// The largest service day: two digits.
pub const DAY_MOST: u16 = 960;

/// The largest minute of a service day: thirty hours less a minute.
pub const MINUTE_MOST: u16 = 1_799;

/// The time that a departure prints.
pub const TIME_BYTES: usize = 5;

#[cfg(test)]
mod tests {
    use super::*;
    use crate::field::Field;
    use crate::setting::Setting;

    /// The greatest n, m and l with the given k.
    fn largest(k: usize) -> Setting {
        Setting {
            field: Field::of_size(FIELD_MOST).unwrap(),
            n: FIELD_MOST.into(),
            k,
            m: MULTIPLICITY_MOST.into(),
            l: HEIGHT_MOST.into(),
        }
    }

    #[test]
    fn the_limits_are_those_of_the_largest_settings() {
        let rooms = largest(usize::from(FIELD_MOST) - 1);
        assert_eq!(rooms.greatest_weight(), WIDTH_MOST);
        assert_eq!(rooms.curve_room(), CURVE_MOST);
        assert_eq!(rooms.rows_room(), ROWS_MOST);
        assert_eq!(rooms.messages_room(), MESSAGES_MOST);
        assert_eq!(largest(2).update_bound(), UPDATES_MOST);
    }

    #[test]
    fn the_limits_in_numbers() {
        assert_eq!((FIELD_MOST, MULTIPLICITY_MOST, HEIGHT_MOST), (31, 4, 8));
        assert_eq!((WIDTH_MOST, MESSAGES_MOST), (240, 240));
        assert_eq!((CURVE_MOST, ROWS_MOST), (2_169, 19_521));
    }

    #[test]
    fn every_boat_and_day_that_symbols_spell_is_in_range() {
        let field = u16::from(DEPARTURE_FIELD);
        assert_eq!(u16::from(BOAT_MOST), field - 1);
        assert_eq!(DAY_MOST, field * field - 1);
        assert!(MINUTE_MOST < field * field * field - 1);
        assert_eq!(MINUTE_MOST, 30 * 60 - 1);
        assert_eq!(TIME_BYTES, "29:59".len());
    }
}
