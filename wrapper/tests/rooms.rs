//! The sizes of the rooms, and what lies beyond them.

mod common;

use common::{untouched, EXAMPLE_19, FILL, POINTS};
use pluck::{curve_bytes, encode, finish, list, rows_bytes, start};
use pluck::{ALLOWANCE_MOST, CURVE_MOST, MESSAGES_MOST, ROWS_MOST, WIDTH_MOST, WORKING_ROOM};

#[test]
fn the_largest_rooms() {
    assert_eq!((WIDTH_MOST, MESSAGES_MOST), (240, 240));
    assert_eq!((CURVE_MOST, ROWS_MOST), (2_169, 19_521));
}

#[test]
fn no_numbers_are_too_large() {
    let ends: [u8; 6] = [0, 1, 2, 127, 254, 255];
    for (n, k) in ends.iter().flat_map(|&n| ends.map(|k| (n, k))) {
        for (m, l) in ends.iter().flat_map(|&m| ends.map(|l| (m, l))) {
            let side = u128::from(l) + 1;
            let above = u128::from(l.saturating_sub(m)) * u128::from(k.saturating_sub(1));
            let slot = u128::from(m) * u128::from(n) + above + 1;
            assert_eq!(curve_bytes(n, k, m, l) as u128, side * slot);
            assert_eq!(rows_bytes(n, k, m, l) as u128, side * side * slot);
        }
    }
    assert!(u32::try_from(rows_bytes(255, 255, 255, 255)).is_ok());
}

#[test]
fn what_is_lent_beyond_the_need_stays_as_it_was() {
    let mut word = [FILL; 9];
    assert_eq!(encode(7, &POINTS, &[5, 2, 6], &mut word), Ok(()));
    assert!(!untouched(&word[..6]) && untouched(&word[6..]));

    let (mut rows, mut curve) = ([FILL; 243], [FILL; 63]);
    let started = start(&EXAMPLE_19, &mut rows);
    assert_eq!(started.outcome, Ok(()));
    assert!(untouched(&rows[240..]));
    let mut note = started.note;
    assert_eq!(note.turn(&mut rows, ALLOWANCE_MOST).outcome, Ok(()));
    assert!(untouched(&rows[240..]));
    assert_eq!(finish(&note, &rows, &mut curve).outcome, Ok(()));
    assert!(untouched(&curve[60..]));

    let (mut room, mut messages) = (vec![FILL; WORKING_ROOM + 3], [FILL; 12]);
    let near = list(&EXAMPLE_19, 4, &mut room, &mut messages);
    assert_eq!((near.outcome, near.count), (Ok(()), 2));
    assert_eq!(room[..WORKING_ROOM], [0; WORKING_ROOM]);
    assert!(untouched(&room[WORKING_ROOM..]) && untouched(&messages[6..]));
}
