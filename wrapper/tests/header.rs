//! What stands here and in crates/boards/include/pluck.h too: the version, the limits, the numbers and the sizes of fields.

use pluck::{encode, Refusal};

const HEADER: &str = include_str!("../../crates/boards/include/pluck.h");

/// The version of the whole repository.
const VERSION: &str = include_str!("../../VERSION");

/// What the header defines a name as.
fn defined(name: &str) -> &'static str {
    let words = |line: &'static str| -> Vec<&str> { line.split_whitespace().take(3).collect() };
    let mut definitions = HEADER.lines().filter_map(|line| match words(line)[..] {
        ["#define", defined, value] if defined == name => Some(value),
        _ => None,
    });
    definitions.next().expect("the header defines it")
}

#[test]
fn one_version_for_all() {
    assert_eq!(pluck::VERSION, VERSION.trim());
    assert_eq!(defined("PLUCK_VERSION"), format!("{:?}", pluck::VERSION));
}

#[test]
fn the_limits_are_those_of_the_header() {
    let limits = [
        ("PLUCK_FIELD_MOST", pluck::FIELD_MOST.into()),
        ("PLUCK_MULTIPLICITY_MOST", pluck::MULTIPLICITY_MOST.into()),
        ("PLUCK_HEIGHT_MOST", pluck::HEIGHT_MOST.into()),
        ("PLUCK_WIDTH_MOST", pluck::WIDTH_MOST),
        ("PLUCK_CURVE_MOST", pluck::CURVE_MOST),
        ("PLUCK_ROWS_MOST", pluck::ROWS_MOST),
        ("PLUCK_WORKING_ROOM", pluck::WORKING_ROOM),
        ("PLUCK_MESSAGES_MOST", pluck::MESSAGES_MOST),
        ("PLUCK_UPDATES_MOST", pluck::UPDATES_MOST.into()),
        ("PLUCK_ALLOWANCE_MOST", pluck::ALLOWANCE_MOST.into()),
        ("PLUCK_DEPARTURE_FIELD", pluck::DEPARTURE_FIELD.into()),
        ("PLUCK_DEPARTURE_SYMBOLS", pluck::DEPARTURE_SYMBOLS),
        ("PLUCK_BOAT_MOST", pluck::BOAT_MOST.into()),
        ("PLUCK_DAY_MOST", pluck::DAY_MOST.into()),
        ("PLUCK_MINUTE_MOST", pluck::MINUTE_MOST.into()),
        ("PLUCK_TIME_BYTES", pluck::TIME_BYTES),
    ];
    for (name, limit) in limits {
        assert_eq!(defined(name), limit.to_string(), "{name}");
    }
}

/// The header's enum of numbers: each name with its number.
fn numbers() -> Vec<(&'static str, &'static str)> {
    let lines = HEADER.lines().filter_map(|line| {
        let (name, number) = line.trim().split_once(" = ")?;
        let number = number.split([',', ' ']).next()?;
        let is_one = name.starts_with("PLUCK_") && number.parse::<u8>().is_ok();
        is_one.then_some((name, number))
    });
    lines.collect()
}

#[test]
fn the_numbers_are_those_of_the_header() {
    let mut known = vec![("PLUCK_DONE".to_string(), "0".to_string())];
    known.extend(Refusal::ALL.map(|refusal| {
        let name = format!("PLUCK_{refusal:?}").to_uppercase();
        (name, refusal.number().to_string())
    }));
    for (name, number) in &known {
        assert!(numbers().contains(&(name, number)), "{name} = {number}");
    }
    assert_eq!(numbers().len(), known.len());
}

/// The numbers, with commas between them, that follow some words.
fn listed(text: &str, words: &str) -> Vec<u8> {
    let (_, rest) = text.split_once(words).expect("the words are there");
    let number = |piece: &str| piece.split_whitespace().next()?.parse().ok();
    rest.split(", ").map_while(number).collect()
}

#[test]
fn the_sizes_are_those_of_the_header_and_of_the_library() {
    let sizes = listed(HEADER, "p is none of ");
    let refusal = Refusal::Field.to_string();
    assert_eq!(listed(&refusal, "p is not in the list "), sizes);
    let goes = |&p: &u8| encode(p, &[0, 1, 2], &[1, 1], &mut [0; 3]) != Err(Refusal::Field);
    assert_eq!((0..=255).filter(goes).collect::<Vec<u8>>(), sizes);
}
