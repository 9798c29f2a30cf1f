//! An answer as a line.

use second::cases::{Answer, Call, Case};
use second::{Departure, Heard, Listed, Note, DONE};

/// Empty for a change.
pub fn line(case: &Case) -> Vec<u8> {
    let text = match &case.answer {
        Answer::Encode { number, word } => format!("encode {number} word{}", bytes(word)),
        Answer::Start { number, note, rows } => {
            format!("start {number} note {} rows {}", numbers(*note), sum(rows))
        }
        Answer::Turn {
            number,
            note,
            updates,
            rows,
        } => {
            let turned = format!("{} {number} note {}", turn(&case.call), numbers(*note));
            format!("{turned} updates {updates} rows {}", sum(rows))
        }
        Answer::Finish {
            number,
            weight,
            height,
            curve,
        } => format!(
            "finish {number} weight {weight} height {height} curve {}",
            sum(curve)
        ),
        Answer::List {
            listed,
            room,
            messages,
        } => list(*listed, room, messages),
        Answer::Program { text } => return printed(text),
        Answer::Write { number, message } => format!("write {number} message{}", bytes(message)),
        Answer::Read { number, departure } => format!("read {number} {}", spelled(*departure)),
        Answer::Show { number, text } => format!("show {number} text{}", bytes(text)),
        Answer::Hear { heard, room } => format!("hear {} room {}", told(*heard), sum(room)),
        Answer::Change => return Vec::new(),
    };
    (text + "\n").into_bytes()
}

fn list((number, count, updates, weight): Listed, room: &[u8], messages: &[u8]) -> String {
    let numbers = format!("{number} count {count} updates {updates} weight {weight}");
    format!(
        "list {numbers} room {} messages{}",
        sum(room),
        bytes(messages)
    )
}

fn printed(text: &[u8]) -> Vec<u8> {
    let length = format!("program {}\n", text.len());
    [length.as_bytes(), text].concat()
}

fn turn(call: &Call) -> &'static str {
    match call {
        Call::Turn { in_place: true, .. } => "turn_in_place",
        _ => "turn",
    }
}

fn numbers(note: Note) -> String {
    let Note { p, n, k, m, l, r } = note;
    format!("{p} {n} {k} {m} {l} {r}")
}

fn spelled(departure: Departure) -> String {
    let Departure { boat, day, minute } = departure;
    format!("departure {boat} {day} {minute}")
}

/// The number, the count and the departure, as the call for C hands them back.
fn told(heard: Heard) -> String {
    let none = Departure::default();
    let (number, count, departure) = match heard {
        Heard::None => (DONE, 0, none),
        Heard::One(departure) => (DONE, 1, departure),
        Heard::Several => (DONE, 2, none),
        Heard::Refused(number) => (number, 0, none),
    };
    format!("{number} count {count} {}", spelled(departure))
}

fn bytes(bytes: &[u8]) -> String {
    bytes.iter().map(|byte| format!(" {byte}")).collect()
}

fn sum(bytes: &[u8]) -> u64 {
    let step = |sum, &byte| (257 * sum + u64::from(byte) + 1) % 4_294_967_291;
    bytes.iter().fold(0, step)
}
