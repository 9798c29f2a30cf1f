//! The program `listing`: seven lines in, the answer out.

use crate::checks::{require, Refusal, DONE};
use crate::limits::{FIELD_MOST, WORKING_ROOM};
use crate::list::list;
use crate::request::Request;

const KEYS: [&[u8]; 7] = [b"field=", b"k=", b"m=", b"l=", b"t=", b"points=", b"word="];
/// As many as there can be points.
const MOST_NUMBERS: usize = FIELD_MOST as usize;
const MOST_DIGITS: usize = 3;

/// What the program prints for what it reads.
pub fn listing(input: &[u8]) -> Vec<u8> {
    match read(input) {
        Err(refusal) => answer_line(refusal.number()).into_bytes(),
        Ok((request, t)) => answer(&request, t).into_bytes(),
    }
}

/// The request and t.
fn read(input: &[u8]) -> Result<(Request, u8), Refusal> {
    let lines: Vec<&[u8]> = input.split(|&byte| byte == b'\n').collect();
    // Seven line feeds and nothing after the last make eight pieces, the last empty.
    let [seven @ .., rest] = lines.as_slice() else {
        return Err(Refusal::Lines);
    };
    require(seven.len() == KEYS.len() && rest.is_empty(), Refusal::Lines)?;
    let value = |place: usize| seven[place].strip_prefix(KEYS[place]).ok_or(Refusal::Lines);
    let m = number_or(value(2)?, 1)?;
    let t = number(value(4)?)?;
    let request = Request {
        p: number(value(0)?)?,
        points: numbers(value(5)?)?,
        word: numbers(value(6)?)?,
        k: number(value(1)?)?,
        m,
        l: number_or(value(3)?, m)?,
    };
    Ok((request, t))
}

fn number(digits: &[u8]) -> Result<u8, Refusal> {
    let decimal = digits.iter().all(u8::is_ascii_digit);
    let fits = (1..=MOST_DIGITS).contains(&digits.len());
    require(decimal && fits, Refusal::Lines)?;
    let text = std::str::from_utf8(digits).map_err(|_| Refusal::Lines)?;
    text.parse().map_err(|_| Refusal::Lines)
}

fn number_or(digits: &[u8], default: u8) -> Result<u8, Refusal> {
    if digits.is_empty() {
        Ok(default)
    } else {
        number(digits)
    }
}

fn numbers(line: &[u8]) -> Result<Vec<u8>, Refusal> {
    let numbers: Vec<u8> = line
        .split(|&byte| byte == b',')
        .map(number)
        .collect::<Result<_, _>>()?;
    require(numbers.len() <= MOST_NUMBERS, Refusal::Lines)?;
    Ok(numbers)
}

fn answer_line(number: u8) -> String {
    format!("answer={number}\n")
}

fn answer(request: &Request, t: u8) -> String {
    let mut room = vec![0; WORKING_ROOM];
    let mut messages = vec![0; usize::from(request.l) * usize::from(request.k)];
    let (number, count, updates, weight) = list(request, t, &mut room, &mut messages);
    let mut text = answer_line(number);
    if number == DONE {
        text += &format!("updates={updates}\nweight={weight}\ncount={count}\n");
        let listed = messages.chunks(usize::from(request.k));
        for message in listed.take(usize::from(count)) {
            text += &message_line(message);
        }
    }
    text
}

fn message_line(message: &[u8]) -> String {
    let symbols: Vec<String> = message.iter().map(u8::to_string).collect();
    format!("message={}\n", symbols.join(","))
}
