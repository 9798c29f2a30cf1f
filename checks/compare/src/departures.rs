//! Every departure through write, read and show, there and back, and all that is just out of their reach.

use second::cases::{Jobs, FILL};
use second::limits::{
    BOAT_MOST, DAY_MOST, DEPARTURE_FIELD, DEPARTURE_SYMBOLS, MINUTE_MOST, TIME_BYTES,
};
use second::Departure;
use std::fmt::Debug;
use std::ops::RangeInclusive;

/// The second program, then the library.
type Programs<'a> = [&'a dyn Jobs; 2];

/// What is lent has a byte more than is needed, so that the excess shows.
type Message = [u8; DEPARTURE_SYMBOLS + 1];
type Text = [u8; TIME_BYTES + 1];

/// The calls of one kind: how many were answered, and how many refused with 15.
pub struct Line {
    pub job: &'static str,
    pub given: &'static str,
    pub done: usize,
    pub refused: usize,
}

const FERRY: Departure = Departure {
    boat: 7,
    day: 100,
    minute: 1_455,
};

/// The departures of these boats; the whole case is the error, where the programs differ or a departure is not read back.
pub fn compare(programs: Programs, boats: RangeInclusive<u8>) -> Result<Vec<Line>, String> {
    let mut lines = Vec::from(every(programs, boats)?);
    lines.extend(past_the_last(programs)?);
    lines.push(last_symbols(programs)?);
    Ok(lines)
}

impl Line {
    fn new(job: &'static str, given: &'static str) -> Line {
        let (done, refused) = (0, 0);
        Line {
            job,
            given,
            done,
            refused,
        }
    }

    /// The answer that both gave.
    fn count<A: PartialEq + Debug>(
        &mut self,
        given: &impl Debug,
        [second, library]: [(u8, A); 2],
    ) -> Result<(u8, A), String> {
        if second != library {
            let call = format!("{} of {given:?}", self.job);
            let answers = format!("second program: {second:?}\nlibrary: {library:?}");
            return Err(format!("call: {call}\n{answers}\n"));
        }
        match second.0 {
            0 => self.done += 1,
            _ => self.refused += 1,
        }
        Ok(second)
    }

    fn write(&mut self, programs: Programs, departure: Departure) -> Result<Message, String> {
        let answers = programs.map(|program| {
            let mut message: Message = [FILL; DEPARTURE_SYMBOLS + 1];
            (program.write(departure, &mut message), message)
        });
        let (_, message) = self.count(&departure, answers)?;
        Ok(message)
    }

    fn read(&mut self, programs: Programs, message: &[u8]) -> Result<(u8, Departure), String> {
        self.count(&message, programs.map(|program| program.read(message)))
    }

    fn show(&mut self, programs: Programs, departure: Departure) -> Result<(), String> {
        let answers = programs.map(|program| {
            let mut text: Text = [FILL; TIME_BYTES + 1];
            (program.show(departure, &mut text), text)
        });
        self.count(&departure, answers).map(|_| ())
    }
}

fn every(programs: Programs, boats: RangeInclusive<u8>) -> Result<[Line; 3], String> {
    let mut write = Line::new("write", "every departure");
    let mut read = Line::new("read", "the message of every departure");
    let mut show = Line::new("show", "every departure");
    departures(boats).try_for_each(|departure| {
        let message = write.write(programs, departure)?;
        let back = read.read(programs, &message[..DEPARTURE_SYMBOLS])?;
        if back != (0, departure) {
            let call = format!("{departure:?} is written as {message:?}");
            return Err(format!("{call}\nboth programs read that as {back:?}\n"));
        }
        show.show(programs, departure)
    })?;
    Ok([write, read, show])
}

fn departures(boats: RangeInclusive<u8>) -> impl Iterator<Item = Departure> {
    let days = boats.flat_map(|boat| (0..=DAY_MOST).map(move |day| (boat, day)));
    days.flat_map(|(boat, day)| {
        (0..=MINUTE_MOST).map(move |minute| Departure { boat, day, minute })
    })
}

/// Each number past its range that the call can be given, the others in range.
fn past_the_last(programs: Programs) -> Result<[Line; 2], String> {
    let given = "a boat, day or minute out of its range";
    let (mut write, mut show) = (Line::new("write", given), Line::new("show", given));
    let boats = (BOAT_MOST + 1..=u8::MAX).map(|boat| Departure { boat, ..FERRY });
    let days = (DAY_MOST + 1..=u16::MAX).map(|day| Departure { day, ..FERRY });
    let minutes = (MINUTE_MOST + 1..=u16::MAX).map(|minute| Departure { minute, ..FERRY });
    boats.chain(days).chain(minutes).try_for_each(|departure| {
        write.write(programs, departure)?;
        show.show(programs, departure)
    })?;
    Ok([write, show])
}

fn last_symbols(programs: Programs) -> Result<Line, String> {
    let mut read = Line::new("read", "one boat and day with any last three symbols");
    let symbols = || 0..DEPARTURE_FIELD;
    let pairs = symbols().flat_map(|high| symbols().map(move |middle| (high, middle)));
    let mut messages =
        pairs.flat_map(|(high, middle)| symbols().map(move |low| [7, 3, 7, high, middle, low]));
    messages.try_for_each(|message| read.read(programs, &message).map(|_| ()))?;
    Ok(read)
}
