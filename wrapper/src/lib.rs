//! Pluckcluster's jobs for Rust: encode a message, start an interpolation, take a turn on it, finish it, list the near
//! messages; write, read and show a departure, hear the one that is near. The jobs are the proved ones of crates/boards;
//! this crate only carries over what they are given and what they say. Nothing is checked here: any lengths, any bytes and
//! any notes may be handed in, and the job answers.
//!
//! Each job hands back its outcome, that is `Ok` for number 0 or the [`Refusal`], beside what else it says: also where it
//! refuses, since a turn refused late has made updates. The jobs on departures say nothing beside a refusal, so each of them
//! hands back one result.
//!
//! ```
//! use pluck::{finish, start, Request};
//!
//! const ROWS: usize = pluck::rows_bytes(3, 2, 1, 1);
//! const CURVE: usize = pluck::curve_bytes(3, 2, 1, 1);
//!
//! let (points, word) = ([1, 2, 3], [0, 0, 1]);
//! let request = Request { p: 7, points: &points, word: &word, k: 2, m: 1, l: 1 };
//! let (mut rows, mut curve) = ([0; ROWS], [0; CURVE]);
//! let started = start(&request, &mut rows);
//! started.outcome?;
//! let mut note = started.note;
//! while !note.is_finished() {
//!     note.turn(&mut rows, 50).outcome?;
//! }
//! let finished = finish(&note, &rows, &mut curve);
//! finished.outcome?;
//! // The curve 5y + x^2 + 4x + 2.
//! assert_eq!((finished.weight, finished.height), (2, 1));
//! assert_eq!(curve, [2, 4, 1, 0, 5, 0, 0, 0]);
//! # Ok::<(), pluck::Refusal>(())
//! ```
//!
//! The jobs on departures, whose messages have six symbols over the field of 31:
//!
//! ```
//! use pluck::{encode, hear, show_departure, write_departure, Departure, Heard};
//!
//! let points: [u8; 31] = std::array::from_fn(|place| place as u8);
//! let ferry = Departure { boat: 7, day: 100, minute: 1_455 };
//! let (mut message, mut word, mut text) = ([0; pluck::DEPARTURE_SYMBOLS], [0; 31], [0; pluck::TIME_BYTES]);
//! write_departure(ferry, &mut message)?;
//! encode(pluck::DEPARTURE_FIELD, &points, &message, &mut word)?;
//! // Fifteen symbols are disturbed.
//! word[..15].iter_mut().for_each(|symbol| *symbol = (*symbol + 1) % 31);
//! let mut room = [0; pluck::WORKING_ROOM];
//! assert_eq!(hear(&points, &word, 2, 4, 16, &mut room)?, Heard::One(ferry));
//! show_departure(ferry, &mut text)?;
//! assert_eq!(&text, b"24:15");
//! # Ok::<(), pluck::Refusal>(())
//! ```

#![no_std]
#![deny(unsafe_code)]

#[allow(unsafe_code)]
mod calls;
mod departures;
mod jobs;
mod limits;
mod note;
mod refusal;
mod rooms;

pub use departures::{hear, read_departure, show_departure, write_departure, Departure, Heard};
pub use jobs::{encode, finish, list, start, Finished, Near, Request, Started};
pub use limits::{
    ALLOWANCE_MOST, BOAT_MOST, CURVE_MOST, DAY_MOST, DEPARTURE_FIELD, DEPARTURE_SYMBOLS,
    FIELD_MOST, HEIGHT_MOST, MESSAGES_MOST, MINUTE_MOST, MULTIPLICITY_MOST, ROWS_MOST, TIME_BYTES,
    UPDATES_MOST, WIDTH_MOST, WORKING_ROOM,
};
pub use note::{Note, Turned};
pub use refusal::{Outcome, Refusal};
pub use rooms::{curve_bytes, greatest_weight, messages_bytes, rows_bytes};

/// The version of the library, that of the file VERSION.
pub const VERSION: &str = env!("CARGO_PKG_VERSION");
