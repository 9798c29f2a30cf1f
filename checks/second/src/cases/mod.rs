//! Cases: calls of every job, sound and faulty, with the second program's answers. They come in sessions as a board has
//! them, a start and then turns on the same rows, so that what one call leaves is what the next is given.

mod board;
mod call;
mod departures;
mod faults;
mod garbage;
mod scale;
mod sessions;
mod text;

pub use board::{Board, Jobs, Second};
pub use call::{Answer, Call};
pub use scale::Scale;
pub use sessions::{Case, Cases};

/// What every byte of a lent buffer is before the call, and every byte of the rows before a start.
pub const FILL: u8 = 0xc3;

/// Bytes of the rows that a board keeps.
pub const ROWS_KEPT: usize = 65_536;
