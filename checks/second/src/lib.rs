//! The independent second program: the jobs of the rules (docs/RULES.md), and the program `listing`, written from
//! the rules alone. It shares no line with the library and goes other ways on purpose: remainders by `%`, and logarithms
//! in the field of 16, instead of shifts, curves as sorted lists of terms instead of bytes in slots, roots by the method
//! of Roth and Ruckenstein instead of one shifted buffer, digits by taking away instead of dividing. Where both agree, a
//! common slip is unlikely.
//!
//! Every job answers any input whatsoever: any lengths, any bytes, any notes.

mod checks;
mod departure;
mod encode;
mod hear;
mod interpolation;
mod list;
mod request;
mod sixteen;
mod slots;
mod text;

pub mod cases;
pub mod curve;
pub mod field;
pub mod limits;
pub mod poly;
pub mod random;
pub mod rows;
pub mod sample;
pub mod setting;

pub use checks::{Refusal, DONE};
pub use departure::{read, show, write, Departure};
pub use encode::encode;
pub use hear::{hear, Heard};
pub use interpolation::{finish, start, turn};
pub use list::{list, roots, Listed};
pub use request::Request;
pub use setting::{Note, Setting};
pub use text::listing;
