//! The numbers a caller can get back, and the test behind each that more than one job makes. A job calls its tests
//! in the rules' order and hands back the first refusal.

use crate::field::Field;
use crate::limits::{HEIGHT_MOST, MULTIPLICITY_MOST};
use crate::request::Request;
use crate::setting::{Note, Setting};

pub const DONE: u8 = 0;

#[derive(Clone, Copy, PartialEq, Eq, Debug)]
#[repr(u8)]
pub enum Refusal {
    Field = 1,
    PointCount = 2,
    WordLength = 3,
    MessageLength = 4,
    Heights = 5,
    Symbol = 6,
    EqualPoints = 7,
    Agreements = 8,
    Room = 9,
    Note = 10,
    Rows = 11,
    Unfinished = 12,
    Weight = 13,
    Lines = 14,
    Departure = 15,
}

impl Refusal {
    pub fn number(self) -> u8 {
        self as u8
    }
}

pub type Check = Result<(), Refusal>;

pub fn require(holds: bool, refusal: Refusal) -> Check {
    if holds {
        Ok(())
    } else {
        Err(refusal)
    }
}

pub fn field(p: u8) -> Result<Field, Refusal> {
    Field::of_size(p).ok_or(Refusal::Field)
}

pub fn point_count(n: usize, p: u8) -> Check {
    require(n >= 3 && n <= usize::from(p), Refusal::PointCount)
}

pub fn message_length(k: usize, n: usize) -> Check {
    require(k >= 2 && k < n, Refusal::MessageLength)
}

pub fn heights(m: u8, l: u8) -> Check {
    let fit = (1..=MULTIPLICITY_MOST).contains(&m) && (m..=HEIGHT_MOST).contains(&l);
    require(fit, Refusal::Heights)
}

/// Points, and the symbols that go with them, are all below p.
pub fn symbols(p: u8, points: &[u8], others: &[u8]) -> Check {
    let mut all = points.iter().chain(others);
    require(all.all(|&symbol| symbol < p), Refusal::Symbol)
}

pub fn points_differ(points: &[u8]) -> Check {
    let twice = |(place, point)| points[..place].contains(point);
    require(!points.iter().enumerate().any(twice), Refusal::EqualPoints)
}

pub fn room(lent: &[u8], needed: usize) -> Check {
    require(lent.len() >= needed, Refusal::Room)
}

/// Numbers 1 to 7, which start and list have in common.
pub fn request(request: &Request) -> Result<Setting, Refusal> {
    let n = request.points.len();
    field(request.p)?;
    point_count(n, request.p)?;
    require(request.word.len() == n, Refusal::WordLength)?;
    message_length(usize::from(request.k), n)?;
    heights(request.m, request.l)?;
    symbols(request.p, &request.points, &request.word)?;
    points_differ(&request.points)?;
    Ok(request.setting())
}

/// Number 10: any of 1, 2, 4 and 5 that would apply to the note, or a row number out of range.
pub fn note(note: Note) -> Result<Setting, Refusal> {
    let numbers = || {
        let n = usize::from(note.n);
        let field = field(note.p)?;
        point_count(n, note.p)?;
        message_length(usize::from(note.k), n)?;
        heights(note.m, note.l)?;
        Ok(Setting {
            field,
            n,
            k: usize::from(note.k),
            m: usize::from(note.m),
            l: usize::from(note.l),
        })
    };
    let setting = numbers().map_err(|_: Refusal| Refusal::Note)?;
    let r = usize::from(note.r);
    require((1..=setting.l + 1).contains(&r), Refusal::Note)?;
    Ok(setting)
}
