//! A request: the numbers, points and word that start and list are asked with. Nothing of it is checked yet.

use crate::field::Field;
use crate::setting::Setting;

#[derive(Clone, PartialEq, Eq, Debug)]
pub struct Request {
    pub p: u8,
    pub points: Vec<u8>,
    pub word: Vec<u8>,
    pub k: u8,
    pub m: u8,
    pub l: u8,
}

impl Request {
    /// The setting of a request within the ranges.
    pub fn setting(&self) -> Setting {
        Setting {
            field: Field::of_size(self.p).expect("p is in the list"),
            n: self.points.len(),
            k: usize::from(self.k),
            m: usize::from(self.m),
            l: usize::from(self.l),
        }
    }
}
