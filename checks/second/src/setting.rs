//! A setting is the numbers that an interpolation lives with; a note is what a driver holds of them.

use crate::field::Field;
use crate::request::Request;

/// Numbers within the ranges of the rules (docs/RULES.md); the jobs make one only after checking them.
#[derive(Clone, Copy, PartialEq, Eq, Debug)]
pub struct Setting {
    pub field: Field,
    pub n: usize,
    pub k: usize,
    pub m: usize,
    pub l: usize,
}

impl Setting {
    /// The weight of y.
    pub fn u(&self) -> usize {
        self.k - 1
    }

    /// W, which no term's weight exceeds.
    pub fn greatest_weight(&self) -> usize {
        self.m * self.n + (self.l - self.m) * self.u()
    }

    /// Bytes of one slot: one x-polynomial.
    pub fn slot(&self) -> usize {
        self.greatest_weight() + 1
    }

    /// Bytes of one curve, or of one row.
    pub fn curve_room(&self) -> usize {
        (self.l + 1) * self.slot()
    }

    pub fn rows_room(&self) -> usize {
        (self.l + 1) * self.curve_room()
    }

    pub fn messages_room(&self) -> usize {
        self.l * self.k
    }

    /// The formula: from a start, never more updates than this.
    pub fn update_bound(&self) -> usize {
        let low: usize = (1..=self.m).map(|r| r * r).sum();
        let high: usize = (self.m + 1..=self.l).sum();
        (self.n - self.k) * (low + self.m * high)
    }
}

/// The note that a driver keeps between turns. All zeros where a start was refused.
#[derive(Clone, Copy, PartialEq, Eq, Debug, Default)]
pub struct Note {
    pub p: u8,
    pub n: u8,
    pub k: u8,
    pub m: u8,
    pub l: u8,
    /// The current row.
    pub r: u8,
}

impl Note {
    /// The note of a start that was not refused.
    pub fn first(request: &Request) -> Note {
        Note {
            p: request.p,
            n: request.points.len() as u8,
            k: request.k,
            m: request.m,
            l: request.l,
            r: 1,
        }
    }
}

#[cfg(test)]
mod tests {
    use super::*;

    fn setting(p: u8, n: usize, k: usize, m: usize, l: usize) -> Setting {
        let field = Field::of_size(p).unwrap();
        Setting { field, n, k, m, l }
    }

    #[test]
    fn the_rooms_of_example_19() {
        assert_eq!(setting(7, 6, 3, 2, 3).rows_room(), 240);
        assert_eq!(setting(7, 6, 3, 2, 3).update_bound(), 15 + 18);
        assert_eq!(setting(7, 3, 2, 1, 1).update_bound(), 1);
    }
}
