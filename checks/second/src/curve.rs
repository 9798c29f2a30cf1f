//! Curves as lists of terms, the largest first. Multiplying by a power of x keeps that order, so an update is one
//! merge of two lists and the leading term is always the first one.

use crate::field::Field;
use crate::poly::{self, Poly};
use std::collections::BTreeMap;

/// The term x^x y^y. The derived order compares the weight, then the power of y: the order of docs/RULES.md.
#[derive(Clone, Copy, PartialEq, Eq, PartialOrd, Ord, Debug)]
pub struct Term {
    pub weight: usize,
    pub y: usize,
    pub x: usize,
}

impl Term {
    /// The term x^x y^y where y weighs u.
    pub fn new(u: usize, x: usize, y: usize) -> Term {
        Term {
            weight: x + u * y,
            y,
            x,
        }
    }

    fn times(self, other: Term) -> Term {
        Term {
            weight: self.weight + other.weight,
            y: self.y + other.y,
            x: self.x + other.x,
        }
    }

    fn times_x(self, d: usize) -> Term {
        Term {
            weight: self.weight + d,
            x: self.x + d,
            ..self
        }
    }
}

/// Terms with their nonzero coefficients, the largest term first, none twice.
#[derive(Clone, PartialEq, Eq, Debug)]
pub struct Curve {
    terms: Vec<(Term, i64)>,
}

impl Curve {
    /// The sum of the given terms, which may come in any order and repeat.
    pub fn gather(field: Field, terms: impl IntoIterator<Item = (Term, i64)>) -> Curve {
        let mut sums: BTreeMap<Term, i64> = BTreeMap::new();
        for (term, coefficient) in terms {
            let sum = sums.entry(term).or_insert(0);
            *sum = field.sum(*sum, coefficient);
        }
        let nonzero = sums.into_iter().rev().filter(|&(_, c)| c != 0);
        Curve {
            terms: nonzero.collect(),
        }
    }

    /// An x-polynomial times y^y.
    pub fn from_poly(field: Field, u: usize, poly: &[i64], y: usize) -> Curve {
        let terms = poly.iter().enumerate();
        Curve::gather(field, terms.map(|(x, &c)| (Term::new(u, x, y), c)))
    }

    pub fn terms(&self) -> &[(Term, i64)] {
        &self.terms
    }

    pub fn is_zero(&self) -> bool {
        self.terms.is_empty()
    }

    /// The leading term with its coefficient; a zero curve has none.
    pub fn lead(&self) -> Option<(Term, i64)> {
        self.terms.first().copied()
    }

    /// Whether the curve leads at y^y.
    pub fn leads_at(&self, y: usize) -> bool {
        self.lead().is_some_and(|(term, _)| term.y == y)
    }

    /// The largest power of y that occurs; 0 for a zero curve, which nobody asks about.
    pub fn height(&self) -> usize {
        self.terms.iter().map(|(term, _)| term.y).max().unwrap_or(0)
    }

    /// Degree and leading coefficient of the x-polynomial at y^y. Among equal powers of y the first term has most x.
    pub fn top_at(&self, y: usize) -> Option<(usize, i64)> {
        let found = self.terms.iter().find(|(term, _)| term.y == y);
        found.map(|&(term, coefficient)| (term.x, coefficient))
    }

    pub fn times(&self, field: Field, other: &Curve) -> Curve {
        let pairs = self.terms.iter().flat_map(|&(left, a)| {
            let right = other.terms.iter();
            right.map(move |&(right, b)| (left.times(right), field.product(a, b)))
        });
        Curve::gather(field, pairs)
    }

    /// c x^d times the curve, for a nonzero c.
    pub fn scaled(&self, field: Field, c: i64, d: usize) -> Curve {
        let terms = self.terms.iter();
        Curve {
            terms: terms
                .map(|&(term, a)| (term.times_x(d), field.product(a, c)))
                .collect(),
        }
    }

    /// The difference, by one merge of the two lists.
    pub fn minus(&self, field: Field, other: &Curve) -> Curve {
        let mut terms = Vec::with_capacity(self.terms.len() + other.terms.len());
        let mut rest = other.terms.as_slice();
        for &(term, coefficient) in &self.terms {
            let larger = rest.iter().take_while(|(right, _)| *right > term).count();
            terms.extend(rest[..larger].iter().map(|&(t, b)| (t, field.negative(b))));
            rest = &rest[larger..];
            let subtracted = match rest.first() {
                Some(&(right, b)) if right == term => {
                    rest = &rest[1..];
                    b
                }
                _ => 0,
            };
            let difference = field.difference(coefficient, subtracted);
            if difference != 0 {
                terms.push((term, difference));
            }
        }
        terms.extend(rest.iter().map(|&(t, b)| (t, field.negative(b))));
        Curve { terms }
    }

    /// The curve with its leading coefficient made 1.
    pub fn monic(&self, field: Field) -> Curve {
        match self.lead() {
            Some((_, coefficient)) => self.scaled(field, field.inverse(coefficient), 0),
            None => self.clone(),
        }
    }

    /// f(x, g(x)).
    pub fn at(&self, field: Field, g: &[i64]) -> Poly {
        let mut powers = vec![vec![1]];
        for power in 0..self.height() {
            powers.push(poly::product(field, &powers[power], g));
        }
        let length = self.terms.iter().map(|(term, _)| term.x + 1).max();
        let longest = powers.iter().map(Vec::len).max();
        let mut result = vec![0; length.unwrap_or(0) + longest.unwrap_or(0)];
        for &(term, coefficient) in &self.terms {
            for (x, &value) in powers[term.y].iter().enumerate() {
                let entry = &mut result[term.x + x];
                *entry = field.sum(*entry, field.product(coefficient, value));
            }
        }
        poly::sum(field, &result, &[])
    }
}

#[cfg(test)]
mod tests {
    use super::*;

    fn field() -> Field {
        Field::of_size(7).unwrap()
    }

    /// The curve with the given (power of x, power of y, coefficient), where y weighs 2.
    fn curve(terms: &[(usize, usize, i64)]) -> Curve {
        let terms = terms.iter().map(|&(x, y, c)| (Term::new(2, x, y), c));
        Curve::gather(field(), terms)
    }

    #[test]
    fn terms_stand_in_the_order_of_section_4() {
        let rising = [
            (0, 0),
            (1, 0),
            (2, 0),
            (0, 1),
            (3, 0),
            (1, 1),
            (4, 0),
            (2, 1),
            (0, 2),
        ];
        let terms: Vec<Term> = rising.iter().map(|&(x, y)| Term::new(2, x, y)).collect();
        assert!(terms.windows(2).all(|pair| pair[0] < pair[1]));
    }

    #[test]
    fn a_tie_of_weight_goes_to_the_larger_power_of_y() {
        assert!(curve(&[(2, 0, 1), (0, 1, 1)]).leads_at(1));
        assert!(curve(&[(3, 0, 1), (0, 1, 1)]).leads_at(0));
    }

    #[test]
    fn like_terms_are_summed_and_vanish_at_zero() {
        assert!(curve(&[(1, 1, 3), (1, 1, 4)]).is_zero());
        assert_eq!(curve(&[(1, 1, 3), (1, 1, 5)]), curve(&[(1, 1, 1)]));
    }

    #[test]
    fn the_difference_is_that_of_the_gathered_terms() {
        let a = curve(&[(0, 0, 1), (3, 0, 2), (1, 1, 3), (0, 2, 4)]);
        let b = curve(&[(0, 0, 1), (2, 0, 2), (1, 1, 1), (5, 0, 6)]);
        let negated = b
            .terms()
            .iter()
            .map(|&(term, c)| (term, field().negative(c)));
        let expected = Curve::gather(field(), a.terms().iter().copied().chain(negated));
        assert_eq!(a.minus(field(), &b), expected);
        assert!(a.minus(field(), &a).is_zero());
    }

    #[test]
    fn example_19_is_the_product_of_its_factors() {
        let first = curve(&[(0, 1, 1), (2, 0, 1), (1, 0, 5), (0, 0, 2)]);
        let second = curve(&[(0, 1, 1), (2, 0, 3), (1, 0, 4), (0, 0, 6)]);
        let third = curve(&[(1, 1, 1), (2, 0, 2), (1, 0, 3), (0, 0, 3)]);
        let product = first.times(field(), &second).times(field(), &third);
        assert_eq!(product.lead(), Some((Term::new(2, 1, 3), 1)));
        assert_eq!(product.height(), 3);
        assert_eq!(product.top_at(2), Some((3, 4)));
        assert_eq!(product.top_at(0), Some((6, 6)));
        assert!(product.at(field(), &[5, 2, 6]).is_empty());
        assert!(product.at(field(), &[1, 3, 4]).is_empty());
        assert!(!product.at(field(), &[0]).is_empty());
    }
}
