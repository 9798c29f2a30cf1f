//! Polynomials in x: coefficients lowest power first, without zeros at the top.

use crate::field::Field;

pub type Poly = Vec<i64>;

fn trimmed(mut poly: Poly) -> Poly {
    while poly.last() == Some(&0) {
        poly.pop();
    }
    poly
}

pub fn sum(field: Field, a: &[i64], b: &[i64]) -> Poly {
    let at = |poly: &[i64], power: usize| poly.get(power).copied().unwrap_or(0);
    let length = a.len().max(b.len());
    trimmed(
        (0..length)
            .map(|power| field.sum(at(a, power), at(b, power)))
            .collect(),
    )
}

pub fn product(field: Field, a: &[i64], b: &[i64]) -> Poly {
    let mut result = vec![0; a.len() + b.len()];
    for (i, &left) in a.iter().enumerate() {
        for (j, &right) in b.iter().enumerate() {
            result[i + j] = field.sum(result[i + j], field.product(left, right));
        }
    }
    trimmed(result)
}

/// The value at a point, as the sum of the terms.
pub fn value(field: Field, poly: &[i64], point: i64) -> i64 {
    let terms = poly.iter().enumerate();
    field.total(terms.map(|(power, &c)| field.product(c, field.power(point, power))))
}

/// The product of (x - point) over the given points.
pub fn vanishing(field: Field, points: &[i64]) -> Poly {
    points.iter().fold(vec![1], |poly, &point| {
        product(field, &poly, &[field.negative(point), 1])
    })
}

/// The polynomial of degree below the number of points with the given values, by Lagrange's formula.
pub fn through(field: Field, points: &[i64], values: &[i64]) -> Poly {
    let mut result = Vec::new();
    for (place, &at) in points.iter().enumerate() {
        let others: Vec<i64> = points.iter().copied().filter(|&b| b != at).collect();
        let basis = vanishing(field, &others);
        let factor = field.quotient(values[place], value(field, &basis, at));
        result = sum(field, &result, &product(field, &basis, &[factor]));
    }
    result
}

/// Bytes taken as whole numbers.
pub fn symbols(bytes: &[u8]) -> Vec<i64> {
    bytes.iter().copied().map(i64::from).collect()
}

#[cfg(test)]
mod tests {
    use super::*;

    #[test]
    fn lagrange_gives_the_h_of_the_figures() {
        let field = Field::of_size(7).unwrap();
        assert_eq!(through(field, &[1, 2, 3], &[0, 0, 1]), [1, 2, 4]);
        let places = [1, 2, 3, 4, 5, 6];
        let h = through(field, &places, &[6, 2, 4, 4, 4, 2]);
        assert_eq!(h, [6, 4, 4, 5, 1]);
        assert_eq!(vanishing(field, &places), [6, 0, 0, 0, 0, 0, 1]);
    }

    #[test]
    fn a_polynomial_through_its_own_values_is_itself() {
        for p in crate::field::FIELDS {
            let field = Field::of_size(p).unwrap();
            let points: Vec<i64> = field.symbols().collect();
            let poly = trimmed(
                points
                    .iter()
                    .map(|&a| field.sum(field.product(a, field.sum(a, 2)), 2))
                    .collect(),
            );
            let values: Vec<i64> = points.iter().map(|&a| value(field, &poly, a)).collect();
            assert_eq!(through(field, &points, &values), poly);
        }
    }
}
