//! The eleven fields. A symbol is a whole number below p. Where p is a prime, a result is worked out in whole numbers and brought back
//! to 0..p with `%`. In the field of 16 the bits of a symbol are the coefficients of a polynomial in x over 0 and 1, so that a sum has no
//! carry, and minus is plus; products are in `sixteen`. No other place tells the one kind from the other.

use crate::sixteen;

/// The sizes a field may have.
pub const FIELDS: [u8; 11] = [3, 5, 7, 11, 13, 16, 17, 19, 23, 29, 31];

/// The only size that is no prime.
const SIXTEEN: i64 = 16;

#[derive(Clone, Copy, PartialEq, Eq, Debug)]
pub struct Field {
    p: i64,
}

impl Field {
    /// The field of size p, if p is in the list.
    pub fn of_size(p: u8) -> Option<Field> {
        FIELDS.contains(&p).then_some(Field { p: i64::from(p) })
    }

    /// All symbols in rising order.
    pub fn symbols(self) -> std::ops::Range<i64> {
        0..self.p
    }

    pub fn sum(self, a: i64, b: i64) -> i64 {
        match self.p {
            SIXTEEN => a ^ b,
            p => (a + b).rem_euclid(p),
        }
    }

    /// The sum of any number of symbols.
    pub fn total(self, symbols: impl Iterator<Item = i64>) -> i64 {
        symbols.fold(0, |total, symbol| self.sum(total, symbol))
    }

    pub fn negative(self, symbol: i64) -> i64 {
        match self.p {
            SIXTEEN => symbol,
            p => (-symbol).rem_euclid(p),
        }
    }

    pub fn difference(self, a: i64, b: i64) -> i64 {
        self.sum(a, self.negative(b))
    }

    pub fn product(self, a: i64, b: i64) -> i64 {
        match self.p {
            SIXTEEN => sixteen::product(a, b),
            p => (a * b).rem_euclid(p),
        }
    }

    pub fn power(self, base: i64, exponent: usize) -> i64 {
        (0..exponent).fold(1, |power, _| self.product(power, base))
    }

    /// The inverse; that of 0 is 0.
    pub fn inverse(self, symbol: i64) -> i64 {
        match self.p {
            SIXTEEN => sixteen::inverse(symbol),
            p => inverse_modulo(p, symbol),
        }
    }

    pub fn quotient(self, a: i64, b: i64) -> i64 {
        self.product(a, self.inverse(b))
    }

    /// The number of ways to choose `chosen` of `all`, as a sum of ones, by Pascal's triangle: no division, which could fail in the field.
    pub fn binomial(self, all: usize, chosen: usize) -> i64 {
        let mut line = vec![0; chosen + 1];
        line[0] = 1;
        for _ in 0..all {
            for place in (1..=chosen).rev() {
                line[place] = self.sum(line[place], line[place - 1]);
            }
        }
        line[chosen]
    }
}

/// The inverse modulo a prime, by Euclid's algorithm; that of 0 is 0.
fn inverse_modulo(p: i64, symbol: i64) -> i64 {
    // Each pair (remainder, factor) keeps remainder = factor * symbol modulo p. For 0 the loop is not entered.
    let mut older = (p, 0);
    let mut newer = (symbol, 1);
    while newer.0 != 0 {
        let quotient = older.0 / newer.0;
        let next = (older.0 - quotient * newer.0, older.1 - quotient * newer.1);
        older = newer;
        newer = next;
    }
    older.1.rem_euclid(p)
}

#[cfg(test)]
mod tests {
    use super::*;

    fn fields() -> impl Iterator<Item = Field> {
        FIELDS.into_iter().filter_map(Field::of_size)
    }

    fn sixteen() -> Field {
        Field::of_size(16).unwrap()
    }

    #[test]
    fn only_the_eleven_sizes_are_fields() {
        let sizes: Vec<u8> = (0..=255).filter(|&p| Field::of_size(p).is_some()).collect();
        assert_eq!(sizes, FIELDS);
        assert_eq!(sizes, [3, 5, 7, 11, 13, 16, 17, 19, 23, 29, 31]);
    }

    #[test]
    fn a_nonzero_symbol_has_exactly_one_inverse_and_zero_gives_zero() {
        for field in fields() {
            assert_eq!(field.inverse(0), 0);
            for a in field.symbols().skip(1) {
                let inverses: Vec<i64> = field
                    .symbols()
                    .filter(|&b| field.product(a, b) == 1)
                    .collect();
                assert_eq!(inverses, [field.inverse(a)]);
            }
        }
    }

    #[test]
    fn the_inverse_is_the_power_p_less_2() {
        for field in fields() {
            let exponent = field.symbols().end as usize - 2;
            for a in field.symbols() {
                assert_eq!(field.inverse(a), field.power(a, exponent));
            }
        }
    }

    fn triples(field: Field) -> impl Iterator<Item = (i64, i64, i64)> {
        let symbols = move || field.symbols();
        let pairs = symbols().flat_map(move |a| symbols().map(move |b| (a, b)));
        pairs.flat_map(move |(a, b)| symbols().map(move |c| (a, b, c)))
    }

    #[test]
    fn the_laws_of_a_field_hold_at_all_triples() {
        for field in fields() {
            let (sum, product) = (|a, b| field.sum(a, b), |a, b| field.product(a, b));
            for (a, b, c) in triples(field) {
                assert_eq!((sum(a, 0), product(a, 1)), (a, a));
                assert_eq!((sum(a, b), product(a, b)), (sum(b, a), product(b, a)));
                assert_eq!(sum(sum(a, b), c), sum(a, sum(b, c)));
                assert_eq!(product(product(a, b), c), product(a, product(b, c)));
                assert_eq!(product(a, sum(b, c)), sum(product(a, b), product(a, c)));
                assert_eq!(sum(field.difference(a, b), b), a);
                assert!([sum(a, b), product(a, b)]
                    .iter()
                    .all(|s| field.symbols().contains(s)));
            }
        }
    }

    #[test]
    fn sixteen_counts_modulo_x4_x_1() {
        // x^4 = x + 1, and (x^3+1)(x^3+x^2+1) = x^6+x^5+x^2+1 = (x^3+x^2) + (x^2+x) + x^2 + 1 = x^3+x^2+x+1.
        assert_eq!(sixteen().product(2, 8), 3);
        assert_eq!(sixteen().power(2, 4), sixteen().sum(2, 1));
        assert_eq!(sixteen().product(9, 13), 15);
        assert_eq!((sixteen().inverse(2), sixteen().product(2, 9)), (9, 1));
        assert_eq!((sixteen().sum(9, 13), sixteen().sum(15, 15)), (4, 0));
    }

    #[test]
    fn minus_is_plus_in_sixteen_alone() {
        for field in fields() {
            let same = field.symbols().all(|a| field.negative(a) == a);
            assert_eq!(same, field == sixteen());
        }
    }

    #[test]
    fn binomials_are_those_of_the_whole_numbers() {
        let field = Field::of_size(31).unwrap();
        assert_eq!(field.binomial(8, 3), 56 % 31);
        assert_eq!(field.binomial(3, 5), 0);
        assert_eq!(Field::of_size(3).unwrap().binomial(3, 1), 0);
        assert_eq!(field.binomial(0, 0), 1);
    }

    #[test]
    fn binomials_count_modulo_2_in_sixteen() {
        let line = |all| [0, 1, 2, 3, 4, 5].map(|chosen| sixteen().binomial(all, chosen));
        assert_eq!(line(2), [1, 0, 1, 0, 0, 0]);
        assert_eq!(line(3), [1, 1, 1, 1, 0, 0]);
        assert_eq!(line(4), [1, 0, 0, 0, 1, 0]);
        assert_eq!(line(5), [1, 1, 0, 0, 1, 1]);
        assert_eq!(sixteen().binomial(8, 4), 70 % 2);
    }
}
