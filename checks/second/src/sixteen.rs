//! Products and inverses in the field of 16, by logarithms: every symbol but 0 is a power of x modulo x^4+x+1, and x^15 is 1.

/// The symbols but 0, so the powers of x.
const POWERS: usize = 15;

/// x^4+x+1 as bits.
const MODULUS: i64 = 0b1_0011;

/// The powers of x in their order, x^0 first.
const POWERS_OF_X: [i64; POWERS] = powers_of_x();

/// Each is the double of the one before. Where x^4 comes up, the modulus is taken away, bit by bit and without a borrow.
const fn powers_of_x() -> [i64; POWERS] {
    let mut powers = [1; POWERS];
    let mut exponent = 1;
    while exponent < POWERS {
        let double = 2 * powers[exponent - 1];
        powers[exponent] = if double < 16 {
            double
        } else {
            double ^ MODULUS
        };
        exponent += 1;
    }
    powers
}

/// Which power of x a symbol is; 0 is none.
fn logarithm(symbol: i64) -> Option<usize> {
    POWERS_OF_X.iter().position(|&power| power == symbol)
}

pub fn product(a: i64, b: i64) -> i64 {
    match (logarithm(a), logarithm(b)) {
        (Some(a), Some(b)) => POWERS_OF_X[(a + b) % POWERS],
        _ => 0,
    }
}

/// That of 0 is 0.
pub fn inverse(symbol: i64) -> i64 {
    logarithm(symbol).map_or(0, |exponent| POWERS_OF_X[(POWERS - exponent) % POWERS])
}

#[cfg(test)]
mod tests {
    use super::*;

    #[test]
    fn the_powers_of_x_are_all_symbols_but_zero() {
        let by_hand = [1, 2, 4, 8, 3, 6, 12, 11, 5, 10, 7, 14, 15, 13, 9];
        assert_eq!(POWERS_OF_X, by_hand);
        let mut sorted = POWERS_OF_X;
        sorted.sort();
        assert!(sorted.into_iter().eq(1..16));
    }
}
