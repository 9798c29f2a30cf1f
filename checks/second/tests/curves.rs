//! The curve against its definition: in the set, and by linear algebra the smallest.

mod common;

use common::{has_multiplicity, in_the_set, interpolated, smallest_by_algebra};
use second::curve::{Curve, Term};
use second::field::{Field, FIELDS};
use second::limits::{FIELD_MOST, HEIGHT_MOST, MULTIPLICITY_MOST};
use second::random::Random;
use second::sample::{request, with_numbers};
use second::Request;

fn assert_smallest(request: &Request) {
    let found = interpolated(request);
    let (lead, coefficient) = found.curve.lead().unwrap();
    assert_eq!(coefficient, 1, "{request:?}");
    assert_eq!(lead.weight, usize::from(found.weight));
    assert_eq!(found.curve.height(), usize::from(found.height));
    assert!(in_the_set(request, &found.curve), "{request:?}");
    assert_eq!(found.curve, smallest_by_algebra(request), "{request:?}");
}

#[test]
fn the_curve_is_the_smallest_of_the_set() {
    let mut random = Random::new(1);
    for _ in 0..400 {
        assert_smallest(&request(&mut random));
    }
}

#[test]
fn every_small_setting_of_every_field() {
    let mut random = Random::new(2);
    for p in FIELDS {
        for m in 1..=usize::from(MULTIPLICITY_MOST) {
            for l in m..=usize::from(HEIGHT_MOST) {
                let n = random.between(3, usize::from(p).min(8));
                let k = random.between(2, n - 1);
                assert_smallest(&with_numbers(&mut random, p, n, k, m, l));
            }
        }
    }
}

#[test]
fn the_largest_settings() {
    let mut random = Random::new(3);
    let n = usize::from(FIELD_MOST);
    let [m, l] = [MULTIPLICITY_MOST, HEIGHT_MOST].map(usize::from);
    let numbers = [
        (2, m, l),
        (16, m, l),
        (n - 1, m, l),
        (8, m, m),
        (n - 1, 1, l),
    ];
    for (k, m, l) in numbers {
        assert_smallest(&with_numbers(&mut random, FIELD_MOST, n, k, m, l));
    }
}

/// With p = 3 the third derivative of x^3 vanishes by itself, with p = 16 the second of x^2; the shifted coefficients are not deceived.
#[test]
fn multiplicity_is_not_read_off_derivatives() {
    for (p, power) in [(3, 3), (16, 2)] {
        let field = Field::of_size(p).unwrap();
        let curve = Curve::gather(field, [(Term::new(1, power, 0), 1)]);
        assert!(has_multiplicity(field, &curve, power, (0, 0)));
        assert!(!has_multiplicity(field, &curve, power + 1, (0, 0)));
    }
}
