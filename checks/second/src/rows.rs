//! The rows and what is done to them, on curves; bytes come in only above this layer.

use crate::curve::{Curve, Term};
use crate::poly::{through, vanishing};
use crate::setting::Setting;

/// The rows of corollary 14: (y-h)^i e^(m-i) for i up to m, and y^(i-m) (y-h)^m above.
pub fn starting_rows(setting: &Setting, points: &[i64], word: &[i64]) -> Vec<Curve> {
    let (field, u) = (setting.field, setting.u());
    let h = Curve::from_poly(field, u, &through(field, points, word), 0);
    let e = Curve::from_poly(field, u, &vanishing(field, points), 0);
    let y = Curve::from_poly(field, u, &[1], 1);
    let along = powers(setting, &y.minus(field, &h));
    let vanish = powers(setting, &e);
    let row = |i: usize| match i.checked_sub(setting.m) {
        None => along[i].times(field, &vanish[setting.m - i]),
        Some(above) => Curve::from_poly(field, u, &[1], above).times(field, &along[setting.m]),
    };
    (0..=setting.l).map(row).collect()
}

/// The powers 0 to m of a curve.
fn powers(setting: &Setting, base: &Curve) -> Vec<Curve> {
    let mut powers = vec![Curve::from_poly(setting.field, setting.u(), &[1], 0)];
    for power in 0..setting.m {
        powers.push(powers[power].times(setting.field, base));
    }
    powers
}

/// Number 11 at entry, as far as it is about curves: whether the rows are as a turn leaves them.
pub fn as_a_turn_leaves(rows: &[Curve], r: usize) -> bool {
    rows.iter()
        .enumerate()
        .all(|(i, row)| !row.is_zero() && row.height() <= i.max(r) && (i >= r || row.leads_at(i)))
}

/// How a turn ended. `stopped` is the late 11: the next update would have made row r zero and was not made.
#[derive(Clone, Copy, PartialEq, Eq, Debug)]
pub struct TurnEnd {
    pub r: usize,
    pub updates: u32,
    pub stopped: bool,
}

/// One turn at row r, on rows that are as a turn leaves them.
pub fn take_turn(setting: &Setting, rows: &mut [Curve], mut r: usize, allowance: u32) -> TurnEnd {
    let mut updates = 0;
    let mut stopped = false;
    while r <= setting.l {
        if rows[r].leads_at(r) {
            r += 1;
        } else if updates == allowance {
            break;
        } else if update(setting, rows, r) {
            updates += 1;
        } else {
            stopped = true;
            break;
        }
    }
    TurnEnd {
        r,
        updates,
        stopped,
    }
}

/// Steps J4 to J6 on row r. False, and nothing altered, if row r would become zero.
fn update(setting: &Setting, rows: &mut [Curve], r: usize) -> bool {
    let field = setting.field;
    // Rows as a turn leaves them are not zero and row s leads at y^s, so that the two alternatives never come.
    let Some((Term { y: s, .. }, _)) = rows[r].lead() else {
        return false;
    };
    let (Some((deg_a, lead_a)), Some((deg_b, lead_b))) = (rows[r].top_at(s), rows[s].top_at(s))
    else {
        return false;
    };
    let c = field.quotient(lead_a, lead_b);
    // With d = deg A - deg B, row s is raised by x^d if d is 0 or more, row r by x^(-d) if it is negative.
    let raised = rows[r].scaled(field, 1, deg_b.saturating_sub(deg_a));
    let taken = rows[s].scaled(field, c, deg_a.saturating_sub(deg_b));
    let difference = raised.minus(field, &taken);
    if difference.is_zero() {
        return false;
    }
    let old = std::mem::replace(&mut rows[r], difference);
    if deg_a < deg_b {
        rows[s] = old;
    }
    true
}

/// The row with the smallest leading term, made monic; of no rows there is none.
pub fn smallest(setting: &Setting, rows: &[Curve]) -> Option<Curve> {
    let least = rows
        .iter()
        .min_by_key(|row| row.lead().map(|(term, _)| term));
    least.map(|row| row.monic(setting.field))
}
