//! Turns: demand 3 from a start, and the rule on rows that no start leads to.

mod common;

use common::{for_sessions, in_the_set, read_rows, Session};
use second::curve::{Curve, Term};
use second::limits::ALLOWANCE_MOST;
use second::random::Random;
use second::sample::{dependent_rows, free_rows, request};
use second::{start, turn, Note, Request, Setting};

/// A random setting with a note at some row.
fn note_at(random: &mut Random, r: impl Fn(&mut Random, usize) -> usize) -> (Note, Setting) {
    let request = request(random);
    let setting = request.setting();
    let r = r(random, setting.l) as u8;
    let first = Note::first(&request);
    (Note { r, ..first }, setting)
}

/// Whether rows below r lead at their own power and no row is higher than it may be.
fn as_left(rows: &[Curve], r: usize) -> bool {
    rows.iter().enumerate().all(|(i, row)| {
        let lead = row.lead().map(|(term, _)| term.y);
        lead.is_some() && row.height() <= i.max(r) && (i >= r || lead == Some(i))
    })
}

#[test]
fn the_starting_rows_are_those_of_corollary_14() {
    for_sessions(10, 200, |_, session| {
        let Session { setting, note, .. } = session;
        assert_eq!((note.r, usize::from(note.n)), (1, setting.n));
        let rows = read_rows(&setting, &session.rows);
        for (i, row) in rows.iter().enumerate() {
            // Row i has height i, its x-polynomial there is e^(m-i) or 1, and it is in the set.
            let degree = setting.n * setting.m.saturating_sub(i);
            assert_eq!((row.height(), row.top_at(i)), (i, Some((degree, 1))));
            assert!(in_the_set(&session.request, row));
            // Above row m, y^(i-m) divides the row.
            let least = row.terms().iter().map(|(term, _)| term.y).min();
            assert!(least >= Some(i.saturating_sub(setting.m)));
        }
    });
}

#[test]
fn turns_of_any_size_make_the_same_updates_as_one() {
    for_sessions(11, 300, |random, session| {
        let Session { mut note, .. } = session;
        let (mut rows, mut whole) = (session.rows.clone(), session.rows);
        let (number, last, updates) = turn(note, &mut whole, ALLOWANCE_MOST);
        assert_eq!((number, last.r), (0, note.l + 1));
        assert!(updates as usize <= session.setting.update_bound());

        let mut made = 0;
        while note.r <= note.l {
            let allowance = random.between(0, 1 + updates as usize / 3) as u16;
            let (number, next, more) = turn(note, &mut rows, allowance);
            // A turn that is not finished has spent its allowance whole.
            assert!(number == 0 && (next.r > next.l || more == u32::from(allowance)));
            assert!(next.r >= note.r && more <= u32::from(allowance));
            (note, made) = (next, made + more);
        }
        assert_eq!((note, made), (last, updates));
        assert_eq!(rows, whole);
    });
}

#[test]
fn at_every_pause_the_rows_are_in_the_set_and_as_a_turn_leaves_them() {
    for_sessions(12, 60, |random, session| {
        let Session {
            request,
            setting,
            mut note,
            mut rows,
        } = session;
        let mut left = setting.update_bound();
        while left > 0 {
            let allowance = random.between(1, left);
            note = turn(note, &mut rows, allowance as u16).1;
            left -= allowance;
            let curves = read_rows(&setting, &rows);
            assert!(as_left(&curves, note.r.into()));
            assert!(curves.iter().all(|row| in_the_set(&request, row)));
        }
        // The allowances add up to the formula, so the work is finished and every row leads at its own power.
        let (_, note, _) = turn(note, &mut rows, 0);
        assert_eq!(note.r, request.l + 1);
        let curves = read_rows(&setting, &rows);
        assert!(curves.iter().enumerate().all(|(i, row)| row.leads_at(i)));
    });
}

/// What is left of a curve when multiples of the rows, each leading at its own power, are taken off from the top.
fn remainder(setting: &Setting, rows: &[Curve], curve: &Curve) -> Curve {
    let mut rest = curve.clone();
    while let Some((lead, coefficient)) = rest.lead() {
        let (own, divisor) = rows[lead.y].lead().unwrap();
        if own.x > lead.x {
            break;
        }
        let c = setting.field.quotient(coefficient, divisor);
        rest = rest.minus(
            setting.field,
            &rows[lead.y].scaled(setting.field, c, lead.x - own.x),
        );
    }
    rest
}

#[test]
fn the_finished_rows_still_generate_the_starting_ones() {
    for_sessions(13, 200, |_, session| {
        let Session {
            setting, mut rows, ..
        } = session;
        let first = read_rows(&setting, &rows);
        turn(session.note, &mut rows, ALLOWANCE_MOST);
        let finished = read_rows(&setting, &rows);
        for row in first {
            assert!(remainder(&setting, &finished, &row).is_zero());
        }
    });
}

/// The case of docs/RULES.md with one update.
fn word_0_0_1() -> Request {
    Request {
        p: 7,
        points: vec![1, 2, 3],
        word: vec![0, 0, 1],
        k: 2,
        m: 1,
        l: 1,
    }
}

#[test]
fn the_formula_is_reached() {
    // Rows whose count equals the formula exist; for n = 3, k = 2, m = l = 1 the word 0,0,1 is one.
    let mut rows = vec![0; 16];
    let (_, note) = start(&word_0_0_1(), &mut rows);
    assert_eq!(turn(note, &mut rows, 0), (0, note, 0));
    assert_eq!(turn(note, &mut rows, 1), (0, Note { r: 2, ..note }, 1));
}

#[test]
fn free_rows_are_accepted_and_left_as_a_turn_leaves_them() {
    let mut random = Random::new(14);
    for _ in 0..400 {
        let (note, setting) = note_at(&mut random, |random, l| random.between(1, l + 1));
        let mut rows = free_rows(&mut random, &setting, note.r.into());
        let allowance = random.between(0, 200) as u16;
        let (number, next, updates) = turn(note, &mut rows, allowance);
        assert!(as_left(&read_rows(&setting, &rows), next.r.into()));
        let finished = next.r > note.l;
        match number {
            0 => assert!(finished || updates == u32::from(allowance)),
            11 => assert!(!finished && updates < u32::from(allowance)),
            other => panic!("number {other}"),
        }
    }
}

#[test]
fn dependent_rows_end_with_the_late_11() {
    let mut random = Random::new(15);
    let mut after_updates = 0;
    for _ in 0..200 {
        let (note, setting) = note_at(&mut random, |random, l| random.between(1, l));
        let mut rows = dependent_rows(&mut random, &setting, note.r.into());
        let before = rows.clone();
        let (number, next, updates) = turn(note, &mut rows, ALLOWANCE_MOST);
        // Row r never leads at y^r, so the turn stops in it.
        assert_eq!((number, next), (11, note));
        assert!(as_left(&read_rows(&setting, &rows), next.r.into()));
        after_updates += usize::from(updates > 0);

        // Just before the refusal: the same rows and note, reached with exactly that allowance.
        let mut cut = before;
        assert_eq!(turn(note, &mut cut, updates as u16), (0, note, updates));
        assert_eq!(cut, rows);
        assert_eq!(turn(note, &mut cut, 1), (11, note, 0));
        assert_eq!(cut, rows);
    }
    assert!(after_updates > 50);
}

/// The update with d negative, by hand: the new row r is made from the old row s.
#[test]
fn an_update_with_d_negative_uses_the_old_row_s() {
    let setting = word_0_0_1().setting();
    let mut rows = vec![0; setting.rows_room()];
    let (_, note) = start(&word_0_0_1(), &mut rows);
    turn(note, &mut rows, 1);
    let term = |x, y| Term::new(1, x, y);
    // Row 1 was y - h with h = 4x^2+2x+1, row 0 was e = x^3+x^2+4x+1; d = -1 and c = 3.
    let row_0 = [
        (term(0, 1), 1),
        (term(2, 0), 3),
        (term(1, 0), 5),
        (term(0, 0), 6),
    ];
    let row_1 = [
        (term(1, 1), 1),
        (term(2, 0), 2),
        (term(1, 0), 1),
        (term(0, 0), 4),
    ];
    let expected = [row_0, row_1].map(|row| Curve::gather(setting.field, row));
    assert_eq!(read_rows(&setting, &rows), expected);
}
