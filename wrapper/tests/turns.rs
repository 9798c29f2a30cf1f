//! Turns: cut in pieces, and refused late.

mod common;

use common::{started, EXAMPLE_19};
use pluck::{finish, Note, Refusal, Request, Turned, ALLOWANCE_MOST};
use second::random::Random;
use second::sample;

fn curve_of(note: &Note, rows: &[u8]) -> Vec<u8> {
    let mut curve = vec![0; note.curve_bytes()];
    assert_eq!(finish(note, rows, &mut curve).outcome, Ok(()));
    curve
}

/// Takes turns until the work is finished; hands back all updates.
fn in_pieces(random: &mut Random, note: &mut Note, rows: &mut [u8]) -> u32 {
    let mut updates = 0;
    while !note.is_finished() {
        let allowance = random.below(40) as u16;
        let turned = note.turn(rows, allowance);
        assert_eq!(turned.outcome, Ok(()));
        assert!(note.is_finished() || turned.updates == allowance);
        updates += u32::from(turned.updates);
    }
    updates
}

#[test]
fn turns_in_pieces_give_the_rows_and_the_curve_of_one() {
    let mut random = Random::new(50);
    for _ in 0..200 {
        let sample = sample::request(&mut random);
        let request = Request {
            p: sample.p,
            points: &sample.points,
            word: &sample.word,
            k: sample.k,
            m: sample.m,
            l: sample.l,
        };
        let (mut note, mut rows) = started(&request);
        let (mut other_note, mut other_rows) = (note.clone(), rows.clone());
        let whole = note.turn(&mut rows, ALLOWANCE_MOST);
        assert_eq!((whole.outcome, note.is_finished()), (Ok(()), true));
        let updates = in_pieces(&mut random, &mut other_note, &mut other_rows);
        assert_eq!(updates, u32::from(whole.updates));
        assert_eq!((&other_note, &other_rows), (&note, &rows));
        assert_eq!(curve_of(&other_note, &other_rows), curve_of(&note, &rows));
    }
}

#[test]
fn a_turn_refused_late_says_what_it_did() {
    let mut random = Random::new(51);
    let mut after_updates = 0;
    for _ in 0..200 {
        let request = sample::request(&mut random);
        let setting = request.setting();
        let r = random.between(1, setting.l);
        let before = sample::dependent_rows(&mut random, &setting, r);
        let bytes = [
            request.p,
            setting.n as u8,
            request.k,
            request.m,
            request.l,
            r as u8,
        ];
        let (mut note, mut rows) = (Note::from(bytes), before.clone());
        let turned = note.turn(&mut rows, ALLOWANCE_MOST);
        assert_eq!(turned.outcome, Err(Refusal::Rows));
        assert_eq!(<[u8; 6]>::from(note.clone()), bytes);
        after_updates += usize::from(turned.updates > 0);

        // With just that allowance the same rows and note are reached, and nothing more.
        let mut cut = before;
        let updates = turned.updates;
        let done = Turned {
            outcome: Ok(()),
            updates,
        };
        assert_eq!(note.turn(&mut cut, updates), done);
        assert_eq!(cut, rows);
    }
    assert!(after_updates > 50);
}

#[test]
fn a_note_is_its_six_bytes() {
    let (note, _) = started(&EXAMPLE_19);
    assert_eq!(note.bytes(), &[7, 6, 3, 2, 3, 1]);
    let numbers = [note.p(), note.n(), note.k(), note.m(), note.l(), note.r()];
    assert_eq!(Note::from(numbers), note);
    assert!(!note.is_finished());
    assert!(Note::from([0, 0, 0, 0, 8, 9]).is_finished());
    assert!(!Note::from([0, 0, 0, 0, 255, 0]).is_finished());
}
