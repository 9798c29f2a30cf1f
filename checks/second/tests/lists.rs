//! The list against trying all messages.

mod common;

use common::{agreement, all_messages, interpolated};
use second::limits::{HEIGHT_MOST, MESSAGES_MOST, MULTIPLICITY_MOST, WORKING_ROOM};
use second::random::Random;
use second::sample::{request, with_numbers};
use second::{encode, list, roots, Request};

/// Number, count, updates and weight, and the messages listed.
fn listed(request: &Request, t: u8) -> ((u8, u8, u32, u8), Vec<Vec<u8>>) {
    let (mut room, mut messages) = (vec![5; WORKING_ROOM + 1], vec![99; MESSAGES_MOST + 1]);
    let answer = list(request, t, &mut room, &mut messages);
    assert!(room[..WORKING_ROOM].iter().all(|&byte| byte == 0));
    assert_eq!(room[WORKING_ROOM], 5);
    let k = usize::from(request.k);
    let (written, rest) = messages.split_at(usize::from(answer.1) * k);
    assert!(rest.iter().all(|&byte| byte == 99));
    let messages = written.chunks(k).map(<[u8]>::to_vec).collect();
    (answer, messages)
}

fn encoded(request: &Request, message: &[u8]) -> Vec<u8> {
    let mut word = vec![0; request.points.len()];
    assert_eq!(encode(request.p, &request.points, message, &mut word), 0);
    word
}

#[test]
fn the_list_is_that_of_trying_all_messages() {
    let mut random = Random::new(20);
    let mut longest = 0;
    for _ in 0..500 {
        let p = random.pick(&[3, 5, 7, 11, 16]);
        let n = random.between(3, p.into());
        let k = random.between(2, (n - 1).min(if p >= 11 { 2 } else { 4 }));
        let m = random.between(1, MULTIPLICITY_MOST.into());
        let l = random.between(m, HEIGHT_MOST.into());
        let request = with_numbers(&mut random, p, n, k, m, l);
        let found = interpolated(&request);
        let (updates, weight) = (found.updates, found.weight);
        let tried: Vec<(usize, Vec<u8>)> = all_messages(p, k)
            .into_iter()
            .map(|message| {
                (
                    agreement(&encoded(&request, &message), &request.word),
                    message,
                )
            })
            .collect();
        for t in 1..=n {
            let (answer, messages) = listed(&request, t as u8);
            if m * t <= usize::from(weight) {
                assert_eq!(answer, (13, 0, 0, 0));
                continue;
            }
            let near = tried.iter().filter(|(agreements, _)| *agreements >= t);
            let wanted: Vec<Vec<u8>> = near.map(|(_, message)| message.clone()).collect();
            assert_eq!(answer, (0, wanted.len() as u8, updates, weight));
            assert_eq!(messages, wanted);
            assert!(wanted.len() <= l);
            longest = longest.max(wanted.len());
        }
    }
    assert!(longest >= 3);
}

#[test]
fn roots_are_all_roots() {
    let mut random = Random::new(21);
    for _ in 0..150 {
        let p = random.pick(&[3, 5, 7, 16]);
        let n = random.between(3, p.into());
        let k = random.between(2, (n - 1).min(if p == 16 { 2 } else { 3 }));
        let m = random.between(1, MULTIPLICITY_MOST.into());
        let l = random.between(m, HEIGHT_MOST.into());
        let request = with_numbers(&mut random, p, n, k, m, l);
        let setting = request.setting();
        let curve = interpolated(&request).curve;
        let mut found = roots(setting.field, setting.u(), &curve, k);
        found.sort();
        let wanted: Vec<Vec<i64>> = all_messages(p, k)
            .iter()
            .map(|message| second::poly::symbols(message))
            .filter(|g| curve.at(setting.field, g).is_empty())
            .collect();
        assert_eq!(found, wanted);
    }
}

#[test]
fn large_fields_list_what_was_sent() {
    let mut random = Random::new(22);
    let mut answered = 0;
    for _ in 0..200 {
        let request = request(&mut random);
        let found = interpolated(&request);
        let (updates, weight) = (found.updates, found.weight);
        let t = usize::from(weight) / usize::from(request.m) + 1;
        if t > request.points.len() {
            continue;
        }
        let (answer, messages) = listed(&request, t as u8);
        assert_eq!((answer.0, answer.2, answer.3), (0, updates, weight));
        assert!(messages.windows(2).all(|pair| pair[0] < pair[1]));
        for message in &messages {
            assert!(agreement(&encoded(&request, message), &request.word) >= t);
        }
        answered += messages.len();
    }
    assert!(answered > 50);
}
