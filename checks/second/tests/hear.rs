//! Hear: none, one and several, the refusals in their order, and what stands in each byte of the working room.

mod common;

use common::agreement;
use second::field::Field;
use second::limits::{DEPARTURE_FIELD, DEPARTURE_SYMBOLS, HEIGHT_MOST, WORKING_ROOM};
use second::poly::{sum, symbols, through, vanishing};
use second::random::Random;
use second::{encode, hear, read, write, Departure, Heard};
use std::collections::BTreeSet;

const FILL: u8 = 0xc3;
const EXCESS: usize = 3;

const FERRY: Departure = Departure {
    boat: 7,
    day: 100,
    minute: 1_455,
};
/// Minute 1,800: six symbols that spell no departure.
const NO_DEPARTURE: [u8; DEPARTURE_SYMBOLS] = [7, 3, 7, 1, 27, 2];

fn all_points() -> Vec<u8> {
    (0..DEPARTURE_FIELD).collect()
}

fn message(departure: Departure) -> [u8; DEPARTURE_SYMBOLS] {
    let mut message = [0; DEPARTURE_SYMBOLS];
    assert_eq!(write(departure, &mut message), 0);
    message
}

fn sent(points: &[u8], message: &[u8]) -> Vec<u8> {
    let mut word = vec![0; points.len()];
    assert_eq!(encode(DEPARTURE_FIELD, points, message, &mut word), 0);
    word
}

/// Makes so many symbols, from the front, other symbols.
fn disturb(word: &mut [u8], errors: usize) {
    for symbol in &mut word[..errors] {
        *symbol = (*symbol + 1) % DEPARTURE_FIELD;
    }
}

/// The first symbols of one word and the others of another.
fn halves(one: &[u8], other: &[u8]) -> Vec<u8> {
    let middle = one.len() / 2;
    [&one[..middle], &other[middle..]].concat()
}

/// Hears a word at all points, and looks at the working room: zero after an answer, 13 and 15, else as it was.
fn heard(word: &[u8], m: u8, l: u8, t: u8) -> Heard {
    let mut room = vec![FILL; WORKING_ROOM + EXCESS];
    let heard = hear(&all_points(), word, m, l, t, &mut room);
    let left = match heard {
        Heard::Refused(number) if number < 13 => FILL,
        _ => 0,
    };
    assert!(room[..WORKING_ROOM].iter().all(|&byte| byte == left));
    assert_eq!(room[WORKING_ROOM..], [FILL; EXCESS]);
    heard
}

#[test]
fn a_departure_alone_is_heard_through_errors() {
    let mut word = sent(&all_points(), &message(FERRY));
    assert_eq!(heard(&word, 1, 1, 31), Heard::One(FERRY));
    disturb(&mut word, 12);
    assert_eq!(heard(&word, 1, 4, 19), Heard::One(FERRY));
    // As the program `sailing` has it.
    let mut word = sent(&all_points(), &message(FERRY));
    disturb(&mut word, 15);
    assert_eq!(heard(&word, 2, 4, 16), Heard::One(FERRY));
}

#[test]
fn with_nobody_near_there_is_none() {
    let mut word = sent(&all_points(), &message(FERRY));
    disturb(&mut word, 1);
    assert_eq!(heard(&word, 1, 1, 31), Heard::None);
    assert_eq!(heard(&word, 1, 1, 30), Heard::One(FERRY));
    // Nor is there one where the message that is too far is no departure.
    let mut word = sent(&all_points(), &NO_DEPARTURE);
    disturb(&mut word, 1);
    assert_eq!(heard(&word, 1, 1, 31), Heard::None);
}

#[test]
fn two_near_are_several_whatever_they_spell() {
    let ferry = sent(&all_points(), &message(FERRY));
    let later = Departure {
        minute: 1_456,
        ..FERRY
    };
    let later = sent(&all_points(), &message(later));
    let other = sent(&all_points(), &NO_DEPARTURE);
    let another = sent(&all_points(), &[30; DEPARTURE_SYMBOLS]);
    assert_eq!(heard(&halves(&ferry, &later), 1, 2, 11), Heard::Several);
    assert_eq!(heard(&halves(&ferry, &other), 1, 2, 11), Heard::Several);
    assert_eq!(heard(&halves(&other, &another), 1, 2, 11), Heard::Several);
}

/// Four departures of which any two have the same symbols at five of the points 1 to 30: each agrees at fifteen.
#[test]
fn four_near_are_several() {
    let points: Vec<u8> = (1..DEPARTURE_FIELD).collect();
    let departures = [(0, 0), (30, 1), (18, 3), (28, 13)];
    let words = departures.map(|(boat, minute)| {
        let day = 0;
        sent(&points, &message(Departure { boat, day, minute }))
    });
    let shared = (0..points.len()).map(|place| {
        let symbols = words.each_ref().map(|word| word[place]);
        let twice = |symbol: &u8| symbols.iter().filter(|&other| other == symbol).count() == 2;
        symbols.into_iter().find(twice).unwrap()
    });
    let word: Vec<u8> = shared.collect();
    assert!(words.iter().all(|sent| agreement(sent, &word) == 15));
    let hear = |t| hear(&points, &word, 2, 4, t, &mut vec![FILL; WORKING_ROOM]);
    assert_eq!(hear(15), Heard::Several);
    assert_eq!(hear(16), Heard::None);
}

#[test]
fn a_message_alone_that_is_no_departure_is_15() {
    let mut word = sent(&all_points(), &NO_DEPARTURE);
    assert_eq!(heard(&word, 1, 1, 31), Heard::Refused(15));
    disturb(&mut word, 12);
    assert_eq!(heard(&word, 1, 4, 19), Heard::Refused(15));
}

#[test]
fn what_nobody_vouches_for_is_13_before_15() {
    // The curve of a sent word weighs k - 1 = 5.
    for symbols in [message(FERRY), NO_DEPARTURE] {
        let word = sent(&all_points(), &symbols);
        assert_eq!(heard(&word, 1, 1, 5), Heard::Refused(13));
        assert_ne!(heard(&word, 1, 1, 6), Heard::Refused(13));
    }
}

/// All that hear is given.
struct Asked {
    points: Vec<u8>,
    word: Vec<u8>,
    m: u8,
    l: u8,
    t: u8,
    room: usize,
}

fn sound() -> Asked {
    let points: Vec<u8> = (1..=20).collect();
    Asked {
        word: sent(&points, &message(FERRY)),
        points,
        m: 1,
        l: 2,
        t: 15,
        room: WORKING_ROOM,
    }
}

/// Makes the test behind one number fail, and none behind a smaller one.
fn spoil(asked: &mut Asked, number: u8) {
    match number {
        2 => {
            asked.points.truncate(2);
            asked.word.truncate(2);
        }
        3 => asked.word.push(0),
        4 => {
            asked.points.truncate(DEPARTURE_SYMBOLS);
            asked.word.truncate(DEPARTURE_SYMBOLS);
        }
        5 => asked.l = HEIGHT_MOST + 1,
        6 => asked.word[1] = DEPARTURE_FIELD,
        7 => asked.points[1] = asked.points[0],
        8 => asked.t = 0,
        9 => asked.room -= 1,
        other => unreachable!("{other}"),
    }
}

fn answer(asked: &Asked) -> Heard {
    let mut room = vec![FILL; asked.room];
    let Asked {
        points, word, m, l, ..
    } = asked;
    let heard = hear(points, word, *m, *l, asked.t, &mut room);
    if heard != Heard::One(FERRY) {
        assert!(room.iter().all(|&byte| byte == FILL));
    }
    heard
}

#[test]
fn the_refusals_of_list_come_in_its_order() {
    assert_eq!(answer(&sound()), Heard::One(FERRY));
    let numbers = [2, 3, 4, 5, 6, 7, 8, 9];
    for (place, &first) in numbers.iter().enumerate() {
        for &second in &numbers[place..] {
            let mut asked = sound();
            spoil(&mut asked, second);
            if second != first {
                spoil(&mut asked, first);
            }
            let refused = Heard::Refused(first);
            assert_eq!(answer(&asked), refused, "faults {first} and {second}");
        }
    }
}

#[test]
fn each_refusal_at_its_boundary() {
    let with_points = |n: usize| {
        let points: Vec<u8> = (0..n).map(|place| place as u8).collect();
        let mut room = vec![FILL; WORKING_ROOM];
        hear(&points, &vec![0; n], 1, 2, 1, &mut room)
    };
    for n in (0..3).chain([32, 33, 255, 256, 262]) {
        assert_eq!(with_points(n), Heard::Refused(2));
    }
    for n in 3..=DEPARTURE_SYMBOLS {
        assert_eq!(with_points(n), Heard::Refused(4));
    }
    // From one point more on t = 1 is a matter for 13.
    assert_eq!(with_points(DEPARTURE_SYMBOLS + 1), Heard::Refused(13));
    assert_eq!(with_points(31), Heard::Refused(13));
    for (m, l) in [(0, 2), (5, 8), (2, 1), (1, 9), (1, 255), (255, 255)] {
        let asked = Asked { m, l, ..sound() };
        assert_eq!(answer(&asked), Heard::Refused(5));
    }
    for t in [0, 21, 255] {
        let asked = Asked { t, ..sound() };
        assert_eq!(answer(&asked), Heard::Refused(8));
    }
    for room in [0, WORKING_ROOM - 1] {
        let asked = Asked { room, ..sound() };
        assert_eq!(answer(&asked), Heard::Refused(9));
    }
}

/// Where the departure that was sent agrees at t places or more, hear never says none and never 15, and one is that one.
#[test]
fn what_was_sent_is_never_missed() {
    let mut random = Random::new(62);
    let (mut alone, mut unvouched) = (0, 0);
    for _ in 0..400 {
        let mut points = all_points();
        random.shuffle(&mut points);
        points.truncate(random.between(DEPARTURE_SYMBOLS + 1, 31));
        let n = points.len();
        let ferry = Departure {
            boat: random.below(31) as u8,
            day: random.below(961) as u16,
            minute: random.below(1_800) as u16,
        };
        let word = sent(&points, &message(ferry));
        let mut received = word.clone();
        for _ in 0..random.between(0, n - DEPARTURE_SYMBOLS) {
            received[random.below(n)] = random.below(31) as u8;
        }
        let t = random.between(1, agreement(&word, &received)) as u8;
        let m = random.between(1, 3) as u8;
        let l = random.between(m.into(), 6) as u8;
        let mut room = vec![FILL; WORKING_ROOM];
        match hear(&points, &received, m, l, t, &mut room) {
            Heard::One(one) => {
                assert_eq!(one, ferry);
                alone += 1;
            }
            Heard::Several => {}
            Heard::Refused(13) => unvouched += 1,
            other => panic!("{other:?}"),
        }
    }
    assert!(alone > 60 && unvouched > 60, "{alone} {unvouched}");
}

/// The messages with at least t agreements, where t is six or more: each of them is the one through some six places.
fn near_by_trying(points: &[u8], word: &[u8], t: u8) -> BTreeSet<Vec<u8>> {
    let field = Field::of_size(DEPARTURE_FIELD).unwrap();
    let six = (0..1_u32 << points.len()).filter(|chosen| chosen.count_ones() == 6);
    let through_six = six.map(|chosen| {
        let chosen = |bytes: &[u8]| {
            let places = bytes.iter().enumerate();
            let chosen = places.filter(|(place, _)| chosen >> place & 1 == 1);
            chosen.map(|(_, &byte)| i64::from(byte)).collect::<Vec<_>>()
        };
        let mut message = through(field, &chosen(points), &chosen(word));
        message.resize(DEPARTURE_SYMBOLS, 0);
        message.iter().map(|&symbol| symbol as u8).collect()
    });
    through_six
        .filter(|message: &Vec<u8>| agreement(&sent(points, message), word) >= t.into())
        .collect()
}

/// Another message that has the same values at the first five points.
fn beside(points: &[u8], message: &[u8]) -> Vec<u8> {
    let field = Field::of_size(DEPARTURE_FIELD).unwrap();
    let zero_at_five = vanishing(field, &symbols(&points[..5]));
    let sum = sum(field, &symbols(message), &zero_at_five);
    let mut beside: Vec<u8> = sum.iter().map(|&symbol| symbol as u8).collect();
    beside.resize(DEPARTURE_SYMBOLS, 0);
    beside
}

#[test]
fn what_is_heard_is_what_trying_all_messages_gives() {
    let mut random = Random::new(63);
    let mut met = [0; 5];
    for _ in 0..60 {
        let mut points = all_points();
        random.shuffle(&mut points);
        points.truncate(random.pick(&[9, 12, 17, 17, 18]));
        let n = points.len();
        let departure = message(FERRY).to_vec();
        let one = random.pick(&[&departure[..], &departure, &NO_DEPARTURE]);
        let mut word = sent(&points, one);
        if random.once_in(3) {
            // Alternating after the five places that both have in common, so each agrees at half of the rest.
            let other = sent(&points, &beside(&points, one));
            (5..n)
                .step_by(2)
                .for_each(|place| word[place] = other[place]);
        } else {
            disturb(&mut word, random.between(0, (n - 6) / 2));
        }
        let (m, l) = random.pick(&[(1, 2), (1, 3), (2, 4)]);
        let t = random.between(n / 2, n.min(13)).max(6) as u8;
        let near = near_by_trying(&points, &word, t);
        let near: Vec<(u8, Departure)> = near.iter().map(|message| read(message)).collect();
        let heard = hear(&points, &word, m, l, t, &mut vec![FILL; WORKING_ROOM]);
        let (kind, expected) = match (heard, &near[..]) {
            (Heard::Refused(13), _) => (4, heard),
            (_, []) => (0, Heard::None),
            (_, [(0, departure)]) => (1, Heard::One(*departure)),
            (_, [_]) => (2, Heard::Refused(15)),
            _ => (3, Heard::Several),
        };
        assert_eq!(heard, expected);
        met[kind] += 1;
    }
    assert!(met.iter().all(|&times| times >= 3), "{met:?}");
}
