//! What the calls on departures leave in the bytes for what they hand back, which the wrapper keeps to itself: called as from
//! C, after answers and refusals, where there is room for them and where there is none.

mod common;

use common::{untouched, FILL};
use pluck::{encode, DEPARTURE_FIELD, DEPARTURE_SYMBOLS, WORKING_ROOM};

extern "C" {
    fn pluck_read_departure(
        message: *const u8, message_len: usize, departure: *mut u8, departure_len: usize,
    ) -> u8;

    fn pluck_hear(
        points: *const u8, points_len: usize, word: *const u8, word_len: usize, m: u8, l: u8,
        t: u8, room: *mut u8, room_len: usize, heard: *mut u8, heard_len: usize,
    ) -> u8;
}

/// The number, and the departure's bytes where so many are lent.
fn read(message: &[u8], length: usize) -> (u8, Vec<u8>) {
    let mut departure = vec![FILL; length];
    // SAFETY: both rooms are slices.
    let number = unsafe {
        pluck_read_departure(
            message.as_ptr(),
            message.len(),
            departure.as_mut_ptr(),
            departure.len(),
        )
    };
    (number, departure)
}

#[test]
fn read_hands_back_five_bytes_or_zeros() {
    // Boat 7, day 3 * 31 + 7 = 100, minute 961 + 27 * 31 + 1 = 1,799 = 7 * 256 + 7; day 960 = 3 * 256 + 192.
    assert_eq!(read(&[7, 3, 7, 1, 27, 1], 5), (0, vec![7, 100, 0, 7, 7]));
    let last_day = (0, vec![0, 192, 3, 175, 5, FILL, FILL]);
    assert_eq!(read(&[0, 30, 30, 1, 15, 29], 7), last_day);
    let no_departure = [7, 3, 7, 1, 27, 2];
    assert_eq!(read(&no_departure, 5), (15, vec![0; 5]));
    assert_eq!(read(&no_departure, 6), (15, vec![0, 0, 0, 0, 0, FILL]));
    for length in 0..5 {
        assert_eq!(read(&no_departure, length), (15, vec![FILL; length]));
        assert_eq!(read(&[0; 6], length), (9, vec![FILL; length]));
    }
}

/// What hear is given beside the rooms.
struct Asked<'a> {
    points: &'a [u8],
    word: &'a [u8],
    m: u8,
    l: u8,
    t: u8,
}

/// The number, the bytes of what is heard where so many are lent, and the working room.
fn hear(asked: &Asked, room: usize, length: usize) -> (u8, Vec<u8>, Vec<u8>) {
    let (mut room, mut heard) = (vec![FILL; room], vec![FILL; length]);
    let Asked { points, word, .. } = asked;
    // SAFETY: all rooms are slices.
    let number = unsafe {
        pluck_hear(
            points.as_ptr(),
            points.len(),
            word.as_ptr(),
            word.len(),
            asked.m,
            asked.l,
            asked.t,
            room.as_mut_ptr(),
            room.len(),
            heard.as_mut_ptr(),
            heard.len(),
        )
    };
    (number, heard, room)
}

fn sent(points: &[u8], message: &[u8; DEPARTURE_SYMBOLS]) -> Vec<u8> {
    let mut word = vec![0; points.len()];
    assert_eq!(encode(DEPARTURE_FIELD, points, message, &mut word), Ok(()));
    word
}

/// Number and bytes of what is heard of a word at the points 1 to 30, where six bytes are lent and where there are more.
fn heard(word: &[u8], m: u8, l: u8, t: u8) -> (u8, Vec<u8>) {
    let points: Vec<u8> = (1..=30).collect();
    let points = &points;
    let asked = Asked {
        points,
        word,
        m,
        l,
        t,
    };
    let (number, six, room) = hear(&asked, WORKING_ROOM, 6);
    assert_eq!(room, [0; WORKING_ROOM]);
    let (_, more, _) = hear(&asked, WORKING_ROOM, 8);
    assert_eq!((&more[..6], &more[6..]), (&six[..], &[FILL; 2][..]));
    (number, six)
}

#[test]
fn hear_hands_back_the_departure_and_a_count_up_to_2() {
    let points: Vec<u8> = (1..=30).collect();
    let ferry = sent(&points, &[7, 3, 7, 1, 15, 29]);
    assert_eq!(heard(&ferry, 1, 1, 30), (0, vec![7, 100, 0, 175, 5, 1]));
    let mut disturbed = ferry.clone();
    disturbed[0] = (disturbed[0] + 1) % 31;
    assert_eq!(heard(&disturbed, 1, 1, 30), (0, vec![0; 6]));
    let later = sent(&points, &[7, 3, 7, 1, 15, 30]);
    let between = [&ferry[..15], &later[15..]].concat();
    assert_eq!(heard(&between, 1, 2, 11), (0, vec![0, 0, 0, 0, 0, 2]));
    assert_eq!(
        heard(&four_near(&points), 2, 4, 15),
        (0, vec![0, 0, 0, 0, 0, 2])
    );
    let no_departure = sent(&points, &[7, 3, 7, 1, 27, 2]);
    assert_eq!(heard(&no_departure, 1, 1, 30), (15, vec![0; 6]));
    assert_eq!(heard(&ferry, 1, 1, 5), (13, vec![0; 6]));
}

/// Any two of four messages have the same symbols at five of the points 1 to 30: each agrees at fifteen.
fn four_near(points: &[u8]) -> Vec<u8> {
    let messages = [(0, 0), (30, 1), (18, 3), (28, 13)];
    let words = messages.map(|(first, last)| sent(points, &[first, 0, 0, 0, 0, last]));
    let places = 0..points.len();
    let shared = places.map(|place| {
        let symbols = words.each_ref().map(|word| word[place]);
        let twice = |symbol: &u8| symbols.iter().filter(|&other| other == symbol).count() == 2;
        symbols.into_iter().find(twice).unwrap()
    });
    shared.collect()
}

#[test]
fn without_room_for_what_is_heard_nothing_is_written() {
    let points: Vec<u8> = (0..31).collect();
    let word = sent(&points, &[7, 3, 7, 1, 15, 29]);
    let sound = Asked {
        points: &points,
        word: &word,
        m: 1,
        l: 1,
        t: 31,
    };
    let unvouched = Asked { t: 1, ..sound };
    let wanted = Asked { t: 32, ..sound };
    let two_points = Asked {
        points: &points[..2],
        ..sound
    };
    for (asked, number) in [(&sound, 9), (&unvouched, 9), (&wanted, 8), (&two_points, 2)] {
        for length in 0..6 {
            let (refused, heard, room) = hear(asked, WORKING_ROOM, length);
            assert_eq!(refused, number);
            assert!(untouched(&heard) && untouched(&room));
        }
    }
    // With room for it there are zeros, and the working room is as it was.
    for (asked, room, number) in [(&wanted, WORKING_ROOM, 8), (&sound, WORKING_ROOM - 1, 9)] {
        let (refused, heard, room) = hear(asked, room, 7);
        assert_eq!((refused, heard), (number, vec![0, 0, 0, 0, 0, 0, FILL]));
        assert!(untouched(&room));
    }
}
