//! The program `listing`: what can be read, what cannot, and what is printed.

use second::listing;
use second::random::Random;

const SOUND: &str = "field=7\nk=3\nm=2\nl=3\nt=4\npoints=1,2,3,4,5,6\nword=6,2,4,4,4,2\n";

fn printed(input: &str) -> String {
    String::from_utf8(listing(input.as_bytes())).unwrap()
}

#[test]
fn example_19_is_printed() {
    let text = printed(SOUND);
    let lines: Vec<&str> = text.lines().collect();
    assert_eq!(lines[0], "answer=0");
    assert!(lines[1].starts_with("updates="));
    assert_eq!(
        lines[2..],
        ["weight=7", "count=2", "message=1,3,4", "message=5,2,6"]
    );
    assert!(text.ends_with("5,2,6\n"));
}

#[test]
fn refusals_are_one_line() {
    let refused = [
        ("field=7", "field=9", 1),
        ("points=1,2,3,4,5,6", "points=1,2", 2),
        ("word=6,2", "word=6", 3),
        ("k=3", "k=6", 4),
        ("l=3", "l=9", 5),
        ("m=2", "m=0", 5),
        ("word=6", "word=7", 6),
        ("points=1,2,3", "points=1,2,1", 7),
        ("t=4", "t=0", 8),
        ("t=4", "t=255", 8),
        ("t=4", "t=3", 13),
    ];
    for (from, to, number) in refused {
        assert_eq!(
            printed(&SOUND.replacen(from, to, 1)),
            format!("answer={number}\n")
        );
    }
}

#[test]
fn an_empty_list_is_answered_with_0() {
    let input = "field=7\nk=2\nm=1\nl=1\nt=3\npoints=1,2,3\nword=0,0,1\n";
    assert_eq!(printed(input), "answer=0\nupdates=1\nweight=2\ncount=0\n");
}

#[test]
fn an_empty_m_is_1_and_an_empty_l_is_m() {
    let with = |m: &str, l: &str| {
        let lines = SOUND.replacen("m=2", m, 1).replacen("l=3", l, 1);
        printed(&lines.replacen("t=4", "t=6", 1))
    };
    assert_eq!(with("m=", "l=3"), with("m=1", "l=3"));
    assert_eq!(with("m=2", "l="), with("m=2", "l=2"));
    assert_eq!(with("m=", "l="), with("m=1", "l=1"));
    // A default that takes over an m out of range is read, and refused as any other.
    assert_eq!(with("m=9", "l="), "answer=5\n");
}

#[test]
fn leading_zeros_are_allowed_up_to_three_digits() {
    let zeros = SOUND.replacen("field=7", "field=007", 1);
    let zeros = zeros.replacen("points=1,2", "points=01,002", 1);
    assert_eq!(printed(&zeros), printed(SOUND));
    let four = SOUND.replacen("field=7", "field=0007", 1);
    assert_eq!(printed(&four), "answer=14\n");
}

#[test]
fn other_lines_are_not_read() {
    let replaced = [
        ("field=7", "field="),
        ("field=7", "field=7 "),
        ("field=7", "field= 7"),
        ("field=7", "field=+7"),
        ("field=7", "field=-7"),
        ("field=7", "field=256"),
        ("field=7", "field=999"),
        ("field=7", "field=7,7"),
        ("field=7", "Field=7"),
        ("field=7", "field:7"),
        ("field=7", "field"),
        ("field=7\n", ""),
        ("field=7\n", "\nfield=7\n"),
        ("field=7\nk=3\n", "k=3\nfield=7\n"),
        ("field=7\n", "field=7\r\n"),
        ("field=7\n", "field=7"),
        ("k=3", "k="),
        ("k=3", "k=0x3"),
        ("m=2", "m= "),
        ("m=2", "m=1,"),
        ("l=3", "l=,"),
        ("t=4", "t="),
        ("points=1,2,3,4,5,6", "points="),
        ("points=1,2", "points=1,,2"),
        ("points=1,2", "points=1, 2"),
        ("points=1,2", "points=,1,2"),
        ("points=1,2", "points=1;2"),
        ("points=1,2", "points=1,300"),
        ("word=6,2,4,4,4,2", "word="),
        ("4,4,2\n", "4,4,2"),
        ("4,4,2\n", "4,4,2,\n"),
        ("4,4,2\n", "4,4,2\n\n"),
        ("4,4,2\n", "4,4,2\nx"),
        ("4,4,2\n", "4,4,2\nfield=7\n"),
        ("4,4,2\n", "4,4,2\u{0}\n"),
        ("4,4,2\n", "4,4,\u{e9}\n"),
    ];
    for (from, to) in replaced {
        let input = SOUND.replacen(from, to, 1);
        assert_ne!(input, SOUND);
        assert_eq!(printed(&input), "answer=14\n", "{input:?}");
    }
    assert_eq!(printed(""), "answer=14\n");
    assert_eq!(printed("\n\n\n\n\n\n\n"), "answer=14\n");
}

#[test]
fn at_most_31_numbers_stand_in_a_line() {
    let points = |count: usize| {
        let numbers: Vec<String> = (0..count).map(|place| place.to_string()).collect();
        let line = format!("points={}", numbers.join(","));
        printed(&SOUND.replacen("points=1,2,3,4,5,6", &line, 1))
    };
    assert_eq!(points(31), "answer=2\n");
    assert_eq!(points(32), "answer=14\n");
}

#[test]
fn any_bytes_are_answered() {
    let mut random = Random::new(40);
    for _ in 0..3_000 {
        let mut input = SOUND.as_bytes().to_vec();
        for _ in 0..random.between(1, 3) {
            let place = random.below(input.len());
            match random.below(3) {
                0 => input[place] = random.byte(),
                1 => input.insert(place, random.pick(b"0123456789,=\n -+")),
                _ => drop(input.remove(place)),
            }
        }
        let output = listing(&input);
        assert!(output.starts_with(b"answer=") && output.ends_with(b"\n"));
    }
}
