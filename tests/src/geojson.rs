//! Document 02's P7: texts against a second reader, on both grids, and files as other tools write them.

use crate::compare::Tally;
use crate::imports::{circle, given, import_number, import_place, point_on, text, Given};
use crate::random::Random;
use crate::sheet::Grid;
use crate::{reference, Answer};

mod files;
mod programs;

const DEGREE: i32 = 10_000_000;

/// Both calls of both grids against the second reader: the answer, and every byte of a buffer of `room`. The known point
/// is scaled with the grid. The answer on the coarse grid.
fn compare(text: &[u8], given: &Given, room: usize) -> Answer {
    let fine = Given { grid: Grid::Fine, known: given.known.map(|k| k.saturating_mul(64)), ..*given };
    compare_on(text, &fine, room);
    compare_on(text, given, room)
}

fn compare_on(text: &[u8], given: &Given, room: usize) -> Answer {
    let (expected, sheet) = reference::import(text, given, room, point_on);
    let mut buffer = vec![0xa5; room];
    let found = Answer {
        place: import_place(text, given, room),
        number: import_number(text, given, &mut buffer),
        count: 0,
    };
    let case = || format!("{}\n{given:?}, room {room}", String::from_utf8_lossy(text));
    assert_eq!(found, expected, "{}", case());
    assert!(
        buffer.starts_with(&sheet) && buffer[sheet.len()..].iter().all(|&byte| byte == 0xa5),
        "{}",
        case()
    );
    found
}

const BASES: [&str; 5] = [
    r#"{"type":"Polygon","coordinates":[[[0.5,0.25],[1,0.25],[0.75,-0.0000001],[0.5,0.25]]]}"#,
    r#"{"coordinates":[[[-1.5,89],[-1.25,89.5],[-0.5,89.1234567],[-1.5,89.0]]],"type":"Polygon"}"#,
    " { \"type\" :\t\"Polygon\" ,\r\n\"coordinates\" : [ [ [ 10 , 20 ] , [ 10.5 , 20 ] , [ 10 , 20.5 ] , [ 10 , 20 ] ] ] } ",
    r#"{"type":"Polygon","coordinates":[]}"#,
    r#"{"coordinates":[[]],"type":"Polygon"}"#,
];

/// Each text good, cut at each byte, and damaged at each: one byte another, one more, one less.
#[test]
fn geojson_damage() {
    let mut tally = Tally::default();
    let mut count = |text: &[u8]| tally.count(compare(text, &given(), 200).number);
    for base in BASES.map(str::as_bytes) {
        count(base);
        for at in 0..=base.len() {
            let (front, back) = base.split_at(at);
            count(front);
            for byte in *b" \t\n\r\"{}[]:,-+.0123456789eEtcP\\\0\x0b\xa0" {
                count(&[front, &[byte], back].concat());
                if let Some(rest) = back.get(1..) {
                    count(&[front, &[byte], rest].concat());
                    count(&[front, rest].concat());
                }
            }
        }
    }
    tally.report("GeoJSON texts damaged", 30_000, [0, 30, 31, 32, 33]);
}

#[test]
fn geojson_lengths() {
    for n in (2..=9).chain(4_094..=4_099).chain([9_000]) {
        let ring = circle(n);
        let number = match n {
            2 | 3 => 32,
            4..=4_097 => 0,
            _ => 10,
        };
        assert_eq!(compare(text(&ring).as_bytes(), &given(), 60_000).number, number, "{n}");
        // 25's place is what the sheet needs; not closed.
        compare(text(&ring).as_bytes(), &given(), 33);
        assert_eq!(compare(text(&ring[..n - 1]).as_bytes(), &given(), 60_000).number, 32, "{n}");
    }
}

/// Numbers as they are written, in place of a longitude of 10 degrees; 31 where one is out of range.
#[test]
fn geojson_numbers() {
    let [nines, zeros] = ["9", "0"].map(|digit| digit.repeat(1_000));
    let with = |number: &str| {
        let ring = format!("[[{number},20],[10.5,20],[10,20.5],[{number},20]]");
        format!(r#"{{"type":"Polygon","coordinates":[{ring}]}}"#)
    };
    let cases = [
        ("10", 0),
        ("10.0000000", 0),
        ("10.00000000", 30),
        ("10.12345678", 30),
        ("010", 30),
        ("-", 30),
        ("--10", 30),
        ("+10", 30),
        (".5", 30),
        ("10.", 30),
        ("1e1", 30),
        ("10E0", 30),
        ("-10", 33),
        ("180", 33),
        ("-180.0000000", 33),
        ("180.0000001", 31),
        ("-180.0000001", 31),
        ("214.7483648", 31),
        ("429.4967306", 31),
        ("1844674407370.9551626", 31),
        (&nines, 31),
        (&format!("-{nines}.5"), 31),
        (&format!("1{zeros}"), 31),
        (&zeros, 30),
    ];
    for (number, refusal) in cases {
        assert_eq!(compare(with(number).as_bytes(), &given(), 500).number, refusal, "{number}");
    }
    // -0 is 0; 180 and -180 are two numbers, for closing and for neighbours.
    let closed = |first: &str, last: &str| {
        let ring = format!("[[{first},20],[179.5,20],[179.5,20.5],[{last},20]]");
        compare(format!(r#"{{"type":"Polygon","coordinates":[{ring}]}}"#).as_bytes(), &given(), 500).number
    };
    assert_eq!([closed("180", "180.0"), closed("180", "-180"), closed("-180", "-180")], [0, 32, 33]);
    let ring = "[[-0,0],[0.5,0],[0.5,0.5],[0,-0.0]]";
    compare(format!(r#"{{"coordinates":[{ring}],"type":"Polygon"}}"#).as_bytes(), &given(), 500);
}

/// Rings, good ones and with faults, and every refusal of the writer after them.
#[test]
fn geojson_random() {
    let mut random = Random::new(7);
    let mut tally = Tally::default();
    for _ in 0..40_000 {
        let spread = random.pick(&[3, 200, DEGREE / 2, DEGREE * 11 / 10]);
        let centre =
            [random.pick(&[0, 90, 180, -180, 17]), random.pick(&[0, 90, -90, 59])].map(|k| k * DEGREE);
        let n = 3 + random.below(5);
        let mut ring: Vec<[i64; 2]> = (0..n)
            .map(|_| centre.map(|k| i64::from(k) + i64::from(random.between(-spread, spread))))
            .collect();
        if !random.once_in(10) {
            ring.iter_mut().for_each(|p| {
                *p = [p[0].clamp(-18 * 100_000_000, 18 * 100_000_000), p[1].clamp(-900_000_000, 900_000_000)]
            });
        }
        if random.once_in(12) {
            ring[n - 1] = ring[n - 2];
        }
        if !random.once_in(12) {
            ring.push(ring[0]);
        }
        let mut given = given();
        given.known = if random.once_in(8) { random.point(2) } else { random.point(1_100_000) };
        given.charset = random.pick(&[1, 2, 3, 1, 2, 3, 1, 2, 3, 0, 4, 259]);
        given.name = &[b'n'; 121][..random.pick(&[1, 5, 120, 1, 5, 120, 0, 121])];
        let room = random.pick(&[60_000, 60_000, 60_000, 180, 0]);
        tally.count(compare(text(&ring).as_bytes(), &given, room).number);
    }
    tally.report("GeoJSON rings", 40_000, [0, 13, 15, 16, 22, 23, 25, 31, 32, 33]);
}
