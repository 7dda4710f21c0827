//! Bytes that change during a call, as in a mapped file that somebody else writes to: any answer will do, but no byte
//! beside those lent is touched, and each call returns.

use super::{full, sheets, words};
use crate::calls::{call, Case, Rooms, CALLS};
use crate::guard::Edge;
use crate::imports::{circle, given, text};
use crate::islands::{islands_on, Extent};
use crate::random::Random;
use crate::sheet::{octant_pair, points_bytes, Grid};
use crate::Point;
use std::time::Duration;

/// The calls on a sheet, with queries enough for an index, and on a book that begins with it.
fn on_sheet(random: &mut Random, sheet: &[u8]) -> Vec<(&'static str, Case)> {
    let points = points_bytes(&(0..200).map(|_| random.point(9)).collect::<Vec<Point>>());
    let book = [sheet, &sheets(random, 4).concat()[..], sheet].concat();
    let case = |first: &[u8], second: &[u8], room: usize, numbers: &[i32]| Case {
        first: first.to_vec(),
        second: second.to_vec(),
        buffer: vec![0xc3; room],
        words: words(numbers),
    };
    vec![
        ("judge", case(sheet, &[], 0, &[3, 2, 1])),
        ("feed", case(sheet, &points, points.len(), &[])),
        ("choose", case(sheet, &points[..48], 0, &[])),
        ("basin", case(&sheet[33..69], &[], 0, &[0])),
        ("book", case(&book, &[], 0, &[0, 3, 2, 1])),
        ("book_feed", case(&book, &points, 2 * points.len(), &[0])),
        ("book_next", case(&book, &[], 0, &[sheet.len() as i32, 0])),
        ("compare", case(sheet, sheet, 0, &[])),
        ("write", case(&sheet[33..69], b"n", 84, &[7, 1, 1, 1, 1, 1, 1, 2, 0])),
        ("sheet", case(sheet, &[], 0, &[])),
        ("vertices", case(sheet, &[], sheet.len(), &[])),
        ("far", case(sheet, &[], 0, &[])),
        ("box", case(sheet, &[], 24, &[])),
        ("points", case(&points, &[], 2 * points.len(), &[1])),
    ]
}

/// Short sheets, which get little scratch space, a longer one and one as long as can be; at the end of their pages,
/// where what is read too far is no byte at all. Four seconds in all.
#[test]
fn guarded_changing() {
    let random = &mut Random::new(507);
    let longer = islands_on(Grid::Coarse, 5, 300, Extent::Archipelago).sheet();
    let mut cases = on_sheet(random, &octant_pair().bytes());
    cases.extend(on_sheet(random, &longer));
    let judged = |first| ("judge", Case { first, words: words(&[3, 2, 1]), ..Case::default() });
    cases.extend(full().map(judged));
    let [x, y, z] = given().known;
    let first = text(&circle(9)).into_bytes();
    let second = b"name".to_vec();
    let import = Case { first, second, buffer: vec![0xc3; 140], words: words(&[7, 1, x, y, z]) };
    cases.push(("import", import));
    cases.push(("meaning", Case { buffer: vec![0xc3; 30], words: words(&[16]), ..Case::default() }));
    let each = Duration::from_millis(4_000 / cases.len() as u64);
    let rooms = &mut Rooms::new();
    for (name, case) in &cases {
        let asked = rooms.ask_while_changing(call(name), case, Edge::End, each, random);
        assert!(asked > 0, "{name}");
    }
    // A point is handed over by value.
    let names = CALLS.map(|call| call.name);
    let left = names.iter().filter(|name| cases.iter().all(|(case, _)| case != *name));
    assert_eq!(left.collect::<Vec<_>>(), [&"point"]);
}
