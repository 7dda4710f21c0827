//! The index of long feeds: their results against the reference, against the single calls, and against feeds too short
//! for an index, which both go by the boxes. Outlines that are hard for cones about the known point, of any number of
//! sides, and feeds at the length from which an index is built.

mod few_azimuths;
mod tiny;

use crate::corridors::corridors;
use crate::feed::equals_single_calls;
use crate::hard_outlines::{drawings, known_points, Drawing};
use crate::islands::{islands_on, queries, EXTENTS, QUERIES, SIDES};
use crate::library::by_boxes::{self, threshold};
use crate::outlines::{query, sheet_and_queries, Numbers, Source};
use crate::random::Random;
use crate::sheet::{points_bytes, sides, GRIDS};
use crate::{library, Point};

/// The whole feed, and feeds at the threshold and one below, give the bytes that the boxes give.
fn equals_boxes(what: &str, sheet: &[u8], queries: &[Point]) {
    let bytes = points_bytes(queries);
    let mut expected = vec![0; bytes.len()];
    assert_eq!(by_boxes::feed(sheet, &bytes, &mut expected), 0);
    let least = threshold(sides(sheet));
    assert!(queries.len() > least, "{what}: {} queries, no index", queries.len());
    for n in [least - 1, least, queries.len()] {
        let mut found = vec![0; 12 * n];
        assert_eq!(library::feed_number(sheet, &bytes[..12 * n], &mut found), 0);
        let differs =
            found.chunks(12).zip(expected.chunks(12)).position(|(found, expected)| found != expected);
        assert_eq!(differs.map(|i| queries[i]), None, "{what}, {n} queries: the first that differs");
    }
}

/// Those of the known points that the drawing accepts, each with its sheet.
fn accepted(drawing: &Drawing) -> impl Iterator<Item = (Point, Vec<u8>)> + '_ {
    let sheets = known_points(drawing.grid).map(|known| (known, drawing.sheet(known)));
    sheets.into_iter().filter(|(_, sheet)| library::number(sheet, [0; 3]) == 17)
}

/// Against the reference, which is slow on long outlines: so with fewer known points.
fn compare(random: &mut Random, drawing: &Drawing) {
    let n = threshold(drawing.vertices.len());
    let knowns = if drawing.vertices.len() > 1_000 { 2 } else { 4 };
    for (known, sheet) in accepted(drawing).take(knowns) {
        equals_single_calls(&sheet, &drawing.asked(random, known, n), 0);
    }
}

#[test]
fn index_on_hard_outlines() {
    let random = &mut Random::new(270);
    for (grid, sides) in GRIDS.into_iter().flat_map(|grid| [8, 65, 256, 1_071, 4_096].map(|n| (grid, n))) {
        for drawing in drawings(random, grid, sides) {
            // The reference is slow: on corridors its time grows with the square of the sides.
            if sides <= 256 || !["corridor", "tiny"].contains(&drawing.name) {
                compare(random, &drawing);
            }
        }
    }
}

/// Outlines of 3 to 4,096 sides, about each size from which something changes.
#[test]
fn index_of_every_size() {
    let (random, mut compared) = (&mut Random::new(274), 0);
    let about = [8, 22, 32, 64, 128, 256].into_iter().flat_map(|n| n - 1..=n + 1);
    for n in (3..7).chain(about).chain([512, SIDES, 2_048, 4_095, 4_096]) {
        for drawing in GRIDS.map(|grid| drawings(random, grid, n)).into_iter().flatten() {
            // The boxes' time on corridors grows with the square of their sides.
            let some = if drawing.name == "corridor" && n > 512 { 0 } else { 4 };
            for (known, sheet) in accepted(&drawing).take(some) {
                let what = format!("{} of {n} sides, {:?}, known {known:?}", drawing.name, drawing.grid);
                let mut asked = drawing.asked(random, known, threshold(n));
                asked.extend(drawing.along(random, 20));
                equals_boxes(&what, &sheet, &asked);
                compared += 1;
            }
        }
    }
    assert!(compared > 1_200, "only {compared} sheets compared");
}

#[test]
fn index_on_islands() {
    for grid in GRIDS {
        for (sides, extent) in
            [64, 256, SIDES, 4_096].into_iter().flat_map(|n| EXTENTS.map(|extent| (n, extent)))
        {
            let islands = islands_on(grid, 271, sides, extent);
            let (what, asked) =
                (format!("{sides} sides, {extent:?}, {grid:?}"), queries(272, &islands, QUERIES));
            equals_boxes(&what, &islands.sheet(), &asked);
            if sides <= SIDES {
                equals_single_calls(&islands.sheet(), &asked[..2_000], 0);
            }
        }
    }
}

/// Each side is walked an even number of times and holds the query.
#[test]
fn index_on_corridors() {
    let random = &mut Random::new(275);
    for (grid, sides) in GRIDS.into_iter().flat_map(|grid| [8, 64, 136, 264].map(|n| (grid, n))) {
        for case in corridors(grid, sides) {
            let source = Source(grid, Numbers::Within(grid.limit() / 6));
            let (known, sheet) = (case.sheet.known, case.sheet.bytes());
            let one =
                |k| if k % 8 == 0 { case.query } else { query(random, source, known, &case.sheet.vertices) };
            let asked: Vec<Point> = (0..140 + sides / 8).map(one).collect();
            equals_boxes(case.name, &sheet, &asked);
            if sides <= 64 {
                equals_single_calls(&sheet, &asked, 0);
            }
        }
    }
}

/// Few sides, many coincidences, a second point or none, and long feeds to them.
#[test]
fn index_on_small_outlines() {
    let random = &mut Random::new(273);
    let sources = [Numbers::Within(2), Numbers::Within(7), Numbers::Lengthened(3), Numbers::Limits];
    for k in 0..800 {
        let source = Source(GRIDS[k % 2], sources[k / 2 % 4]);
        let (sheet, asked) = sheet_and_queries(random, source, 4 + k % 40, 140);
        let sheet = sheet.bytes();
        if library::number(&sheet, asked[1]) < 10 {
            equals_single_calls(&sheet, &asked, 0);
        }
    }
}
