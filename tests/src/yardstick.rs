//! Document 02's P13: the feed writes the bytes that the benchmark's yardsticks write. They know one
//! known point.

use crate::compare::Tally;
use crate::islands::{islands_on, queries, EXTENTS, QUERIES, SIDES};
use crate::library;
use crate::outlines::{plain_and_queries, Numbers, Source};
use crate::program::refused_plain_sheets;
use crate::random::Random;
use crate::sheet::{octant, points_bytes, Grid, GRIDS};
use crate::turns::near_feed;
use spargolutta_yardstick::{hoisted, literal, Answer};

type Feed = fn(&[u8], &[u8], &mut [u8]) -> Answer;

const YARDSTICKS: [(&str, Feed); 2] = [("literal", literal::feed), ("hoisted", hoisted::feed)];

/// The feed and both yardsticks give the same answer and leave the same buffer. The answer comes back.
fn alike(sheet: &[u8], queries: &[u8], buffer: &mut [u8]) -> Answer {
    let before = buffer.to_vec();
    let number = library::feed_number(sheet, queries, buffer);
    let place = library::feed_place(sheet, queries, buffer.len());
    let answer = (number, place, library::feed_count(sheet, queries, buffer.len()));
    for (name, feed) in YARDSTICKS {
        let mut after = before.clone();
        assert_eq!(feed(sheet, queries, &mut after), answer, "{name}");
        let differs = buffer.chunks(12).zip(after.chunks(12)).position(|(ours, theirs)| ours != theirs);
        let begins = &sheet[..sheet.len().min(200)];
        assert_eq!(differs, None, "{name}: the first result that differs; the sheet begins {begins:02x?}");
    }
    answer
}

/// A feed that succeeds, into a buffer with room left; its results are counted.
fn compare(tally: &mut Tally, sheet: &[u8], queries: &[u8]) {
    let mut buffer = vec![0; queries.len() + 7];
    assert_eq!(alike(sheet, queries, &mut buffer), (0, 0, 0));
    for result in buffer.chunks_exact(12) {
        tally.count(u32::from_be_bytes(result[..4].try_into().expect("four bytes")));
    }
}

/// The work of the benchmark.
#[test]
fn islands_alike() {
    for grid in GRIDS {
        let mut tally = Tally::default();
        for (extent, sides) in EXTENTS.into_iter().flat_map(|e| [64, 1_024, SIDES, 4_096].map(|n| (e, n))) {
            let islands = islands_on(grid, 1, sides, extent);
            compare(&mut tally, &islands.sheet(), &points_bytes(&queries(2, &islands, QUERIES)));
        }
        tally.report(&format!("yardsticks, islands, {grid:?}"), 12 * QUERIES as u64, [1, 2, 3, 18]);
    }
}

/// Outlines and queries that meet, lie on one line or have one direction.
fn coincidences_alike_on(grid: Grid) {
    let mut tally = Tally::default();
    let families = [1, 2, 3, 5, 9, grid.limit()].map(Numbers::Within).into_iter().chain([Numbers::Limits]);
    for (seed, numbers) in families.enumerate() {
        let (random, source) = (&mut Random::new(90 + seed as u64), Source(grid, numbers));
        for most in (0..1_000).map(|k| if k % 50 == 0 { 200 } else { 12 }) {
            let (sheet, asked) = plain_and_queries(random, source, most, 40);
            let (sheet, queries) = (sheet.bytes(), points_bytes(&asked));
            if library::number(&sheet, [0; 3]) == 17 {
                compare(&mut tally, &sheet, &queries);
            } else {
                alike(&sheet, &queries, &mut vec![0; queries.len()]);
            }
        }
    }
    tally.report(&format!("yardsticks, coincidences, {grid:?}"), 100_000, [1, 2, 3, 17, 18]);
}

#[test]
fn coincidences_alike() {
    GRIDS.into_iter().for_each(coincidences_alike_on);
}

/// Turns of 1, -1 and 0 on the fine grid.
#[test]
fn near_turns_alike() {
    let (mut tally, random) = (Tally::default(), &mut Random::new(97));
    for _ in 0..300 {
        let (sheet, asked) = near_feed(random, 40);
        if library::number(&sheet, [0; 3]) == 17 {
            compare(&mut tally, &sheet, &points_bytes(&asked));
        }
    }
    tally.report("yardsticks, turns of 1, -1 and 0", 10_000, [1, 2, 3, 18]);
}

#[test]
fn refusals_alike() {
    let queries = points_bytes(&[[3, 2, 1], [0, 0, 0], [-1, -1, -1]]);
    let good = GRIDS.map(|grid| octant().on(grid).bytes());
    for sheet in [good.to_vec(), vec![vec![]], GRIDS.map(refused_plain_sheets).concat()].concat() {
        for length in [0, 12, 35, 36] {
            for room in [0, 11, 12, 35, 36, 50] {
                alike(&sheet, &queries[..length], &mut vec![0x5a; room]);
            }
        }
    }
}
