//! Document 02's P8: one outline on both grids.

use crate::compare::Tally;
use crate::islands::{islands, queries, EXTENTS, SIDES};
use crate::library;
use crate::outlines::{sheet_and_queries, Numbers, Source};
use crate::random::Random;
use crate::sheet::{Grid, Sheet};
use crate::Point;

const COARSE: i32 = Grid::Coarse.limit();
const FINE: i32 = Grid::Fine.limit();

/// A coarse sheet that is not refused, with tag 7 in place of tag 5, gives each query of the coarse grid the same
/// answer, and so it does with all numbers 64 times as large. Other queries are 17 on the coarse grid; on the fine one
/// those up to its limit are judged.
fn compare(tally: &mut Tally, random: &mut Random, coarse: &Sheet, queries: &[Point]) {
    let fine = coarse.clone().on(Grid::Fine);
    let [coarse, fine, larger] = [coarse, &fine, &fine.times(64)].map(Sheet::bytes);
    if library::number(&coarse, [0; 3]) != 17 {
        return;
    }
    for &query in queries.iter().filter(|query| query.iter().all(|k| (-COARSE..=COARSE).contains(k))) {
        let found = tally.compare(&coarse, query);
        assert_eq!(library::single(&fine, query), found, "{coarse:02x?} {query:?}");
        assert_eq!(library::single(&larger, query.map(|k| 64 * k)), found, "{coarse:02x?} {query:?}");
    }
    let mut far = random.point(FINE);
    far[random.below(3)] = random.pick(&[-1, 1]) * random.between(COARSE + 1, FINE);
    assert_eq!(tally.compare(&coarse, far).answer.number, 17);
    assert!([1, 2, 3].contains(&tally.compare(&fine, far).answer.number));
}

#[test]
fn tag_5_changed_to_7() {
    let mut tally = Tally::default();
    let random = &mut Random::new(140);
    let small = [1, 2, 3, 9, 1_000, COARSE / 6, COARSE].map(Numbers::Within);
    for numbers in small.into_iter().chain([Numbers::Limits]) {
        for _ in 0..500 {
            let (sheet, queries) = sheet_and_queries(random, Source(Grid::Coarse, numbers), 12, 20);
            compare(&mut tally, random, &sheet, &queries);
        }
    }
    for (extent, sides) in EXTENTS.into_iter().flat_map(|e| [33, 64, SIDES].map(|n| (e, n))) {
        let islands = islands(141, sides, extent);
        let sheet = Sheet::new(islands.known, &islands.vertices);
        compare(&mut tally, random, &sheet, &queries(142, &islands, 200));
    }
    tally.report("tag 5 changed to 7", 40_000, [1, 2, 3, 17, 18]);
}
