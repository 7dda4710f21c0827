//! Which place is given, and which of several refusals: of 11 to 18 the lowest number that holds, over the whole list,
//! and with it the lowest place.

use super::{all_give, all_give_on, chart};
use crate::sheet::{Grid, GRIDS, OCTANT};

/// Each list breaks its line twice, or only where the last side leads back to vertex 0.
#[test]
fn places() {
    GRIDS.into_iter().for_each(give_places_of_11);
    let zero = [[1, 0, 0], [0, 0, 0], [0, 0, 0]];
    let same = [[1, 0, 0], [0, 1, 0], [0, 2, 0], [0, 3, 0]];
    let same_last = [[1, 0, 0], [0, 1, 0], [2, 0, 0]];
    let opposite = [[1, 0, 0], [0, 1, 0], [0, -1, 0], [0, 1, 0]];
    let opposite_last = [[1, 0, 0], [0, 1, 0], [-1, 0, 0]];
    all_give(&[
        chart("lowest 12", &zero, [1, 1, 1], [1, 1, 1], (12, 1, 0)),
        chart("lowest 13", &same, [1, 1, 1], [1, 1, 1], (13, 1, 0)),
        chart("last 13", &same_last, [1, 1, 1], [1, 1, 1], (13, 2, 0)),
        chart("lowest 14", &opposite, [1, 1, 1], [1, 1, 1], (14, 1, 0)),
        chart("last 14", &opposite_last, [1, 1, 1], [1, 1, 1], (14, 2, 0)),
        // Vertex 2 of the octant lies on sides 1 and 2, and (1, 0, -1) on the great circle of side 2 alone.
        chart("lowest 16", &OCTANT, [0, 0, 1], [1, 1, 1], (16, 1, 0)),
        chart("last 16", &OCTANT, [1, 0, -1], [1, 1, 1], (16, 2, 0)),
        chart("lowest 3", &OCTANT, [1, 1, 1], [0, 0, 5], (3, 1, 0)),
    ]);
}

fn give_places_of_11(grid: Grid) {
    let past = grid.limit() + 1;
    let beyond = [[1, 0, 0], [0, past, 0], [0, 0, past]];
    all_give_on(grid, &[chart("lowest 11", &beyond, [1, 1, 1], [1, 1, 1], (11, 1, 0))]);
}

/// Two numbers hold, and the first is given.
#[test]
fn pairs() {
    GRIDS.into_iter().for_each(give_pairs_past_the_limit);
    let zero = [[1, 0, 0], [2, 0, 0], [0, 1, 0], [0, 0, 0]];
    let same = [[1, 0, 0], [-1, 0, 0], [0, 1, 0], [0, 2, 0]];
    let opposite = [[1, 0, 0], [0, 1, 0], [0, -1, 0]];
    all_give(&[
        chart("12 and 13", &zero, [1, 1, 1], [1, 1, 1], (12, 3, 0)),
        chart("13 and 14", &same, [1, 1, 1], [1, 1, 1], (13, 2, 0)),
        chart("14 and 15", &opposite, [0, 0, 0], [1, 1, 1], (14, 1, 0)),
        chart("15 and 17", &OCTANT, [0, 0, 0], [0, 0, 0], (15, 0, 0)),
        chart("16 and 17", &OCTANT, [1, -1, 0], [0, 0, 0], (16, 0, 0)),
    ]);
}

fn give_pairs_past_the_limit(grid: Grid) {
    let past = grid.limit() + 1;
    let late = [[0, 0, 0], [1, 0, 0], [0, 1, 0], [0, 0, 1], [-1, 0, 0], [0, past, 0]];
    let charts = [
        chart("11 and 12", &late, [1, 1, 1], [1, 1, 1], (11, 5, 0)),
        chart("15 and 16", &OCTANT, [past, 0, 0], [1, 1, 1], (15, 0, 0)),
        chart("17 and 18", &OCTANT, [1, 1, 1], [-past; 3], (17, 0, 0)),
    ];
    all_give_on(grid, &charts);
}
