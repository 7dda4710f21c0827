//! The rounding mode of floats, which a caller may set. On the coarse grid no answer depends on it. On the fine grid
//! the default mode is promised, to nearest; what holds in the others is printed.

use crate::client::{compile, flags, row};
use crate::host::{output_of, Folder};
use crate::islands::{islands_on, queries, EXTENTS};
use crate::outlines::{sheet_and_queries, Numbers::Within, Source};
use crate::random::Random;
use crate::sheet::{points_bytes, Grid, GRIDS};
use crate::turns::near_feed;
use crate::{reference, Point};

/// Sheets that are not refused, and queries to them: islands, rings of large numbers, and on the fine grid turns of 1,
/// -1 and 0, where rounding would show first.
fn feeds(grid: Grid) -> Vec<(Vec<u8>, Vec<Point>)> {
    let random = &mut Random::new(130);
    let mut feeds: Vec<(Vec<u8>, Vec<Point>)> = vec![];
    for islands in EXTENTS.map(|extent| islands_on(grid, 131, 64, extent)) {
        feeds.push((islands.sheet(), queries(132, &islands, 1_000)));
    }
    for _ in 0..300 {
        let (sheet, queries) = sheet_and_queries(random, Source(grid, Within(grid.limit())), 12, 40);
        feeds.push((sheet.bytes(), queries));
        if grid == Grid::Fine {
            feeds.push(near_feed(random, 40));
        }
    }
    // A query of zeros is refused after every check of the sheet.
    feeds.retain(|(sheet, _)| reference::judge(sheet, [0; 3]).number == 17);
    feeds
}

#[test]
fn rounding_modes() {
    let folder = Folder::new("rounding");
    let flags = [flags(), vec!["-lm".to_string()]].concat();
    let mut program = compile(&folder, "tests/rounding.c", &["-O1", "-frounding-math"], &flags);
    for grid in GRIDS {
        let (mut input, mut results) = (vec![], 0);
        for (sheet, queries) in feeds(grid) {
            let queries = points_bytes(&queries);
            let (_, right) = reference::feed(&sheet, &queries, &vec![0; queries.len()]);
            input.extend([&sheet, &queries, &right].map(|bytes| row(bytes)).concat());
            results += right.len() / 12;
        }
        let mut wrong = [0; 4];
        for line in output_of(&mut program, &input).lines() {
            let numbers: Vec<usize> = line.split(' ').map(|word| word.parse().expect("number")).collect();
            (0..4).for_each(|mode| wrong[mode] += numbers[mode]);
        }
        let [nearest, up, down, zero] = wrong;
        println!(
            "rounding modes, {grid:?}: {results} results, wrong to nearest {nearest}, upward {up}, \
             downward {down}, toward zero {zero}"
        );
        assert!(results > 10_000 && nearest == 0);
        assert!(grid == Grid::Fine || wrong == [0; 4]);
    }
}
