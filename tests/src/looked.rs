//! Document 02's P2 at the C boundary: the number of sides looked at, on outlines of one run and of many.
//! The reference decides; what is known without it is asserted here as well. Cases worked out by hand
//! are among the charts.

use crate::compare::Tally;
use crate::islands::{islands_on, queries, Extent, EXTENTS, SIDES};
use crate::outlines::{query, Numbers, Source};
use crate::program::refused_sheets;
use crate::random::Random;
use crate::sheet::{field, point_bytes, Grid, Sheet, GRIDS};
use crate::{library, reference, Point, Single};
use std::collections::BTreeSet;

/// Comparisons, and what became of the runs in them.
#[derive(Default)]
struct Looks {
    tally: Tally,
    /// Inside or outside with no side looked at, with some, with all.
    none: u32,
    some: u32,
    all: u32,
    /// Boundary answers with a skipped run before the side named.
    late: u32,
}

impl Looks {
    /// The number of sides looked at.
    fn compare(&mut self, sheet: &[u8], sides: usize, query: Point) -> usize {
        let Single { answer, looked, .. } = self.tally.compare(sheet, query);
        let looked = looked as usize;
        let most = match answer.number {
            1 | 2 => sides,
            3 => answer.place + 1,
            _ => 0,
        };
        assert!(looked <= most && most <= sides, "{answer:?}: {looked} of {sides} sides, {query:?}");
        match (answer.number, looked) {
            (1 | 2, 0) => self.none += 1,
            (1 | 2, _) if looked < most => self.some += 1,
            (1 | 2, _) => self.all += 1,
            (3, _) if looked < most => self.late += 1,
            _ => {}
        }
        looked
    }

    /// These queries; then the known point's own direction (nothing is skipped), its opposite and queries
    /// off the grid (refused).
    fn compare_all(&mut self, sheet: &Sheet, queries: &[Point]) {
        let &Sheet { grid, known, .. } = sheet;
        let (sheet, sides) = (sheet.bytes(), sheet.vertices.len());
        for &query in queries {
            self.compare(&sheet, sides, query);
        }
        assert_eq!(self.compare(&sheet, sides, known), sides);
        let past = grid.limit() + 1;
        let beyond = [[0; 3], [past, 0, 0], [1, -past, 1], [i32::MIN; 3]];
        for query in beyond.into_iter().chain([known.map(|k| -k)]) {
            assert_eq!(self.compare(&sheet, sides, query), 0);
        }
    }

    fn report(&self, what: &str, at_least: u64, numbers: &[u32]) {
        let Looks { tally, none, some, all, late } = self;
        tally.report(what, at_least, numbers.iter().copied());
        println!(
            "{what}: no side looked at {none}, some {some}, all {all}; boundary past a skipped run {late}"
        );
        assert!(*some > 100 && *all > 100 && (*late > 100 || !numbers.contains(&3)));
    }
}

/// Outlines about the length of a run and of many runs, with queries inside, outside, near the coast, at
/// vertices, on sides and far away.
#[test]
fn looked_islands() {
    let sizes = [(31, 9, 300), (32, 9, 300), (33, 9, 300), (64, 9, 300), (SIDES, 1, 400), (4_096, 1, 100)];
    for grid in GRIDS {
        let mut looks = Looks::default();
        for (extent, (sides, outlines, count)) in EXTENTS.into_iter().flat_map(|e| sizes.map(|s| (e, s))) {
            for seed in 0..outlines {
                let islands = islands_on(grid, seed, sides, extent);
                let sheet = Sheet::new(islands.known, &islands.vertices).on(grid);
                looks.compare_all(&sheet, &queries(seed + 100, &islands, count));
            }
        }
        looks.report(&format!("looked at, islands, {grid:?}"), 30_000, &[1, 2, 3, 17, 18]);
    }
}

/// Whether the sheet is good: a query of zeros is refused after every check of it.
fn accepted(sheet: &Sheet) -> bool {
    reference::judge(&sheet.bytes(), [0; 3]).number == 17
}

/// A known point and n vertices from -size to size, if chance makes an outline that accepts one. The
/// vertices stand in blocks, each of two points in turn: boxes are small, sides repeat, and the plane
/// often touches a box.
fn huddled(random: &mut Random, grid: Grid, size: i32, n: usize) -> Option<Sheet> {
    let mut vertices = vec![];
    while vertices.len() < n {
        let pair = [0; 2].map(|_| random.point(size));
        let block = random.pick(&[1, 2, 33, 64, 65]).min(n - vertices.len());
        vertices.extend(pair.iter().cycle().take(block));
    }
    (0..8).map(|_| Sheet::new(random.point(size + 1), &vertices).on(grid)).find(accepted)
}

fn compare_huddled(grid: Grid) {
    let mut looks = Looks::default();
    let random = &mut Random::new(110);
    for size in [1, 2, 3, 9, grid.limit() / 6] {
        let mut outlines = 0;
        while outlines < 200 {
            let n = random.pick(&[31, 32, 33, 34, 63, 64, 65, 97, 150, 300]);
            if let Some(sheet) = huddled(random, grid, size, n) {
                let source = Source(grid, Numbers::Within(size));
                let ask = |_| query(random, source, sheet.known, &sheet.vertices);
                let queries: Vec<Point> = (0..40).map(ask).collect();
                looks.compare_all(&sheet, &queries);
                outlines += 1;
            }
        }
    }
    looks.report(&format!("looked at, huddled, {grid:?}"), 40_000, &[1, 2, 3, 17, 18]);
    assert!(looks.none > 100);
}

#[test]
fn looked_huddled() {
    GRIDS.into_iter().for_each(compare_huddled);
}

/// With P4's second point the known point's opposite is judged as if there were no other point: the plane
/// goes through the second. (It is never boundary: the known point lies on no side's great circle.)
#[test]
fn looked_from_second_points() {
    let mut looks = Looks::default();
    let random = &mut Random::new(111);
    for k in 0..3_000 {
        let (size, n) = ([2, 3, 9][k % 3], random.pick(&[31, 32, 33, 65, 97, 150]));
        let Some(plain) = huddled(random, GRIDS[k % 2], size, n) else { continue };
        let far = plain.known.map(|k| -k);
        for second in (0..20).map(|_| random.point(size + 1)) {
            if library::choose(&plain.bytes(), &point_bytes(second)).number == 0 {
                let pair = plain.clone().with_second(second).bytes();
                looks.compare(&pair, n, far);
                let alone = Sheet { known: second, ..plain.clone() }.bytes();
                assert_eq!(library::single(&pair, far), library::single(&alone, far));
            }
        }
    }
    looks.report("looked at, second points", 2_000, &[1, 2]);
    assert!(looks.none > 100);
}

/// Every box and every plane that coordinates from -1 to 1 can make: for each known point and each box the
/// first triangle that spans the box and accepts the point, if there is one, and all queries. On the fine
/// grid the same, and once more with numbers that are its limit.
#[test]
fn looked_boxes() {
    let mut tally = Tally::default();
    let mut seen = BTreeSet::new();
    let points: Vec<Point> = (0..27).map(|k| [k / 9 - 1, k / 3 % 3 - 1, k % 3 - 1]).collect();
    for k in 0..27 * 27 * 27 {
        let triangle = [k / 729, k / 27 % 27, k % 27].map(|vertex| points[vertex]);
        let along = |k: usize| triangle.iter().map(move |vertex| vertex[k]);
        let spanned = [0, 1, 2].map(|k| (along(k).min(), along(k).max()));
        for &known in &points {
            let sheet = Sheet::new(known, &triangle);
            if seen.contains(&(known, spanned)) || !accepted(&sheet) {
                continue;
            }
            seen.insert((known, spanned));
            let fine = sheet.clone().on(Grid::Fine);
            let (most, largest) = (Grid::Fine.limit(), fine.times(Grid::Fine.limit()));
            let [sheet, fine, largest] = [sheet, fine, largest].map(|sheet| sheet.bytes());
            for &query in &points {
                let found = tally.compare(&sheet, query);
                assert!(found.looked <= 3);
                assert_eq!(tally.compare(&fine, query), found);
                assert_eq!(tally.compare(&largest, query.map(|k| most * k)), found);
            }
        }
    }
    tally.report("looked at, boxes", 150_000, [1, 2, 3, 17, 18]);
}

/// No side of a refused sheet is looked at: the octant with one thing wrong, and a long outline cut, with a
/// byte too many, with a damaged last vertex, and with second points that fail.
fn compare_refused(grid: Grid) {
    let islands = islands_on(grid, 1, SIDES, Extent::World);
    let long = islands.sheet();
    let (cut, more) = (long[..long.len() - 1].to_vec(), [&long[..], &[0]].concat());
    let beyond = [&long[..long.len() - 4], &i32::MAX.to_be_bytes()].concat();
    let [zero, same] = [[0; 3], islands.known].map(|p| [&long[..], &field(6, &point_bytes(p))].concat());
    for sheet in [vec![vec![], cut, more, beyond, zero, same], refused_sheets(grid)].concat() {
        for query in [[3, 2, 1], [1, 1, 0], [0; 3]] {
            assert_eq!(Tally::default().compare(&sheet, query).looked, 0);
        }
    }
}

#[test]
fn looked_refused() {
    GRIDS.into_iter().for_each(compare_refused);
}
