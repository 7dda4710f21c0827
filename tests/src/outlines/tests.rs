//! The library against the reference.

use super::*;
use crate::compare::Tally;
use crate::sheet::GRIDS;
use Numbers::{Beyond, Lengthened, Limits, Within};

fn compare_family(tally: &mut Tally, seed: u64, source: Source, most: usize, outlines: usize) {
    let random = &mut Random::new(seed);
    for _ in 0..outlines {
        let (sheet, queries) = sheet_and_queries(random, source, most, 20);
        for query in queries {
            tally.compare(&sheet.bytes(), query);
        }
    }
}

#[test]
fn small_coordinates() {
    for grid in GRIDS {
        let mut tally = Tally::default();
        for (seed, size) in [(1, 1), (2, 2), (3, 3), (4, 5), (5, 9)] {
            compare_family(&mut tally, seed, Source(grid, Within(size)), 9, 5_000);
        }
        let numbers = [1, 2, 3, 12, 13, 14, 15, 16, 17, 18, 19];
        tally.report(&format!("small coordinates, {grid:?}"), 500_000, numbers);
    }
}

/// With numbers up to 1,000 turns lie on both sides of P8's 2^29, and its floats are sure or not.
#[test]
fn large_coordinates() {
    for grid in GRIDS {
        let mut tally = Tally::default();
        compare_family(&mut tally, 6, Source(grid, Limits), 9, 5_000);
        // Up to six times such a number is still on the grid, as `query` wants it.
        compare_family(&mut tally, 7, Source(grid, Within(grid.limit() / 6)), 40, 3_000);
        compare_family(&mut tally, 8, Source(grid, Within(1_000)), 200, 500);
        compare_family(&mut tally, 11, Source(grid, Lengthened(2)), 9, 3_000);
        compare_family(&mut tally, 12, Source(grid, Lengthened(9)), 9, 3_000);
        let numbers = [1, 2, 3, 11, 13, 14, 16, 17, 18];
        tally.report(&format!("large coordinates, {grid:?}"), 250_000, numbers);
    }
}

/// A good outline, known point and query, of which some number is replaced by one at or beyond the
/// limit or an end of i32.
fn compare_limits(grid: Grid) {
    let mut tally = Tally::default();
    let (random, limit) = (&mut Random::new(9), grid.limit());
    for _ in 0..20_000 {
        let n = 3 + random.below(4);
        let mut vertices = ring(random, Source(grid, Within(limit)), n);
        let mut known = random.point(limit);
        let mut query = random.point(limit);
        for _ in 0..1 + random.below(2) {
            let (i, k) = (random.below(vertices.len()), random.below(3));
            let beyond = point(random, Source(grid, Beyond))[0];
            match random.below(4) {
                0 => vertices[i] = random.pick(&[[0; 3], [beyond; 3], [0, 0, beyond]]),
                1 => vertices[i][k] = beyond,
                2 => known[k] = beyond,
                _ => query[k] = beyond,
            }
        }
        tally.compare(&Sheet::new(known, &vertices).on(grid).bytes(), query);
    }
    tally.report(&format!("limits, {grid:?}"), 20_000, [1, 2, 11, 12, 15, 17]);
}

#[test]
fn limits() {
    GRIDS.into_iter().for_each(compare_limits);
}

/// The smallest and the largest outlines that there may be, and those one vertex short or long.
fn compare_vertex_counts(grid: Grid) {
    let mut tally = Tally::default();
    let (random, limit) = (&mut Random::new(10), grid.limit());
    for n in [0, 1, 2, 3, 4, 4095, 4096, 4097, 5460] {
        for _ in 0..20 {
            let vertices = ring(random, Source(grid, Within(limit)), n.max(1))[..n].to_vec();
            let known = random.point(limit);
            let sheet = Sheet::new(known, &vertices).on(grid).bytes();
            for _ in 0..10 {
                let (i, j) = (random.below(n.max(1)), random.below(2) as i32);
                let query = *vertices.get(i).unwrap_or(&known);
                tally.compare(&sheet, sum(j, query, 1 - j, random.point(limit)));
            }
        }
    }
    tally.report(&format!("vertex counts, {grid:?}"), 1_800, [1, 2, 3, 22]);
}

#[test]
fn vertex_counts() {
    GRIDS.into_iter().for_each(compare_vertex_counts);
}
