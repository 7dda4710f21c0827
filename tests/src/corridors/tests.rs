//! Queries on many corridors: the answers against the reference.

use super::{corridors, mixed, Corridors};
use crate::compare::Tally;
use crate::feed::equals_single_calls;
use crate::random::Random;
use crate::sheet::{Sheet, GRIDS};
use crate::Point;

/// From one run to many; up to 64 a feed does not ask the boxes.
const SIDES: [usize; 4] = [8, 64, 136, 520];

#[test]
fn answers() {
    let mut tally = Tally::default();
    for grid in GRIDS {
        for sides in SIDES.into_iter().chain([1_544]) {
            for Corridors { name, sheet, query } in corridors(grid, sides) {
                let number = tally.compare(&sheet.bytes(), query).answer.number;
                assert!(number == 1 || number == 2, "{name}, {sides} sides, {grid:?}: {number}");
            }
        }
    }
}

/// One vertex is elsewhere, so that two classes lose a side, most of them far down the outline: border comes late.
#[test]
fn late_border() {
    let mut tally = Tally::default();
    for grid in GRIDS {
        for sides in SIDES {
            for case in corridors(grid, sides) {
                for vertex in [sides / 2 + 1, sides - 2] {
                    let mut sheet = case.sheet.clone();
                    sheet.vertices[vertex] = [grid.limit() - 3, 7, 11 - grid.limit()];
                    tally.compare(&sheet.bytes(), case.query);
                }
            }
        }
    }
    tally.report("late border", 208, [3]);
}

/// A walk at random among a few points, as it goes on from a centre at every second or third vertex: or on one circle.
/// Copies of a point are of other lengths. Classes are of all sizes, odd and even, and border comes anywhere.
fn walk(random: &mut Random, pool: &[Point], centre: Option<Point>, sides: usize) -> Vec<Point> {
    let mut vertices: Vec<Point> = Vec::new();
    let mut last = usize::MAX;
    while vertices.len() < sides {
        let next = random.below(pool.len());
        if next != last {
            last = next;
            vertices.push(pool[next].map(|c| c * random.between(1, 3)));
            if centre.is_some() && vertices.len() < sides && random.once_in(2) {
                last = usize::MAX;
                vertices.extend(centre.map(|p| p.map(|c| c * random.between(1, 3))));
            }
        }
    }
    vertices
}

/// Against the reference, and as feeds: one of up to 64 sides does not ask the boxes.
#[test]
fn random_walks() {
    let random = &mut Random::new(310);
    let mut tally = Tally::default();
    let (q, r) = ([7, 5, 3], [11, -13, 17]);
    for k in 0..1_200 {
        let grid = GRIDS[k % 2];
        let step = |i: i32| mixed(9, q, if i % 2 == 0 { i / 2 + 1 } else { -(i / 2) - 1 }, r);
        let spokes: Vec<Point> = (0..random.between(2, 12)).map(|_| random.point(300)).collect();
        let on_circle: Vec<Point> = (0..random.between(3, 9)).map(step).collect();
        let sides = random.pick(&[6, 17, 40, 64, 65, 130, 200]);
        let vertices = match k / 2 % 2 {
            0 => walk(random, &on_circle, None, sides),
            _ => walk(random, &spokes, Some(q), sides),
        };
        let known = random.point(grid.limit());
        let sheet = Sheet::new(known, &vertices).on(grid).bytes();
        if tally.compare(&sheet, q).answer.number < 10 {
            let asked =
                [q, q.map(|c| c * 5), vertices[0], vertices[sides - 1], known, mixed(1, q, 1, vertices[1])];
            equals_single_calls(&sheet, &asked, 0);
        }
    }
    tally.report("walks on corridors", 1_200, [1, 2, 3]);
}
