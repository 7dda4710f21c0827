//! The index on outlines of 3 to 8 sides, where every side is in most of the cones: all queries of a small grid, which
//! are more than the threshold, against the reference and the single calls.

use crate::compare::Tally;
use crate::feed::equals_single_calls;
use crate::random::Random;
use crate::reference::{turn, vector};
use crate::sheet::{Grid, Sheet, GRIDS};
use crate::Point;

/// The whole small grid: numbers from -3 to 3, in steps of this length.
fn small_grid(step: i32) -> impl Iterator<Item = Point> {
    (0..343).map(move |k| [k / 49, k / 7 % 7, k % 7].map(|c| step * (c - 3)))
}

/// Points about this one, as near as the grid has them.
fn about(grid: Grid, point: Point) -> impl Iterator<Item = Point> {
    let limit = grid.limit();
    (0..27)
        .map(move |k| [k / 9, k / 3 % 3, k % 3].map(|c| c - 1))
        .map(move |step| [0, 1, 2].map(|c| (point[c] + step[c]).clamp(-limit, limit)))
}

fn opposite(point: Point) -> Point {
    point.map(|c| -c)
}

/// Where the vertices come from.
#[derive(Clone, Copy)]
struct Places {
    grid: Grid,
    /// The length of the small grid's steps.
    step: i32,
    known: Point,
}

impl Places {
    /// In a plane of two axes or on an axis; on the small grid; beside the known point's opposite, or beside the known
    /// point; and beside the opposite of the vertex before, so that the side is nearly half a circle.
    fn vertex(self, random: &mut Random, before: Point) -> Point {
        let limit = self.grid.limit();
        let beside = |p: Point, d: Point| [0, 1, 2].map(|c| (p[c] + d[c]).clamp(-limit, limit));
        match random.below(8) {
            0..=2 => random.point(1).map(|c| 3 * self.step * c),
            3..=4 => random.point(3).map(|c| self.step * c),
            5 => beside(opposite(self.known), random.point(2)),
            6 => beside(self.known, random.point(2)),
            _ => beside(opposite(before), random.point(1)),
        }
    }

    /// No side's circle goes through the known point, so the outline is accepted. None if a few attempts find none.
    fn ring(self, random: &mut Random, n: usize) -> Option<Vec<Point>> {
        let free = |a: Point, b: Point| turn(vector(a), vector(b), vector(self.known)) != 0;
        let mut ring: Vec<Point> = vec![];
        for _ in 0..20 * n {
            let next = self.vertex(random, ring.last().copied().unwrap_or(self.known));
            let follows = ring.last().map_or(next != [0; 3], |&last| free(last, next));
            if follows && (ring.len() + 1 < n || free(next, ring[0])) {
                ring.push(next);
            }
            if ring.len() == n {
                return Some(ring);
            }
        }
        None
    }

    fn queries(self, vertices: &[Point]) -> Vec<Point> {
        let [grid, known] = [small_grid(self.step).collect(), vec![self.known, opposite(self.known)]];
        let near = [known, vertices.to_vec()].concat();
        let near = near.iter().flat_map(|&point| about(self.grid, point));
        Vec::from_iter(near.chain(grid).chain(vertices.iter().map(|&vertex| opposite(vertex))))
    }
}

/// A known point on an axis, in a plane of two, on the small grid, or anywhere.
fn known_point(random: &mut Random, grid: Grid, step: i32) -> Point {
    let axis = random.below(3);
    let length = random.pick(&[-3, -1, 1, 3]);
    let on_axis = [0, 1, 2].map(|c| if c == axis { step * length } else { 0 });
    match random.below(6) {
        0..=2 => on_axis,
        3 => {
            [0, 1, 2].map(|c| on_axis[c] + if c == (axis + 1) % 3 { step * random.between(-3, 3) } else { 0 })
        }
        4 => random.point(3).map(|c| step * c),
        _ => random.point(grid.limit()),
    }
}

/// Steps of 1, and as long as the grid allows: on the fine grid products are small enough to be unsure, or large.
fn compare_on(grid: Grid) {
    let (mut tally, random) = (Tally::default(), &mut Random::new(276));
    for k in 0..1_500 {
        let step = if k % 2 == 0 { 1 } else { grid.limit() / 3 };
        let places = Places { grid, step, known: known_point(random, grid, step) };
        let Some(vertices) = places.ring(random, 3 + k / 2 % 6) else { continue };
        let sheet = Sheet::new(places.known, &vertices).on(grid).bytes();
        for number in equals_single_calls(&sheet, &places.queries(&vertices), 0) {
            tally.count(number);
        }
    }
    tally.report(&format!("index, tiny outlines, {grid:?}"), 500_000, [1, 2, 3, 17, 18]);
}

#[test]
fn index_on_tiny_outlines() {
    GRIDS.into_iter().for_each(compare_on);
}
