//! Document 02's P8 where it is hardest: turns of 1, -1 and 0 on the fine grid. In floats most of them are 0 where they
//! should not be, or have the wrong sign.

use crate::outlines::{ring, Numbers, Source};
use crate::random::Random;
use crate::reference::{self, cross, vector};
use crate::sheet::{Grid, Sheet};
use crate::Point;

mod tests;

const LIMIT: i32 = Grid::Fine.limit();

/// The turn as P8's floats have it: the cross product exact, then three rounded products, added left to right.
pub fn float_turn(a: Point, b: Point, c: Point) -> f64 {
    let ([x, y, z], c) = (cross(vector(a), vector(b)).map(|k| k as f64), c.map(f64::from));
    x * c[0] + y * c[1] + z * c[2]
}

/// The greatest common factor of two numbers, and how many times each to add for it.
fn extended_gcd(a: i128, b: i128) -> (i128, i128, i128) {
    if b == 0 {
        return (a.abs(), a.signum(), 0);
    }
    let (factor, u, v) = extended_gcd(b, a % b);
    (factor, v, u - a / b * v)
}

/// A point C of the fine grid for which turn(A,B,C) is `turn`, if one is found.
///
/// If the x and y of A×B have no common factor, some C has z = 0. It is far off the grid. But it is all but in the
/// plane of A and B, so one component of C×B and of A×C tells how many of each it is made of. Taking whole ones away
/// brings it near and leaves the turn as it is.
fn beside(random: &mut Random, a: Point, b: Point, turn: i128) -> Option<Point> {
    let [a, b] = [a, b].map(vector);
    let normal = cross(a, b);
    let (factor, u, v) = extended_gcd(normal[0], normal[1]);
    if factor != 1 || normal[2] == 0 {
        return None;
    }
    let far = [turn * u, turn * v, 0];
    let [of_a, of_b] = [cross(far, b), cross(a, far)].map(|part| part[2] / normal[2]);
    let mut near = || {
        let [k, l] = [of_a, of_b].map(|whole| whole + i128::from(random.between(-1, 1)));
        [0, 1, 2].map(|i| far[i] - k * a[i] - l * b[i])
    };
    let on_grid = |c: &[i128; 3]| *c != [0; 3] && c.iter().all(|k| k.abs() <= LIMIT.into());
    (0..20).map(|_| near()).find(on_grid).map(|c| c.map(|k| k as i32))
}

/// A query made for the turn of three points, of which it is one.
struct Near {
    query: Point,
    of: [Point; 3],
    turn: i128,
}

impl Near {
    /// Whether the sign of the turn is another one in floats.
    fn floats_err(&self) -> bool {
        let [a, b, c] = self.of;
        assert_eq!(reference::turn(vector(a), vector(b), vector(c)), self.turn);
        let float = float_turn(a, b, c);
        i128::from(float > 0.0) - i128::from(float < 0.0) != self.turn
    }
}

/// Queries next to sides, on their great circles, or such that the arc to them passes vertices next to it or through
/// them.
fn near_queries(random: &mut Random, known: Point, vertices: &[Point]) -> Vec<Near> {
    let mut queries = vec![];
    for (i, &a) in vertices.iter().enumerate() {
        let b = vertices[(i + 1) % vertices.len()];
        for turn in [1, -1, 0] {
            let by_side = beside(random, a, b, turn);
            queries.extend(by_side.map(|query| Near { query, of: [a, b, query], turn }));
            let by_vertex = beside(random, a, known, turn);
            queries.extend(by_vertex.map(|query| Near { query, of: [known, query, a], turn }));
        }
    }
    queries
}

/// A ring of up to `most` vertices with a known point that is, now and then, next to a side or on its circle; and such
/// queries to it.
fn near_ring(random: &mut Random, most: usize) -> (Sheet, Vec<Near>) {
    let n = 3 + random.below(most - 2);
    let vertices = ring(random, Source(Grid::Fine, Numbers::Within(LIMIT)), n);
    let mut known = random.point(LIMIT);
    if random.once_in(4) {
        let turn = random.pick(&[1, -1, 1, -1, 0]);
        known = beside(random, vertices[0], vertices[1], turn).unwrap_or(known);
    }
    let queries = near_queries(random, known, &vertices);
    (Sheet::new(known, &vertices).on(Grid::Fine), queries)
}

/// The same as a sheet's bytes and points.
pub fn near_feed(random: &mut Random, most: usize) -> (Vec<u8>, Vec<Point>) {
    let (sheet, queries) = near_ring(random, most);
    (sheet.bytes(), queries.iter().map(|near| near.query).collect())
}
