//! Simple outlines of any number of sides: stars round an axis, for document 02's P9.

use crate::random::Random;
use crate::sheet::Grid;
use crate::Point;

/// Vertices at rising angles round the axis (0, 0, 1), at distances of their own: seen from the centre in the plane at
/// the grid's limit, sides are straight there, and none of a star's meet but at their common vertices.
pub fn star(random: &mut Random, grid: Grid, sides: usize) -> Vec<Point> {
    let limit = f64::from(grid.limit());
    let vertex = |k: usize| {
        let angle = (k as f64 + 0.3 * random.fraction()) * std::f64::consts::TAU / sides as f64;
        let distance = limit * (0.3 + 0.7 * random.fraction());
        [(distance * angle.cos()) as i32, (distance * angle.sin()) as i32, grid.limit()]
    };
    (0..sides).map(vertex).collect()
}
