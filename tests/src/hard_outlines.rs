//! Outlines that are hard for an index of cones about the known point, and queries to them.

use crate::random::Random;
use crate::sheet::{Grid, Sheet};
use crate::stars::star;
use crate::Point;
use std::f64::consts::TAU;

/// An outline as it is drawn, without a known point.
pub struct Drawing {
    pub name: &'static str,
    pub grid: Grid,
    pub vertices: Vec<Point>,
}

/// A point of the plane z = 1, drawn as large as the grid allows.
fn at(grid: Grid, [x, y]: [f64; 2]) -> Point {
    let limit = f64::from(grid.limit());
    [(x * limit) as i32, (y * limit) as i32, grid.limit()]
}

/// Out along a spiral of five turns, and back beside it.
fn spiral(grid: Grid, sides: usize) -> Vec<Point> {
    let half = sides / 2;
    let arm = |k: usize, wide: f64| {
        let turned = k as f64 / half as f64;
        let (sine, cosine) = (5.0 * TAU * turned).sin_cos();
        let distance = 0.1 + 0.15 * 5.0 * turned + wide;
        at(grid, [distance * cosine, distance * sine])
    };
    (0..half).map(|k| arm(k, 0.0)).chain((0..sides - half).rev().map(|k| arm(k, 0.05))).collect()
}

/// Side by side across the plane of the known point amid.
fn zigzag(grid: Grid, sides: usize) -> Vec<Point> {
    let x = |k: usize| k as f64 / sides as f64 - 0.5;
    (0..sides).map(|k| at(grid, [x(k), if k % 2 == 0 { 0.6 } else { 0.5 }])).collect()
}

/// Teeth from one line.
fn comb(grid: Grid, sides: usize) -> Vec<Point> {
    let x = |k: usize| (k / 2) as f64 / (sides / 2) as f64 - 0.5;
    (0..sides).map(|k| at(grid, [x(k), if k % 4 == 1 || k % 4 == 2 { 0.7 } else { 0.1 }])).collect()
}

/// Vertices anywhere.
fn scribble(random: &mut Random, grid: Grid, sides: usize) -> Vec<Point> {
    (0..sides).map(|_| random.point(grid.limit())).collect()
}

/// A square with one corridor, walked out and back as often as the sides allow. 1,023 grid points are on it.
fn corridor(grid: Grid, sides: usize) -> Vec<Point> {
    let corner = |x: f64, y: f64| at(grid, [x, y]);
    let square = [corner(-0.3, -0.3), corner(0.3, -0.3), corner(0.3, 0.3), corner(-0.3, 0.3)];
    let far = [0, 1, 2].map(|c| square[2][c] + [grid.limit() / 2, grid.limit() / 4, 0][c]);
    let walks = sides.saturating_sub(4) / 2;
    square[..3].iter().copied().chain([far, square[2]].repeat(walks)).chain([square[3]]).collect()
}

/// All in a small part of the sphere, which is one cone of a known point elsewhere.
fn tiny(random: &mut Random, grid: Grid, sides: usize) -> Vec<Point> {
    star(random, grid, sides).into_iter().map(|[x, y, z]| [x / 64, y / 64, z]).collect()
}

/// Each kind, with about so many sides: vertices that follow each other have to differ.
pub fn drawings(random: &mut Random, grid: Grid, sides: usize) -> Vec<Drawing> {
    let drawn = [
        ("star", star(random, grid, sides)),
        ("spiral", spiral(grid, sides)),
        ("zigzag", zigzag(grid, sides)),
        ("comb", comb(grid, sides)),
        ("scribble", scribble(random, grid, sides)),
        ("corridor", corridor(grid, sides)),
        ("tiny", tiny(random, grid, sides)),
    ];
    let drawing = |(name, mut vertices): (&'static str, Vec<Point>)| {
        vertices.dedup();
        Drawing { name, grid, vertices }
    };
    drawn.map(drawing).into()
}

/// Known points amid the drawings, opposite, beside them and far from them: those on a side's circle are refused.
pub fn known_points(grid: Grid) -> [Point; 4] {
    let limit = grid.limit();
    [[7, -3, limit], [11, 2, -limit], [limit / 3, limit / 5 + 1, limit], [limit, 3 - limit, -5]]
}

impl Drawing {
    pub fn sheet(&self, known: Point) -> Vec<u8> {
        Sheet::new(known, &self.vertices).on(self.grid).bytes()
    }

    /// A side's ends.
    fn side(&self, random: &mut Random) -> [Point; 2] {
        let i = random.below(self.vertices.len());
        [self.vertices[i], self.vertices[(i + 1) % self.vertices.len()]]
    }

    /// Queries at vertices, along sides, near them, and anywhere; and the known point and its opposite.
    pub fn asked(&self, random: &mut Random, known: Point, n: usize) -> Vec<Point> {
        let one = |k: usize| {
            let [a, b] = self.side(random);
            match k % 8 {
                0 => a,
                1 => [0, 1, 2].map(|c| (a[c] + b[c]) / 2),
                2 => [0, 1, 2].map(|c| a[c] + random.between(-3, 3)),
                3 => a.map(|c| -c),
                4 if k % 64 == 4 => known,
                4 if k % 64 == 12 => known.map(|c| -c),
                5 => [0, 1, 2].map(|c| ((i64::from(known[c]) + i64::from(a[c])) / 2) as i32),
                _ => random.point(self.grid.limit()),
            }
        };
        (0..n).map(one).collect()
    }

    /// Queries along sides; on them where their length is a multiple of 1,024, as that of the corridor is.
    pub fn along(&self, random: &mut Random, n: usize) -> Vec<Point> {
        let one = |_| {
            let ([a, b], part) = (self.side(random), random.between(0, 1_024));
            [0, 1, 2].map(|c| a[c] + (b[c] - a[c]) / 1_024 * part)
        };
        (0..n).map(one).collect()
    }
}
