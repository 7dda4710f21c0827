//! Large outlines after document 000, figure 5: four islands in one outline, joined by corridors that
//! are walked out and back; and queries like its 17,087 epicentres.
//!
//! All is fixed by the seed. Besides whole numbers only +, -, ·, / and square roots of f64 are used,
//! which every machine rounds alike.

use crate::random::Random;
use crate::reference;
use crate::sheet::{Grid, Sheet};
use crate::Point;

#[cfg(test)]
mod tests;

/// Document 000's numbers.
pub const SIDES: usize = 1_071;
pub const QUERIES: usize = 17_087;

/// How much of the Earth the islands take up. The islands' size is the tangent of the angle.
#[derive(Clone, Copy, Debug)]
pub enum Extent {
    /// Islands about a bay, so small that on the coast a grid step is seen: of 4 km on the coarse grid and of
    /// 60 m on the fine one.
    Harbour,
    /// Islands of 100 km in a sea.
    Archipelago,
    /// Continents all round the globe.
    World,
}

pub const EXTENTS: [Extent; 3] = [Extent::Harbour, Extent::Archipelago, Extent::World];

/// An accepted outline: its sheet is not refused.
pub struct Islands {
    pub grid: Grid,
    pub known: Point,
    pub vertices: Vec<Point>,
    isles: [Isle; 4],
    size: f64,
}

impl Islands {
    pub fn sheet(&self) -> Vec<u8> {
        Sheet::new(self.known, &self.vertices).on(self.grid).bytes()
    }
}

type Vector = [f64; 3];

fn sum(p: Vector, scale: f64, q: Vector) -> Vector {
    [0, 1, 2].map(|k| p[k] + scale * q[k])
}

fn cross(a: Vector, b: Vector) -> Vector {
    [a[1] * b[2] - a[2] * b[1], a[2] * b[0] - a[0] * b[2], a[0] * b[1] - a[1] * b[0]]
}

fn unit(p: Vector) -> Vector {
    let length = (p[0] * p[0] + p[1] * p[1] + p[2] * p[2]).sqrt();
    p.map(|k| k / length)
}

/// The grid point nearest to the direction with the grid's limit as its length.
fn on_grid(grid: Grid, p: Vector) -> Point {
    unit(p).map(|k| (k * f64::from(grid.limit())).round() as i32)
}

/// An island's centre and two directions at right angles to it and to each other.
#[derive(Clone, Copy)]
struct Isle {
    centre: Vector,
    east: Vector,
    north: Vector,
}

impl Isle {
    fn at(centre: Vector) -> Isle {
        let centre = unit(centre);
        let east = unit(cross([0.0, 0.0, 1.0], centre));
        Isle { centre, east, north: cross(centre, east) }
    }

    fn point(&self, grid: Grid, x: f64, y: f64) -> Point {
        on_grid(grid, self.vector(x, y))
    }

    fn vector(&self, x: f64, y: f64) -> Vector {
        sum(sum(self.centre, x, self.east), y, self.north)
    }
}

/// The four islands and their size.
fn isles(grid: Grid, extent: Extent) -> ([Isle; 4], f64) {
    let bay = |size: f64| {
        // Document 000's region: the New Hebrides, 17 degrees south, 168 degrees east.
        let middle = Isle::at([-0.935, 0.199, -0.292]);
        let places = [(-1.5, 1.4), (1.3, 1.6), (1.6, -1.3), (-1.2, -1.7)];
        (places.map(|(x, y)| Isle::at(middle.vector(size * x, size * y))), size)
    };
    match extent {
        Extent::Harbour => bay(629.1456 / f64::from(grid.limit())),
        Extent::Archipelago => bay(0.015),
        Extent::World => {
            let corners = [[1.0, 1.0, 1.0], [1.0, -1.0, -1.0], [-1.0, 1.0, -1.0], [-1.0, -1.0, 1.0]];
            (corners.map(Isle::at), 0.7)
        }
    }
}

/// A point of the unit circle, `part` of the way round: a rational parametrisation of each quarter.
fn round_circle(part: f64) -> (f64, f64) {
    let quarter = (4.0 * part) as usize % 4;
    let t = 4.0 * part - quarter as f64;
    let (x, y) = ((1.0 - t * t) / (1.0 + t * t), 2.0 * t / (1.0 + t * t));
    [(x, y), (-y, x), (-x, -y), (y, -x)][quarter]
}

/// n vertices once round the isle, from half its size to its size away from the centre. Neighbours
/// are never the same grid point: a vertex that would be is moved outwards.
fn coast(random: &mut Random, grid: Grid, isle: Isle, size: f64, n: usize) -> Vec<Point> {
    let mut coast: Vec<Point> = vec![];
    let mut away = 0.75;
    for k in 0..n {
        away = (away + 0.1 * (random.fraction() - 0.5)).clamp(0.5, 1.0);
        let (x, y) = round_circle(k as f64 / n as f64);
        let mut reach = size * away;
        while [coast.first(), coast.last()].contains(&Some(&isle.point(grid, reach * x, reach * y))) {
            reach *= 1.01;
        }
        coast.push(isle.point(grid, reach * x, reach * y));
    }
    coast
}

/// On the coarse grid.
pub fn islands(seed: u64, sides: usize, extent: Extent) -> Islands {
    islands_on(Grid::Coarse, seed, sides, extent)
}

/// The outline: round each isle, from its first vertex by way of one vertex in open water to the next
/// isle, and at the end back through all the corridors.
pub fn islands_on(grid: Grid, seed: u64, sides: usize, extent: Extent) -> Islands {
    const CORRIDORS: usize = 3;
    let random = &mut Random::new(seed);
    let (isles, size) = isles(grid, extent);
    let coasts = sides - 4 * CORRIDORS;
    let mut vertices = vec![];
    let mut way_back = vec![];
    for (k, &isle) in isles.iter().enumerate() {
        let coast = coast(random, grid, isle, size, coasts / 4 + usize::from(k < coasts % 4));
        vertices.extend(&coast);
        vertices.push(coast[0]);
        if k < CORRIDORS {
            let water = on_grid(grid, sum(isle.centre, 0.8, isles[k + 1].centre));
            vertices.push(water);
            way_back.extend([coast[0], water]);
        }
    }
    // The last corridor's last side closes the ring.
    vertices.extend(way_back[1..].iter().rev());
    assert_eq!(vertices.len(), sides);
    loop {
        let place = [0; 2].map(|_| size * 0.4 * (random.fraction() - 0.5));
        let known = isles[0].point(grid, place[0], place[1]);
        // A query of zeros is refused after every check of the outline.
        if reference::judge(&Sheet::new(known, &vertices).on(grid).bytes(), [0; 3]).number == 17 {
            return Islands { grid, known, vertices, isles, size };
        }
    }
}

/// Queries on the grid: about the isles, near the coast, far away, at vertices, on sides, opposite the
/// known point.
pub fn queries(seed: u64, islands: &Islands, count: usize) -> Vec<Point> {
    let (random, limit) = (&mut Random::new(seed), islands.grid.limit());
    let middles = middles(&islands.vertices);
    // A short outline may have no such side.
    let on_sides = if middles.is_empty() { &islands.vertices } else { &middles };
    (0..count)
        .map(|_| match random.below(100) {
            0..=49 => {
                let place = [0; 2].map(|_| islands.size * 2.0 * (random.fraction() - 0.5));
                random.pick(&islands.isles).point(islands.grid, place[0], place[1])
            }
            50..=74 => {
                let (vertex, step) = (random.pick(&islands.vertices), random.point(9));
                [0, 1, 2].map(|k| (vertex[k] + step[k]).clamp(-limit, limit))
            }
            75..=82 => random.point(limit),
            83..=90 => random.pick(&islands.vertices),
            91..=98 => random.pick(on_sides),
            _ => islands.known.map(|k| -k),
        })
        .collect()
}

/// The middles of the sides whose middle is a grid point.
fn middles(vertices: &[Point]) -> Vec<Point> {
    let sides = (0..vertices.len()).map(|i| (vertices[i], vertices[(i + 1) % vertices.len()]));
    sides
        .map(|(a, b)| [0, 1, 2].map(|k| a[k] + b[k]))
        .filter(|twice| twice.iter().all(|k| k % 2 == 0))
        .map(|twice| twice.map(|k| k / 2))
        .collect()
}
