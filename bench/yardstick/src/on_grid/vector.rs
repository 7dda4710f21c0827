//! Points and their products. On both grids a cross product and a dot product of two points fit in 64 bits.

use super::{Turn, LIMIT};
use crate::Point;

pub type Vector = [i64; 3];
pub type Edge = (Point, Point);

pub fn wide(p: Point) -> Vector {
    p.map(i64::from)
}

pub fn cross(a: Point, b: Point) -> Vector {
    let (a, b) = (wide(a), wide(b));
    [a[1] * b[2] - a[2] * b[1], a[2] * b[0] - a[0] * b[2], a[0] * b[1] - a[1] * b[0]]
}

/// `v` is a cross product.
pub fn dot(v: Vector, p: Point) -> Turn {
    let (v, p) = (v.map(Turn::from), p.map(Turn::from));
    v[0] * p[0] + v[1] * p[1] + v[2] * p[2]
}

pub fn turn(a: Point, b: Point, c: Point) -> Turn {
    dot(cross(a, b), c)
}

pub fn beyond(p: Point) -> bool {
    p.iter().any(|&k| !(-LIMIT..=LIMIT).contains(&k))
}

pub fn all_zero(p: Point) -> bool {
    p == [0, 0, 0]
}

fn parallel(a: Point, b: Point) -> bool {
    cross(a, b).iter().all(|&k| k == 0)
}

fn point_dot(a: Point, b: Point) -> i64 {
    let (a, b) = (wide(a), wide(b));
    a[0] * b[0] + a[1] * b[1] + a[2] * b[2]
}

pub fn same(a: Point, b: Point) -> bool {
    parallel(a, b) && point_dot(a, b) > 0
}

pub fn opposite(a: Point, b: Point) -> bool {
    parallel(a, b) && point_dot(a, b) < 0
}

/// Whether `p`, a point of the edge's great circle, lies on the edge; `normal` is a × b. P×B and A×P are multiples of
/// A×B, and one component of that which is not zero tells their signs.
pub fn within((a, b): Edge, normal: Vector, p: Point) -> bool {
    let k = normal.iter().position(|&k| k != 0).expect("ends that are not parallel");
    let (part_a, part_b) = (cross(p, b)[k], cross(a, p)[k]);
    if normal[k] > 0 {
        part_a >= 0 && part_b >= 0
    } else {
        part_a <= 0 && part_b <= 0
    }
}
