//! Document 01's points, sides and crossings.

use crate::Point;

// Points, sides, outlines

pub type Vector = [i128; 3];

pub fn vector(p: Point) -> Vector {
    p.map(i128::from)
}

/// Beyond the grid with this limit.
pub fn beyond(limit: i128, p: Vector) -> bool {
    p.iter().any(|&k| k < -limit || limit < k)
}

pub fn all_zero(p: Vector) -> bool {
    p == [0, 0, 0]
}

pub fn turn(a: Vector, b: Vector, c: Vector) -> i128 {
    a[0] * b[1] * c[2] + a[1] * b[2] * c[0] + a[2] * b[0] * c[1]
        - a[0] * b[2] * c[1]
        - a[1] * b[0] * c[2]
        - a[2] * b[1] * c[0]
}

pub fn cross(a: Vector, b: Vector) -> Vector {
    [a[1] * b[2] - a[2] * b[1], a[2] * b[0] - a[0] * b[2], a[0] * b[1] - a[1] * b[0]]
}

fn dot(a: Vector, b: Vector) -> i128 {
    a[0] * b[0] + a[1] * b[1] + a[2] * b[2]
}

pub fn same_direction(a: Vector, b: Vector) -> bool {
    cross(a, b) == [0, 0, 0] && dot(a, b) > 0
}

pub fn opposite(a: Vector, b: Vector) -> bool {
    cross(a, b) == [0, 0, 0] && dot(a, b) < 0
}

/// The ends of each side, in order.
pub fn sides(vertices: &[Vector]) -> Vec<(Vector, Vector)> {
    (0..vertices.len()).map(|i| (vertices[i], vertices[(i + 1) % vertices.len()])).collect()
}

/// turn(A,B,P) = 0 and P = aA + bB with fractions a, b ≥ 0. If there are such fractions, then
/// P×B = a(A×B) and A×P = b(A×B), so a component of A×B that is not zero gives both of them.
pub fn on_side((a, b): (Vector, Vector), p: Vector) -> bool {
    let normal = cross(a, b);
    let k = (0..3).find(|&k| normal[k] != 0).expect("13 and 14 were checked before");
    let sign = normal[k].signum();
    let whole = sign * normal[k];
    let (part_a, part_b) = (sign * cross(p, b)[k], sign * cross(a, p)[k]);
    turn(a, b, p) == 0
        && part_a >= 0
        && part_b >= 0
        && (0..3).all(|j| whole * p[j] == part_a * a[j] + part_b * b[j])
}

// When the arc crosses a side

/// P6: 1 for the first pattern, -1 for the second and 0 otherwise.
pub fn crossing(x: Vector, p: Vector, (a, b): (Vector, Vector)) -> i32 {
    let s1 = turn(x, p, a);
    let s2 = turn(x, p, b);
    let s3 = turn(a, b, x);
    let s4 = turn(a, b, p);
    if s1 >= 0 && s2 < 0 && s3 < 0 && s4 > 0 {
        1
    } else if s1 < 0 && s2 >= 0 && s3 > 0 && s4 < 0 {
        -1
    } else {
        0
    }
}
