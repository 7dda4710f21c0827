//! Document 02's P9, from its text: two sides share a point if some direction lies on both closed arcs. The great
//! circles of two sides meet at two opposite points, or are one circle. So it is enough to try these two points, or the
//! four ends.

use super::answer;
use super::fields::points;
use super::geometry::{all_zero, beyond, cross, opposite, same_direction, sides, Vector};
use crate::Answer;

type Side = (Vector, Vector);

/// The sign of a dot product. The first vector may have 107 bits, as points where great circles meet have, and the
/// second 80: the first is taken in pieces of 40 bits.
fn dot_sign(p: Vector, q: Vector) -> i32 {
    let sum = |piece: fn(i128) -> i128| -> i128 { (0..3).map(|k| piece(p[k]) * q[k]).sum() };
    let low = sum(|k| k & 0xff_ffff_ffff);
    let middle = sum(|k| k >> 40 & 0xff_ffff_ffff) + (low >> 40);
    let high = sum(|k| k >> 80) + (middle >> 40);
    let rest = (middle | low) & 0xff_ffff_ffff;
    if high == 0 {
        (rest != 0).into()
    } else {
        high.signum() as i32
    }
}

/// The direction of p lies on the closed arc: in its plane, and neither before its start nor past its end.
fn on_arc((a, b): Side, p: Vector) -> bool {
    let normal = cross(a, b);
    dot_sign(p, normal) == 0 && dot_sign(p, cross(normal, a)) >= 0 && dot_sign(p, cross(b, normal)) >= 0
}

/// p is in the direction of the vertex.
fn at_vertex(p: Vector, vertex: Vector) -> bool {
    let axes = [[1, 0, 0], [0, 1, 0], [0, 0, 1]];
    axes.iter().all(|&axis| dot_sign(p, cross(vertex, axis)) == 0) && dot_sign(p, vertex) > 0
}

/// They share a point that is not in the direction of the vertex which they may share.
fn share(first: Side, second: Side, allowed: Option<Vector>) -> bool {
    let line = cross(cross(first.0, first.1), cross(second.0, second.1));
    let tried = if all_zero(line) {
        vec![first.0, first.1, second.0, second.1]
    } else {
        vec![line, line.map(|k| -k)]
    };
    let offends = |p: &Vector| !allowed.is_some_and(|vertex| at_vertex(*p, vertex));
    tried.iter().filter(|p| offends(p)).any(|&p| on_arc(first, p) && on_arc(second, p))
}

/// The first offending pair, lowest first side, then lowest second.
fn first_pair(sides: &[Side]) -> Option<(usize, usize)> {
    let n = sides.len();
    let mut pairs = (0..n).flat_map(|i| (i + 1..n).map(move |j| (i, j)));
    let common = |i: usize, j: usize| {
        if j == i + 1 {
            Some(sides[j].0)
        } else if i == 0 && j == n - 1 {
            Some(sides[0].0)
        } else {
            None
        }
    };
    pairs.find(|&(i, j)| share(sides[i], sides[j], common(i, j)))
}

/// 10, 28, 11 to 14, 34, 35.
pub fn basin(bytes: &[u8], grid: u32) -> Answer {
    let refused = |number, place| answer(number, place, 0);
    let n = bytes.len() / 12;
    if bytes.len() % 12 != 0 || !(3..=4096).contains(&n) {
        return refused(10, 0);
    }
    let limit = match grid {
        0 => 1 << 20,
        1 => 1 << 26,
        _ => return refused(28, 0),
    };
    let vertices = points(bytes);
    let sides = sides(&vertices);
    let vertex = |bad: &dyn Fn(Vector) -> bool| vertices.iter().position(|&v| bad(v));
    let side = |bad: fn(Vector, Vector) -> bool| sides.iter().position(|&(a, b)| bad(a, b));
    let places = [
        (11, vertex(&|v| beyond(limit, v))),
        (12, vertex(&all_zero)),
        (13, side(same_direction)),
        (14, side(opposite)),
        (34, (n > 512).then_some(0)),
    ];
    if let Some((number, place)) = places.iter().find_map(|&(number, place)| Some((number, place?))) {
        return refused(number, place);
    }
    match first_pair(&sides) {
        None => answer(0, 0, 0),
        Some((first, second)) => answer(35, first, second as u32),
    }
}
