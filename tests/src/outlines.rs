//! Outlines and queries made so that coincidences are common, on either grid.

use crate::random::Random;
use crate::sheet::{points_bytes, Grid, Sheet};
use crate::{reference, Point};

#[cfg(test)]
mod tests;

/// The grid of a family of outlines, and where it takes its coordinates from.
#[derive(Clone, Copy)]
pub struct Source(pub Grid, pub Numbers);

#[derive(Clone, Copy)]
pub enum Numbers {
    /// From -n to n: small n, so that points often meet, lie on one line or are opposite.
    Within(i32),
    /// The same, each point lengthened by a factor of its own, so that its numbers are large too.
    Lengthened(i32),
    /// The limits, next to them, 0 and 1.
    Limits,
    /// The limits, just beyond them, and the ends of i32.
    Beyond,
}

fn point(random: &mut Random, Source(grid, numbers): Source) -> Point {
    let limit = grid.limit();
    let limits = [-limit, 1 - limit, -1, 0, 1, limit - 1, limit, limit / 2];
    let beyond = [-limit, limit, -limit - 1, limit + 1, i32::MIN, i32::MAX];
    match numbers {
        Numbers::Within(size) => random.point(size),
        Numbers::Lengthened(size) => {
            // Up to six times such a number is still on the grid, as `query` wants it.
            let factor = random.between(1, limit / 6 / size);
            random.point(size).map(|k| factor * k)
        }
        Numbers::Limits => [0; 3].map(|_| random.pick(&limits)),
        Numbers::Beyond => [0; 3].map(|_| random.pick(&beyond)),
    }
}

/// aP + bQ, cut to what an i32 holds.
fn sum(a: i32, p: Point, b: i32, q: Point) -> Point {
    let cut = |k: i64| k.clamp(i32::MIN.into(), i32::MAX.into()) as i32;
    [0, 1, 2].map(|k| cut(i64::from(a) * i64::from(p[k]) + i64::from(b) * i64::from(q[k])))
}

/// Halves the point while it is beyond the grid and this leaves its direction as it is.
fn shortened(limit: i32, mut p: Point) -> Point {
    while p.iter().any(|k| !(-limit..=limit).contains(k)) && p.iter().all(|k| k % 2 == 0) {
        p = p.map(|k| k / 2);
    }
    p
}

fn parallel(p: Point, q: Point) -> bool {
    let [p, q] = [p, q].map(|v| v.map(i128::from));
    (0..3).all(|k| p[k] * q[(k + 1) % 3] == p[(k + 1) % 3] * q[k])
}

/// Up to `n` points of which no two neighbours, the last and the first among them, have the same or
/// opposite directions (unless the source has no such points at hand).
pub fn ring(random: &mut Random, source: Source, n: usize) -> Vec<Point> {
    let mut ring = vec![point(random, source)];
    while ring.len() < n {
        let mut next = point(random, source);
        for _ in 0..20 {
            let closes = ring.len() + 1 < n || !parallel(next, ring[0]);
            if closes && !parallel(next, ring[ring.len() - 1]) {
                break;
            }
            next = point(random, source);
        }
        ring.push(next);
    }
    ring
}

/// The sheet of an outline and a known point, with a second one or none, and queries to it. The first
/// query is opposite the known point.
pub fn sheet_and_queries(
    random: &mut Random,
    source: Source,
    most: usize,
    count: usize,
) -> (Sheet, Vec<Point>) {
    let (mut sheet, queries) = plain_and_queries(random, source, most, count);
    sheet.second = second_point(random, source, &sheet);
    (sheet, queries)
}

/// The same without a second point.
pub fn plain_and_queries(
    random: &mut Random,
    source: Source,
    most: usize,
    count: usize,
) -> (Sheet, Vec<Point>) {
    let vertices = outline(random, source, most);
    let known = known_point(random, source, &vertices);
    let mut queries: Vec<Point> = (0..count).map(|_| query(random, source, known, &vertices)).collect();
    queries.iter_mut().take(1).for_each(|first| *first = sum(-1, known, 0, known));
    (Sheet::new(known, &vertices).on(source.0), queries)
}

/// A ring as it is, walked out and back, walked twice, two rings joined by a corridor, or a ring
/// with a vertex that lengthens, repeats, turns round or halves what stands before it.
fn outline(random: &mut Random, source: Source, most: usize) -> Vec<Point> {
    let n = 3 + random.below(most - 2);
    let mut walk = ring(random, source, n);
    match random.below(8) {
        0 => {
            let back: Vec<Point> = walk[1..n - 1].iter().rev().copied().collect();
            walk.extend(back);
        }
        1 => walk.extend(walk.clone()),
        2 => {
            let m = 3 + random.below(4);
            let other = ring(random, source, m);
            walk.push(walk[0]);
            walk.extend(&other);
            walk.push(other[0]);
        }
        3 => {
            let i = random.below(n);
            let (a, b) = (walk[i], walk[(i + 1) % n]);
            walk.insert(i + 1, sum(random.between(-2, 2), a, random.between(0, 1), b));
        }
        _ => {}
    }
    walk
}

/// A point that the outline accepts, if a few attempts find one; now and then one that it refuses.
fn known_point(random: &mut Random, source: Source, vertices: &[Point]) -> Point {
    if random.once_in(16) {
        let (i, a, b) = (random.below(vertices.len()), random.between(-2, 2), random.between(-2, 2));
        return sum(a, vertices[i], b, vertices[(i + 1) % vertices.len()]);
    }
    let mut known = point(random, source);
    for _ in 0..12 {
        if reference::judge(&Sheet::new(known, vertices).on(source.0).bytes(), [0; 3]).number != 16 {
            break;
        }
        known = if random.once_in(2) { random.point(9) } else { point(random, source) };
    }
    known
}

/// None, or a point that passes if a few attempts find one; now and then one that does not.
fn second_point(random: &mut Random, source: Source, sheet: &Sheet) -> Option<Point> {
    if random.once_in(2) {
        return None;
    }
    if random.once_in(16) {
        return Some(query(random, source, sheet.known, &sheet.vertices));
    }
    let candidates: Vec<Point> = (0..12).map(|_| point(random, source)).collect();
    let chosen = reference::choose(&sheet.bytes(), &points_bytes(&candidates));
    (chosen.number == 0).then(|| candidates[chosen.place])
}

/// A query that is likely to meet something: see the comments.
pub fn query(random: &mut Random, source: Source, known: Point, vertices: &[Point]) -> Point {
    let i = random.below(vertices.len());
    let (a, b) = (vertices[i], vertices[(i + 1) % vertices.len()]);
    let (s, t) = (random.between(1, 3), random.between(1, 3));
    let query = match random.below(12) {
        // the known point's own direction, and its opposite
        0 => sum(s, known, 0, a),
        1 => sum(-s, known, 0, a),
        // a vertex, and the opposite of a vertex
        2 => sum(s, a, 0, b),
        3 => sum(-s, a, 0, b),
        // on a side, on its great circle, opposite the side
        4 => sum(s, a, t, b),
        5 => sum(s, a, -t, b),
        6 => sum(-s, a, -t, b),
        // in one plane with the known point and a vertex
        7 => sum(s, known, t, a),
        8 => sum(s, known, -t, a),
        9 => sum(-s, known, t, a),
        _ => point(random, source),
    };
    shortened(source.0.limit(), query)
}
