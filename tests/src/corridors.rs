//! Outlines of which every side holds the query, each walked an even number of times: document 02's P3 at its dearest.

use crate::sheet::{Grid, Sheet};
use crate::Point;

mod tests;

pub struct Corridors {
    pub name: &'static str,
    pub sheet: Sheet,
    pub query: Point,
}

/// The direction s·q + k·r.
fn mixed(s: i32, q: Point, k: i32, r: Point) -> Point {
    [0, 1, 2].map(|i| s * q[i] + k * r[i])
}

/// On the great circle through q and r, to and fro past q by ever larger steps, and all the way back.
fn out_and_back(s: i32, q: Point, r: Point, sides: usize) -> Vec<Point> {
    let step = |i: i32| if i % 2 == 0 { i / 2 + 1 } else { -(i / 2) - 1 };
    let out: Vec<Point> = (0..=sides as i32 / 2).map(|i| mixed(s, q, step(i), r)).collect();
    let back = out[1..sides / 2].iter().rev();
    out.iter().chain(back).copied().collect()
}

/// From the centre to each end and back.
fn star(centre: Point, ends: impl Iterator<Item = Point>) -> Vec<Point> {
    ends.flat_map(|end| [centre, end]).collect()
}

/// A multiple of 8 sides. No two ends of a star have one direction.
pub fn corridors(grid: Grid, sides: usize) -> Vec<Corridors> {
    let limit = grid.limit();
    let (q, r, s) = ([7, 5, 3], [11, -13, 17], limit / 131_072);
    let half = sides as i32 / 2;
    let known = [3, -5, 7];
    let far = [limit - 11, 5 - limit, limit / 7];
    let spread = |i: i32| [limit / 2 - 127 * i, 61 * i - limit / 3, 31 * (i % 97) - limit / 5 + i];
    let back = || (0..half / 2).chain((0..half / 2).rev());
    let again = || (0..half / 2).chain(0..half / 2);
    let in_plane = |i: i32| [0, limit / 2, i - half / 2];
    let on_circle = |i: i32| mixed(s, q, i + 1, r);
    let (end, pole) = (mixed(s, q, -4, r), [1, 0, 0]);
    let cycle = &out_and_back(s, q, r, sides)[..sides / 2];
    let case = |name, known, vertices: Vec<Point>, query| {
        assert_eq!(vertices.len(), sides);
        Corridors { name, sheet: Sheet::new(known, &vertices).on(grid), query }
    };
    vec![
        case(
            "one class",
            [1, 2, limit / 3],
            [[limit - 1, -5, 3], [limit - 1, 5, 3]].repeat(sides / 2),
            [limit - 1, 0, 3],
        ),
        case("on one circle", known, out_and_back(s, q, r, sides), q),
        case("on the equator", known, out_and_back(limit / 4_096, [1, 0, 0], [0, 1, 0], sides), [1, 0, 0]),
        case("on a meridian", known, out_and_back(limit / 4_096, [0, 0, 1], [1, 0, 0], sides), [0, 0, 1]),
        case(
            "a circle through an axis",
            known,
            out_and_back(limit / 4_096, [0, 1, 0], [1, 0, 1], sides),
            [0, 1, 0],
        ),
        case("a circle, walked twice", known, cycle.repeat(2), q),
        case("a star", far, star(q, (0..half).map(spread)), q),
        case("a star, and back", far, star(q, back().map(spread)), q),
        case("a star, walked twice", far, star(q, again().map(spread)), q),
        case("a star in a plane", known, star(pole, (0..half).map(in_plane)), pole),
        case("a star in a plane, walked twice", known, star(pole, again().map(in_plane)), pole),
        case("a fan", known, star(end, (0..half).map(on_circle)), q),
        case("a fan, walked twice", known, star(end, again().map(on_circle)), q),
    ]
}
