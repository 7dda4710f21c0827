//! Two long lists, and the largest sheet.

use super::{all_give, chart, give};
use crate::sheet::{Sheet, GRIDS, OCTANT};
use crate::Point;

/// A square at the height 2^20 with 1,024 sides on each of its four edges, seen from the point (0,0,1) in its middle:
/// its corners are vertices 0, 1,024, 2,048 and 3,072, at (-1,-1), (1,-1), (1,1) and (-1,1) times 2^19. Neighbours
/// differ and have one height, so that no two have the same or the opposite direction; the planes of the sides pass the
/// middle by.
fn ring() -> Vec<Point> {
    let along = |j: i32| (j - 512) * 1024;
    let vertex = |i: i32| {
        let j = i % 1024;
        let (x, y) = [(j, 0), (1024, j), (1024 - j, 1024), (0, 1024 - j)][i as usize / 1024];
        [along(x), along(y), 1 << 20]
    };
    (0..4096).map(vertex).collect()
}

/// The arc to (1,0,0) leaves the ring through vertex 1,536, at y = 0, and the arc to (1,1,-2) through vertex 2,048, at
/// x = y: a touched corner that is passed counts once. Vertex 2,048 has the direction (1,1,2) and ends side 2,047;
/// vertex 0 begins side 0 and ends side 4,095, which reaches it from (-2^19, -2^19 + 1,024): half way lies
/// y = -523,776.
#[test]
fn round_the_ring() {
    let cases = [
        ("ring, middle", [0, 0, 1], (1, 0, 0)),
        ("ring, across", [1, 0, 0], (2, 0, 1)),
        ("ring, across a corner", [1, 1, -2], (2, 0, 1)),
        ("ring, corner", [1, 1, 2], (3, 2047, 0)),
        ("ring, first", [-1, -1, 2], (3, 0, 0)),
        ("ring, last", [-524_288, -523_776, 1_048_576], (3, 4095, 0)),
        ("ring, opposite", [0, 0, -1], (18, 0, 0)),
    ];
    for grid in GRIDS {
        let sheet = Sheet::new([0, 0, 1], &ring()).on(grid).bytes();
        cases.into_iter().for_each(|(case, query, answer)| give(case, &sheet, query, answer));
    }
}

/// The octant's vertices again and again: after 1,365 rounds there are 4,095, and each side of the octant is there
/// 1,365 times. K2; K5, which crosses a side of the octant, once for each round; a point on the octant's side 2 alone.
/// With one vertex more the last side joins (1,0,0) to itself.
#[test]
fn round_the_octant() {
    let coil: Vec<Point> = (0..4096).map(|i| OCTANT[i % 3]).collect();
    let whole = &coil[..4095];
    all_give(&[
        chart("coil, inside", whole, [1, 1, 1], [3, 2, 1], (1, 0, 0)),
        chart("coil, across", whole, [1, 1, 1], [1, 1, -1], (2, 0, 1365)).sum(-1365),
        chart("coil, side", whole, [1, 1, 1], [1, 0, 1], (3, 2, 0)),
        chart("coil, one more", &coil, [1, 1, 1], [3, 2, 1], (13, 4095, 0)),
    ]);
}

/// A name of 120 bytes, the ring's 4,096 vertices and a second point: 32 + 120 + 49,152 + 15 bytes. The field of the
/// vertices begins at 11 + 123 + 15. The planes of the ring's sides are 2x = z, 2x = -z, 2y = z and 2y = -z, so the
/// second point (1,0,8) is off them, and inside.
#[test]
fn largest_sheet() {
    let ends = [(49_303, (20, 149, 0)), (49_304, (1, 0, 0)), (49_318, (20, 49_304, 0)), (49_319, (1, 0, 0))];
    for grid in GRIDS {
        let ring = Sheet::new([0, 0, 1], &ring()).on(grid).with_second([1, 0, 8]);
        let sheet = Sheet { zone: u32::MAX, charset: 3, name: vec![65; 120], ..ring }.bytes();
        assert_eq!(sheet.len(), 49_319);
        for (end, answer) in ends {
            give("largest sheet, its beginning", &sheet[..end], [0, 0, 1], answer);
        }
        give("largest sheet, and a byte", &[&sheet[..], &[6]].concat(), [0, 0, 1], (24, 49_319, 0));
    }
}
