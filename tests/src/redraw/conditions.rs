//! For each condition of document 02's P12 an outline that shows what it is for. All worked out by hand.

use super::*;
use crate::reference;
use crate::sheet::GRIDS;

/// Both sheets are accepted, and the verdict is not the same.
fn changes(
    query: Point,
    (known, vertices): (Point, &[Point]),
    (other, redrawn): (Point, &[Point]),
    verdicts: [u32; 2],
) {
    for grid in GRIDS {
        let sheets =
            [Sheet::new(known, vertices), Sheet::new(other, redrawn)].map(|sheet| sheet.on(grid).bytes());
        assert_eq!(sheets.each_ref().map(|sheet| number(sheet, query)), verdicts, "{redrawn:?}");
        assert_eq!(
            sheets.each_ref().map(|sheet| reference::judge(sheet, query).number),
            verdicts,
            "{redrawn:?}"
        );
    }
}

const CENTRE: Point = [1, 1, 1];

/// Sides 0 and 1 of a line walked out and back are the halves of side 2: with (-1,1,0) added there too, each
/// is walked twice and nothing is border.
#[test]
fn half_was_already_a_side() {
    let line = [[0, 1, 0], [-1, 1, 0], [-1, 0, 0]];
    let added = with_vertex(&line, 2, [-1, 1, 0]);
    assert_eq!(added, [[0, 1, 0], [-1, 1, 0], [-1, 0, 0], [-1, 1, 0]]);
    changes([-1, 0, 0], ([0, 0, 1], &line), ([0, 0, 1], &added), [3, 1]);
}

/// The octant with a corridor from (1,0,0) out to (2,-1,-2) and back: with a vertex on the way out alone, no two
/// of its sides join the same directions, and it is border.
#[test]
fn added_one_way() {
    let corridor = [[1, 0, 0], [2, -1, -2], [1, 0, 0], [0, 1, 0], [0, 0, 1]];
    let m = [3, -1, -2];
    let one_way = [[1, 0, 0], m, [2, -1, -2], [1, 0, 0], [0, 1, 0], [0, 0, 1]];
    changes(m, (CENTRE, &corridor), (CENTRE, &one_way), [2, 3]);
    let both = with_vertex(&corridor, 0, m);
    assert_eq!(both, [[1, 0, 0], m, [2, -1, -2], m, [1, 0, 0], [0, 1, 0], [0, 0, 1]]);
    changes(m, (CENTRE, &corridor), (CENTRE, &both), [2, 2]);
}

/// A vertex beyond the end of side 0, on its great circle; and one off the circle.
#[test]
fn added_beside_the_side() {
    changes([-1, 4, 0], (CENTRE, &OCTANT), (CENTRE, &[[1, 0, 0], [-1, 2, 0], [0, 1, 0], [0, 0, 1]]), [2, 3]);
    changes([3, 3, -1], (CENTRE, &OCTANT), (CENTRE, &[[1, 0, 0], [1, 1, -1], [0, 1, 0], [0, 0, 1]]), [2, 1]);
}

/// A vertex turned to its opposite: from (1,1,1) to (-1,-1,1) all is north of the new outline.
#[test]
fn lengthened_backwards() {
    changes([-1, -1, 1], (CENTRE, &OCTANT), (CENTRE, &[[1, 0, 0], [0, 1, 0], [0, 0, -1]]), [2, 1]);
}

/// Nine numbers started at the second of the first vertex: (0,0,1), in the first outline's far corner, is
/// beyond side 2 of it, and on the near side of the other's.
#[test]
fn cut_inside_a_vertex() {
    let vertices = [[3, 1, 1], [1, 3, 1], [1, 1, 3]];
    let mut numbers = vertices.concat();
    numbers.rotate_left(1);
    let cut: Vec<Point> = numbers.chunks(3).map(|p| p.try_into().expect("three numbers")).collect();
    assert_eq!(cut, [[1, 1, 1], [3, 1, 1], [1, 3, 3]]);
    changes([0, 0, 1], ([1, 1, 2], &vertices), ([1, 1, 2], &cut), [2, 1]);
}

/// Known points on one line, but opposite; and not on one line.
#[test]
fn other_known_point() {
    changes([3, 2, 1], (CENTRE, &OCTANT), ([-1, -1, -1], &OCTANT), [1, 2]);
    changes([3, 2, 1], (CENTRE, &OCTANT), ([1, 1, -1], &OCTANT), [1, 2]);
}
