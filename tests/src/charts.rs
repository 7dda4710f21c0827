//! Document 01's charts, with the answers typed from its tables: the library and the reference both
//! have to give them. `boxes` has those of document 02's P2, `fine` those of P8 that need the fine grid,
//! `order` which of several refusals is given, `reading` the sheet byte by byte, `long` lists of about
//! 4,096 vertices. What C cannot reach is run by the program `charts`.

use crate::compare::Tally;
use crate::sheet::{octant, Grid, Sheet, GRIDS, OCTANT};
use crate::{library, reference, Answer, Point, Single};

mod boxes;
pub mod fine;
mod long;
mod order;
mod reading;

struct Chart {
    case: &'static str,
    vertices: Vec<Point>,
    known: Point,
    second: Option<Point>,
    query: Point,
    /// Number, place, count.
    answer: (u32, usize, u32),
    /// Document 02's sum and sides looked at, worked out by hand.
    sum: i32,
    looked: u32,
}

/// Without a second point, with a sum of 0, and no run skipped.
fn chart(
    case: &'static str,
    vertices: &[Point],
    known: Point,
    query: Point,
    answer: (u32, usize, u32),
) -> Chart {
    let looked = match answer {
        (1 | 2, ..) => vertices.len(),
        (3, place, _) => place + 1,
        _ => 0,
    };
    let (vertices, looked) = (vertices.to_vec(), looked as u32);
    Chart { case, vertices, known, second: None, query, answer, sum: 0, looked }
}

impl Chart {
    fn second(self, second: Point) -> Chart {
        Chart { second: Some(second), ..self }
    }

    fn sum(self, sum: i32) -> Chart {
        Chart { sum, ..self }
    }

    fn looked(self, looked: u32) -> Chart {
        Chart { looked, ..self }
    }
}

/// On both grids.
fn all_give(charts: &[Chart]) {
    GRIDS.into_iter().for_each(|grid| all_give_on(grid, charts));
}

fn all_give_on(grid: Grid, charts: &[Chart]) {
    for chart in charts {
        let &Chart { case, known, second, query, answer: (number, place, count), sum, looked, .. } = chart;
        let expected = Single { answer: Answer { number, place, count }, sum, looked };
        let sheet = Sheet { second, ..Sheet::new(known, &chart.vertices).on(grid) }.bytes();
        assert_eq!(reference::single(&sheet, query), expected, "{case}, {grid:?}: reference");
        assert_eq!(library::single(&sheet, query), expected, "{case}, {grid:?}: library");
    }
    println!("charts, {grid:?}: {} compared", charts.len());
}

/// The same for any bytes, where the sum and the sides looked at are left to the reference.
fn give(case: &str, sheet: &[u8], query: Point, (number, place, count): (u32, usize, u32)) {
    let expected = Answer { number, place, count };
    assert_eq!(Tally::default().compare(sheet, query).answer, expected, "{case}, {query:?}");
}

#[test]
fn k1_to_k14() {
    let same = [[1, 0, 0], [2, 0, 0], [0, 0, 1]];
    let corner = [[-4, -2, 1], [0, 0, 1], [4, -2, 1], [0, 5, 1]];
    let below = [[1, 0, 0], [0, 0, -1], [0, 1, 0]];
    all_give(&[
        chart("K1", &OCTANT, [1, 1, 1], [1, 1, 1], (1, 0, 0)),
        chart("K2", &OCTANT, [1, 1, 1], [3, 2, 1], (1, 0, 0)),
        chart("K3", &OCTANT, [1, 1, 1], [1, 1, 0], (3, 0, 0)),
        chart("K4", &OCTANT, [1, 1, 1], [1, 0, 0], (3, 0, 0)),
        chart("K5", &OCTANT, [1, 1, 1], [1, 1, -1], (2, 0, 1)).sum(-1),
        chart("K6", &OCTANT, [1, 1, 1], [-1, -1, 1], (2, 0, 1)).sum(-1),
        chart("K7", &OCTANT, [1, 1, 1], [-1, 1, 0], (2, 0, 1)).sum(-1),
        chart("K8", &OCTANT, [1, 1, 1], [-1, -1, -1], (18, 0, 0)),
        chart("K9", &OCTANT, [1, -1, 0], [1, 1, 1], (16, 0, 0)),
        chart("K10", &same, [1, 1, 1], [1, 1, 1], (13, 0, 0)),
        chart("K11", &OCTANT, [3, 2, 1], [-1, -1, 1], (2, 0, 1)).sum(-1),
        chart("K12", &OCTANT, [1, 1, -1], [3, 2, 1], (2, 0, 1)).sum(1),
        chart("K13", &corner, [-2, 0, 1], [2, 0, 1], (1, 0, 2)),
        chart("K14", &below, [1, 1, -1], [0, 0, 1], (2, 0, 1)).sum(-1),
    ]);
}

/// Document 01's 'run only' charts that are not about the program, with the limit of each grid.
#[test]
fn run_only() {
    GRIDS.into_iter().for_each(give_limits);
    let past = [[1, 0, 2], [0, 1, 1], [-1, 0, 2]];
    let [least, greatest] = [i32::MIN, i32::MAX].map(|k| [[k, 0, 0], [0, 1, 0], [0, 0, 1]]);
    all_give(&[
        chart("after 003", &past, [0, 1, 3], [0, 0, 1], (3, 2, 0)),
        chart("vertex at the least i32", &least, [1, 1, 1], [1, 1, 1], (11, 0, 0)),
        chart("vertex at the greatest i32", &greatest, [1, 1, 1], [1, 1, 1], (11, 0, 0)),
        chart("known point at the least i32", &OCTANT, [1, 1, i32::MIN], [1, 1, 1], (15, 0, 0)),
        chart("known point all zero", &OCTANT, [0, 0, 0], [1, 1, 1], (15, 0, 0)),
        chart("query at the least i32", &OCTANT, [1, 1, 1], [i32::MIN, 1, 1], (17, 0, 0)),
        chart("query all zero", &OCTANT, [1, 1, 1], [0, 0, 0], (17, 0, 0)),
        // Two vertices are 24 bytes and 4,097 are 49,164: lengths that no field of vertices may have.
        chart("2 vertices", &OCTANT[..2], [1, 1, 1], [1, 1, 1], (22, 30, 0)),
        chart("3 vertices", &OCTANT, [1, 1, 1], [1, 1, 1], (1, 0, 0)),
        chart("4,096 vertices", &fan(4096), [1, 1, 4], [1, 1, 4], (1, 0, 0)),
        chart("4,097 vertices", &fan(4097), [1, 1, 4], [1, 1, 4], (22, 30, 0)),
    ]);
}

/// A number at the grid's limit is accepted, and the next one is refused.
fn give_limits(grid: Grid) {
    let most = grid.limit();
    let large = [[most, 0, 0], [0, most, 0], [0, 0, most]];
    let least = [[-most, 0, 0], [0, -most, 0], [0, 0, -most]];
    let both = [[most, -most, 0], [0, most, -most], [most, most, most]];
    let beyond = [[1, 0, 0], [0, most + 1, 0], [0, 0, 1]];
    let under = [[1, 0, 0], [0, 1, 0], [0, 0, -most - 1]];
    let charts = [
        chart("vertices at the limit", &large, [1, 1, 1], [1, 1, 1], (1, 0, 0)),
        chart("vertices at both limits", &both, [1, 0, 0], [0, 0, 0], (17, 0, 0)),
        chart("all at the lower limit", &least, [-most; 3], [-1, -1, -1], (1, 0, 0)),
        chart("known point at the limit", &OCTANT, [most; 3], [1, 1, 1], (1, 0, 0)),
        chart("query at the limit", &OCTANT, [1, 1, 1], [most; 3], (1, 0, 0)),
        chart("query across at the limit", &OCTANT, [1, 1, 1], [most, most, -most], (2, 0, 1)).sum(-1),
        chart("query at the lower limit", &OCTANT, [1, 1, 1], [-most; 3], (18, 0, 0)),
        chart("all at the limit", &large, [most; 3], [most, most, -most], (2, 0, 1)).sum(-1),
        chart("vertex beyond", &beyond, [1, 1, 1], [1, 1, 1], (11, 1, 0)),
        chart("vertex beyond below", &under, [1, 1, 1], [1, 1, 1], (11, 2, 0)),
        chart("known point beyond", &OCTANT, [1, 1, most + 1], [1, 1, 1], (15, 0, 0)),
        chart("known point beyond below", &OCTANT, [1, -most - 1, 1], [1, 1, 1], (15, 0, 0)),
        chart("query beyond", &OCTANT, [1, 1, 1], [1, most + 1, 1], (17, 0, 0)),
        chart("query beyond below", &OCTANT, [1, 1, 1], [1, 1, -most - 1], (17, 0, 0)),
        chart("second point at the limit", &OCTANT, [1, 1, 1], [-1, -1, -1], (2, 0, 1))
            .second([most, 1, 1])
            .sum(-1),
        chart("second point beyond", &OCTANT, [1, 1, 1], [1, 1, 1], (19, 0, 0)).second([most + 1, 1, 1]),
    ];
    all_give_on(grid, &charts);
}

/// n vertices, no two neighbours of one direction, none opposite: (1,0,0) and (0,1,0) in turn, and
/// (0,0,1) last. Its sides all lie on the coordinate planes.
fn fan(n: usize) -> Vec<Point> {
    let mut vertices: Vec<Point> = (0..n).map(|i| OCTANT[i % 2]).collect();
    vertices[n - 1] = OCTANT[2];
    vertices
}

/// Document 02, P6. The third test case of 003 put on the grid goes round (1,1,0) twice, the same way:
/// from (1,1,3), outside, both crossings (sides 4 and 9) are of the first pattern. From (1,1,0) both
/// are of the second. On the boundary the sum is 0, also past side 0 of the octant.
#[test]
fn sums() {
    let wound = [
        [8, 7, 4],
        [7, 4, 5],
        [1, 0, 0],
        [7, 4, -5],
        [4, 7, 0],
        [8, 7, 4],
        [7, 4, 0],
        [4, 7, -5],
        [0, 1, 0],
        [4, 7, 5],
    ];
    all_give(&[
        chart("003, test case 3", &wound, [1, 1, 3], [1, 1, 0], (1, 0, 2)).sum(2),
        chart("003, test case 3, outwards", &wound, [1, 1, 0], [1, 1, 3], (1, 0, 2)).sum(-2),
        chart("boundary past a side", &OCTANT, [1, 1, -1], [0, 1, 1], (3, 1, 0)),
    ]);
}

/// Document 02, P3, worked out by hand. The octant with a corridor from (1,0,0) out to (2,-1,-2) and back: (3,-1,-2)
/// lies on both its sides, and the arc from (1,1,1) crosses side 2 alone, by the second pattern (-1, 5, 1, -2). Walked
/// three times it is border. A copy of the corridor may have longer vectors. (1,0,0) lies on the corridor, sides 0 and
/// 1, and on the border sides 2 and 4. Then a corridor inside the octant, from (0,0,1) to (1,1,0) on side 0 and back:
/// (1,1,1) is on it, and the arc to (1,2,1) crosses both its sides (4, -2, -1, 1) and (-2, 4, 1, -1).
#[test]
fn corridors() {
    let out = [[1, 0, 0], [2, -1, -2], [1, 0, 0], [0, 1, 0], [0, 0, 1]];
    let longer = [[1, 0, 0], [2, -1, -2], [2, 0, 0], [0, 1, 0], [0, 0, 1]];
    let thrice = [[1, 0, 0], [2, -1, -2], [1, 0, 0], [2, -1, -2], [0, 1, 0], [0, 0, 1]];
    let within = [[1, 0, 0], [0, 1, 0], [0, 0, 1], [1, 1, 0], [0, 0, 1]];
    all_give(&[
        chart("on a corridor", &out, [1, 1, 1], [3, -1, -2], (2, 0, 1)).sum(-1),
        chart("on a corridor's longer copy", &longer, [1, 1, 1], [3, -1, -2], (2, 0, 1)).sum(-1),
        chart("on a corridor walked three times", &thrice, [1, 1, 1], [3, -1, -2], (3, 0, 0)),
        chart("where a corridor begins", &out, [1, 1, 1], [1, 0, 0], (3, 2, 0)),
        chart("on a corridor inside", &within, [3, 2, 1], [1, 1, 1], (1, 0, 0)),
        chart("past a corridor inside", &within, [3, 2, 1], [1, 2, 1], (1, 0, 2)),
        chart("where a corridor meets a side", &within, [3, 2, 1], [1, 1, 0], (3, 0, 0)),
        chart("a known point on a corridor's circle", &out, [2, 1, 2], [1, 1, 1], (16, 0, 0)),
    ]);
}

#[test]
fn octant_sheet() {
    let bytes = octant().bytes();
    assert_eq!(bytes.len(), 69);
    assert_eq!(&bytes[..18], b"\x01\0\x04\0\0\0\x07\x02\0\x01\x01\x03\0\x01A\x04\0\x0c");
}
