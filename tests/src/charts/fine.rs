//! Document 02's P8: charts whose numbers need the fine grid, and what the tag before the vertices does.

use super::{all_give_on, chart, give};
use crate::compare::Tally;
use crate::reference::{self, vector};
use crate::sheet::{field, octant, octant_pair, points_bytes, Grid, Sheet, GRIDS};
use crate::turns::float_turn;
use crate::Point;

const TRIANGLE: [Point; 3] =
    [[33_885_667, 58_856_501, -7_457_287], [-1_474_815, 60_437_165, 20_868_539], [1, 1, 67_108_864]];
const KNOWN: Point = [8_102_712, 29_823_416, 20_130_028];

/// F1, F2 and F3: queries at side 0 of the triangle, for which the turn in floats has the wrong sign.
pub const QUERIES: [Point; 3] = [
    [12_479_310, 58_176_636, 9_156_715],
    [19_931_542, 61_117_030, 4_254_537],
    [16_205_426, 59_646_833, 6_705_626],
];

pub fn triangle() -> Sheet {
    Sheet::new(KNOWN, &TRIANGLE).on(Grid::Fine)
}

/// The turns with side 0 are 2, -2 and 0. The known point is on its positive side, so the arc to F2 crosses it by the
/// second pattern. A plane through the known point, inside a triangle, parts the vertices: the box is not skipped.
#[test]
fn f1_to_f3() {
    let [f1, f2, f3] = QUERIES;
    let charts = [
        chart("F1", &TRIANGLE, KNOWN, f1, (1, 0, 0)),
        chart("F2", &TRIANGLE, KNOWN, f2, (2, 0, 1)).sum(-1),
        chart("F3", &TRIANGLE, KNOWN, f3, (3, 0, 0)),
    ];
    all_give_on(Grid::Fine, &charts);
    all_give_on(Grid::Coarse, &QUERIES.map(|query| chart("as tag 5", &TRIANGLE, KNOWN, query, (11, 0, 0))));
    let [a, b, _] = TRIANGLE;
    for (query, turn, float) in [(f1, 2, -4_194_304.0), (f2, -2, 3_145_728.0), (f3, 0, 2_097_152.0)] {
        assert_eq!(reference::turn(vector(a), vector(b), vector(query)), turn);
        assert_eq!(float_turn(a, b, query), float);
    }
}

/// A query past the coarse grid's limit is on the fine grid.
#[test]
fn past_the_coarse_grid() {
    for (grid, number) in [(Grid::Coarse, 17), (Grid::Fine, 1)] {
        give("past the coarse grid", &octant().on(grid).bytes(), [1_048_577, 1, 1], (number, 0, 0));
    }
}

/// Number, place and count for K2, which is inside the octant.
fn judge(sheet: &[u8]) -> (u32, usize, u32) {
    let answer = Tally::default().compare(sheet, [3, 2, 1]).answer;
    (answer.number, answer.place, answer.count)
}

/// In the octant's 69 bytes the vertices' field begins at 30: tags 5 and 7 are allowed there and nowhere else. Its
/// length and its end are checked as before.
#[test]
fn tags() {
    for grid in GRIDS {
        let sheet = octant().on(grid).bytes();
        for (at, tag) in [0, 7, 11, 15, 30].into_iter().flat_map(|at| (0..=255).map(move |tag| (at, tag))) {
            let changed = [&sheet[..at], &[tag], &sheet[at + 1..]].concat();
            let good = tag == sheet[at] || (at == 30 && [5, 7].contains(&tag));
            assert_eq!(judge(&changed), if good { (1, 0, 0) } else { (21, at, 0) });
        }
        for end in 30..69 {
            assert_eq!(judge(&sheet[..end]), (20, 30, 0));
        }
        for length in [0, 24, 35, 37, 49_164] {
            let vertices = field(grid.tag(), &vec![1; length]);
            assert_eq!(judge(&[&sheet[..30], &vertices].concat()), (22, 30, 0));
        }
    }
}

/// After the vertices only tag 6 is a field, and after that none is: not the vertices of either grid.
#[test]
fn tags_after_the_vertices() {
    for (grid, other) in [(Grid::Coarse, Grid::Fine), (Grid::Fine, Grid::Coarse), (Grid::Fine, Grid::Fine)] {
        let [plain, pair] = [octant(), octant_pair()].map(|sheet| sheet.on(grid).bytes());
        let vertices = field(other.tag(), &points_bytes(&octant().vertices));
        assert_eq!((judge(&plain), judge(&pair)), ((1, 0, 0), (1, 0, 0)));
        assert_eq!(judge(&[&plain[..], &vertices].concat()), (24, 69, 0));
        assert_eq!(judge(&[&pair[..], &vertices].concat()), (24, 84, 0));
        assert_eq!(judge(&[&plain[..], &vertices, &pair[69..]].concat()), (24, 69, 0));
        assert_eq!(judge(&[&plain[..30], &pair[69..], &vertices].concat()), (21, 30, 0));
    }
}
