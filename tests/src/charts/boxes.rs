//! Document 02's P2: which runs are skipped.

use super::{all_give, chart};
use crate::Point;

/// Document 02, P2, worked out by hand, for one run. From X = (1,0,0) to P = (x,y,z) the plane's normal X×P
/// is (0,-z,y).
///
/// For (-1,0,-1) it is (0,1,0). In the first box y goes from 0 to 1, in the second from -1 to 0: the least
/// sum is 0, or the greatest. So neither is skipped, and as side 0 ends at the query the answer is 3, place
/// 0, with one side looked at. If touching were enough to skip, both would answer 1. So it is with K13's
/// corner without its last vertex: the normal is (0,4,0), y goes from -2 to 0, and sides 0 and 1 are crossed.
///
/// In the fourth box y goes from 1 to 3 and z is 5. The normals (0,-1,-1) and (0,1,1) give sums from -8 to -6
/// and from 6 to 8: skipped. In the last, y goes from 2 to 6 and z from 1 to 5. With (0,1,-1) every vertex
/// has a sum above 0, but the box's sums begin at -3: not skipped.
///
/// With P4's second point the plane for the opposite of X goes through that. From (1,-1,1) to (-2,0,0) the
/// normal is (0,-2,-2). From (1,-2,-5) it is (0,10,-4): y = 1, 2 and 3 give the sums -10, 0 and 10.
#[test]
fn boxes() {
    let above = [[-1, 1, -1], [-1, 0, -1], [-1, 1, 0]];
    let below = [[-1, -1, -1], [-1, 0, -1], [-1, -1, 0]];
    let corner = [[-4, -2, 1], [0, 0, 1], [4, -2, 1]];
    let apart = [[0, 1, 5], [1, 2, 5], [0, 3, 5]];
    let slanting = [[0, 2, 1], [1, 6, 5], [0, 6, 1]];
    all_give(&[
        chart("a plane that touches a box from below", &above, [1, 0, 0], [-1, 0, -1], (3, 0, 0)).looked(1),
        chart("a plane that touches a box from above", &below, [1, 0, 0], [-1, 0, -1], (3, 0, 0)).looked(1),
        chart("a plane that touches a corner", &corner, [-2, 0, 1], [2, 0, 1], (1, 0, 2)).looked(3),
        chart("a box below", &apart, [1, 0, 0], [0, -1, 1], (1, 0, 0)).looked(0),
        chart("a box above", &apart, [1, 0, 0], [0, 1, -1], (1, 0, 0)).looked(0),
        chart("no plane", &apart, [1, 0, 0], [2, 0, 0], (1, 0, 0)).looked(3),
        chart("opposite", &apart, [1, 0, 0], [-2, 0, 0], (18, 0, 0)).looked(0),
        chart("opposite, box apart", &apart, [1, 0, 0], [-2, 0, 0], (1, 0, 0)).second([1, -1, 1]).looked(0),
        chart("opposite, box met", &apart, [1, 0, 0], [-2, 0, 0], (1, 0, 0)).second([1, -2, -5]).looked(3),
        chart("a plane through a box, past the vertices", &slanting, [1, 0, 0], [0, -1, -1], (1, 0, 0))
            .looked(3),
    ]);
}

/// The same for two runs. Vertex 0 is (2,3,5), then come (1,2,5) and (0,1,5) in turn up to vertex 32. X is
/// (1,0,0).
///
/// With 33 sides the last run is side 32 alone, from (0,1,5) back to (2,3,5). For (-1,5,10) the normal is
/// (0,-10,5), and y = 1, 2 and 3 give the sums 15, 5 and -5. No run is skipped, and sides 0 (by the second
/// pattern) and 32 (by the first) are crossed. Without vertex 0 the last box would be skipped.
///
/// With (0,-1,5) as vertex 33 the last run is sides 32 and 33. In the first box y goes from 1 to 3 and z is
/// 5, in the second y begins at -1. For the query at vertex 33 the sums are -5y - z, which is 0 there; for
/// the last query -y - z; for the others, if there is a plane, they have the sign of -y. So the first run is
/// skipped, and for the last query both are. At y = 0 side 32 passes through (0,0,5) and side 33 through
/// (1,0,10).
#[test]
fn two_runs() {
    let vertex = |i: usize| [[2, 3, 5], [1, 2, 5], [0, 1, 5]][if i == 0 { 0 } else { 2 - i % 2 }];
    let short: Vec<Point> = (0..33).map(vertex).collect();
    let long = [&short[..], &[[0, -1, 5]]].concat();
    all_give(&[
        chart("past vertex 0", &short, [1, 0, 0], [-1, 5, 10], (1, 0, 2)).looked(33),
        chart("at vertex 33", &long, [1, 0, 0], [0, -1, 5], (3, 32, 0)).looked(1),
        chart("on side 32", &long, [1, 0, 0], [0, 0, 1], (3, 32, 0)).looked(1),
        chart("on side 33", &long, [1, 0, 0], [1, 0, 10], (3, 33, 0)).looked(2),
        chart("past side 33", &long, [1, 0, 0], [1, 0, 20], (2, 0, 1)).sum(1).looked(2),
        chart("past sides 33 and 32", &long, [1, 0, 0], [-1, 0, 1], (1, 0, 2)).looked(2),
        chart("the known point's direction", &long, [1, 0, 0], [5, 0, 0], (1, 0, 0)).looked(34),
        chart("opposite", &long, [1, 0, 0], [-1, 0, 0], (1, 0, 0)).second([-1, 0, 1]).looked(2),
        chart("both runs apart", &long, [1, 0, 0], [0, -1, 1], (1, 0, 0)).looked(0),
    ]);
}
