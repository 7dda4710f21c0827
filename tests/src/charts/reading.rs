//! The octant's sheet with a second point, cut and with bytes changed, on both grids. Every other cut and byte is
//! compared with the reference (`damage`).
//!
//! Its fields begin at 0 (zone number), 7 (character set), 11 (name), 15 (known point), 30 (vertices) and 69 (second
//! point); each has its tag, two bytes of length and its body. The known point's numbers stand at 18, 22 and 26, the
//! vertices at 33, 45 and 57, the second point's numbers at 72, 76 and 80.

use super::give;
use crate::sheet::{octant_pair, GRIDS};

/// The first bytes of the sheet, those that are changed, and the answer to K2.
type Row = (&'static str, usize, &'static [(usize, u8)], (u32, usize, u32));

fn all_read(rows: &[Row]) {
    for (grid, &(case, end, changes, answer)) in
        GRIDS.into_iter().flat_map(|g| rows.iter().map(move |r| (g, r)))
    {
        let mut sheet = octant_pair().on(grid).bytes();
        changes.iter().for_each(|&(at, byte)| sheet[at] = byte);
        give(case, &sheet[..end], [3, 2, 1], answer);
    }
}

#[test]
fn cuts() {
    all_read(&[
        ("nothing", 0, &[], (20, 0, 0)),
        ("in the zone number's head", 2, &[], (20, 0, 0)),
        ("in the zone number", 6, &[], (20, 0, 0)),
        ("before the character set", 7, &[], (20, 7, 0)),
        ("in the character set", 10, &[], (20, 7, 0)),
        ("before the name", 11, &[], (20, 11, 0)),
        ("in the name", 14, &[], (20, 11, 0)),
        ("before the known point", 15, &[], (20, 15, 0)),
        ("in the known point", 29, &[], (20, 15, 0)),
        ("before the vertices", 30, &[], (20, 30, 0)),
    ]);
}

/// 192 * 256 + 12 is 49,164, the length of 4,097 vertices.
#[test]
fn lengths() {
    all_read(&[
        ("zone number of 5", 69, &[(2, 5)], (22, 0, 0)),
        ("character set of 2", 69, &[(9, 2)], (22, 7, 0)),
        ("name of 0", 69, &[(13, 0)], (22, 11, 0)),
        ("name of 121", 69, &[(13, 121)], (22, 11, 0)),
        ("known point of 11", 69, &[(17, 11)], (22, 15, 0)),
        ("vertices of 24", 69, &[(32, 24)], (22, 30, 0)),
        ("vertices of 37", 69, &[(32, 37)], (22, 30, 0)),
        ("vertices of 49,164", 69, &[(31, 192), (32, 12)], (22, 30, 0)),
        ("second point of 11", 84, &[(71, 11)], (22, 69, 0)),
    ]);
}

#[test]
fn charsets() {
    all_read(&[
        ("character set 0", 69, &[(10, 0)], (23, 7, 0)),
        ("character set 2", 69, &[(10, 2)], (1, 0, 0)),
        ("character set 3", 69, &[(10, 3)], (1, 0, 0)),
        ("character set 4", 69, &[(10, 4)], (23, 7, 0)),
    ]);
}

/// Two refusals at once: head and tag; tag and length; length and body; character set and the next field; bytes after
/// the last field and a vertex of zeros; the known point and the second.
#[test]
fn pairs() {
    all_read(&[
        ("20 and 21", 2, &[(0, 9)], (20, 0, 0)),
        ("21 and 22", 69, &[(0, 9), (2, 5)], (21, 0, 0)),
        ("22 and 20", 5, &[(2, 5)], (22, 0, 0)),
        ("23 and 20", 12, &[(10, 9)], (23, 7, 0)),
        ("24 and 12", 70, &[(69, 0), (36, 0)], (24, 69, 0)),
        ("16 and 19", 84, &[(21, 0), (83, 0)], (16, 1, 0)),
    ]);
}

/// Vertex 0 is (2^26 + 1, 0, 0) and (0, 0, 0); vertex 1 is (2, 0, 0) and (-2^20, 0, 0), as 255, 240, 0, 0; the known
/// point is (0, 0, 0) and (0, 1, 1); the second point (1, 1, 1), (1, 1, 0) and (0, 0, 0).
#[test]
fn points() {
    all_read(&[
        ("11", 69, &[(33, 4)], (11, 0, 0)),
        ("12", 69, &[(36, 0)], (12, 0, 0)),
        ("13", 69, &[(48, 2), (52, 0)], (13, 0, 0)),
        ("14", 69, &[(45, 255), (46, 240), (52, 0)], (14, 0, 0)),
        ("15", 69, &[(21, 0), (25, 0), (29, 0)], (15, 0, 0)),
        ("16", 69, &[(21, 0)], (16, 1, 0)),
        ("19, the known point", 84, &[(83, 1)], (19, 0, 0)),
        ("19, on a great circle", 84, &[(83, 0)], (19, 0, 0)),
        ("19, all zero", 84, &[(75, 0), (79, 0), (83, 0)], (19, 0, 0)),
    ]);
}
