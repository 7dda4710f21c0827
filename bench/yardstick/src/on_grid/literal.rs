//! P2 as it is written: for each edge of a run that is not skipped, whether the query is on it, and document 01's four
//! turns.

use super::feed;
use super::outline::Outline;
use super::vector::{cross, turn, within, Edge};
use crate::{boundary, by_parity, Answer, Point};

fn on_edge(edge @ (a, b): Edge, p: Point) -> bool {
    turn(a, b, p) == 0 && within(edge, cross(a, b), p)
}

fn crosses(x: Point, p: Point, (a, b): Edge) -> bool {
    let (s1, s2, s3, s4) = (turn(x, p, a), turn(x, p, b), turn(a, b, x), turn(a, b, p));
    (s1 >= 0 && s2 < 0 && s3 < 0 && s4 > 0) || (s1 < 0 && s2 >= 0 && s3 > 0 && s4 < 0)
}

fn verdict(outline: &Outline, query: Point) -> Answer {
    let mut crossed = 0;
    for (first, vertices) in outline.runs(cross(outline.known, query)) {
        for (i, ends) in vertices.windows(2).enumerate() {
            let edge = (ends[0], ends[1]);
            if on_edge(edge, query) && outline.border(edge) {
                return boundary(first + i);
            }
            if crosses(outline.known, query, edge) {
                crossed += 1;
            }
        }
    }
    by_parity(crossed)
}

#[inline(never)]
pub fn feed(sheet: &[u8], queries: &[u8], results: &mut [u8]) -> Answer {
    feed::feed(sheet, queries, results, verdict)
}
