//! P2 as a good engineer writes it: the normal of the arc's plane once a query, each vertex's side of that plane once,
//! and an edge's own normal only where its ends are not strictly on one side. Elsewhere the edge is not crossed, and
//! cannot hold the query, which lies in the plane.

use super::feed;
use super::outline::Outline;
use super::vector::{cross, dot, within};
use crate::{boundary, by_parity, Answer, Point};

fn verdict(outline: &Outline, query: Point) -> Answer {
    let arc = cross(outline.known, query);
    let mut crossed = 0;
    for (first, vertices) in outline.runs(arc) {
        let mut s1 = dot(arc, vertices[0]);
        for (i, &b) in vertices[1..].iter().enumerate() {
            let s2 = dot(arc, b);
            if !((s1 > 0 && s2 > 0) || (s1 < 0 && s2 < 0)) {
                let a = vertices[i];
                let normal = cross(a, b);
                let s4 = dot(normal, query);
                if s4 == 0 && within((a, b), normal, query) && outline.border((a, b)) {
                    return boundary(first + i);
                }
                if (s1 < 0) != (s2 < 0) {
                    let s3 = dot(normal, outline.known);
                    crossed += u32::from(if s1 < 0 { s3 > 0 && s4 < 0 } else { s3 < 0 && s4 > 0 });
                }
            }
            s1 = s2;
        }
    }
    by_parity(crossed)
}

#[inline(never)]
pub fn judge(sheet: &[u8], query: Point) -> Answer {
    feed::single(sheet, query, verdict)
}

#[inline(never)]
pub fn feed(sheet: &[u8], queries: &[u8], results: &mut [u8]) -> Answer {
    feed::feed(sheet, queries, results, verdict)
}
