//! An outline that document 01's lines 11 to 16 accept, with its boxes.

use super::boxes::{boxes, runs, Bounds};
use super::vector::{all_zero, beyond, opposite, same, turn, Edge, Vector};
use crate::{Answer, Point};

pub struct Outline {
    pub known: Point,
    /// The vertices, and vertex 0 once more: edge i joins ring[i] to ring[i + 1].
    ring: Vec<Point>,
    boxes: Vec<Bounds>,
}

fn edges(ring: &[Point]) -> impl Iterator<Item = Edge> + '_ {
    ring.windows(2).map(|ends| (ends[0], ends[1]))
}

fn refuse(number: u32, lowest: Option<usize>) -> Result<(), Answer> {
    lowest.map_or(Ok(()), |place| Err((number, place, 0)))
}

fn check(ring: &[Point], known: Point) -> Result<(), Answer> {
    refuse(11, ring.iter().position(|&v| beyond(v)))?;
    refuse(12, ring.iter().position(|&v| all_zero(v)))?;
    refuse(13, edges(ring).position(|(a, b)| same(a, b)))?;
    refuse(14, edges(ring).position(|(a, b)| opposite(a, b)))?;
    refuse(15, (beyond(known) || all_zero(known)).then_some(0))?;
    refuse(16, edges(ring).position(|(a, b)| turn(a, b, known) == 0))
}

impl Outline {
    /// `ring` has vertex 0 at both ends.
    pub fn new(ring: Vec<Point>, known: Point) -> Result<Outline, Answer> {
        check(&ring, known)?;
        let boxes = boxes(&ring);
        Ok(Outline { known, ring, boxes })
    }

    /// The runs that P2 does not skip, for the plane with this normal: the number of the first edge, and the vertices
    /// at the edges' ends.
    pub fn runs(&self, normal: Vector) -> impl Iterator<Item = (usize, &[Point])> {
        let met = self.boxes.iter().zip(runs(&self.ring)).filter(move |(bounds, _)| !bounds.one_side(normal));
        met.map(|(_, run)| run)
    }

    /// P3: an odd number of edges joins the two directions, whichever way they are walked.
    pub fn border(&self, (a, b): Edge) -> bool {
        let joins = |c, d| (same(a, c) && same(b, d)) || (same(a, d) && same(b, c));
        edges(&self.ring).filter(|&(c, d)| joins(c, d)).count() % 2 == 1
    }
}
