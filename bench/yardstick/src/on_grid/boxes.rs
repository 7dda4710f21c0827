//! P2's boxes: for each run of 32 edges the least and greatest coordinates over the vertices at their ends.

use super::products;
use super::vector::{wide, Vector};
use crate::Point;

/// Edges in a run. The last run ends with the last edge.
pub const RUN: usize = 32;

pub struct Bounds {
    least: Vector,
    greatest: Vector,
}

impl Bounds {
    fn of(vertices: &[Point]) -> Bounds {
        let (mut least, mut greatest) = (vertices[0], vertices[0]);
        for vertex in vertices {
            for k in 0..3 {
                least[k] = least[k].min(vertex[k]);
                greatest[k] = greatest[k].max(vertex[k]);
            }
        }
        Bounds { least: wide(least), greatest: wide(greatest) }
    }

    /// The whole box lies strictly on one side of the plane with this normal; never if the normal is zero.
    pub fn one_side(&self, normal: Vector) -> bool {
        let (mut least, mut greatest) = (0, 0);
        for k in 0..3 {
            let (low, high) = products(normal[k], (self.least[k], self.greatest[k]));
            least += low;
            greatest += high;
        }
        least > 0 || greatest < 0
    }
}

/// For each run of a ring that is closed: the number of its first edge, and the vertices at its edges' ends.
pub fn runs(ring: &[Point]) -> impl Iterator<Item = (usize, &[Point])> {
    let run = |first| (first, &ring[first..ring.len().min(first + RUN + 1)]);
    (0..ring.len() - 1).step_by(RUN).map(run)
}

pub fn boxes(ring: &[Point]) -> Vec<Bounds> {
    runs(ring).map(|(_, vertices)| Bounds::of(vertices)).collect()
}
