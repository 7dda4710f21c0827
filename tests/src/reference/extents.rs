//! How far a zone reaches, by the definitions: the far side is the point opposite vertex 0, and a zone has a box of its
//! own if all vertices are strictly on one side of a coordinate plane and the far side is outside.

use super::{sheets, single};
use crate::{Answer, Point};

/// In units of 2^-30: low x, y, z, high x, y, z.
pub type Sides = [i32; 6];

pub const ONE: i32 = 1 << 30;

pub const WHOLE: Sides = [-ONE, -ONE, -ONE, ONE, ONE, ONE];

pub fn sides_at(bytes: &[u8]) -> Sides {
    [0, 1, 2, 3, 4, 5].map(|k| i32::from_be_bytes(bytes[4 * k..4 * k + 4].try_into().expect("four bytes")))
}

/// The point divided by its greatest number in size lies in the box.
pub fn holds(sides: Sides, point: Point) -> bool {
    let most = point.iter().map(|&k| i64::from(k).abs()).max().expect("three numbers");
    (0..3).all(|k| {
        let number = i64::from(point[k]) << 30;
        i64::from(sides[k]) * most <= number && number <= i64::from(sides[k + 3]) * most
    })
}

fn vertices_of(sheet: &[u8]) -> Result<Vec<Point>, Answer> {
    let (answer, bytes) = sheets::vertices(sheet, usize::MAX);
    let number = |b: &[u8]| i32::from_be_bytes(b.try_into().expect("four bytes"));
    let vertices = bytes.chunks(12).map(|b| [number(&b[..4]), number(&b[4..8]), number(&b[8..])]).collect();
    if answer.number == 0 {
        Ok(vertices)
    } else {
        Err(answer)
    }
}

fn far_verdict(sheet: &[u8], vertices: &[Point]) -> u32 {
    single(sheet, vertices[0].map(|k| -k)).answer.number
}

/// The number, where a plane was found and where none was.
pub fn far(sheet: &[u8], found: bool) -> u32 {
    match vertices_of(sheet) {
        Ok(vertices) if found => far_verdict(sheet, &vertices),
        Ok(_) => 0,
        Err(answer) => answer.number,
    }
}

/// Has the zone a box of its own?
pub fn is_bounded(sheet: &[u8], vertices: &[Point]) -> bool {
    let fronted = (0..3).any(|k| [1, -1].iter().any(|sign| vertices.iter().all(|v| v[k] * sign > 0)));
    fronted && far_verdict(sheet, vertices) == 2
}

/// The answer and the bytes, with those of a box of the zone's own given.
pub fn boxed(sheet: &[u8], room: usize, own: [u8; 24]) -> (Answer, Vec<u8>) {
    if room < 24 {
        return (Answer { number: 27, place: 24, count: 0 }, vec![]);
    }
    match vertices_of(sheet) {
        Err(answer) => (answer, vec![]),
        Ok(vertices) if is_bounded(sheet, &vertices) => {
            let sides = sides_at(&own);
            let fits = vertices.iter().all(|&v| holds(sides, v)) && sides != WHOLE;
            let inside = sides.iter().all(|k| k.abs() <= ONE);
            (
                Answer { number: 0, place: 0, count: 1 },
                if fits && inside { own.to_vec() } else { vec![0; 24] },
            )
        }
        Ok(_) => (Answer::default(), WHOLE.iter().flat_map(|k| k.to_be_bytes()).collect()),
    }
}
