//! The zone sheet: lines 20 to 24, then those of the outline.

use super::outline::Outline;
use super::VERTICES;
use crate::{Answer, Point};

/// For fields 1 to 5: the least and the greatest length, and the step between lengths.
const LENGTHS: [(usize, usize, usize); 5] =
    [(4, 4, 1), (1, 1, 1), (1, 120, 1), (12, 12, 1), (36, 49_152, 12)];

/// The body of the field that begins at `at`. Its number is its tag; the vertices' tag is the grid's.
fn field(sheet: &[u8], at: usize, number: u8) -> Result<&[u8], Answer> {
    let (least, most, step) = LENGTHS[usize::from(number) - 1];
    let rest = &sheet[at..];
    if rest.len() < 3 {
        return Err((20, at, 0));
    }
    if rest[0] != if number == 5 { VERTICES } else { number } {
        return Err((21, at, 0));
    }
    let length = usize::from(u16::from_be_bytes([rest[1], rest[2]]));
    if !(least..=most).contains(&length) || length % step != 0 {
        return Err((22, at, 0));
    }
    if rest.len() - 3 < length {
        return Err((20, at, 0));
    }
    let body = &rest[3..3 + length];
    if number == 2 && !(1..=3).contains(&body[0]) {
        return Err((23, at, 0));
    }
    Ok(body)
}

/// The point in twelve bytes.
pub fn point(bytes: &[u8]) -> Point {
    [0, 4, 8].map(|k| i32::from_be_bytes(bytes[k..k + 4].try_into().expect("four bytes")))
}

pub fn open(sheet: &[u8]) -> Result<Outline, Answer> {
    let mut bodies: [&[u8]; 5] = [&[]; 5];
    let mut at = 0;
    for (number, body) in (1..).zip(&mut bodies) {
        *body = field(sheet, at, number)?;
        at += 3 + body.len();
    }
    if at < sheet.len() {
        return Err((24, at, 0));
    }
    let [.., known, vertices] = bodies;
    let mut ring = Vec::with_capacity(vertices.len() / 12 + 1);
    ring.extend(vertices.chunks_exact(12).map(point));
    ring.push(ring[0]);
    Outline::new(ring, point(known))
}
