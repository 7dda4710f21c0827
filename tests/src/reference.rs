//! Documents 01 and 02 in plain Rust, from their text alone: 128-bit integers, and the shortest code
//! that says what the documents say. The parts stand in their order, under their words: `geometry` has
//! points and sides, `fields` the bytes of a sheet, `requests` what document 02 adds to the calls, `basin`
//! its P9, `book` its P10, `differences` its P11, `import` its P7, `sheets` writing and reading, `meanings` the
//! header's table.

mod basin;
pub mod book;
mod differences;
pub mod extents;
mod fields;
mod geometry;
mod import;
pub mod meanings;
mod requests;
pub mod sheets;

use crate::{Answer, Point};
pub use basin::basin;
pub use differences::compare;
use fields::{fields, points, Zone};
use geometry::{all_zero, beyond, crossing, on_side, opposite, same_direction, sides, Vector};
pub use geometry::{cross, turn, vector};
pub use import::import;
pub use requests::{choose, feed, single};
use requests::{judged, passes};

// What comes back

fn answer(number: u32, place: usize, count: u32) -> Answer {
    Answer { number, place, count }
}

/// Lines 10 to 16, for this point as the known point.
fn outline_refusal(zone: &Zone, known: Vector) -> Option<Answer> {
    let &Zone { limit, ref vertices, .. } = zone;
    let sides = sides(vertices);
    let side = |bad: fn(Vector, Vector) -> bool| sides.iter().position(|&(a, b)| bad(a, b));
    if vertices.len() < 3 || vertices.len() > 4096 {
        return Some(answer(10, 0, 0));
    }
    if let Some(i) = vertices.iter().position(|&v| beyond(limit, v)) {
        return Some(answer(11, i, 0));
    }
    if let Some(i) = vertices.iter().position(|&v| all_zero(v)) {
        return Some(answer(12, i, 0));
    }
    if let Some(i) = side(same_direction) {
        return Some(answer(13, i, 0));
    }
    if let Some(i) = side(opposite) {
        return Some(answer(14, i, 0));
    }
    if beyond(limit, known) || all_zero(known) {
        return Some(answer(15, 0, 0));
    }
    if let Some(i) = sides.iter().position(|&(a, b)| turn(a, b, known) == 0) {
        return Some(answer(16, i, 0));
    }
    None
}

/// Document 02, P3: a side is border if an odd number of sides joins its two directions, whichever way they are walked.
fn border(sides: &[(Vector, Vector)], (a, b): (Vector, Vector)) -> bool {
    let joins = |&&(c, d): &&(Vector, Vector)| {
        (same_direction(a, c) && same_direction(b, d)) || (same_direction(a, d) && same_direction(b, c))
    };
    sides.iter().filter(joins).count() % 2 == 1
}

/// Lines 17, 18 and 1 to 3, for an outline and a known point that are not refused.
fn verdict(zone: &Zone, known: Vector, query: Vector) -> Answer {
    if beyond(zone.limit, query) || all_zero(query) {
        return answer(17, 0, 0);
    }
    if opposite(known, query) {
        return answer(18, 0, 0);
    }
    let sides = sides(&zone.vertices);
    if let Some(i) = sides.iter().position(|&side| on_side(side, query) && border(&sides, side)) {
        return answer(3, i, 0);
    }
    let crossed = sides.iter().filter(|&&side| crossing(known, query, side) != 0).count() as u32;
    answer(if crossed % 2 == 0 { 1 } else { 2 }, 0, crossed)
}

// The zone sheet

/// A zone whose outline accepts its known point, or the refusal. A second point is not looked at.
fn outline(sheet: &[u8]) -> Result<Zone, Answer> {
    let zone = fields(sheet)?;
    match outline_refusal(&zone, zone.known) {
        Some(refusal) => Err(refusal),
        None => Ok(zone),
    }
}

/// A zone that is accepted, or the refusal.
fn read(sheet: &[u8]) -> Result<Zone, Answer> {
    let zone = outline(sheet)?;
    match zone.second {
        Some(second) if !passes(&zone, second) => Err(answer(19, 0, 0)),
        _ => Ok(zone),
    }
}

/// Number, place and count.
pub fn judge(sheet: &[u8], query: Point) -> Answer {
    match read(sheet) {
        Ok(zone) => judged(&zone, vector(query)),
        Err(refusal) => refusal,
    }
}

/// What the program prints; no sheet is a missing file.
pub fn program(sheet: Option<&[u8]>, input: &[u8]) -> String {
    let line = |a: Answer| format!("{} {} {}\n", a.number, a.place, a.count);
    match read(sheet.unwrap_or(&[])) {
        Err(refusal) => line(refusal),
        Ok(zone) => {
            let whole = input.len() / 12;
            let queries = points(&input[..12 * whole]);
            let mut text: String = queries.iter().map(|&query| line(judged(&zone, query))).collect();
            if input.len() % 12 != 0 {
                text += &line(answer(20, whole, 0));
            }
            text
        }
    }
}
