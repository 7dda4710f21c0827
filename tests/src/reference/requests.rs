//! What document 02 adds to the calls, each under its request's name.

use super::fields::{points, Zone};
use super::geometry::{crossing, opposite, same_direction, sides, turn, vector, Vector};
use super::{answer, outline, outline_refusal, read, verdict};
use crate::{Answer, Point, Single};

// P1. A whole feed in one call

/// The feed's own answer, and the result buffer as the call leaves it.
pub fn feed(sheet: &[u8], queries: &[u8], buffer: &[u8]) -> (Answer, Vec<u8>) {
    let unchanged = |refusal| (refusal, buffer.to_vec());
    if queries.len() % 12 != 0 {
        return unchanged(answer(26, 0, 0));
    }
    let needed = 12 * (queries.len() / 12);
    if buffer.len() < needed {
        return unchanged(answer(27, needed, 0));
    }
    match read(sheet) {
        Err(refusal) => unchanged(refusal),
        Ok(zone) => {
            let mut after = vec![];
            for query in points(queries) {
                let Answer { number, place, count } = judged(&zone, query);
                for word in [number, u32::try_from(place).expect("a side's number"), count] {
                    after.extend(word.to_be_bytes());
                }
            }
            after.extend(&buffer[needed..]);
            (answer(0, 0, 0), after)
        }
    }
}

// P2. Boxes beside the outline

/// The corners of a run's box, which goes from the least to the greatest x, y and z over the vertices at
/// the ends of its sides.
fn corners(run: &[(Vector, Vector)]) -> [Vector; 8] {
    let along = |k: usize| run.iter().flat_map(move |&(a, b)| [a[k], b[k]]);
    let least = [0, 1, 2].map(|k| along(k).min().expect("a run has a side"));
    let greatest = [0, 1, 2].map(|k| along(k).max().expect("a run has a side"));
    [0, 1, 2, 3, 4, 5, 6, 7]
        .map(|c| [0, 1, 2].map(|k| if c & (1 << k) == 0 { least[k] } else { greatest[k] }))
}

/// Whether the whole box lies strictly on one side of the plane through known point and query: exactly
/// if all its corners do. Where the two have one direction every turn is 0.
fn skipped(known: Vector, query: Vector, run: &[(Vector, Vector)]) -> bool {
    let turns = corners(run).map(|corner| turn(known, query, corner));
    turns.iter().all(|&turn| turn > 0) || turns.iter().all(|&turn| turn < 0)
}

/// All sides of runs not skipped, for a boundary answer only those up to and including the side named.
fn looked(answer: Answer, sides: &[(Vector, Vector)], known: Vector, query: Vector) -> usize {
    let end = match answer.number {
        1 | 2 => sides.len(),
        3 => answer.place + 1,
        _ => 0,
    };
    let skipped: Vec<bool> = sides.chunks(32).map(|run| skipped(known, query, run)).collect();
    (0..end).filter(|side| !skipped[side / 32]).count()
}

// P4. A second known point

/// The outline accepts it as a known point, it differs in direction from the first, and the first
/// calls it inside.
pub fn passes(zone: &Zone, candidate: Vector) -> bool {
    outline_refusal(zone, candidate).is_none()
        && !same_direction(zone.known, candidate)
        && verdict(zone, zone.known, candidate).number == 1
}

/// The point that judges: queries opposite the first point are judged from the second.
fn judging(zone: &Zone, query: Vector) -> Vector {
    match zone.second {
        Some(second) if opposite(zone.known, query) => second,
        _ => zone.known,
    }
}

pub fn judged(zone: &Zone, query: Vector) -> Answer {
    verdict(zone, judging(zone, query), query)
}

/// The earliest candidate that passes; the sheet's own second point is not looked at.
pub fn choose(sheet: &[u8], candidates: &[u8]) -> Answer {
    if candidates.len() % 12 != 0 {
        return answer(10, 0, 0);
    }
    match outline(sheet) {
        Err(refusal) => refusal,
        Ok(zone) => match points(candidates).into_iter().position(|candidate| passes(&zone, candidate)) {
            Some(place) => answer(0, place, 0),
            None => answer(19, 0, 0),
        },
    }
}

// P6. Which way was the side crossed?

/// The sum over all sides, 0 for boundary and refusals.
fn sum(answer: Answer, sides: &[(Vector, Vector)], known: Vector, query: Vector) -> i32 {
    match answer.number {
        1 | 2 => sides.iter().map(|&side| crossing(known, query, side)).sum(),
        _ => 0,
    }
}

/// What the importer's single calls fetch: all of it from the point that judges.
pub fn single(sheet: &[u8], query: Point) -> Single {
    match read(sheet) {
        Err(answer) => Single { answer, sum: 0, looked: 0 },
        Ok(zone) => {
            let (sides, query) = (sides(&zone.vertices), vector(query));
            let (answer, known) = (judged(&zone, query), judging(&zone, query));
            let looked = looked(answer, &sides, known, query) as u32;
            Single { answer, sum: sum(answer, &sides, known, query), looked }
        }
    }
}
