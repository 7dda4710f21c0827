//! What the two readings have in common: one query to a sheet, and P1's feed of them.

use super::outline::Outline;
use super::sheet::{open, point};
use super::vector::{all_zero, beyond, opposite};
use crate::{Answer, Point};

/// A reading: the verdict on a query that lines 17 and 18 accept.
pub trait Verdict: Fn(&Outline, Point) -> Answer {}
impl<F: Fn(&Outline, Point) -> Answer> Verdict for F {}

fn judge(outline: &Outline, query: Point, verdict: &impl Verdict) -> Answer {
    if beyond(query) || all_zero(query) {
        return (17, 0, 0);
    }
    if opposite(outline.known, query) {
        return (18, 0, 0);
    }
    verdict(outline, query)
}

pub fn single(sheet: &[u8], query: Point, verdict: impl Verdict) -> Answer {
    match open(sheet) {
        Ok(outline) => judge(&outline, query, &verdict),
        Err(refusal) => refusal,
    }
}

/// Nothing is written unless the answer's number is 0, and then nothing past the last result.
pub fn feed(sheet: &[u8], queries: &[u8], results: &mut [u8], verdict: impl Verdict) -> Answer {
    if queries.len() % 12 != 0 {
        return (26, 0, 0);
    }
    if results.len() < queries.len() {
        return (27, queries.len(), 0);
    }
    let outline = match open(sheet) {
        Ok(outline) => outline,
        Err(refusal) => return refusal,
    };
    for (query, result) in queries.chunks_exact(12).zip(results.chunks_exact_mut(12)) {
        let (number, place, count) = judge(&outline, point(query), &verdict);
        let place = u32::try_from(place).expect("an edge's number");
        for (word, bytes) in [number, place, count].into_iter().zip(result.chunks_exact_mut(4)) {
            bytes.copy_from_slice(&word.to_be_bytes());
        }
    }
    (0, 0, 0)
}
