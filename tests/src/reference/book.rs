//! P10. Which of our harbours is it?

use super::fields::fields;
use super::{answer, judge};
use crate::{Answer, Point, Which};

/// One step of the reader: a sheet's start as place and its length as count, or one of 20 to 23; at or past the end
/// all zero. What would be 24 starts the next sheet.
pub fn step(book: &[u8], at: usize) -> Answer {
    let rest = book.get(at..).unwrap_or(&[]);
    let sheet = |size: usize| answer(0, at, size.try_into().expect("a sheet's length"));
    match fields(rest) {
        _ if rest.is_empty() => answer(0, 0, 0),
        Ok(_) => sheet(rest.len()),
        Err(Answer { number: 24, place, .. }) => sheet(place),
        Err(Answer { number, place, .. }) => answer(number, at + place, 0),
    }
}

/// The sheets, each by itself; or 20 to 23 of the earliest that has one, or 36.
fn sheets(book: &[u8]) -> Result<Vec<&[u8]>, Answer> {
    let mut sheets = vec![];
    let mut at = 0;
    while at < book.len() {
        if sheets.len() == 64 {
            return Err(answer(36, at, 0));
        }
        let Answer { number, count, .. } = step(book, at);
        if number != 0 {
            return Err(step(book, at));
        }
        sheets.push(&book[at..at + count as usize]);
        at += count as usize;
    }
    Ok(sheets)
}

/// 0 for 2^20, 1 for 2^26; any other number matches no sheet.
fn matches(sheet: &[u8], grid: u32) -> bool {
    let limit = fields(sheet).ok().expect("a sheet of a book").limit;
    (limit, grid) == (1 << 20, 0) || (limit, grid) == (1 << 26, 1)
}

pub fn which(book: &[u8], grid: u32, query: Point) -> Which {
    let mut which = Which { answer: answer(0, 0, 0), inside: 0, boundary: 0, refused: 0 };
    let sheets = match sheets(book) {
        Ok(sheets) => sheets,
        Err(refusal) => return Which { answer: refusal, ..which },
    };
    for (zone, sheet) in sheets.into_iter().enumerate() {
        let number = if matches(sheet, grid) { judge(sheet, query).number } else { 28 };
        let bit = 1 << zone;
        match number {
            1 => which.inside += bit,
            2 => {}
            3 => which.boundary += bit,
            _ => which.refused += bit,
        }
        which.answer.count += u32::from(number == 1 || number == 3);
    }
    which
}

/// A feed to a book: its own answer, and the result buffer as the call leaves it. A result is the three sets.
pub fn feed(book: &[u8], grid: u32, queries: &[u8], buffer: &[u8]) -> (Answer, Vec<u8>) {
    let needed = 24 * (queries.len() / 12);
    let refusal = match which(book, grid, [0; 3]).answer {
        _ if queries.len() % 12 != 0 => Some(answer(26, 0, 0)),
        _ if buffer.len() < needed => Some(answer(27, needed, 0)),
        Answer { number: 0, .. } => None,
        refusal => Some(refusal),
    };
    if let Some(refusal) = refusal {
        return (refusal, buffer.to_vec());
    }
    let number = |b: &[u8]| i32::from_be_bytes([b[0], b[1], b[2], b[3]]);
    let sets = queries.chunks(12).flat_map(|q| {
        let Which { inside, boundary, refused, .. } = which(book, grid, [0, 4, 8].map(|k| number(&q[k..])));
        [inside, boundary, refused].map(u64::to_be_bytes).concat()
    });
    (answer(0, 0, 0), sets.chain(buffer[needed..].iter().copied()).collect())
}
