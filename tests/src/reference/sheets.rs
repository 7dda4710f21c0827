//! Writing a sheet and reading its parts, from document 01's page on the zone sheet and document 02's P4 and P8.

use super::{answer, read};
use crate::sheet::{field, point_bytes};
use crate::{Answer, Parts, Point, Written};

/// The bytes, without any check.
fn bytes(given: &Written) -> Vec<u8> {
    let second = if given.second == [0; 3] { vec![] } else { field(6, &point_bytes(given.second)) };
    let fields = [
        field(1, &given.zone.to_be_bytes()),
        field(2, &[given.charset as u8]),
        field(3, &given.name),
        field(4, &point_bytes(given.known)),
        field(if given.grid == 0 { 5 } else { 7 }, &given.vertices),
        second,
    ];
    fields.concat()
}

/// The answer, and the sheet if there is one: 23, 22, 10, 28, 11 to 16, 19, 25.
pub fn write(given: &Written, room: usize) -> (Answer, Vec<u8>) {
    let refused = |refusal| (refusal, vec![]);
    let n = given.vertices.len();
    if ![1, 2, 3].contains(&given.charset) {
        return refused(answer(23, 0, 0));
    }
    if given.name.is_empty() || given.name.len() > 120 {
        return refused(answer(22, 0, 0));
    }
    if n % 12 != 0 || n < 3 * 12 || n > 4096 * 12 {
        return refused(answer(10, 0, 0));
    }
    if given.grid > 1 {
        return refused(answer(28, 0, 0));
    }
    let sheet = bytes(given);
    match read(&sheet) {
        Err(refusal) => refused(refusal),
        Ok(_) if room < sheet.len() => refused(answer(25, sheet.len(), 0)),
        Ok(_) => (answer(0, sheet.len(), 0), sheet),
    }
}

/// A field's body and where it stands, in a sheet that is accepted.
fn body(sheet: &[u8], which: usize) -> Option<(usize, &[u8])> {
    let mut at = 0;
    for _ in 0..which {
        at += 3 + usize::from(u16::from_be_bytes([sheet[at + 1], sheet[at + 2]]));
    }
    let length = usize::from(u16::from_be_bytes([*sheet.get(at + 1)?, sheet[at + 2]]));
    Some((at + 3, &sheet[at + 3..at + 3 + length]))
}

fn point(bytes: &[u8]) -> Point {
    [0, 4, 8].map(|k| i32::from_be_bytes(bytes[k..k + 4].try_into().unwrap()))
}

/// What reading hands back: on refusal all is zero beside the refusal.
pub fn parts(sheet: &[u8]) -> Parts {
    if let Err(refusal) = read(sheet) {
        return Parts { answer: refusal, ..Parts::default() };
    }
    let field = |which| body(sheet, which).expect("field");
    let (start, vertices) = field(4);
    Parts {
        answer: answer(0, sheet.len(), 0),
        zone: u32::from_be_bytes(field(0).1.try_into().unwrap()),
        charset: field(1).1[0].into(),
        name_place: field(2).0,
        name_length: field(2).1.len(),
        known: point(field(3).1),
        second: body(sheet, 5).map_or([0; 3], |(_, second)| point(second)),
        grid: if sheet[start - 3] == 7 { 1 } else { 0 },
        vertices: vertices.len() / 12,
    }
}

/// The vertices into `room` bytes: the sheet's refusal, then 27.
pub fn vertices(sheet: &[u8], room: usize) -> (Answer, Vec<u8>) {
    match read(sheet) {
        Err(refusal) => (refusal, vec![]),
        Ok(zone) if room < 12 * zone.vertices.len() => (answer(27, 12 * zone.vertices.len(), 0), vec![]),
        Ok(zone) => {
            let numbers = zone.vertices.iter().flatten().map(|&k| k as i32);
            (answer(0, 0, 0), numbers.flat_map(i32::to_be_bytes).collect())
        }
    }
}
