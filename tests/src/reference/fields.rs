//! The zone sheet by its bytes: 20 to 24. Document 01's five fields, with document 02's tag 7 in place of
//! tag 5 on the fine grid, and document 02's tag 6, which may be missing.

use super::answer;
use super::geometry::Vector;
use crate::Answer;

/// What a sheet says, not looked at any further.
pub struct Zone {
    /// The grid's.
    pub limit: i128,
    pub known: Vector,
    pub vertices: Vec<Vector>,
    pub second: Option<Vector>,
}

fn length_allowed(tag: u8, length: usize) -> bool {
    match tag {
        1 => length == 4,
        2 => length == 1,
        3 => (1..=120).contains(&length),
        4 | 6 => length == 12,
        _ => length % 12 == 0 && (36..=49_152).contains(&length),
    }
}

/// Whole points, of twelve bytes each.
pub fn points(body: &[u8]) -> Vec<Vector> {
    let number = |b: &[u8]| i128::from(i32::from_be_bytes([b[0], b[1], b[2], b[3]]));
    body.chunks(12).map(|p| [number(&p[0..4]), number(&p[4..8]), number(&p[8..12])]).collect()
}

/// The zone, or the refusal.
pub fn fields(sheet: &[u8]) -> Result<Zone, Answer> {
    let mut fields = vec![];
    let mut at = 0;
    for tag in 1..=6 {
        let refused = |number| Err(answer(number, at, 0));
        if tag == 6 && sheet.get(at) != Some(&6) {
            break;
        }
        if sheet.len() < at + 3 {
            return refused(20);
        }
        if sheet[at] != tag && (tag, sheet[at]) != (5, 7) {
            return refused(21);
        }
        let length = 256 * usize::from(sheet[at + 1]) + usize::from(sheet[at + 2]);
        if !length_allowed(tag, length) {
            return refused(22);
        }
        if sheet.len() < at + 3 + length {
            return refused(20);
        }
        let field = &sheet[at..at + 3 + length];
        if tag == 2 && !(1..=3).contains(&field[3]) {
            return refused(23);
        }
        fields.push(field);
        at += 3 + length;
    }
    if at < sheet.len() {
        return Err(answer(24, at, 0));
    }
    Ok(Zone {
        limit: if fields[4][0] == 7 { 1 << 26 } else { 1 << 20 },
        known: points(&fields[3][3..])[0],
        vertices: points(&fields[4][3..]),
        second: fields.get(5).map(|field| points(&field[3..])[0]),
    })
}
