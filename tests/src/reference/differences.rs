//! Document 02's P11: two sheets compared.

use super::fields::Zone;
use super::geometry::{same_direction, Vector};
use super::read;
use crate::Comparison;

/// The bodies of a good sheet's first three fields.
fn head(sheet: &[u8]) -> [&[u8]; 3] {
    let mut at = 0;
    [0; 3].map(|_| {
        let length = usize::from(sheet[at + 2]);
        at += 3 + length;
        &sheet[at - length..at]
    })
}

/// All vertices have one direction, the left's vertex i and the right's vertex `met(i)`.
fn meet(left: &[Vector], right: &[Vector], met: impl Fn(usize) -> usize) -> bool {
    (0..left.len()).all(|i| same_direction(left[i], right[met(i)]))
}

/// The place and the way.
fn ring(left: &[Vector], right: &[Vector]) -> (usize, u32) {
    let n = left.len();
    if right.len() == n {
        if let Some(k) = (0..n).find(|k| meet(left, right, |i| (k + i) % n)) {
            return (k, 1);
        }
        if let Some(k) = (0..n).find(|k| meet(left, right, |i| (k + n - i) % n)) {
            return (k, 2);
        }
    }
    let differ = |&i: &usize| match (left.get(i), right.get(i)) {
        (Some(&a), Some(&b)) => !same_direction(a, b),
        _ => true,
    };
    ((0..).find(differ).expect("a missing vertex differs"), 0)
}

fn differ(left: &[u8], right: &[u8], a: &Zone, b: &Zone, way: u32) -> [bool; 7] {
    let (first, second) = (head(left), head(right));
    [
        first[0] != second[0],
        first[1] != second[1],
        first[2] != second[2],
        !same_direction(a.known, b.known),
        way == 0,
        a.limit != b.limit,
        match (a.second, b.second) {
            (Some(y), Some(z)) => !same_direction(y, z),
            (None, None) => false,
            _ => true,
        },
    ]
}

pub fn compare(left: &[u8], right: &[u8]) -> Comparison {
    let refused = |a: crate::Answer| Comparison { number: a.number, place: a.place, ..Comparison::default() };
    let (a, b) = match (read(left), read(right)) {
        (Err(refusal), _) | (Ok(_), Err(refusal)) => return refused(refusal),
        (Ok(a), Ok(b)) => (a, b),
    };
    let (place, way) = ring(&a.vertices, &b.vertices);
    let differ = differ(left, right, &a, &b, way);
    let named: Vec<u8> = (1..=7).filter(|&k| differ[usize::from(k) - 1]).collect();
    let mut fields = [0; 7];
    fields[..named.len()].copy_from_slice(&named);
    Comparison { number: 0, place, count: named.len() as u32, way, fields }
}
