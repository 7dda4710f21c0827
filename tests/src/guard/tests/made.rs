//! The calls that make a sheet, and those that take it apart.

use super::{compare, ends, full, lengths, sheets, words};
use crate::calls::Case;
use crate::imports::{circle, given, position_bytes, text};
use crate::random::Random;
use crate::sheet::{points_bytes, OCTANT};
use crate::Point;

/// Vertices, names and buffers of every length; sheets read, and their vertices handed out.
#[test]
fn guarded_sheets() {
    let random = &mut Random::new(506);
    let (mut written, mut read) = (vec![], vec![]);
    let octant = points_bytes(&OCTANT);
    let mut add = |vertices: &[u8], name: usize, room: usize, second: Point, grid: i32| {
        let [x, y, z] = second;
        let (first, second, buffer) = (vertices.to_vec(), vec![b'n'; name], vec![0xc3; room]);
        written.push(Case { first, second, buffer, words: words(&[7, 1, 1, 1, 1, x, y, z, grid]) });
    };
    (0..=130).for_each(|name| add(&octant, name, 68 + name, [0; 3], 0));
    (0..=200).for_each(|room| add(&octant, 1, room, [1, 1, 2], 1));
    for (grid, list) in (0..).zip(full().map(|sheet| sheet[33..].to_vec())) {
        lengths(&list).iter().for_each(|list| add(list, 1, 49_185, [0; 3], grid));
        lengths(&octant).iter().for_each(|list| add(list, 1, 84, [1, 1, 1 + grid], grid));
        [49_184, 49_186].iter().for_each(|&room| add(&list, 1, room, [0; 3], grid));
        add(&octant, 1, 84, [0; 3], 2 + grid);
    }
    let all = sheets(random, 400);
    let mut lent: Vec<Vec<u8>> = all[..8].iter().flat_map(|sheet| lengths(sheet)).collect();
    lent.extend(all.iter().chain(&full()).flat_map(|sheet| ends(sheet)));
    for first in lent {
        let buffer = vec![0xc3; random.pick(&[0, 35, 36, 37, 144, 49_151, 49_152])];
        read.push(Case { first, buffer, ..Case::default() });
    }
    compare("write", &written, 2_000, [0, 10, 19, 22, 25, 28]);
    compare("vertices", &read, 5_000, [0, 16, 19, 20, 24, 27]);
    compare("far", &read, 5_000, [0, 1, 2, 16, 19, 20, 24]);
    compare("box", &read, 5_000, [0, 16, 19, 20, 24, 27]);
    compare("sheet", &read, 5_000, [0, 16, 19, 20, 24]);
}

/// Every number's text into every length of buffer.
#[test]
fn guarded_meanings() {
    let numbers = (0..40).chain([-1, i32::MIN]);
    let lengths = |number| (0..60).map(move |room| (number, room));
    let cases: Vec<Case> = numbers
        .flat_map(lengths)
        .map(|(number, room)| Case { buffer: vec![0xc3; room], words: words(&[number]), ..Case::default() })
        .collect();
    // Of a meaning the number is the place's kind.
    compare("meaning", &cases, 5_000, [0, 1, 2, 3, 4, 5, 6]);
}

/// Texts, names and buffers of every length. A sheet has 32 bytes, the name's, and 12 for each position but the last.
#[test]
fn guarded_import() {
    let [x, y, z] = given().known;
    let mut cases = vec![];
    let mut add = |text: &[u8], name: usize, room: usize| {
        let (first, second, buffer) = (text.to_vec(), vec![b'n'; name], vec![0xc3; room]);
        for grid in [0, 1] {
            let words = words(&[7, 1, x, y, z, 0, 0, 0, grid]);
            cases.push(Case { first: first.clone(), second: second.clone(), buffer: buffer.clone(), words });
        }
    };
    let small = text(&circle(9)).into_bytes();
    lengths(&small).iter().for_each(|text| add(text, 1, 129));
    (0..=130).for_each(|name| add(&small, name, 128 + name));
    (0..=300).for_each(|room| add(&small, 1, room));
    for n in [4_096, 4_097, 4_098] {
        let (long, needed) = (text(&circle(n)).into_bytes(), 33 + 12 * (n - 1));
        [needed - 1, needed, needed + 1].iter().for_each(|&room| add(&long, 1, room));
        add(&long[..long.len() - 1], 120, 60_000);
    }
    compare("import", &cases, 2_800, [0, 10, 22, 25, 30]);
}

/// Positions and buffers of every length, in range and out of it.
#[test]
fn guarded_points() {
    let random = &mut Random::new(507);
    let mut cases = vec![];
    let number = |random: &mut Random, limit: i32| random.between(-limit, limit);
    let positions = (0..49).map(|_| [number(random, 1_900_000_000), number(random, 950_000_000)]);
    let degrees = positions.map(position_bytes).collect::<Vec<_>>().concat();
    for first in lengths(&degrees) {
        let needed = first.len() / 8 * 12;
        for (grid, room) in [(0, needed), (1, needed + 5), (2, needed), (1, needed.saturating_sub(1))] {
            let (first, buffer) = (first.clone(), vec![0xc3; room]);
            cases.push(Case { first, buffer, words: words(&[grid]), ..Case::default() });
        }
    }
    compare("points", &cases, 3_000, [0, 26, 27, 28]);
}
