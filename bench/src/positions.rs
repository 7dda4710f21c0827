//! Points of a million positions, on both grids, beside libm's sine and cosine; and by the single calls.

use crate::table::{counted_row, heading, line, row, thousands};
use crate::{instructions, plain_c};
use spargolutta_tests::host::Folder;
use spargolutta_tests::imports::{point_on, points_number, position_bytes};
use spargolutta_tests::random::Random;
use spargolutta_tests::sheet::{point_bytes, Grid, GRIDS};
use std::path::Path;
use std::time::Instant;

const ROUNDS: usize = 9;
const POSITIONS: usize = 1_000_000;
/// For callgrind, which is slow.
const COUNTED: usize = 20_000;

type Convert = fn(&[u8], Grid, &mut [u8]);

/// Ours first.
const CONTESTANTS: [(&str, Convert); 3] = [
    ("one call", |degrees, grid, points| assert_eq!(points_number(degrees, grid.number(), points), 0)),
    ("libm", |degrees, grid, points| plain_c::points(degrees, grid.limit().into(), points)),
    ("single calls", singly),
];

fn singly(degrees: &[u8], grid: Grid, points: &mut [u8]) {
    let number = |bytes: &[u8]| i32::from_be_bytes(bytes.try_into().expect("four bytes"));
    for (position, point) in degrees.chunks(8).zip(points.chunks_mut(12)) {
        let numbers = point_on(number(&position[..4]), number(&position[4..]), grid.number());
        point.copy_from_slice(&point_bytes(numbers));
    }
}

fn positions(count: usize) -> Vec<u8> {
    let random = &mut Random::new(36);
    let position = |_| {
        let longitude = random.between(-1_800_000_000, 1_800_000_000);
        position_bytes([longitude, random.between(-900_000_000, 900_000_000)])
    };
    (0..count).flat_map(position).collect()
}

/// Callgrind collects while this runs.
#[no_mangle]
#[inline(never)]
fn counted_points(convert: Convert, degrees: &[u8], grid: Grid, points: &mut [u8]) {
    convert(degrees, grid, points)
}

/// The first positions, by one contestant.
pub fn convert_once(_: &Path, grid: &str, contestant: &str) {
    let (_, convert) = CONTESTANTS.into_iter().find(|(name, _)| *name == contestant).expect("contestant");
    let grid = GRIDS.into_iter().find(|named| named.number().to_string() == grid).expect("grid");
    counted_points(convert, &positions(COUNTED), grid, &mut vec![0; 12 * COUNTED]);
}

/// Nanoseconds a position for each contestant, and the points.
fn measure(degrees: &[u8], grid: Grid) -> (Vec<f64>, Vec<Vec<u8>>) {
    let mut least = vec![f64::INFINITY; CONTESTANTS.len()];
    let mut made = vec![vec![0; 12 * POSITIONS]; CONTESTANTS.len()];
    for _ in 0..ROUNDS {
        for (k, (_, convert)) in CONTESTANTS.iter().enumerate() {
            let start = Instant::now();
            convert(degrees, grid, &mut made[k]);
            least[k] = least[k].min(1e9 * start.elapsed().as_secs_f64() / POSITIONS as f64);
        }
    }
    (least, made)
}

pub fn compare() {
    let degrees = positions(POSITIONS);
    let title =
        format!("Points of {} positions: ns a position, least of {ROUNDS} rounds", thousands(POSITIONS));
    heading(&title, &CONTESTANTS.map(|(name, _)| name));
    for grid in GRIDS {
        let (times, made) = measure(&degrees, grid);
        row(&format!("{grid:?}"), &times);
        assert!(made[0] == made[2], "the single calls differ");
        let points = made[0].chunks(12).zip(made[1].chunks(12));
        let differing = points.filter(|(ours, theirs)| ours != theirs).count();
        line("points that libm makes otherwise", [String::new(), thousands(differing)].into_iter());
        let folder = Folder::new("positions");
        let number = grid.number().to_string();
        let count = |(name, _): &(&str, Convert)| {
            let counted = instructions::count(&folder, "counted_points", &["points", &number, name])?;
            Some(1e6 * counted / COUNTED as f64)
        };
        let counts: Option<Vec<f64>> = CONTESTANTS.iter().map(count).collect();
        counted_row("instructions a position", counts.as_deref());
    }
}
