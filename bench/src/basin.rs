//! The basin profile of 512 sides, from the bytes of the vertices to the number: against the same method in C, and
//! against C that tests pair by pair.

use crate::clock::seconds;
use crate::instructions::count;
use crate::table::{counted_row, heading, row};
use spargolutta_tests::host::Folder;
use spargolutta_tests::library;
use spargolutta_tests::random::Random;
use spargolutta_tests::sheet::{points_bytes, Grid, GRIDS};
use spargolutta_tests::stars::star;
use std::fs;
use std::path::Path;

const ROUNDS: usize = 60;

/// The most that the profile accepts.
const SIDES: usize = 512;

type Basin = fn(&[u8]) -> u32;

type CBasin = unsafe extern "C" fn(*const u8, usize) -> u32;

extern "C" {
    fn coarse_basin_rows(vertices: *const u8, vertices_len: usize) -> u32;
    fn coarse_basin_pairs(vertices: *const u8, vertices_len: usize) -> u32;
    fn fine_basin_rows(vertices: *const u8, vertices_len: usize) -> u32;
    fn fine_basin_pairs(vertices: *const u8, vertices_len: usize) -> u32;
}

fn c(call: CBasin, vertices: &[u8]) -> u32 {
    unsafe { call(vertices.as_ptr(), vertices.len()) }
}

/// Ours first.
fn contestants(grid: Grid) -> [(&'static str, Basin); 3] {
    match grid {
        Grid::Coarse => [
            ("ours", |vertices| library::basin_number(vertices, 0)),
            ("rows in C", |vertices| c(coarse_basin_rows, vertices)),
            ("pairs in C", |vertices| c(coarse_basin_pairs, vertices)),
        ],
        Grid::Fine => [
            ("ours", |vertices| library::basin_number(vertices, 1)),
            ("rows in C", |vertices| c(fine_basin_rows, vertices)),
            ("pairs in C", |vertices| c(fine_basin_pairs, vertices)),
        ],
    }
}

/// Callgrind collects while this runs.
#[no_mangle]
#[inline(never)]
fn counted_basin(basin: Basin, vertices: &[u8]) -> u32 {
    basin(vertices)
}

/// One check of the folder's vertices.
pub fn check_once(folder: &Path, grid: &str, contestant: &str) {
    let vertices = fs::read(folder.join("vertices")).expect("file");
    let grid = GRIDS.into_iter().find(|known| format!("{known:?}") == grid).expect("grid");
    let (_, basin) = contestants(grid).into_iter().find(|(name, _)| *name == contestant).expect("contestant");
    assert_eq!(counted_basin(basin, &vertices), 0);
}

/// Milliseconds for each contestant.
fn measure(grid: Grid, vertices: &[u8]) -> Vec<f64> {
    let mut least = vec![f64::INFINITY; 3];
    for _ in 0..ROUNDS {
        for ((_, basin), least) in contestants(grid).iter().zip(&mut least) {
            *least = least.min(1e3 * seconds(|| assert_eq!(basin(vertices), 0)));
        }
    }
    least
}

pub fn compare() {
    let title =
        format!("The basin profile of {SIDES} sides: ms, least of {ROUNDS} rounds; millions of instructions");
    heading(&title, &contestants(Grid::Coarse).map(|(name, _)| name));
    for grid in GRIDS {
        let vertices = points_bytes(&star(&mut Random::new(1), grid, SIDES));
        row(&format!("{grid:?} grid, ms"), &measure(grid, &vertices));
        let folder = Folder::new("basin");
        folder.write("vertices", &vertices);
        let counted = |name| count(&folder, "counted_basin", &["basin", &format!("{grid:?}"), name]);
        let counts: Option<Vec<f64>> = contestants(grid).iter().map(|(name, _)| counted(name)).collect();
        counted_row(&format!("{grid:?} grid, instructions"), counts.as_deref());
    }
}
