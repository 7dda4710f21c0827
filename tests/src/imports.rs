//! The calls of document 02's P7, declared as in include/spargolutta.h, and rings to import.

use crate::sheet::Grid;
use crate::{Answer, Point};

type ImportNumber =
    unsafe extern "C" fn(*const u8, usize, u32, u32, *const u8, usize, i32, i32, i32, *mut u8, usize) -> u32;
type ImportPlace =
    unsafe extern "C" fn(*const u8, usize, u32, u32, *const u8, usize, i32, i32, i32, usize) -> usize;

extern "C" {
    fn spg_import_number(
        text: *const u8,
        text_len: usize,
        zone: u32,
        charset: u32,
        name: *const u8,
        name_len: usize,
        x: i32,
        y: i32,
        z: i32,
        sheet: *mut u8,
        sheet_len: usize,
    ) -> u32;
    fn spg_import_place(
        text: *const u8,
        text_len: usize,
        zone: u32,
        charset: u32,
        name: *const u8,
        name_len: usize,
        x: i32,
        y: i32,
        z: i32,
        sheet_len: usize,
    ) -> usize;
    fn spg_import_fine_number(
        text: *const u8,
        text_len: usize,
        zone: u32,
        charset: u32,
        name: *const u8,
        name_len: usize,
        x: i32,
        y: i32,
        z: i32,
        sheet: *mut u8,
        sheet_len: usize,
    ) -> u32;
    fn spg_import_fine_place(
        text: *const u8,
        text_len: usize,
        zone: u32,
        charset: u32,
        name: *const u8,
        name_len: usize,
        x: i32,
        y: i32,
        z: i32,
        sheet_len: usize,
    ) -> usize;
    fn spg_point_number(longitude: i32, latitude: i32) -> u32;
    fn spg_point_x(longitude: i32, latitude: i32) -> i32;
    fn spg_point_y(longitude: i32, latitude: i32) -> i32;
    fn spg_point_z(longitude: i32, latitude: i32) -> i32;
    fn spg_point_on_number(longitude: i32, latitude: i32, grid: u32) -> u32;
    fn spg_point_on_x(longitude: i32, latitude: i32, grid: u32) -> i32;
    fn spg_point_on_y(longitude: i32, latitude: i32, grid: u32) -> i32;
    fn spg_point_on_z(longitude: i32, latitude: i32, grid: u32) -> i32;
    fn spg_points_number(
        degrees: *const u8,
        degrees_len: usize,
        grid: u32,
        points: *mut u8,
        points_len: usize,
    ) -> u32;
    fn spg_points_place(degrees: *const u8, degrees_len: usize, grid: u32, points_len: usize) -> usize;
    fn spg_points_count(degrees: *const u8, degrees_len: usize, grid: u32, points_len: usize) -> usize;
}

/// What a caller hands over beside the text.
#[derive(Clone, Debug)]
pub struct Given<'a> {
    /// Of the vertices and the known point.
    pub grid: Grid,
    pub zone: u32,
    pub charset: u32,
    pub name: &'a [u8],
    pub known: Point,
}

/// The calls of a grid.
fn imports(grid: Grid) -> (ImportNumber, ImportPlace) {
    match grid {
        Grid::Coarse => (spg_import_number, spg_import_place),
        Grid::Fine => (spg_import_fine_number, spg_import_fine_place),
    }
}

/// Imports and writes.
pub fn import_number(text: &[u8], given: &Given, sheet: &mut [u8]) -> u32 {
    let &Given { grid, zone, charset, name, known: [x, y, z] } = given;
    let (out, room) = (sheet.as_mut_ptr(), sheet.len());
    let (at, length) = (text.as_ptr(), text.len());
    unsafe { imports(grid).0(at, length, zone, charset, name.as_ptr(), name.len(), x, y, z, out, room) }
}

/// The place for a buffer of `room` bytes; nothing is written.
pub fn import_place(text: &[u8], given: &Given, room: usize) -> usize {
    let &Given { grid, zone, charset, name, known: [x, y, z] } = given;
    let (at, length) = (text.as_ptr(), text.len());
    unsafe { imports(grid).1(at, length, zone, charset, name.as_ptr(), name.len(), x, y, z, room) }
}

pub fn point_number(longitude: i32, latitude: i32) -> u32 {
    unsafe { spg_point_number(longitude, latitude) }
}

pub fn point(longitude: i32, latitude: i32) -> Point {
    [spg_point_x, spg_point_y, spg_point_z].map(|number| unsafe { number(longitude, latitude) })
}

/// Its number of a grid may be any.
pub fn point_on_number(longitude: i32, latitude: i32, grid: u32) -> u32 {
    unsafe { spg_point_on_number(longitude, latitude, grid) }
}

pub fn point_on(longitude: i32, latitude: i32, grid: u32) -> Point {
    [spg_point_on_x, spg_point_on_y, spg_point_on_z]
        .map(|number| unsafe { number(longitude, latitude, grid) })
}

/// Writes the points of these positions.
pub fn points_number(degrees: &[u8], grid: u32, points: &mut [u8]) -> u32 {
    unsafe { spg_points_number(degrees.as_ptr(), degrees.len(), grid, points.as_mut_ptr(), points.len()) }
}

/// The same, with the other two calls' parts of the answer.
pub fn points(degrees: &[u8], grid: u32, points: &mut [u8]) -> Answer {
    let (at, length, room) = (degrees.as_ptr(), degrees.len(), points.len());
    let place = unsafe { spg_points_place(at, length, grid, room) };
    let count = unsafe { spg_points_count(at, length, grid, room) };
    Answer { number: points_number(degrees, grid, points), place, count: count as u32 }
}

/// A position in bytes.
pub fn position_bytes([longitude, latitude]: [i32; 2]) -> [u8; 8] {
    let mut bytes = [0; 8];
    bytes[..4].copy_from_slice(&longitude.to_be_bytes());
    bytes[4..].copy_from_slice(&latitude.to_be_bytes());
    bytes
}

/// Zone 7, UTF-8, name "A". The known point is far off, on no great circle of a small ring's sides.
pub fn given() -> Given<'static> {
    let grid = Grid::Coarse;
    Given { grid, zone: 7, charset: 1, name: b"A", known: [-314_159, 271_828, 577_215] }
}

/// A ring of these positions, in ten-millionths of a degree.
pub fn text(ring: &[[i64; 2]]) -> String {
    let number = |n: i64| {
        let (sign, size) = (if n < 0 { "-" } else { "" }, n.unsigned_abs());
        format!("{sign}{}.{:07}", size / 10_000_000, size % 10_000_000)
    };
    let positions = ring.iter().map(|p| format!("[{},{}]", number(p[0]), number(p[1])));
    format!(r#"{{"type":"Polygon","coordinates":[[{}]]}}"#, positions.collect::<Vec<_>>().join(","))
}

/// n positions on a circle about 60 degrees north, the last one the first.
pub fn circle(n: usize) -> Vec<[i64; 2]> {
    let at = |k: usize| {
        let angle = std::f64::consts::TAU * k as f64 / (n - 1) as f64;
        [1.1e8 + 4e6 * angle.cos(), 6e8 + 2e6 * angle.sin()].map(|k| k as i64)
    };
    (0..n).map(|k| at(k % (n - 1))).collect()
}
