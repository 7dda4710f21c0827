//! Document 02's P9: the basin profile, of vertices in bytes on the grid with this number.

use crate::Answer;

extern "C" {
    fn spg_basin_number(vertices: *const u8, vertices_len: usize, grid: u32) -> u32;
    fn spg_basin_place(vertices: *const u8, vertices_len: usize, grid: u32) -> usize;
    fn spg_basin_count(vertices: *const u8, vertices_len: usize, grid: u32) -> u32;
}

pub fn basin_number(vertices: &[u8], grid: u32) -> u32 {
    unsafe { spg_basin_number(vertices.as_ptr(), vertices.len(), grid) }
}

pub fn basin(vertices: &[u8], grid: u32) -> Answer {
    Answer {
        number: basin_number(vertices, grid),
        place: unsafe { spg_basin_place(vertices.as_ptr(), vertices.len(), grid) },
        count: unsafe { spg_basin_count(vertices.as_ptr(), vertices.len(), grid) },
    }
}
