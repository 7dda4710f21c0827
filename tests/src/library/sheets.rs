//! A sheet written, read and taken apart, and what the numbers mean.

use crate::{Answer, Parts, Point, Written};

/// The calls that are handed a sheet's parts, and what else each takes.
macro_rules! calls_with_parts {
    ($(fn $name:ident($($more:ident: $kind:ty),*) -> $given:ty;)*) => {
        extern "C" {
            $(fn $name(
                zone: u32,
                charset: u32,
                name: *const u8,
                name_len: usize,
                known_x: i32,
                known_y: i32,
                known_z: i32,
                second_x: i32,
                second_y: i32,
                second_z: i32,
                vertices: *const u8,
                vertices_len: usize,
                grid: u32,
                $($more: $kind),*
            ) -> $given;)*
        }
    };
}

calls_with_parts! {
    fn spg_write_number(sheet: *mut u8, sheet_len: usize) -> u32;
    fn spg_write_place(sheet_len: usize) -> usize;
}

extern "C" {
    fn spg_sheet_number(sheet: *const u8, sheet_len: usize) -> u32;
    fn spg_sheet_place(sheet: *const u8, sheet_len: usize) -> usize;
    fn spg_sheet_zone(sheet: *const u8, sheet_len: usize) -> u32;
    fn spg_sheet_charset(sheet: *const u8, sheet_len: usize) -> u32;
    fn spg_sheet_name_place(sheet: *const u8, sheet_len: usize) -> usize;
    fn spg_sheet_name_length(sheet: *const u8, sheet_len: usize) -> usize;
    fn spg_sheet_known_x(sheet: *const u8, sheet_len: usize) -> i32;
    fn spg_sheet_known_y(sheet: *const u8, sheet_len: usize) -> i32;
    fn spg_sheet_known_z(sheet: *const u8, sheet_len: usize) -> i32;
    fn spg_sheet_second_x(sheet: *const u8, sheet_len: usize) -> i32;
    fn spg_sheet_second_y(sheet: *const u8, sheet_len: usize) -> i32;
    fn spg_sheet_second_z(sheet: *const u8, sheet_len: usize) -> i32;
    fn spg_sheet_grid(sheet: *const u8, sheet_len: usize) -> u32;
    fn spg_sheet_vertices(sheet: *const u8, sheet_len: usize) -> usize;
    fn spg_vertices_number(sheet: *const u8, sheet_len: usize, vertices: *mut u8, vertices_len: usize)
        -> u32;
    fn spg_vertices_place(sheet: *const u8, sheet_len: usize, vertices_len: usize) -> usize;
    fn spg_place_kind(number: u32) -> u32;
    fn spg_meaning_text(number: u32, text: *mut u8, text_len: usize) -> usize;
}

/// Both calls, the one for the place first: it writes nothing.
pub fn write(given: &Written, sheet: &mut [u8]) -> Answer {
    let (n, v) = (&given.name, &given.vertices);
    let ([x, y, z], [p, q, r]) = (given.known, given.second);
    let (zone, charset, grid) = (given.zone, given.charset, given.grid);
    let (name, name_len, list, list_len) = (n.as_ptr(), n.len(), v.as_ptr(), v.len());
    let (out, room) = (sheet.as_mut_ptr(), sheet.len());
    unsafe {
        let place =
            spg_write_place(zone, charset, name, name_len, x, y, z, p, q, r, list, list_len, grid, room);
        let number = spg_write_number(
            zone, charset, name, name_len, x, y, z, p, q, r, list, list_len, grid, out, room,
        );
        Answer { number, place, count: 0 }
    }
}

pub fn parts(sheet: &[u8]) -> Parts {
    let (s, n) = (sheet.as_ptr(), sheet.len());
    let point = |numbers: [unsafe extern "C" fn(*const u8, usize) -> i32; 3]| -> Point {
        numbers.map(|number| unsafe { number(s, n) })
    };
    unsafe {
        Parts {
            answer: Answer { number: spg_sheet_number(s, n), place: spg_sheet_place(s, n), count: 0 },
            zone: spg_sheet_zone(s, n),
            charset: spg_sheet_charset(s, n),
            name_place: spg_sheet_name_place(s, n),
            name_length: spg_sheet_name_length(s, n),
            known: point([spg_sheet_known_x, spg_sheet_known_y, spg_sheet_known_z]),
            second: point([spg_sheet_second_x, spg_sheet_second_y, spg_sheet_second_z]),
            grid: spg_sheet_grid(s, n),
            vertices: spg_sheet_vertices(s, n),
        }
    }
}

/// Both calls, the one for the place first.
pub fn vertices(sheet: &[u8], vertices: &mut [u8]) -> Answer {
    let (s, n, out, room) = (sheet.as_ptr(), sheet.len(), vertices.as_mut_ptr(), vertices.len());
    unsafe {
        let place = spg_vertices_place(s, n, room);
        Answer { number: spg_vertices_number(s, n, out, room), place, count: 0 }
    }
}

pub fn place_kind(number: u32) -> u32 {
    unsafe { spg_place_kind(number) }
}

pub fn meaning_text(number: u32, text: &mut [u8]) -> usize {
    unsafe { spg_meaning_text(number, text.as_mut_ptr(), text.len()) }
}
