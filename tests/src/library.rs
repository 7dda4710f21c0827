//! The calls of libspargolutta.a, declared as in include/spargolutta.h.

pub mod book;
pub mod by_boxes;
pub mod extents;
pub mod sheets;

use crate::{Answer, Comparison, Point, Single};
pub use basin::{basin, basin_number};

mod basin;

extern "C" {
    fn spg_judge_number(sheet: *const u8, sheet_len: usize, x: i32, y: i32, z: i32) -> u32;
    fn spg_judge_place(sheet: *const u8, sheet_len: usize, x: i32, y: i32, z: i32) -> usize;
    fn spg_judge_count(sheet: *const u8, sheet_len: usize, x: i32, y: i32, z: i32) -> u32;
    fn spg_feed_number(
        sheet: *const u8,
        sheet_len: usize,
        queries: *const u8,
        queries_len: usize,
        results: *mut u8,
        results_len: usize,
    ) -> u32;
    fn spg_feed_place(
        sheet: *const u8,
        sheet_len: usize,
        queries: *const u8,
        queries_len: usize,
        results_len: usize,
    ) -> usize;
    fn spg_feed_count(
        sheet: *const u8,
        sheet_len: usize,
        queries: *const u8,
        queries_len: usize,
        results_len: usize,
    ) -> u32;
}

pub fn number(sheet: &[u8], [x, y, z]: Point) -> u32 {
    unsafe { spg_judge_number(sheet.as_ptr(), sheet.len(), x, y, z) }
}

pub fn place(sheet: &[u8], [x, y, z]: Point) -> usize {
    unsafe { spg_judge_place(sheet.as_ptr(), sheet.len(), x, y, z) }
}

pub fn count(sheet: &[u8], [x, y, z]: Point) -> u32 {
    unsafe { spg_judge_count(sheet.as_ptr(), sheet.len(), x, y, z) }
}

/// Judges and writes.
pub fn feed_number(sheet: &[u8], queries: &[u8], results: &mut [u8]) -> u32 {
    let (out, out_len) = (results.as_mut_ptr(), results.len());
    unsafe { spg_feed_number(sheet.as_ptr(), sheet.len(), queries.as_ptr(), queries.len(), out, out_len) }
}

/// The place for a result buffer of `room` bytes; nothing is written.
pub fn feed_place(sheet: &[u8], queries: &[u8], room: usize) -> usize {
    unsafe { spg_feed_place(sheet.as_ptr(), sheet.len(), queries.as_ptr(), queries.len(), room) }
}

pub fn feed_count(sheet: &[u8], queries: &[u8], room: usize) -> u32 {
    unsafe { spg_feed_count(sheet.as_ptr(), sheet.len(), queries.as_ptr(), queries.len(), room) }
}

pub fn judge(sheet: &[u8], query: Point) -> Answer {
    Answer { number: number(sheet, query), place: place(sheet, query), count: count(sheet, query) }
}

extern "C" {
    fn spg_judge_sum(sheet: *const u8, sheet_len: usize, x: i32, y: i32, z: i32) -> i32;
    fn spg_judge_looked(sheet: *const u8, sheet_len: usize, x: i32, y: i32, z: i32) -> u32;
}

/// Document 02's P6: the sum has a call of its own.
pub fn sum(sheet: &[u8], [x, y, z]: Point) -> i32 {
    unsafe { spg_judge_sum(sheet.as_ptr(), sheet.len(), x, y, z) }
}

/// Document 02's P2: and so have the sides looked at.
pub fn looked(sheet: &[u8], [x, y, z]: Point) -> u32 {
    unsafe { spg_judge_looked(sheet.as_ptr(), sheet.len(), x, y, z) }
}

pub fn single(sheet: &[u8], query: Point) -> Single {
    Single { answer: judge(sheet, query), sum: sum(sheet, query), looked: looked(sheet, query) }
}

extern "C" {
    fn spg_choose_number(
        sheet: *const u8,
        sheet_len: usize,
        candidates: *const u8,
        candidates_len: usize,
    ) -> u32;
    fn spg_choose_place(
        sheet: *const u8,
        sheet_len: usize,
        candidates: *const u8,
        candidates_len: usize,
    ) -> usize;
}

/// Document 02's P4: the earliest candidate that passes. There is no call for the count, which is 0.
pub fn choose(sheet: &[u8], candidates: &[u8]) -> Answer {
    let (c, c_len) = (candidates.as_ptr(), candidates.len());
    Answer {
        number: unsafe { spg_choose_number(sheet.as_ptr(), sheet.len(), c, c_len) },
        place: unsafe { spg_choose_place(sheet.as_ptr(), sheet.len(), c, c_len) },
        count: 0,
    }
}

extern "C" {
    fn spg_compare_number(left: *const u8, left_len: usize, right: *const u8, right_len: usize) -> u32;
    fn spg_compare_place(left: *const u8, left_len: usize, right: *const u8, right_len: usize) -> usize;
    fn spg_compare_count(left: *const u8, left_len: usize, right: *const u8, right_len: usize) -> u32;
    fn spg_compare_way(left: *const u8, left_len: usize, right: *const u8, right_len: usize) -> u32;
    fn spg_compare_fields(left: *const u8, left_len: usize, right: *const u8, right_len: usize) -> u64;
}

pub fn compare_number(left: &[u8], right: &[u8]) -> u32 {
    unsafe { spg_compare_number(left.as_ptr(), left.len(), right.as_ptr(), right.len()) }
}

/// Seven bytes of a number of eight, the first the lowest. The eighth is 0.
pub fn field_bytes(fields: u64) -> [u8; 7] {
    let [named @ .., rest] = fields.to_le_bytes();
    assert_eq!(rest, 0);
    named
}

/// Document 02's P11.
pub fn compare(left: &[u8], right: &[u8]) -> Comparison {
    let (l, l_len, r, r_len) = (left.as_ptr(), left.len(), right.as_ptr(), right.len());
    unsafe {
        Comparison {
            number: spg_compare_number(l, l_len, r, r_len),
            place: spg_compare_place(l, l_len, r, r_len),
            count: spg_compare_count(l, l_len, r, r_len),
            way: spg_compare_way(l, l_len, r, r_len),
            fields: field_bytes(spg_compare_fields(l, l_len, r, r_len)),
        }
    }
}
