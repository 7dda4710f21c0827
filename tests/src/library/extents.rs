//! How far a zone reaches.

use crate::Answer;

extern "C" {
    fn spg_far_number(sheet: *const u8, sheet_len: usize) -> u32;
    fn spg_box_number(sheet: *const u8, sheet_len: usize, out: *mut u8, out_len: usize) -> u32;
    fn spg_box_place(sheet: *const u8, sheet_len: usize, out_len: usize) -> usize;
    fn spg_box_count(sheet: *const u8, sheet_len: usize, out_len: usize) -> u32;
}

pub fn far(sheet: &[u8]) -> u32 {
    unsafe { spg_far_number(sheet.as_ptr(), sheet.len()) }
}

/// The three calls, the one that writes last.
pub fn boxed(sheet: &[u8], out: &mut [u8]) -> Answer {
    let (s, n, room) = (sheet.as_ptr(), sheet.len(), out.len());
    unsafe {
        let (place, count) = (spg_box_place(s, n, room), spg_box_count(s, n, room));
        Answer { place, count, number: spg_box_number(s, n, out.as_mut_ptr(), room) }
    }
}
