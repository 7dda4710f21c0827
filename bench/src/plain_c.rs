//! The calls of calls.c, geojson.c and positions.c, declared as in judge.h.

use spargolutta_tests::imports::Given;
use spargolutta_tests::Point;
use spargolutta_yardstick::Answer;

#[repr(C)]
struct CAnswer {
    number: u32,
    place: usize,
    count: u32,
}

extern "C" {
    fn c_judge(sheet: *const u8, sheet_len: usize, x: i32, y: i32, z: i32) -> CAnswer;
    fn c_feed(
        sheet: *const u8,
        sheet_len: usize,
        queries: *const u8,
        queries_len: usize,
        results: *mut u8,
        results_len: usize,
    ) -> CAnswer;
    fn c_import(
        text: *const u8,
        text_len: usize,
        zone: u32,
        charset: u32,
        name: *const u8,
        name_len: usize,
        x: i32,
        y: i32,
        z: i32,
        sheet: *mut u8,
        sheet_len: usize,
    ) -> CAnswer;
    fn c_points(degrees: *const u8, count: usize, limit: f64, points: *mut u8);
}

pub fn judge(sheet: &[u8], [x, y, z]: Point) -> Answer {
    let CAnswer { number, place, count } = unsafe { c_judge(sheet.as_ptr(), sheet.len(), x, y, z) };
    (number, place, count)
}

pub fn feed(sheet: &[u8], queries: &[u8], results: &mut [u8]) -> Answer {
    let (out, out_len) = (results.as_mut_ptr(), results.len());
    let CAnswer { number, place, count } =
        unsafe { c_feed(sheet.as_ptr(), sheet.len(), queries.as_ptr(), queries.len(), out, out_len) };
    (number, place, count)
}

pub fn import(text: &[u8], given: &Given, sheet: &mut [u8]) -> Answer {
    let (&Given { zone, charset, known: [x, y, z], .. }, name) = (given, &given.name);
    let (at, length, out, room) = (text.as_ptr(), text.len(), sheet.as_mut_ptr(), sheet.len());
    let CAnswer { number, place, count } =
        unsafe { c_import(at, length, zone, charset, name.as_ptr(), name.len(), x, y, z, out, room) };
    (number, place, count)
}

/// The points of these positions by libm, with room for all of them.
pub fn points(degrees: &[u8], limit: f64, points: &mut [u8]) {
    assert!(points.len() >= degrees.len() / 8 * 12);
    unsafe { c_points(degrees.as_ptr(), degrees.len() / 8, limit, points.as_mut_ptr()) }
}
