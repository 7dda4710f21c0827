//! The calls on a book (document 02, P10).

use crate::{Answer, Point, Which};

extern "C" {
    fn spg_book_number(book: *const u8, book_len: usize, grid: u32, x: i32, y: i32, z: i32) -> u32;
    fn spg_book_place(book: *const u8, book_len: usize, grid: u32, x: i32, y: i32, z: i32) -> usize;
    fn spg_book_count(book: *const u8, book_len: usize, grid: u32, x: i32, y: i32, z: i32) -> u32;
    fn spg_book_inside(book: *const u8, book_len: usize, grid: u32, x: i32, y: i32, z: i32) -> u64;
    fn spg_book_boundary(book: *const u8, book_len: usize, grid: u32, x: i32, y: i32, z: i32) -> u64;
    fn spg_book_refused(book: *const u8, book_len: usize, grid: u32, x: i32, y: i32, z: i32) -> u64;
    fn spg_book_feed_number(
        book: *const u8,
        book_len: usize,
        grid: u32,
        queries: *const u8,
        queries_len: usize,
        results: *mut u8,
        results_len: usize,
    ) -> u32;
    fn spg_book_feed_place(
        book: *const u8,
        book_len: usize,
        grid: u32,
        queries: *const u8,
        queries_len: usize,
        results_len: usize,
    ) -> usize;
    fn spg_book_feed_count(
        book: *const u8,
        book_len: usize,
        grid: u32,
        queries: *const u8,
        queries_len: usize,
        results_len: usize,
    ) -> u32;
    fn spg_book_next_number(book: *const u8, book_len: usize, at: usize) -> u32;
    fn spg_book_next_place(book: *const u8, book_len: usize, at: usize) -> usize;
    fn spg_book_next_count(book: *const u8, book_len: usize, at: usize) -> usize;
}

pub fn inside(book: &[u8], grid: u32, [x, y, z]: Point) -> u64 {
    unsafe { spg_book_inside(book.as_ptr(), book.len(), grid, x, y, z) }
}

pub fn which(book: &[u8], grid: u32, query: Point) -> Which {
    let (b, n, [x, y, z]) = (book.as_ptr(), book.len(), query);
    Which {
        answer: Answer {
            number: unsafe { spg_book_number(b, n, grid, x, y, z) },
            place: unsafe { spg_book_place(b, n, grid, x, y, z) },
            count: unsafe { spg_book_count(b, n, grid, x, y, z) },
        },
        inside: inside(book, grid, query),
        boundary: unsafe { spg_book_boundary(b, n, grid, x, y, z) },
        refused: unsafe { spg_book_refused(b, n, grid, x, y, z) },
    }
}

pub fn feed_number(book: &[u8], grid: u32, queries: &[u8], results: &mut [u8]) -> u32 {
    let (b, n, out, room) = (book.as_ptr(), book.len(), results.as_mut_ptr(), results.len());
    unsafe { spg_book_feed_number(b, n, grid, queries.as_ptr(), queries.len(), out, room) }
}

/// A feed to a book: the answer, and the results in their buffer.
pub fn feed(book: &[u8], grid: u32, queries: &[u8], results: &mut [u8]) -> Answer {
    let (b, n, q, m) = (book.as_ptr(), book.len(), queries.as_ptr(), queries.len());
    Answer {
        place: unsafe { spg_book_feed_place(b, n, grid, q, m, results.len()) },
        count: unsafe { spg_book_feed_count(b, n, grid, q, m, results.len()) },
        number: feed_number(book, grid, queries, results),
    }
}

/// One step from `at`: the count is a sheet's length, which 32 bits hold.
pub fn step(book: &[u8], at: usize) -> Answer {
    let (b, n) = (book.as_ptr(), book.len());
    Answer {
        number: unsafe { spg_book_next_number(b, n, at) },
        place: unsafe { spg_book_next_place(b, n, at) },
        count: unsafe { spg_book_next_count(b, n, at) }.try_into().expect("a sheet's length"),
    }
}
