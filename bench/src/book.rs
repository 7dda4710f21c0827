//! Document 02's P10: one query to a book of 64 sheets, beside 64 single calls on them. Instructions are counted, as a
//! book is asked in one call whose time other work on the machine would move more than the difference.

use crate::instructions::count;
use crate::table::{counted_row, heading, thousands};
use spargolutta_tests::host::Folder;
use spargolutta_tests::islands::{islands_on, queries, Extent, SIDES};
use spargolutta_tests::library;
use spargolutta_tests::sheet::{points_bytes, Grid};
use spargolutta_tests::Point;
use std::fs;
use std::path::Path;

const SHEETS: usize = 64;

/// The set inside, by the sheets' bytes joined and by where each ends.
type Ask = fn(&[u8], &[usize], Point) -> u64;

fn book(book: &[u8], _: &[usize], query: Point) -> u64 {
    library::book::inside(book, 0, query)
}

fn single_calls(book: &[u8], ends: &[usize], query: Point) -> u64 {
    let starts = [0].into_iter().chain(ends.iter().copied());
    let zones = starts.zip(ends).enumerate();
    zones.map(|(i, (start, &end))| u64::from(library::number(&book[start..end], query) == 1) << i).sum()
}

const CONTESTANTS: [(&str, Ask); 2] = [("book", book), ("single calls", single_calls)];

/// Callgrind collects while this runs.
#[no_mangle]
#[inline(never)]
fn counted_book(ask: Ask, book: &[u8], ends: &[usize], query: Point) -> u64 {
    ask(book, ends, query)
}

/// Asks the folder's book, if that is what the contestant does.
pub fn ask_once(folder: &Path, contestant: &str) -> bool {
    let Some((_, ask)) = CONTESTANTS.into_iter().find(|(name, _)| *name == contestant) else { return false };
    let [book, query] = ["book", "query"].map(|name| fs::read(folder.join(name)).expect("file"));
    let number = |k: usize| i32::from_be_bytes(query[k..k + 4].try_into().expect("four bytes"));
    let size = book.len() / SHEETS;
    let ends: Vec<usize> = (1..=SHEETS).map(|i| i * size).collect();
    let query = [number(0), number(4), number(8)];
    let inside = counted_book(ask, &book, &ends, query);
    assert_eq!(inside, single_calls(&book, &ends, query), "the book differs from the single calls");
    true
}

pub fn compare() {
    let title =
        format!("One query to a book of {SHEETS} sheets, and as many single calls: millions of instructions");
    heading(&title, &CONTESTANTS.map(|(name, _)| name));
    for sides in [64, SIDES] {
        let outlines: Vec<_> =
            (0..SHEETS).map(|i| islands_on(Grid::Coarse, i as u64, sides, Extent::Archipelago)).collect();
        let sheets: Vec<Vec<u8>> = outlines.iter().map(|islands| islands.sheet()).collect();
        assert!(sheets.iter().all(|sheet| sheet.len() == sheets[0].len()));
        let folder = Folder::new("book");
        folder.write("book", &sheets.concat());
        folder.write("query", &points_bytes(&queries(2, &outlines[0], 1)));
        let counts: Option<Vec<f64>> =
            CONTESTANTS.iter().map(|(name, _)| count(&folder, "counted_book", &[name])).collect();
        counted_row(&format!("{} sides each", thousands(sides)), counts.as_deref());
        if let Some(counts) = counts {
            assert!(counts[0] <= 1.05 * counts[1], "a book costs more than its sheets");
        }
    }
}
