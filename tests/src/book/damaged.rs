//! Books cut and damaged at random: their answers, the steps of a reader over them, and both at the ends of pages.

use super::{any_sheets, joined, Books};
use crate::client::{row, sanitized_client};
use crate::compare::Tally;
use crate::host::{output_of, Folder};
use crate::random::Random;
use crate::sheet::point_bytes;
use crate::{library, reference, Answer, Point, Which};

/// Books of many sizes: whole, cut anywhere, with bytes changed, with a piece left out or doubled.
pub fn damaged_books(random: &mut Random, count: usize) -> Vec<(Vec<u8>, u32, Point)> {
    let any_book = |_| {
        let n = if random.once_in(20) { 60 + random.below(7) } else { random.below(5) };
        let (sheets, asked) = any_sheets(random, n);
        let mut book = joined(&sheets);
        let (i, j) = (random.below(book.len() + 1), random.below(book.len() + 1));
        let piece = i.min(j)..i.max(j);
        match random.below(6) {
            0 => book.truncate(i),
            1 => drop(book.drain(piece)),
            2 => book.extend(book[piece].to_vec()),
            3 if i < book.len() => book[i] = random.pick(&[0, 1, 2, 3, 4, 5, 6, 7, 12, 36, 255]),
            _ => {}
        }
        (book, random.pick(&[0, 0, 0, 1, 1, 1, 2]), asked)
    };
    (0..count).map(any_book).collect()
}

#[test]
fn damaged_books_compared() {
    let mut books = Books::default();
    for (book, grid, query) in damaged_books(&mut Random::new(201), 30_000) {
        books.compare(&book, grid, query);
    }
    books.report("damaged books", 30_000, [0, 20, 21, 22, 36]);
}

/// A step from every place, past the end too; and the walk from 0 visits exactly the sheets.
#[test]
fn book_steps() {
    let mut tally = Tally::default();
    let random = &mut Random::new(202);
    for (book, ..) in damaged_books(random, 300) {
        let past = [usize::MAX, usize::MAX - 68, 1 << 32];
        for at in (0..book.len() + 3).chain(past) {
            let found = library::book::step(&book, at);
            assert_eq!(found, reference::book::step(&book, at), "{book:02x?} at {at}");
            tally.count(found.number);
        }
    }
    for n in [0, 1, 2, 63, 64, 65, 200] {
        let (sheets, _) = any_sheets(random, n);
        let book = joined(&sheets);
        let mut at = 0;
        for sheet in &sheets {
            let size = sheet.bytes().len();
            assert_eq!(library::book::step(&book, at), Answer { number: 0, place: at, count: size as u32 });
            at += size;
        }
        assert_eq!(at, book.len());
        assert_eq!(library::book::step(&book, at), Answer { number: 0, place: 0, count: 0 });
    }
    tally.report("steps", 50_000, [0, 20, 21, 22]);
}

/// Books at the very ends of pages that can only be read, under AddressSanitizer.
#[test]
fn book_guard_pages() {
    let folder = Folder::new("book-pages");
    let cases = damaged_books(&mut Random::new(203), 3_000);
    let bytes = |(book, grid, query): &(Vec<u8>, u32, Point)| {
        [row(book), row(&[&grid.to_be_bytes()[..], &point_bytes(*query)].concat())].concat()
    };
    let input: Vec<u8> = cases.iter().flat_map(bytes).collect();
    let printed = output_of(sanitized_client(&folder).arg("book"), &input);
    assert_eq!(printed.lines().count(), cases.len());
    for (line, (book, grid, query)) in printed.lines().zip(&cases) {
        let Which { answer: Answer { number, place, count }, inside, boundary, refused } =
            reference::book::which(book, *grid, *query);
        let expected = format!("{number} {place} {count} 0 0 {inside} {boundary} {refused}");
        assert_eq!(line, expected, "{book:02x?} {grid} {query:?}");
    }
    println!("books, guard pages: {} books", cases.len());
}
