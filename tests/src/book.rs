//! Document 02's P10: books against the reference and against the single calls on their sheets. `damaged` has books cut
//! and damaged at random, and the steps of a reader over them; `feeds` has feeds to a book.

mod damaged;
mod feeds;

use crate::compare::Tally;
use crate::outlines::{sheet_and_queries, Numbers::Within, Source};
use crate::random::Random;
use crate::sheet::{octant, octant_pair, Grid, Sheet, GRIDS};
use crate::{library, reference, Answer, Point, Which};

const NUMBERS: [u32; 4] = [0, 1, 2, u32::MAX];

/// How often each number of a book occurred, and each kind of zone.
#[derive(Default)]
struct Books {
    numbers: Tally,
    inside: u32,
    boundary: u32,
    refused: u32,
}

impl Books {
    /// All six calls for a query against the reference; the book's bytes stay.
    fn compare(&mut self, book: &[u8], grid: u32, query: Point) -> Which {
        let lent = book.to_vec();
        let found = library::book::which(&lent, grid, query);
        assert!(lent == book, "the book's bytes changed");
        let expected = reference::book::which(book, grid, query);
        assert!(found == expected, "{book:02x?}\n{grid} {query:?}\n{found:?}\n{expected:?}");
        self.numbers.count(found.answer.number);
        self.inside += found.inside.count_ones();
        self.boundary += found.boundary.count_ones();
        self.refused += found.refused.count_ones();
        found
    }

    fn report(&self, what: &str, at_least: u64, numbers: impl IntoIterator<Item = u32>) {
        self.numbers.report(what, at_least, numbers);
        println!(
            "{what}: zones inside {}, boundary {}, refused {}",
            self.inside, self.boundary, self.refused
        );
        assert!(self.inside > 1_000 && self.boundary > 1_000 && self.refused > 1_000);
    }
}

/// Sheets of any kind, on either grid, some with a second point and some refused; and a query to one of them.
fn any_sheets(random: &mut Random, n: usize) -> (Vec<Sheet>, Point) {
    let mut asked = random.point(3);
    let sheets = (0..n).map(|_| {
        let source = Source(random.pick(&GRIDS), Within(random.pick(&[1, 2, 3])));
        let (sheet, queries) = sheet_and_queries(random, source, 8, 2);
        asked = queries[random.below(2)];
        sheet
    });
    (sheets.collect(), asked)
}

fn joined(sheets: &[Sheet]) -> Vec<u8> {
    sheets.iter().flat_map(Sheet::bytes).collect()
}

/// What the single calls say of the sheets, each by itself.
fn by_single_calls(sheets: &[Sheet], grid: u32, query: Point) -> Which {
    let numbers: Vec<u32> = sheets.iter().map(|sheet| library::number(&sheet.bytes(), query)).collect();
    let named = |sheet: &Sheet| [Grid::Coarse, Grid::Fine].get(grid as usize) == Some(&sheet.grid);
    let set = |is_in: fn(bool, u32) -> bool| {
        let zones = sheets.iter().zip(&numbers).enumerate();
        zones.filter(|(_, (sheet, &number))| is_in(named(sheet), number)).map(|(i, _)| 1 << i).sum()
    };
    let inside: u64 = set(|named, number| named && number == 1);
    let boundary: u64 = set(|named, number| named && number == 3);
    let refused = set(|named, number| !named || !matches!(number, 1..=3));
    let count = inside.count_ones() + boundary.count_ones();
    Which { answer: Answer { number: 0, place: 0, count }, inside, boundary, refused }
}

/// No zone, one, two, and about the most: each with every grid's number.
#[test]
fn book_sizes() {
    let mut books = Books::default();
    let random = &mut Random::new(200);
    for (n, rounds) in [(0, 20), (1, 2_000), (2, 2_000), (3, 1_000), (63, 60), (64, 60), (65, 60)] {
        for _ in 0..rounds {
            let (sheets, asked) = any_sheets(random, n);
            let book = joined(&sheets);
            for (grid, query) in
                NUMBERS.into_iter().flat_map(|grid| [asked, [0; 3]].map(|query| (grid, query)))
            {
                let found = books.compare(&book, grid, query);
                if n <= 64 {
                    assert_eq!(found, by_single_calls(&sheets, grid, query));
                    continue;
                }
                let answer = Answer { number: 36, place: joined(&sheets[..64]).len(), count: 0 };
                assert_eq!(found, Which { answer, inside: 0, boundary: 0, refused: 0 });
            }
        }
    }
    books.report("books", 40_000, [0, 36]);
}

/// A book of six, worked out by hand. Zones 0 and 1 are the octant on either grid, 2 has a second point, 3 is refused
/// (K9), 4 is the octant with all numbers negated, 5 has a second point that fails (19).
#[test]
fn worked_book() {
    let negated = Sheet::new([-1, -1, -1], &[[-1, 0, 0], [0, -1, 0], [0, 0, -1]]);
    let on_circle = Sheet { known: [1, -1, 0], ..octant() };
    let fails = octant().with_second([2, 2, 2]);
    let fine = octant().on(Grid::Fine);
    let book = joined(&[octant(), fine, octant_pair(), on_circle, negated, fails]);
    let cases: [(u32, Point, [u64; 3]); 8] = [
        // K2: outside zone 4.
        (0, [3, 2, 1], [0b000101, 0, 0b101010]),
        (1, [3, 2, 1], [0b000010, 0, 0b111101]),
        (2, [3, 2, 1], [0, 0, 0b111111]),
        // K3, and a corner of zone 4.
        (0, [1, 1, 0], [0, 0b000101, 0b101010]),
        (0, [-1, 0, 0], [0, 0b010000, 0b101010]),
        // K8: opposite zone 0's only known point, judged by zone 2's second one, and zone 4's own known point.
        (0, [-1, -1, -1], [0b010000, 0, 0b101011]),
        // Beyond the coarse grid: 17 for each zone on it.
        (0, [1_048_577, 1, 1], [0, 0, 0b111111]),
        (1, [1_048_577, 1, 1], [0b000010, 0, 0b111101]),
    ];
    for (grid, query, [inside, boundary, refused]) in cases {
        let count = inside.count_ones() + boundary.count_ones();
        let expected = Which { answer: Answer { number: 0, place: 0, count }, inside, boundary, refused };
        assert_eq!(library::book::which(&book, grid, query), expected, "{grid} {query:?}");
    }
}

/// Every beginning of a book of three, and every value of every byte of it.
#[test]
fn book_bytes() {
    let mut books = Books::default();
    let book = joined(&[octant(), octant_pair(), octant().on(Grid::Fine)]);
    for end in 0..=book.len() {
        for (grid, query) in [(0, [3, 2, 1]), (1, [1, 1, 0])] {
            books.compare(&book[..end], grid, query);
        }
    }
    for (at, value) in (0..book.len()).flat_map(|at| (0..=255).map(move |value| (at, value))) {
        let mut changed = book.clone();
        changed[at] = value;
        books.compare(&changed, 0, [3, 2, 1]);
        books.compare(&changed, 1, [1, 1, 0]);
        books.compare(&changed[..book.len() - 1], 0, [1, 1, 0]);
    }
    books.report("books, every byte", 150_000, [0, 20, 21, 22, 23]);
}

/// One field damaged in each sheet of a book of 64, alone and with a later sheet damaged too: the earliest decides, and
/// its place is counted from the book's start. In a 65th sheet any damage is 36.
#[test]
fn book_damaged_sheets() {
    let sheets: Vec<Vec<u8>> =
        (0..65).map(|i| [octant(), octant_pair()][i % 2].clone().on(GRIDS[i / 2 % 2]).bytes()).collect();
    let starts: Vec<usize> = (0..65).map(|i| sheets[..i].concat().len()).collect();
    // A byte of the sheet, its new value, the refusal, and where the field begins.
    let damages = [
        (0, 3, 21, 0),
        (10, 4, 23, 7),
        (13, 0, 22, 11),
        (13, 121, 22, 11),
        (30, 9, 21, 30),
        (32, 37, 22, 30),
    ];
    for (at, value, number, place) in damages {
        for i in 0..64 {
            let mut book = sheets[..64].concat();
            book[starts[i] + at] = value;
            let answer = Answer { number, place: starts[i] + place, count: 0 };
            let expected = Which { answer, inside: 0, boundary: 0, refused: 0 };
            assert_eq!(library::book::which(&book, 0, [3, 2, 1]), expected, "sheet {i}");
            book[starts[i..64][(63 - i) / 2] + 7] = 99;
            book.extend(&sheets[64]);
            let found = library::book::which(&book, 0, [3, 2, 1]);
            assert_eq!(found, reference::book::which(&book, 0, [3, 2, 1]), "sheet {i}");
        }
        let mut book = sheets.concat();
        book[starts[64] + at] = value;
        let answer = Answer { number: 36, place: starts[64], count: 0 };
        for end in starts[64] + 1..=book.len() {
            let found = library::book::which(&book[..end], 0, [3, 2, 1]);
            assert_eq!(found, Which { answer, inside: 0, boundary: 0, refused: 0 });
        }
    }
}
