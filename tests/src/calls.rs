//! The exported calls as a table: what the library and what the reference say of the same case. The guard pages' tests
//! and the fuzzer go through it, so that a call that is added here is in both.

mod rooms;
mod told;

use crate::fractions::Angles;
use crate::imports::{self, Given};
use crate::sheet::{point_bytes, Grid, GRIDS};
use crate::{library, reference, Answer, Point, Written};
pub use rooms::Rooms;
use std::sync::OnceLock;
use told::{Numbered, Told};

/// What is handed to a call. Each takes what it needs: the first bytes are a sheet, a book, vertices or a text, the
/// second ones queries, candidates, another sheet or a name.
#[derive(Clone, Debug, Default, PartialEq, Eq)]
pub struct Case {
    pub first: Vec<u8>,
    pub second: Vec<u8>,
    /// The buffer that is written to, as it is before the call.
    pub buffer: Vec<u8>,
    /// A grid's number, a place, the numbers of a point and the like.
    pub words: [u32; WORDS],
}

/// As many as the call with the most of them takes.
pub const WORDS: usize = 9;

/// A case as it is lent.
struct Lent<'a> {
    first: &'a [u8],
    second: &'a [u8],
    words: [u32; WORDS],
}

impl Lent<'_> {
    fn point(&self, from: usize) -> Point {
        [0, 1, 2].map(|k| self.words[from + k] as i32)
    }

    fn place(&self) -> usize {
        (u64::from(self.words[1]) << 32 | u64::from(self.words[0])) as usize
    }

    fn given(&self) -> Given<'_> {
        let [zone, charset, .., fine] = self.words;
        let grid = if fine == 1 { Grid::Fine } else { Grid::Coarse };
        Given { grid, zone, charset, name: self.second, known: self.point(2) }
    }

    /// The first bytes are the vertices, the second ones the name.
    fn written(&self) -> Written<'_> {
        let [zone, charset, .., grid] = self.words;
        let (name, vertices) = (self.second.into(), self.first.into());
        Written { zone, charset, name, known: self.point(2), second: self.point(5), vertices, grid }
    }
}

/// Gives the answer and leaves the buffer as the call does.
type Ask = fn(&Lent, &mut [u8]) -> Told;

pub struct Call {
    pub name: &'static str,
    library: Ask,
    reference: Ask,
}

/// A call without a buffer, which has the same name and arguments in the library and in the reference.
macro_rules! reading {
    ($name:literal, |$lent:ident| $($call:ident)::+ ($($argument:expr),*)) => {
        Call {
            name: $name,
            library: |$lent, _| library::$($call)::+($($argument),*).told(),
            reference: |$lent, _| reference::$($call)::+($($argument),*).told(),
        }
    };
}

pub const CALLS: [Call; 17] = [
    reading!("judge", |lent| single(lent.first, lent.point(0))),
    Call { name: "feed", library: feed, reference: feed_by_reference },
    reading!("choose", |lent| choose(lent.first, lent.second)),
    reading!("basin", |lent| basin(lent.first, lent.words[0])),
    reading!("book", |lent| book::which(lent.first, lent.words[0], lent.point(1))),
    Call { name: "book_feed", library: book_feed, reference: book_feed_by_reference },
    reading!("book_next", |lent| book::step(lent.first, lent.place())),
    reading!("compare", |lent| compare(lent.first, lent.second)),
    Call { name: "import", library: import, reference: import_by_reference },
    Call { name: "point", library: point, reference: point_by_reference },
    Call { name: "points", library: points, reference: points_by_reference },
    Call { name: "write", library: write, reference: write_by_reference },
    reading!("sheet", |lent| sheets::parts(lent.first)),
    Call { name: "vertices", library: vertices, reference: vertices_by_reference },
    Call { name: "far", library: far, reference: far_by_reference },
    Call { name: "box", library: boxed, reference: boxed_by_reference },
    Call { name: "meaning", library: meaning, reference: meaning_by_reference },
];

/// The row with this name.
pub fn call(name: &str) -> &'static Call {
    const TABLE: &[Call] = &CALLS;
    TABLE.iter().find(|call| call.name == name).expect("a call's name")
}

/// The answer, with these bytes at the buffer's front.
fn put((answer, bytes): (Answer, Vec<u8>), buffer: &mut [u8]) -> Told {
    buffer[..bytes.len()].copy_from_slice(&bytes);
    answer.told()
}

fn feed(lent: &Lent, results: &mut [u8]) -> Told {
    let (sheet, queries, room) = (lent.first, lent.second, results.len());
    let place = library::feed_place(sheet, queries, room);
    let count = library::feed_count(sheet, queries, room);
    Answer { place, count, number: library::feed_number(sheet, queries, results) }.told()
}

fn feed_by_reference(lent: &Lent, results: &mut [u8]) -> Told {
    put(reference::feed(lent.first, lent.second, results), results)
}

fn book_feed(lent: &Lent, results: &mut [u8]) -> Told {
    library::book::feed(lent.first, lent.words[0], lent.second, results).told()
}

fn book_feed_by_reference(lent: &Lent, results: &mut [u8]) -> Told {
    put(reference::book::feed(lent.first, lent.words[0], lent.second, results), results)
}

fn import(lent: &Lent, sheet: &mut [u8]) -> Told {
    let (text, given) = (lent.first, lent.given());
    let place = imports::import_place(text, &given, sheet.len());
    Answer { place, number: imports::import_number(text, &given, sheet), count: 0 }.told()
}

fn import_by_reference(lent: &Lent, sheet: &mut [u8]) -> Told {
    put(reference::import(lent.first, &lent.given(), sheet.len(), imports::point_on), sheet)
}

fn write(lent: &Lent, sheet: &mut [u8]) -> Told {
    library::sheets::write(&lent.written(), sheet).told()
}

fn write_by_reference(lent: &Lent, sheet: &mut [u8]) -> Told {
    put(reference::sheets::write(&lent.written(), sheet.len()), sheet)
}

fn vertices(lent: &Lent, buffer: &mut [u8]) -> Told {
    library::sheets::vertices(lent.first, buffer).told()
}

fn vertices_by_reference(lent: &Lent, buffer: &mut [u8]) -> Told {
    put(reference::sheets::vertices(lent.first, buffer.len()), buffer)
}

fn far(lent: &Lent, _: &mut [u8]) -> Told {
    library::extents::far(lent.first).told()
}

/// Whether a plane is found is a hint: 0 will do for a good sheet.
fn far_by_reference(lent: &Lent, _: &mut [u8]) -> Told {
    let found = library::extents::far(lent.first) != 0;
    reference::extents::far(lent.first, found).told()
}

fn boxed(lent: &Lent, buffer: &mut [u8]) -> Told {
    library::extents::boxed(lent.first, buffer).told()
}

/// How tight a box is, is left open: the library's own if it holds the vertices and is not the whole.
fn boxed_by_reference(lent: &Lent, buffer: &mut [u8]) -> Told {
    let mut own = [0; 24];
    library::extents::boxed(lent.first, &mut own);
    put(reference::extents::boxed(lent.first, buffer.len(), own), buffer)
}

fn meaning(lent: &Lent, text: &mut [u8]) -> Told {
    let number = lent.words[0];
    (library::sheets::place_kind(number), library::sheets::meaning_text(number, text)).told()
}

fn meaning_by_reference(lent: &Lent, buffer: &mut [u8]) -> Told {
    let (kind, text) = reference::meanings::meaning(lent.words[0]);
    buffer.iter_mut().zip(text.bytes()).for_each(|(place, byte)| *place = byte);
    (kind, text.len()).told()
}

/// Without a grid and with one.
fn point(lent: &Lent, _: &mut [u8]) -> Told {
    let [longitude, latitude, grid] = lent.point(0);
    let coarse = (imports::point_number(longitude, latitude), Some(imports::point(longitude, latitude)));
    let number = imports::point_on_number(longitude, latitude, grid as u32);
    (coarse, (number, Some(imports::point_on(longitude, latitude, grid as u32)))).told()
}

/// The bound leaves the grid numbers open: the library's own if they are within it.
fn near(longitude: i32, latitude: i32, grid: u32) -> (u32, Option<Point>) {
    static ANGLES: OnceLock<Angles> = OnceLock::new();
    let Some(&named) = GRIDS.iter().find(|named| named.number() == grid) else {
        return (28, Some([0; 3]));
    };
    if longitude.unsigned_abs() > 1_800_000_000 || latitude.unsigned_abs() > 900_000_000 {
        return (31, Some([0; 3]));
    }
    let numbers = imports::point_on(longitude, latitude, grid);
    let near = ANGLES.get_or_init(Angles::new).within_bound(named, [longitude, latitude], numbers);
    (0, near.then_some(numbers))
}

fn point_by_reference(lent: &Lent, _: &mut [u8]) -> Told {
    let [longitude, latitude, grid] = lent.point(0);
    (near(longitude, latitude, 0), near(longitude, latitude, grid as u32)).told()
}

fn points(lent: &Lent, buffer: &mut [u8]) -> Told {
    imports::points(lent.first, lent.words[0], buffer).told()
}

fn points_by_reference(lent: &Lent, buffer: &mut [u8]) -> Told {
    let (degrees, grid, needed) = (lent.first, lent.words[0], lent.first.len() / 8 * 12);
    let refusals = [(26, 0, degrees.len() % 8 != 0), (27, needed, buffer.len() < needed), (28, 0, grid > 1)];
    if let Some(&(number, place, _)) = refusals.iter().find(|(.., holds)| *holds) {
        return Answer { number, place, count: 0 }.told();
    }
    let mut count = 0;
    for (position, point) in degrees.chunks(8).zip(buffer.chunks_mut(12)) {
        let [longitude, latitude] =
            [0, 4].map(|k| i32::from_be_bytes(position[k..k + 4].try_into().expect("four bytes")));
        let (number, numbers) = near(longitude, latitude, grid);
        count += u32::from(number == 31);
        point.copy_from_slice(&point_bytes(numbers.expect("numbers within the bound")));
    }
    Answer { number: 0, place: 0, count }.told()
}
