//! Feeds to a book: each result against the reference and against the single calls. The result buffer stands between
//! guard bytes, and every lent byte is compared.

use super::damaged::damaged_books;
use super::{any_sheets, joined};
use crate::compare::Tally;
use crate::islands::{islands_on, queries, Extent};
use crate::outlines::{sheet_and_queries, Numbers, Source};
use crate::random::Random;
use crate::sheet::{octant, octant_pair, points_bytes, Grid, Sheet, GRIDS};
use crate::stars::star;
use crate::{library, reference, Answer, Point, Which};

const GUARD: usize = 40;

fn number_of(grid: Grid) -> u32 {
    u32::from(grid == Grid::Fine)
}

fn paint(length: usize) -> Vec<u8> {
    (0..length).map(|k| 0x80 | k as u8).collect()
}

/// The sets of a result.
fn sets(result: &[u8]) -> [u64; 3] {
    [0, 8, 16].map(|k| u64::from_be_bytes(result[k..k + 8].try_into().expect("eight bytes")))
}

/// The three calls with `room` bytes for the results: the answer, and the buffer after them. All other bytes stay.
fn feed(book: &[u8], grid: u32, queries: &[u8], room: usize) -> (Answer, Vec<u8>) {
    let (lent_book, lent_queries) = (book.to_vec(), queries.to_vec());
    let before = paint(GUARD + room + GUARD);
    let mut lent = before.clone();
    let found = library::book::feed(&lent_book, grid, &lent_queries, &mut lent[GUARD..GUARD + room]);
    assert!(lent_book == book && lent_queries == queries, "the book or the queries changed");
    assert!(lent[..GUARD] == before[..GUARD], "bytes before the buffer changed");
    assert!(lent[GUARD + room..] == before[GUARD + room..], "bytes behind the buffer changed");
    let results = lent[GUARD..GUARD + room].to_vec();
    let (expected, after) = reference::book::feed(book, grid, queries, &before[GUARD..GUARD + room]);
    assert_eq!(found, expected, "{book:02x?} {grid} {queries:02x?}");
    assert!(results == after, "the results differ: {book:02x?} {grid} {queries:02x?}");
    (found, results)
}

/// A feed that succeeds, with `more` bytes of room than it needs, against the single calls. How many zones are in each
/// set, over all queries.
fn equals_single_calls(book: &[u8], grid: u32, queries: &[Point], more: usize) -> [u32; 3] {
    let (answer, results) = feed(book, grid, &points_bytes(queries), 24 * queries.len() + more);
    assert_eq!(answer, Answer { number: 0, place: 0, count: 0 });
    let mut found = [0; 3];
    for (result, &query) in results.chunks_exact(24).zip(queries) {
        let Which { inside, boundary, refused, .. } = library::book::which(book, grid, query);
        assert_eq!(sets(result), [inside, boundary, refused], "{query:?}");
        found.iter_mut().zip(sets(result)).for_each(|(sum, set)| *sum += set.count_ones());
    }
    found
}

/// The points of a sheet and those opposite, points near them, and such that every sheet refuses.
fn points_about(random: &mut Random, sheets: &[Sheet]) -> Vec<Point> {
    let mut points = vec![[0; 3], [i32::MIN; 3], [i32::MAX, 1, 1]];
    for sheet in sheets {
        for &point in sheet.vertices.iter().take(40).chain([&sheet.known]).chain(&sheet.second) {
            let beside = random.point(2);
            points.extend([point, point.map(|k| k.wrapping_neg())]);
            points.push([0, 1, 2].map(|k| point[k].wrapping_add(beside[k])));
        }
    }
    points
}

/// Small outlines of every kind, and queries to them that are often opposite a known point or on a side.
#[test]
fn book_feeds() {
    let random = &mut Random::new(210);
    let mut found = [0; 3];
    for round in 0..1_500 {
        let n = if round % 50 == 0 { 60 + random.below(5) } else { random.below(6) };
        let (sheets, asked) = any_sheets(random, n);
        let mut queries = points_about(random, &sheets[..n.min(4)]);
        queries.push(asked);
        for grid in [0, 1, 2] {
            let more = random.pick(&[0, 1, 23, 24, 100]);
            let more = equals_single_calls(&joined(&sheets), grid, &queries, more);
            found.iter_mut().zip(more).for_each(|(sum, k)| *sum += k);
        }
    }
    println!("feeds to books: zones inside {}, boundary {}, refused {}", found[0], found[1], found[2]);
    assert!(found.iter().all(|&zones| zones > 20_000));
}

/// 26 comes first, then 27 with the bytes needed, then the book's own refusals; nothing is written.
#[test]
fn book_feed_refusals() {
    let book = joined(&[octant(), octant_pair()]);
    let queries = points_bytes(&[[3, 2, 1]; 5]);
    let refused = |book: &[u8], length: usize, room: usize, number: u32, place: usize| {
        let (answer, results) = feed(book, 0, &queries[..length], room);
        assert_eq!(answer, Answer { number, place, count: 0 });
        assert!(results == paint(GUARD + room)[GUARD..], "a refusal wrote");
    };
    let long = octant().bytes().repeat(65);
    for (length, room) in (0..=60).flat_map(|length| [0, 23, 24, 119, 120, 121].map(|room| (length, room))) {
        let needed = length / 12 * 24;
        for (book, number, place) in [(&book[..100], 20, 99), (&long, 36, 4_416)] {
            match (length % 12, room < needed) {
                (0, false) => refused(book, length, room, number, place),
                (0, true) => refused(book, length, room, 27, needed),
                _ => refused(book, length, room, 26, 0),
            }
        }
    }
    // No queries: the book is checked all the same. No sheets: no zone is in any set.
    assert_eq!(feed(&book, 0, &[], 30).0, Answer { number: 0, place: 0, count: 0 });
    assert_eq!(equals_single_calls(&[], 0, &[[3, 2, 1], [0, 0, 0]], 5), [0; 3]);
}

#[test]
fn damaged_book_feeds() {
    let random = &mut Random::new(211);
    let mut tally = Tally::default();
    for (book, grid, query) in damaged_books(random, 20_000) {
        let mut queries = points_bytes(&[query, random.point(2), [0; 3], query.map(|k| k.wrapping_neg())]);
        let room = 96 - random.below(2) * random.below(97) + random.below(30);
        queries.truncate(48 - random.below(2) * random.below(49));
        tally.count(feed(&book, grid, &queries, room).0.number);
    }
    tally.report("feeds to damaged books", 20_000, [0, 20, 21, 22, 26, 27, 36]);
}

/// Round the centre, where no plane has all vertices ahead; nearly a hemisphere, where few have; all vectors of other
/// lengths; and a small one. Each from inside and, so that what is far is inside, from outside; with queries enough for
/// an index, all over the sphere and beside the vertices.
#[test]
fn book_feeds_far_and_near() {
    let random = &mut Random::new(212);
    for grid in GRIDS {
        let limit = grid.limit();
        let world = islands_on(grid, 213, 200, Extent::World);
        let harbour = islands_on(grid, 214, 200, Extent::Harbour);
        let archipelago = islands_on(grid, 215, 100, Extent::Archipelago);
        let flat = |p: Point| [p[0], p[1], 1 + p[2] / 1_000];
        let hemisphere: Vec<Point> = star(random, grid, 60).into_iter().map(flat).collect();
        let shortened = |(k, p): (usize, Point)| p.map(|c| c >> (k % 5));
        let lengths: Vec<Point> = star(random, grid, 90).into_iter().enumerate().map(shortened).collect();
        let islands = [&world, &harbour, &archipelago].map(|i| Sheet::new(i.known, &i.vertices));
        let tops = [hemisphere, lengths].map(|vertices| Sheet::new([3, 5, limit], &vertices));
        let inside: Vec<Sheet> = islands.into_iter().chain(tops).map(|sheet| sheet.on(grid)).collect();
        let from_afar = |sheet: &Sheet| Sheet { known: [7 - limit, 11 - limit / 2, 5 - limit], ..sheet.clone() };
        let sheets: Vec<Sheet> = inside.iter().cloned().chain(inside.iter().map(from_afar)).collect();
        let mut asked = points_about(random, &sheets);
        asked.extend([&world, &harbour, &archipelago].iter().flat_map(|i| queries(216, i, 150)));
        asked.extend((0..300).map(|_| random.point(limit)));
        for book in [joined(&sheets), joined(&sheets[..5]), joined(&sheets[5..])] {
            let found = equals_single_calls(&book, number_of(grid), &asked, 24);
            assert!(found.iter().all(|&zones| zones > 30), "{found:?}");
            equals_single_calls(&book, number_of(grid), &asked[..100], 0);
        }
    }
}

/// Outlines of over 64 sides with a second point, whose long feeds go by an index: coincidences, and queries opposite
/// both known points.
#[test]
fn long_book_feeds() {
    let random = &mut Random::new(217);
    let mut found = [0; 3];
    for round in 0..60 {
        let grid = GRIDS[round % 2];
        let numbers = random.pick(&[Numbers::Within(2), Numbers::Lengthened(3), Numbers::Limits]);
        let (sheet, asked) = sheet_and_queries(random, Source(grid, numbers), 100, 400);
        let (other, _) = sheet_and_queries(random, Source(grid, numbers), 9, 0);
        let sheets = [sheet, octant_pair().on(grid), other];
        let asked = [asked, points_about(random, &sheets)].concat();
        let more = equals_single_calls(&joined(&sheets), number_of(grid), &asked, 0);
        found.iter_mut().zip(more).for_each(|(sum, k)| *sum += k);
    }
    println!("long feeds to books: zones inside {}, boundary {}, refused {}", found[0], found[1], found[2]);
    assert!(found.iter().all(|&zones| zones > 1_000));
}
