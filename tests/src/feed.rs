//! Document 02's P1: a feed against the reference's feed, and each of its results against the single
//! calls. The result buffer stands between guard bytes, and every lent byte is compared.

use crate::compare::Tally;
use crate::islands::{islands_on, queries, Extent, SIDES};
use crate::outlines::{sheet_and_queries, Numbers, Source};
use crate::program::refused_sheets;
use crate::random::Random;
use crate::sheet::{octant, octant_pair, points_bytes, Grid, GRIDS};
use crate::turns::near_feed;
use crate::{damage, library, reference, Answer, Point};

const DONE: Answer = Answer { number: 0, place: 0, count: 0 };
const GUARD: usize = 64;

/// Bytes that no result has: no number, place or count of a result is so large.
fn paint(length: usize) -> Vec<u8> {
    (0..length).map(|k| 0x80 | k as u8).collect()
}

/// The feed's three calls with a result buffer of `room` bytes: the answer, and the buffer after them.
/// They have to agree with the reference, and to leave every other byte as it was.
fn feed(sheet: &[u8], queries: &[u8], room: usize) -> (Answer, Vec<u8>) {
    let (lent_sheet, lent_queries) = (sheet.to_vec(), queries.to_vec());
    let before = paint(GUARD + room + GUARD);
    let mut lent = before.clone();
    let place_and_count = || {
        (
            library::feed_place(&lent_sheet, &lent_queries, room),
            library::feed_count(&lent_sheet, &lent_queries, room),
        )
    };
    let (place, count) = place_and_count();
    assert!(lent == before, "place and count write nothing");
    let number = library::feed_number(&lent_sheet, &lent_queries, &mut lent[GUARD..GUARD + room]);
    let found = Answer { number, place, count };
    assert_eq!(place_and_count(), (place, count), "before and after");
    assert!(lent_sheet == sheet && lent_queries == queries, "the sheet or the queries changed");

    let results = GUARD..GUARD + room;
    let (expected, after) = reference::feed(sheet, queries, &before[results.clone()]);
    let case = format!("{} bytes of queries, {room} of results, sheet {sheet:02x?}", queries.len());
    assert_eq!(found, expected, "{case}");
    assert!(lent[results.clone()] == after, "{case}: the results differ");
    assert!(lent[..GUARD] == before[..GUARD], "{case}: bytes before the buffer changed");
    assert!(lent[GUARD + room..] == before[GUARD + room..], "{case}: bytes behind the buffer changed");
    (found, after)
}

/// The three words of a result.
fn result(bytes: &[u8]) -> Answer {
    let word = |k: usize| u32::from_be_bytes(bytes[k..k + 4].try_into().expect("four bytes"));
    Answer { number: word(0), place: word(4) as usize, count: word(8) }
}

/// A feed with `more` bytes of room than it needs has to succeed and to say what the single calls say.
pub fn equals_single_calls(sheet: &[u8], queries: &[Point], more: usize) -> Vec<u32> {
    let bytes = points_bytes(queries);
    let (answer, after) = feed(sheet, &bytes, bytes.len() + more);
    assert_eq!(answer, DONE);
    assert!(after[bytes.len()..] == paint(GUARD + bytes.len() + more)[GUARD + bytes.len()..]);
    let results = after[..bytes.len()].chunks(12).map(result);
    for (i, (found, &query)) in results.clone().zip(queries).enumerate() {
        assert_eq!(found, library::judge(sheet, query), "query {i}, {query:?}");
    }
    results.map(|answer| answer.number).collect()
}

/// Nothing may be written, and the answer is this one.
fn refused(sheet: &[u8], queries: &[u8], room: usize, number: u32, place: usize) {
    let (answer, after) = feed(sheet, queries, room);
    assert_eq!(answer, Answer { number, place, count: 0 });
    assert!(after == paint(GUARD + room)[GUARD..], "a refusal wrote");
}

/// Feeds of 0, 1, 2 and 10,000 queries, with a result buffer that is exact, long and one byte short.
/// The first query is opposite the known point.
fn compare_sizes(grid: Grid) {
    let random = &mut Random::new(50);
    let world = islands_on(grid, 51, 64, Extent::World);
    let mut octants: Vec<Point> = (0..10_000).map(|_| random.point(3)).collect();
    let mut worlds = queries(52, &world, 10_000);
    (octants[0], worlds[0]) = ([-1, -1, -1], world.known.map(|k| -k));
    let [plain, pair] = [octant(), octant_pair()].map(|sheet| (sheet.on(grid).bytes(), octants.clone()));
    for (sheet, asked) in [plain, pair, (world.sheet(), worlds)] {
        for n in [0, 1, 2, 10_000] {
            for more in [0, 1, 11, 12, 1_000] {
                assert_eq!(equals_single_calls(&sheet, &asked[..n], more).len(), n);
            }
            let bytes = points_bytes(&asked[..n]);
            if n > 0 {
                refused(&sheet, &bytes, bytes.len() - 1, 27, bytes.len());
                refused(&sheet, &bytes, 12 * (n - 1), 27, bytes.len());
                refused(&sheet, &bytes, 0, 27, bytes.len());
            }
        }
    }
}

#[test]
fn feed_sizes() {
    GRIDS.into_iter().for_each(compare_sizes);
}

/// Queries that are not whole twelves give 26, whatever the room and the sheet.
#[test]
fn feed_not_whole() {
    let bytes = points_bytes(&[[3, 2, 1]; 1_000]);
    let fine = octant().on(Grid::Fine).bytes();
    for sheet in [octant().bytes(), fine, vec![], octant().bytes()[..68].to_vec()] {
        for length in (1..60).chain(11_940..12_000).filter(|length| length % 12 != 0) {
            for room in [0, length - 1, length, length + 1, 12_000] {
                refused(&sheet, &bytes[..length], room, 26, 0);
            }
        }
    }
}

/// A refused sheet is refused once for a feed, as by the single calls, and after 26 and 27.
#[test]
fn feed_refused_sheets() {
    let asked = [[3, 2, 1], [0, 0, 0], [-1, -1, -1]];
    let bytes = points_bytes(&asked);
    let mut numbers = vec![];
    for sheet in [vec![vec![]], GRIDS.map(refused_sheets).concat()].concat() {
        let single = library::judge(&sheet, asked[0]);
        for queries in [&bytes[..], &bytes[..12], &[]] {
            for more in [0, 1, 100] {
                refused(&sheet, queries, queries.len() + more, single.number, single.place);
            }
        }
        refused(&sheet, &bytes, 35, 27, 36);
        refused(&sheet, &bytes, 0, 27, 36);
        refused(&sheet, &bytes[..35], 36, 26, 0);
        refused(&sheet, &bytes[..35], 0, 26, 0);
        numbers.push(single.number);
    }
    numbers.sort_unstable();
    numbers.dedup();
    assert_eq!(numbers, [11, 12, 13, 14, 15, 16, 19, 20, 21, 22, 23, 24]);
}

/// Every damaged sheet of the tests of the single calls, each with a feed.
#[test]
fn feed_damaged_sheets() {
    let mut tally = Tally::default();
    for (k, (sheet, query)) in damage::all_cases().into_iter().enumerate() {
        let bytes = points_bytes(&vec![query; k % 3]);
        let (answer, _) = feed(&sheet, &bytes, bytes.len() + k % 2);
        tally.count(answer.number);
    }
    tally.report("feeds, damaged sheets", 50_000, [0, 11, 12, 13, 15, 16, 19, 20, 21, 22, 23, 24]);
}

/// Each query that is judged, or the feed's refusal.
fn count_feed(tally: &mut Tally, sheet: &[u8], asked: &[Point], more: usize) {
    if library::judge(sheet, [0; 3]).number == 17 {
        equals_single_calls(sheet, asked, more).iter().for_each(|&number| tally.count(number));
    } else {
        feed(sheet, &points_bytes(asked), 12 * asked.len());
    }
}

/// 200,000 queries from fixed seeds over many sheets: each number that a query can get.
fn compare_many(grid: Grid) {
    let mut tally = Tally::default();
    let large = [1_000, grid.limit()].map(Numbers::Within).into_iter().chain([Numbers::Limits]);
    let families = [1, 2, 3, 5, 9].map(Numbers::Within).into_iter().chain(large);
    for (seed, numbers) in families.enumerate() {
        let random = &mut Random::new(60 + seed as u64);
        for _ in 0..1_200 {
            let count = random.below(60);
            let (sheet, asked) = sheet_and_queries(random, Source(grid, numbers), 12, count);
            count_feed(&mut tally, &sheet.bytes(), &asked, random.below(30));
        }
    }
    let large = islands_on(grid, 1, SIDES, Extent::Archipelago);
    count_feed(&mut tally, &large.sheet(), &queries(70, &large, 1_000), 7);
    tally.report(&format!("feeds, queries, {grid:?}"), 200_000, [1, 2, 3, 17, 18]);
}

#[test]
fn feed_many_queries() {
    GRIDS.into_iter().for_each(compare_many);
}

/// Turns of 1, -1 and 0 on the fine grid.
#[test]
fn feed_near_queries() {
    let (mut tally, random) = (Tally::default(), &mut Random::new(68));
    for _ in 0..500 {
        let (sheet, asked) = near_feed(random, 30);
        count_feed(&mut tally, &sheet, &asked, 0);
    }
    tally.report("feeds, turns of 1, -1 and 0", 15_000, [1, 2, 3, 18]);
}
