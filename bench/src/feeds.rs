//! A feed call, from the bytes of a sheet and of the queries to those of the results.

use crate::clock::seconds;
use crate::plain_c;
use crate::table::{heading, judge, row, thousands};
use spargolutta_tests::islands::{islands_on, queries, Extent, EXTENTS, QUERIES, SIDES};
use spargolutta_tests::library::{self, by_boxes};
use spargolutta_tests::sheet::{points_bytes, sides, Grid};
use spargolutta_yardstick::{hoisted, literal};

const ROUNDS: usize = 12;

pub type Feed = fn(&[u8], &[u8], &mut [u8]) -> u32;

/// Ours first. The boxes are ours too, in feeds that are too short for an index: see `open_once`.
pub const CONTESTANTS: [(&str, Feed); 5] = [
    ("ours", library::feed_number),
    ("the boxes", by_boxes::feed),
    ("hoisted Rust", |sheet, queries, results| hoisted::feed(sheet, queries, results).0),
    ("hoisted C", |sheet, queries, results| plain_c::feed(sheet, queries, results).0),
    ("literal Rust", |sheet, queries, results| literal::feed(sheet, queries, results).0),
];

/// What stands under a table with the boxes.
pub const BOXES: &str =
    "  The boxes: the same queries in feeds one query too short for an index, without what the \
                         sheet costs that each opens.";

/// What a feed costs before its first query: the sheet is opened and checked.
pub const OPENING: Feed = |sheet, _, results| library::feed_number(sheet, &[], results);

/// The same results with as many indexes as there can be: in feeds at the threshold, the last one longer.
pub fn many_indexes(sheet: &[u8], queries: &[u8], results: &mut [u8]) -> u32 {
    let size = 12 * by_boxes::threshold(sides(sheet));
    let cut = size * (queries.len() / size - 1);
    let ((first, last), (first_results, last_results)) = (queries.split_at(cut), results.split_at_mut(cut));
    for (queries, results) in first.chunks(size).zip(first_results.chunks_mut(size)) {
        assert_eq!(library::feed_number(sheet, queries, results), 0);
    }
    library::feed_number(sheet, last, last_results)
}

/// The place of a contestant among them.
pub fn place_of(name: &str) -> usize {
    CONTESTANTS.iter().position(|(known, _)| *known == name).expect("contestant")
}

/// Takes the openings that are one too many for one feed out of the boxes' figure.
pub fn open_once(work: &Work, figures: &mut [f64], opening: f64) {
    let short = by_boxes::threshold(sides(&work.sheet)) - 1;
    let feeds = (work.queries.len() / 12).div_ceil(short);
    figures[place_of("the boxes")] -= (feeds - 1) as f64 * opening;
}

/// An outline and the queries to it, as bytes; an extent if it is of islands.
pub struct Work {
    pub name: String,
    pub sides: usize,
    pub extent: Option<Extent>,
    pub sheet: Vec<u8>,
    pub queries: Vec<u8>,
}

impl Work {
    fn new(grid: Grid, sides: usize, extent: Extent) -> Work {
        let islands = islands_on(grid, 1, sides, extent);
        Work {
            name: format!("{} sides, {extent:?}", thousands(sides)),
            sides,
            extent: Some(extent),
            sheet: islands.sheet(),
            queries: points_bytes(&queries(2, &islands, QUERIES)),
        }
    }

    /// Of the most interest: islands in a sea, and document 000's number of sides.
    pub fn is_typical(&self) -> bool {
        matches!(self.extent, Some(Extent::Archipelago)) || self.sides == SIDES
    }
}

/// All extents; on the fine grid the typical works alone.
pub fn works(grid: Grid) -> Vec<Work> {
    let each = [64, 256, SIDES, 4_096].into_iter().flat_map(|sides| EXTENTS.map(|extent| (sides, extent)));
    let works = each.map(|(sides, extent)| Work::new(grid, sides, extent));
    works.filter(|work| grid == Grid::Coarse || work.is_typical()).collect()
}

/// Milliseconds a feed for each of them, each time into a cleared buffer; and what is in it last.
pub fn measure(feeds: &[Feed], work: &Work, rounds: usize) -> Vec<(f64, Vec<u8>)> {
    let mut measured = vec![(f64::INFINITY, vec![0; work.queries.len()]); feeds.len()];
    for _ in 0..rounds {
        for (feed, (least, results)) in feeds.iter().zip(&mut measured) {
            results.fill(0);
            let time = seconds(|| assert_eq!(feed(&work.sheet, &work.queries, results), 0));
            *least = least.min(1e3 * time);
        }
    }
    measured
}

/// The milliseconds of the first `n` contestants, which have to give the same results.
pub fn times(n: usize, work: &Work, rounds: usize) -> Vec<f64> {
    let feeds: Vec<Feed> = CONTESTANTS[..n].iter().map(|(_, feed)| *feed).chain([OPENING]).collect();
    let measured = measure(&feeds, work, rounds);
    assert!(measured[..n].iter().all(|(_, results)| *results == measured[0].1), "the results differ");
    let mut times: Vec<f64> = measured.iter().map(|(least, _)| *least).collect();
    let opening = times.pop().expect("the opening's");
    open_once(work, &mut times, opening);
    times
}

pub fn on_grid(grid: Grid) -> String {
    let name = match grid {
        Grid::Coarse => "coarse",
        Grid::Fine => "fine",
    };
    format!("A feed of {} queries on the {name} grid", thousands(QUERIES))
}

/// The contestants' milliseconds for each work.
pub fn compare(grid: Grid, works: &[Work]) -> Vec<Vec<f64>> {
    let title = format!("{}: ms, least of {ROUNDS} rounds", on_grid(grid));
    heading(&title, &CONTESTANTS.map(|(name, _)| name));
    let times_of = |work: &Work| {
        let times = times(CONTESTANTS.len(), work, ROUNDS);
        row(&work.name, &times);
        times
    };
    let times = works.iter().map(times_of).collect();
    println!("{BOXES}");
    times
}

/// Document 02's P13: at 1,071 sides on the coarse grid at most one and a half times the hoisted Rust's time, on every
/// extent.
pub fn judge_p13(works: &[Work], times: &[Vec<f64>]) {
    println!();
    judge("P13 wants", 1.5, Some(worst_ratio(works, times, "hoisted Rust")));
}

/// Ours divided by the contestant's, at 1,071 sides, where it is largest.
pub fn worst_ratio(works: &[Work], figures: &[Vec<f64>], contestant: &str) -> f64 {
    let figures = works.iter().zip(figures).filter(|(work, _)| work.sides == SIDES);
    figures.map(|(_, figures)| figures[0] / figures[place_of(contestant)]).fold(0.0, f64::max)
}

/// The single call for each query. It gives the number alone: place and count would be calls more.
fn single_calls(sheet: &[u8], queries: &[u8], results: &mut [u8]) -> u32 {
    for (query, result) in queries.chunks_exact(12).zip(results.chunks_exact_mut(12)) {
        let number = |k: usize| i32::from_be_bytes(query[k..k + 4].try_into().expect("four bytes"));
        let answer = library::number(sheet, [number(0), number(4), number(8)]);
        result[..4].copy_from_slice(&answer.to_be_bytes());
    }
    0
}

pub fn compare_single_calls() {
    let work = Work::new(Grid::Coarse, SIDES, Extent::Archipelago);
    let measured = measure(&[library::feed_number, single_calls], &work, ROUNDS);
    let [(feed, results), (single, numbers)] = &measured[..] else { unreachable!() };
    let number = |bytes: &[u8]| bytes.chunks(12).map(|result| result[..4].to_vec()).collect::<Vec<_>>();
    assert!(number(results) == number(numbers), "the feed differs from the single calls");
    heading("The same, and as many single calls: ms", &["feed", "single calls"]);
    row(&work.name, &[*feed, *single]);
}
