//! The instructions of a call, counted by valgrind's callgrind: a number that other work on the machine leaves alone.
//! Here for feeds.

use crate::feeds::{many_indexes, on_grid, open_once, Feed, Work, BOXES, CONTESTANTS, OPENING};
use crate::table::{counted_row, heading};
use spargolutta_tests::host::{command, Folder};
use spargolutta_tests::sheet::Grid;
use std::path::Path;
use std::{env, fs};

/// Callgrind collects while this runs.
#[no_mangle]
#[inline(never)]
fn counted_feed(feed: Feed, sheet: &[u8], queries: &[u8], results: &mut [u8]) -> u32 {
    feed(sheet, queries, results)
}

/// One feed of the folder's sheet and queries.
pub fn feed_once(folder: &Path, contestant: &str) {
    let [sheet, queries] = ["sheet", "queries"].map(|name| fs::read(folder.join(name)).expect("file"));
    let mut feeds = CONTESTANTS.into_iter().chain([("opening", OPENING), ("many indexes", many_indexes)]);
    let (_, feed) = feeds.find(|(name, _)| *name == contestant).expect("contestant");
    assert_eq!(counted_feed(feed, &sheet, &queries, &mut vec![0; queries.len()]), 0);
}

/// Millions of instructions of the function `counted`, where this program is started with the folder and these words;
/// none if there is no valgrind.
pub fn count(folder: &Folder, counted: &str, words: &[&str]) -> Option<f64> {
    let mut valgrind = command("valgrind", ["--tool=callgrind"]);
    valgrind.arg(format!("--toggle-collect={counted}"));
    valgrind.arg(format!("--callgrind-out-file={}", folder.path("out").display()));
    valgrind.arg(env::current_exe().expect("program")).arg(folder.path("")).args(words);
    let output = valgrind.output().ok()?;
    let text = String::from_utf8_lossy(&output.stderr);
    let number = text.lines().find_map(|line| line.split("Collected : ").nth(1)?.parse::<f64>().ok());
    assert!(output.status.success() && number.is_some(), "{text}");
    number.map(|instructions| instructions / 1e6)
}

/// All but the literal Rust, which takes longest.
const COUNTED: usize = CONTESTANTS.len() - 1;

/// Of a feed by this contestant; of ours also the opening alone, or with many indexes.
pub fn count_feed(work: &Work, contestant: &str) -> Option<f64> {
    let folder = Folder::new("instructions");
    folder.write("sheet", &work.sheet);
    folder.write("queries", &work.queries);
    count(&folder, "counted_feed", &[contestant])
}

/// Those of the contestants, and the opening's last.
fn counts_of(work: &Work) -> Option<Vec<f64>> {
    let names = CONTESTANTS[..COUNTED].iter().map(|(name, _)| *name).chain(["opening"]);
    let mut counts = names.map(|name| count_feed(work, name)).collect::<Option<Vec<f64>>>()?;
    let opening = counts[COUNTED];
    open_once(work, &mut counts, opening);
    Some(counts)
}

/// The contestants' millions of instructions for each work and the opening's, if they can be counted.
pub fn compare(grid: Grid, works: &[Work]) -> Option<Vec<Vec<f64>>> {
    let title = format!("{}: millions of instructions", on_grid(grid));
    heading(&title, &CONTESTANTS.map(|(name, _)| name)[..COUNTED]);
    let counted = |work: &Work| {
        let counts = counts_of(work);
        counted_row(&work.name, counts.as_ref().map(|counts| &counts[..COUNTED]));
        counts
    };
    let counts = works.iter().map(counted).collect();
    println!("{BOXES}");
    counts
}
