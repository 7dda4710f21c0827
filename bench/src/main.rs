//! The library against document 02's P2 in checked Rust and in C: one call, the program, a feed on each grid; the index
//! of long feeds against the boxes; the basin profile, an import and points from degrees against C; a book against single
//! calls on its sheets, and a feed to a book against feeds to its sheets. The contestants take turns, and the least
//! processor time of many rounds counts. Prints tables, and draws the times of feeds as docs/feed-time.svg.
//!
//! Started with a folder and a contestant it makes one feed call, one of the basin profile, one import, makes points,
//! or asks one book: what `instructions` counts.

mod basin;
mod book;
mod book_feed;
mod calls;
mod clock;
mod comparisons;
mod feeds;
mod geojson;
mod index;
mod instructions;
mod plain_c;
mod plot;
mod positions;
mod program;
mod table;

use spargolutta_tests::sheet::Grid;
use std::{env, fs, thread};

fn processor() -> String {
    let text = fs::read_to_string("/proc/cpuinfo").unwrap_or_default();
    let name = text.lines().find_map(|line| line.strip_prefix("model name")?.split(": ").nth(1));
    name.unwrap_or("unknown processor").to_string()
}

/// Running programs, on average over 1, 5 and 15 minutes: with more than the machine's cores the caches are shared, and
/// even processor times are somewhat too long.
fn print_load(when: &str) {
    let text = fs::read_to_string("/proc/loadavg").unwrap_or_default();
    let averages: Vec<&str> = text.split(' ').take(3).collect();
    let cores = thread::available_parallelism().map_or(0, |cores| cores.get());
    println!("Load of the machine {when}: {} ({cores} cores)", averages.join(", "));
}

fn main() {
    let words: Vec<String> = env::args().skip(1).collect();
    match &words[..] {
        [folder, contestant] if book::ask_once(folder.as_ref(), contestant) => return,
        [folder, contestant] => return instructions::feed_once(folder.as_ref(), contestant),
        [folder, what, grid, contestant] if what == "basin" => {
            return basin::check_once(folder.as_ref(), grid, contestant)
        }
        [folder, what, grid, contestant] if what == "points" => {
            return positions::convert_once(folder.as_ref(), grid, contestant)
        }
        [folder, _, contestant] => return geojson::import_once(folder.as_ref(), contestant),
        _ => {}
    }
    println!("On {}, processor time. In brackets: ours divided by the figure before them.", processor());
    print_load("before");
    calls::compare();
    program::compare();
    basin::compare();
    let works = feeds::works(Grid::Coarse);
    let times = feeds::compare(Grid::Coarse, &works);
    feeds::judge_p13(&works, &times);
    plot::draw(&works, &times);
    feeds::compare_single_calls();
    let counts = instructions::compare(Grid::Coarse, &works);
    index::break_even(&works, counts.as_deref());
    let hard = index::compare_hard_outlines();
    index::judge_index(&works, &times, counts.as_deref(), hard);
    let works = feeds::works(Grid::Fine);
    feeds::compare(Grid::Fine, &works);
    instructions::compare(Grid::Fine, &works);
    book::compare();
    book_feed::compare();
    comparisons::compare();
    geojson::compare();
    positions::compare();
    println!();
    print_load("after");
}
