//! The program against one in C: a million queries in, a million lines out.

use crate::clock::seconds_of_programs;
use crate::table::{heading, row, thousands};
use spargolutta_tests::host::{repository, Folder};
use spargolutta_tests::random::Random;
use spargolutta_tests::sheet::{octant, points_bytes};
use std::fs::{self, File};
use std::path::Path;
use std::process::Command;

const QUERIES: usize = 1_000_000;
const ROUNDS: usize = 5;

/// Milliseconds that a program needs for the folder's queries.
fn run(program: &Path, folder: &Folder, answers: &str) -> f64 {
    let mut command = Command::new(program);
    command.current_dir(folder.path(""));
    command.stdin(File::open(folder.path("queries")).expect("queries"));
    command.stdout(File::create(folder.path(answers)).expect("answers"));
    1e3 * seconds_of_programs(|| assert!(command.status().expect("status").success()))
}

pub fn compare() {
    let folder = Folder::new("bench");
    let random = &mut Random::new(3);
    let queries = points_bytes(&(0..QUERIES).map(|_| random.point(3)).collect::<Vec<_>>());
    folder.write("zone.sheet", &octant().bytes());
    folder.write("queries", &queries);
    let ours = repository("target/bin/zone_judge").canonicalize().expect("zone_judge");
    let theirs = Path::new(env!("OUT_DIR")).join("zone_judge");
    let mut least = [f64::INFINITY; 2];
    for _ in 0..ROUNDS {
        least[0] = least[0].min(run(&ours, &folder, "ours"));
        least[1] = least[1].min(run(&theirs, &folder, "theirs"));
    }
    let read = |name| fs::read(folder.path(name)).expect("answers");
    assert!(read("ours") == read("theirs"), "the programs differ");
    let title = format!("The program, {} queries: ms, least of {ROUNDS} rounds", thousands(QUERIES));
    heading(&title, &["ours", "hoisted C"]);
    row("octant", &least);
}
