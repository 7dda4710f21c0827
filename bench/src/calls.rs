//! One call, from a sheet's bytes and a query to the number.

use crate::clock::seconds;
use crate::plain_c;
use crate::table::{heading, row, thousands};
use spargolutta_tests::islands::{islands, queries, Extent, SIDES};
use spargolutta_tests::{library, Point};
use spargolutta_yardstick::hoisted;

const ROUNDS: usize = 60;

type Contestant = fn(&[u8], Point) -> u32;

fn rust(sheet: &[u8], query: Point) -> u32 {
    hoisted::judge(sheet, query).0
}

fn c(sheet: &[u8], query: Point) -> u32 {
    plain_c::judge(sheet, query).0
}

/// All three give the same number, place and count.
fn agree(sheet: &[u8], query: Point) {
    let answer = library::judge(sheet, query);
    let answer = (answer.number, answer.place, answer.count);
    assert_eq!(answer, hoisted::judge(sheet, query), "Rust at {query:?}");
    assert_eq!(answer, plain_c::judge(sheet, query), "C at {query:?}");
}

/// Microseconds a call for each contestant.
fn measure(contestants: &[Contestant], sheet: &[u8], queries: &[Point]) -> Vec<f64> {
    let mut least = vec![f64::INFINITY; contestants.len()];
    let mut sums = vec![0; contestants.len()];
    for _ in 0..ROUNDS {
        for (k, contestant) in contestants.iter().enumerate() {
            let ask = || sums[k] += queries.iter().map(|&query| contestant(sheet, query)).sum::<u32>();
            least[k] = least[k].min(1e6 * seconds(ask) / queries.len() as f64);
        }
    }
    assert!(sums.iter().all(|sum| *sum == sums[0]));
    least
}

pub fn compare() {
    let title = format!("One call: µs, least of {ROUNDS} rounds");
    heading(&title, &["ours", "hoisted Rust", "hoisted C"]);
    for sides in [64, SIDES, 4_096] {
        let islands = islands(1, sides, Extent::Archipelago);
        let sheet = islands.sheet();
        let queries = queries(2, &islands, 200_000 / sides);
        queries.iter().for_each(|&query| agree(&sheet, query));
        let times = measure(&[library::number, rust, c], &sheet, &queries);
        row(&format!("{} sides", thousands(sides)), &times);
    }
}
