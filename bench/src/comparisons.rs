//! Two sheets of 4,096 vertices compared: a ring that was started elsewhere, and the costliest, of which every second
//! start agrees up to the last vertex.

use crate::clock::seconds;
use crate::table::{figure, heading, line};
use spargolutta_tests::islands::{islands, Extent};
use spargolutta_tests::library;
use spargolutta_tests::sheet::Sheet;

const ROUNDS: usize = 20;

/// Milliseconds a call, least of the rounds.
fn measure(left: &[u8], right: &[u8], way: u32) -> f64 {
    assert_eq!(library::compare(left, right).way, way);
    let mut least = f64::INFINITY;
    for _ in 0..ROUNDS {
        least = least.min(1e3 * seconds(|| assert_eq!(library::compare_number(left, right), 0)));
    }
    least
}

pub fn compare() {
    let islands = islands(1, 4_096, Extent::Archipelago);
    let left = Sheet::new(islands.known, &islands.vertices);
    let mut right = left.clone();
    right.vertices.rotate_left(1_000);
    let started = measure(&left.bytes(), &right.bytes(), 1);
    let read = measure(&left.bytes(), &left.bytes(), 1);
    let [a, b, c] = [[1, 0, 9], [0, 1, 9], [1, 1, 9]];
    let right = Sheet::new([-1, -2, 9], &[a, b].repeat(2_048));
    let mut left = right.clone();
    left.vertices[4_095] = c;
    let costliest = measure(&left.bytes(), &right.bytes(), 0);
    let title = format!("Two sheets of 4,096 vertices compared: ms, least of {ROUNDS} rounds");
    heading(&title, &["equal", "started elsewhere", "the costliest"]);
    line("ours", [read, started, costliest].map(figure));
}
