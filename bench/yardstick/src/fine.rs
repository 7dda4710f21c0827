//! P8's grid of 2^26.

#[path = "on_grid/mod.rs"]
mod on_grid;

pub use on_grid::{hoisted, literal};

pub const LIMIT: i32 = 67_108_864;
/// The tag of the vertices.
pub const VERTICES: u8 = 7;
/// Holds every turn of three points of the grid.
pub type Turn = i128;

/// The least and the greatest product of `n` and a number between the two. 128 bits are dear to compare: the sign of
/// `n` tells which is which.
fn products(n: i64, (least, greatest): (i64, i64)) -> (Turn, Turn) {
    let (low, high) = if n < 0 { (greatest, least) } else { (least, greatest) };
    (Turn::from(n) * Turn::from(low), Turn::from(n) * Turn::from(high))
}
