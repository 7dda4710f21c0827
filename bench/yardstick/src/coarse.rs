//! The grid of 2^20.

#[path = "on_grid/mod.rs"]
mod on_grid;

pub use on_grid::{hoisted, literal};

pub const LIMIT: i32 = 1_048_576;
/// The tag of the vertices.
pub const VERTICES: u8 = 5;
/// Holds every turn of three points of the grid.
pub type Turn = i64;

/// The least and the greatest product of `n` and a number between the two.
fn products(n: i64, (least, greatest): (i64, i64)) -> (Turn, Turn) {
    let (a, b) = (n * least, n * greatest);
    (a.min(b), a.max(b))
}
