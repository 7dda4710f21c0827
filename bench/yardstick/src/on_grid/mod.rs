//! All that goes by the grid, compiled for each: its parent has the limit, the tag and the numbers.

mod boxes;
mod feed;
mod outline;
mod sheet;
mod vector;

pub mod hoisted;
pub mod literal;

use super::{products, Turn, LIMIT, VERTICES};
