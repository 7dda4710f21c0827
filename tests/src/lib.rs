//! Host tests: the archive and the program against a second, independent reading of documents
//! 01 and 02.
//!
//! `reference` is that reading, `library` and `imports` the calls under test. `random`, `sheet`, `islands`, `stars` and
//! `hard_outlines` make the inputs, `host` runs programs; the benchmark uses these too. `calls` has the calls as a
//! table, on the guarded pages of `guard`, and the fuzzer uses these. `outlines`, `turns` and `corridors` make inputs:
//! coincidences, turns that floats get wrong, and queries on many corridors. The other modules are the tests.

pub mod calls;
pub mod fractions;
pub mod guard;
pub mod hard_outlines;
pub mod host;
pub mod imports;
pub mod islands;
pub mod library;
pub mod outlines;
pub mod random;
pub mod reference;
pub mod sheet;
pub mod stars;

#[cfg(test)]
mod basin;
#[cfg(test)]
mod book;
#[cfg(test)]
mod charts;
#[cfg(test)]
mod client;
#[cfg(test)]
mod compare;
#[cfg(test)]
mod corridors;
#[cfg(test)]
mod damage;
#[cfg(test)]
mod differences;
#[cfg(test)]
mod example;
#[cfg(test)]
mod extents;
#[cfg(test)]
mod faults;
#[cfg(test)]
mod feed;
#[cfg(test)]
mod geojson;
#[cfg(test)]
mod grids;
#[cfg(test)]
mod header;
#[cfg(test)]
mod importer;
#[cfg(test)]
mod index;
#[cfg(test)]
mod install;
#[cfg(test)]
mod known_point;
#[cfg(test)]
mod looked;
#[cfg(test)]
mod multiplications;
#[cfg(test)]
mod points;
#[cfg(test)]
mod portable;
#[cfg(test)]
mod program;
#[cfg(test)]
mod redraw;
#[cfg(test)]
mod rounding;
#[cfg(test)]
mod second_point;
#[cfg(test)]
mod sheets;
#[cfg(test)]
mod turns;
#[cfg(test)]
mod which_harbour;
#[cfg(test)]
mod winding;
#[cfg(test)]
mod yardstick;
#[cfg(test)]
mod zones;

use std::borrow::Cow;

/// A point as a caller hands it over: any three numbers, on the grid or not.
pub type Point = [i32; 3];

/// What comes back: document 01's number, place and count.
#[derive(Clone, Copy, Debug, Default, PartialEq, Eq)]
pub struct Answer {
    pub number: u32,
    pub place: usize,
    pub count: u32,
}

/// What the single calls give for one query: the answer, and document 02's sum and sides looked at.
#[derive(Clone, Copy, Debug, PartialEq, Eq)]
pub struct Single {
    pub answer: Answer,
    pub sum: i32,
    pub looked: u32,
}

/// What a book's calls give for one query (document 02, P10): the answer, and three sets, bit i for zone i.
#[derive(Clone, Copy, Debug, PartialEq, Eq)]
pub struct Which {
    pub answer: Answer,
    pub inside: u64,
    pub boundary: u64,
    pub refused: u64,
}

/// What comparing two sheets gives (document 02, P11).
#[derive(Clone, Copy, Debug, Default, PartialEq, Eq)]
pub struct Comparison {
    pub number: u32,
    pub place: usize,
    pub count: u32,
    pub way: u32,
    pub fields: [u8; 7],
}

/// What a caller hands over to have a sheet written: the vertices in bytes, a grid by its number, a second point of
/// all zero for none.
#[derive(Clone, Debug)]
pub struct Written<'a> {
    pub zone: u32,
    pub charset: u32,
    pub name: Cow<'a, [u8]>,
    pub known: Point,
    pub second: Point,
    pub vertices: Cow<'a, [u8]>,
    pub grid: u32,
}

/// What reading a sheet hands back; `vertices` is their number.
#[derive(Clone, Copy, Debug, Default, PartialEq, Eq)]
pub struct Parts {
    pub answer: Answer,
    pub zone: u32,
    pub charset: u32,
    pub name_place: usize,
    pub name_length: usize,
    pub known: Point,
    pub second: Point,
    pub grid: u32,
    pub vertices: usize,
}
