//! The same feed without an index.

use super::feed_number;
use crate::sheet::sides;

/// The least number of queries for which a feed builds an index.
pub fn threshold(sides: usize) -> usize {
    128 + sides / 8
}

/// The same results, by the boxes: in feeds that are one query too short for an index. `sheet` is accepted.
pub fn feed(sheet: &[u8], queries: &[u8], results: &mut [u8]) -> u32 {
    let short = 12 * (threshold(sides(sheet)) - 1);
    for (queries, results) in queries.chunks(short).zip(results.chunks_mut(short)) {
        let number = feed_number(sheet, queries, results);
        assert_eq!(number, 0);
    }
    0
}
