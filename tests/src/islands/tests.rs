//! The library against the reference, and that every machine makes the same outlines.

use super::*;
use crate::compare::Tally;
use crate::library::{feed_number, number};
use crate::sheet::{points_bytes, GRIDS};

#[test]
fn compared() {
    for grid in GRIDS {
        let mut tally = Tally::default();
        for (extent, sides) in EXTENTS.into_iter().flat_map(|e| [64, SIDES, 4_096].map(|n| (e, n))) {
            let islands = islands_on(grid, 1, sides, extent);
            for query in queries(2, &islands, 100_000 / sides) {
                tally.compare(&islands.sheet(), query);
            }
        }
        tally.report(&format!("islands, {grid:?}"), 4_000, [1, 2, 3, 18]);
    }
}

/// Up to 3,072 bytes of sheet a call has room for 256 vertices only, and up to 16,384 for 1,365: sheets about both
/// sizes, whole, with a byte too many, with one too few, and with more vertices announced than there are.
fn compare_lengths(tally: &mut Tally, grid: Grid, sides: usize) {
    let islands = islands_on(grid, 1, sides, Extent::Archipelago);
    let queries = queries(2, &islands, 40);
    for name in 1..=40 {
        let mut sheet = Sheet::new(islands.known, &islands.vertices).on(grid);
        sheet.name = vec![b'A'; name];
        let whole = sheet.bytes();
        for &query in &queries {
            tally.compare(&whole, query);
        }
        let (asked, mut results) = (points_bytes(&queries), vec![0; 12 * queries.len()]);
        assert_eq!(feed_number(&whole, &asked, &mut results), 0);
        assert!(queries.iter().zip(results.chunks(12)).all(|(&query, result)| {
            number(&whole, query).to_be_bytes() == result[..4]
        }));
        let mut announced = whole.clone();
        let row = whole.len() - 12 * sides;
        announced[row - 2..row].copy_from_slice(&49_152u16.to_be_bytes());
        for bad in [[&whole[..], &[0]].concat(), whole[..whole.len() - 1].to_vec(), announced] {
            tally.compare(&bad, queries[0]);
            assert_eq!(feed_number(&bad, &asked, &mut results), number(&bad, queries[0]));
        }
    }
}

#[test]
fn short_middle_and_long_sheets() {
    for grid in GRIDS {
        let mut tally = Tally::default();
        for sides in [252, 253, 1_360, 1_361] {
            compare_lengths(&mut tally, grid, sides);
        }
        tally.report(&format!("short, middle and long sheets, {grid:?}"), 6_000, [1, 2, 3, 20, 24]);
    }
}

/// Every query is on the grid, about a third of the 17,087 are inside (in document 000 it was
/// 6,160), and every machine makes the same bytes: a changed digest is a changed benchmark.
#[test]
fn as_in_document_000() {
    let digests = [
        [0x0cbb_6535_0fb6_30db, 0x7c9e_12ae_57e9_6113, 0x3434_2951_085c_efaf],
        [0x058b_3d2c_ea95_17c9, 0xa5e0_7eb7_c8a1_634b, 0x4ef9_d3fe_cbbc_fe11],
    ];
    for (grid, digests) in GRIDS.into_iter().zip(digests) {
        for (extent, digest) in EXTENTS.into_iter().zip(digests) {
            let islands = islands_on(grid, 1, SIDES, extent);
            let queries = queries(2, &islands, QUERIES);
            let sheet = islands.sheet();
            let numbers: Vec<u32> = queries.iter().map(|&query| number(&sheet, query)).collect();
            let times = |number: u32| numbers.iter().filter(|&&n| n == number).count();
            assert!((5_000..7_000).contains(&times(1)), "{grid:?} {extent:?}: {} inside", times(1));
            assert_eq!(times(1) + times(2) + times(3) + times(18), QUERIES, "{grid:?} {extent:?}");
            let bytes = [sheet, points_bytes(&queries)].concat();
            assert_eq!(fnv(&bytes), digest, "{grid:?} {extent:?}");
        }
    }
}

/// The 64-bit FNV-1a digest.
fn fnv(bytes: &[u8]) -> u64 {
    let step = |hash: u64, byte: &u8| (hash ^ u64::from(*byte)).wrapping_mul(0x100_0000_01b3);
    bytes.iter().fold(0xcbf2_9ce4_8422_2325, step)
}
