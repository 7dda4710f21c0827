//! Document 02's P6 at the C boundary: the sum's parity, and the list reversed.

use crate::library::{judge, sum};
use crate::random::Random;
use crate::sheet::{Grid, Sheet, GRIDS};

/// The sum is odd exactly when the count is. From last vertex to first, with the same two points, the
/// verdict and the count stay, and the sum is negated.
fn compare(grid: Grid) {
    let random = &mut Random::new(60);
    let (mut judged, mut wound) = (0, 0);
    for _ in 0..20_000 {
        let size = random.pick(&[1, 2, 3, 5, grid.limit()]);
        let n = 3 + random.below(9);
        let mut vertices: Vec<_> = (0..n).map(|_| random.point(size)).collect();
        let known = random.point(size.max(4));
        let there = Sheet::new(known, &vertices).on(grid).bytes();
        vertices.reverse();
        let back = Sheet::new(known, &vertices).on(grid).bytes();
        for _ in 0..10 {
            let query = random.point(size);
            let (p, q) = (judge(&there, query), judge(&back, query));
            let (s, t) = (sum(&there, query), sum(&back, query));
            assert_eq!(s.unsigned_abs() % 2, p.count % 2, "{vertices:?} {known:?} {query:?}");
            assert_eq!((p.number, p.count, s), (q.number, q.count, -t), "{vertices:?} {known:?} {query:?}");
            judged += u32::from(p.number <= 3);
            wound += u32::from(s.abs() >= 2);
        }
    }
    println!("reversed lists, {grid:?}: {judged} verdicts compared, {wound} with a sum of 2 or more");
    assert!(judged > 50_000 && wound > 1_000);
}

#[test]
fn reversed_list() {
    GRIDS.into_iter().for_each(compare);
}
