//! Demand 3 at the C boundary, on each grid: which known point is used must not matter.

use crate::library::judge;
use crate::random::Random;
use crate::sheet::{Grid, Sheet, GRIDS};

/// If the first point calls the second inside, both call every query alike; if outside, they call it
/// inside and outside the other way round. Boundary stays boundary, with its place.
fn compare(grid: Grid) {
    let random = &mut Random::new(30);
    let (mut alike, mut exchanged) = (0, 0);
    for _ in 0..20_000 {
        let size = random.pick(&[1, 2, 3, 5, grid.limit()]);
        let n = 3 + random.below(6);
        let vertices: Vec<_> = (0..n).map(|_| random.point(size)).collect();
        let (x, y) = (random.point(size.max(4)), random.point(size.max(4)));
        let [from_x, from_y] = [x, y].map(|known| Sheet::new(known, &vertices).on(grid).bytes());
        // A query of zeros is refused after every check of the sheet.
        if judge(&from_x, [0; 3]).number != 17 || judge(&from_y, [0; 3]).number != 17 {
            continue;
        }
        let called = judge(&from_x, y).number;
        assert!([1, 2, 18].contains(&called), "{vertices:?} {x:?} calls {y:?} {called}");
        for _ in 0..20 {
            let query = random.point(size);
            let (p, q) = (judge(&from_x, query), judge(&from_y, query));
            if called == 18 || p.number > 3 || q.number > 3 {
                continue;
            }
            let expected = match p.number {
                3 => 3,
                verdict if called == 1 => verdict,
                verdict => 3 - verdict,
            };
            assert!(
                q.number == expected && q.place == p.place,
                "{vertices:?}, query {query:?}: from {x:?} {p:?}, from {y:?} {q:?}"
            );
            *(if called == 1 { &mut alike } else { &mut exchanged }) += 1;
        }
    }
    println!("known points, {grid:?}: {alike} verdicts alike, {exchanged} exchanged");
    assert!(alike > 100_000 && exchanged > 50_000);
}

#[test]
fn known_point_does_not_matter() {
    GRIDS.into_iter().for_each(compare);
}
