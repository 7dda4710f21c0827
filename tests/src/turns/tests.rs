//! The library against the reference.

use super::*;
use crate::compare::Tally;
use crate::library;
use crate::sheet::point_bytes;

/// How many cases were made, and in how many of them floats err.
#[derive(Default)]
struct Made {
    all: u32,
    errors: u32,
}

impl Made {
    fn count(&mut self, near: &Near) {
        self.all += 1;
        self.errors += u32::from(near.floats_err());
    }

    /// A test whose floats are right would show nothing.
    fn report(&self, what: &str) {
        println!("{what}: floats err in {} of {}", self.errors, self.all);
        assert!(2 * self.errors >= self.all);
    }
}

/// As queries, and as candidates for a second known point.
#[test]
fn turns_of_one_and_zero() {
    let (mut judged, mut chosen, mut made) = (Tally::default(), Tally::default(), Made::default());
    let random = &mut Random::new(120);
    for _ in 0..3_000 {
        let (sheet, queries) = near_ring(random, 12);
        let sheet = sheet.bytes();
        for near in &queries {
            judged.compare(&sheet, near.query);
            let candidate = point_bytes(near.query);
            let choice = library::choose(&sheet, &candidate);
            assert_eq!(choice, reference::choose(&sheet, &candidate), "{sheet:02x?} {candidate:02x?}");
            chosen.count(choice.number);
            made.count(near);
        }
    }
    judged.report("turns of 1, -1 and 0", 40_000, [1, 2, 3, 16, 18]);
    chosen.report("turns of 1, -1 and 0, candidates", 40_000, [0, 16, 19]);
    made.report("turns of 1, -1 and 0");
}

/// P2's boxes: the plane through known point and query passes the nearest corner of a box with a turn of 1, -1 or 0.
/// The vertices lie from there away from the plane, on a negative turn's side or on a positive one's. So exactly a turn
/// of that sign leaves the box on one side: no side is looked at.
#[test]
fn turns_of_corners() {
    let (mut tally, mut made, random) = (Tally::default(), Made::default(), &mut Random::new(121));
    let mut skipped = 0;
    for _ in 0..20_000 {
        let (known, query) = (random.point(LIMIT / 2), random.point(LIMIT / 2));
        let (turn, side) = (random.pick(&[1, -1, 0]), random.pick(&[1, -1]));
        let Some(corner) = beside(random, known, query, turn) else { continue };
        let away = cross(vector(known), vector(query)).map(|k| side * k.signum() as i32);
        let vertices = [0, 1, 2].map(|k| {
            let mut vertex = corner;
            vertex[k] = (corner[k] + away[k] * random.between(1, LIMIT)).clamp(-LIMIT, LIMIT);
            vertex
        });
        let sheet = Sheet::new(known, &vertices).on(Grid::Fine).bytes();
        let found = tally.compare(&sheet, query);
        if found.answer.number <= 3 {
            assert_eq!(found.looked == 0, turn == i128::from(side), "{known:?} {query:?} {vertices:?}");
            skipped += u32::from(found.looked == 0);
            made.count(&Near { query, of: [known, query, corner], turn });
        }
    }
    tally.report("turns of corners", 5_000, [1]);
    made.report("turns of corners");
    assert!(skipped > 1_000);
}
