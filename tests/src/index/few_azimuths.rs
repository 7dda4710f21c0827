//! The index on outlines whose vertices lie about few great circles through the known point, so close that both ends of
//! many sides have the same azimuth, or azimuths half a turn apart; queries there, and on those circles.

use crate::compare::Tally;
use crate::feed::equals_single_calls;
use crate::library;
use crate::random::Random;
use crate::sheet::{Grid, Sheet, GRIDS};
use crate::Point;

/// The known point, directions from it, and how long a step is; all numbers below are at most 18 steps and two.
struct Places {
    step: i32,
    known: Point,
    directions: [Point; 3],
}

impl Places {
    fn new(random: &mut Random, grid: Grid) -> Places {
        let step = random.pick(&[1, 7, grid.limit() / 20]);
        Places { step, known: random.point(3), directions: [0; 3].map(|_| random.point(3)) }
    }

    /// On the circle of one of the directions, ahead or behind.
    fn on_circle(&self, random: &mut Random) -> Point {
        let (direction, ahead, along) =
            (random.pick(&self.directions), random.pick(&[-3, -1, 1, 2]), random.between(-3, 3));
        [0, 1, 2].map(|k| self.step * (along * self.known[k] + ahead * direction[k]))
    }

    fn beside_circle(&self, random: &mut Random) -> Point {
        let (point, off) = (self.on_circle(random), random.point(2));
        [0, 1, 2].map(|k| point[k] + off[k])
    }
}

fn compare_on(grid: Grid) {
    let (mut tally, random) = (Tally::default(), &mut Random::new(277));
    for k in 0..3_000 {
        let places = Places::new(random, grid);
        let vertices: Vec<Point> = (0..3 + k % 12).map(|_| places.beside_circle(random)).collect();
        let known = places.known.map(|c| places.step * c);
        let sheet = Sheet::new(known, &vertices).on(grid).bytes();
        if library::number(&sheet, [0; 3]) != 17 {
            continue;
        }
        let on = (0..60).map(|_| places.on_circle(random));
        let mut asked: Vec<Point> = on.chain(vertices.iter().copied()).collect();
        asked.extend(vertices.iter().map(|vertex| vertex.map(|c| -c)));
        asked.extend((0..90).map(|_| places.beside_circle(random)));
        for number in equals_single_calls(&sheet, &asked, 0) {
            tally.count(number);
        }
    }
    tally.report(&format!("index, few azimuths, {grid:?}"), 200_000, [1, 2, 3, 17, 18]);
}

#[test]
fn index_on_few_azimuths() {
    GRIDS.into_iter().for_each(compare_on);
}
