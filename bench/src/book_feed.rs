//! Every stop against every harbour: a feed to a book beside a feed to each of its sheets. Processor time, the
//! least of the rounds; the sets have to be equal.

use crate::clock::seconds;
use crate::table::{heading, judge, row, thousands};
use spargolutta_tests::library;
use spargolutta_tests::random::Random;
use spargolutta_tests::sheet::{points_bytes, Grid, Sheet};
use spargolutta_tests::{reference, Point};
use std::f64::consts::TAU;

const SHEETS: usize = 64;
const ROUNDS: usize = 5;
const EARTH: f64 = 6_371.0;

/// Zones whose size in km and number of sides are between these, and how many stops, half of them near one.
struct Work {
    name: &'static str,
    grid: Grid,
    size: [f64; 2],
    sides: [usize; 2],
    stops: usize,
}

const HARBOURS: Work =
    Work { name: "harbours", grid: Grid::Coarse, size: [2.0, 12.0], sides: [64, 1_071], stops: 100_000 };

const WORKS: [Work; 8] = [
    HARBOURS,
    Work { name: "fine", grid: Grid::Fine, ..HARBOURS },
    Work { name: "64 sides", sides: [64, 64], ..HARBOURS },
    Work { name: "1,071 sides", sides: [1_071, 1_071], ..HARBOURS },
    Work { name: "few", stops: 1_000, ..HARBOURS },
    Work { name: "very few", stops: 100, ..HARBOURS },
    Work { name: "100 to 500 km", size: [100.0, 500.0], ..HARBOURS },
    Work { name: "6,000 to 12,000 km", size: [6_000.0, 12_000.0], stops: 20_000, ..HARBOURS },
];

type Vector = [f64; 3];

fn cross(a: Vector, b: Vector) -> Vector {
    [a[1] * b[2] - a[2] * b[1], a[2] * b[0] - a[0] * b[2], a[0] * b[1] - a[1] * b[0]]
}

/// A zone's middle, two directions at right angles to it, and how far it reaches, as an angle.
struct Zone {
    axes: [Vector; 3],
    reach: f64,
}

fn direction(random: &mut Random) -> Vector {
    let (z, angle) = (2.0 * random.fraction() - 1.0, TAU * random.fraction());
    let r = (1.0 - z * z).sqrt();
    [r * angle.cos(), r * angle.sin(), z]
}

impl Zone {
    fn new(random: &mut Random, [least, most]: [f64; 2]) -> Zone {
        let middle = direction(random);
        let aside = cross(if middle[2].abs() < 0.9 { [0.0, 0.0, 1.0] } else { [1.0, 0.0, 0.0] }, middle);
        let length = aside.iter().map(|k| k * k).sum::<f64>().sqrt();
        let east = aside.map(|k| k / length);
        let reach = (least + (most - least) * random.fraction()) / EARTH;
        Zone { axes: [middle, east, cross(middle, east)], reach }
    }

    /// The point so far from the middle, in this direction.
    fn point(&self, grid: Grid, away: f64, angle: f64) -> Point {
        let parts = [away.cos(), away.sin() * angle.cos(), away.sin() * angle.sin()];
        [0, 1, 2].map(|k| {
            let along: f64 = (0..3).map(|axis| parts[axis] * self.axes[axis][k]).sum();
            (along * f64::from(grid.limit())).round() as i32
        })
    }

    /// An accepted sheet: a coast with three bays, and a known point about the middle.
    fn sheet(&self, random: &mut Random, grid: Grid, sides: usize) -> Vec<u8> {
        loop {
            let turn = TAU * random.fraction();
            let known = self.point(grid, 0.2 * self.reach * random.fraction(), TAU * random.fraction());
            let vertex = |k: usize| {
                let angle = TAU * k as f64 / sides as f64;
                let rough = 0.1 * (random.fraction() - 0.5);
                self.point(grid, self.reach * (0.75 + 0.15 * (3.0 * angle + turn).sin() + rough), angle)
            };
            let vertices: Vec<Point> = (0..sides).map(vertex).collect();
            let sheet = Sheet::new(known, &vertices).on(grid).bytes();
            if reference::judge(&sheet, [0; 3]).number == 17 {
                return sheet;
            }
        }
    }
}

fn sheets_and_stops(work: &Work) -> (Vec<Vec<u8>>, Vec<u8>) {
    let random = &mut Random::new(900);
    let zones: Vec<Zone> = (0..SHEETS).map(|_| Zone::new(random, work.size)).collect();
    let [least, most] = work.sides;
    let sheet = |zone: &Zone| {
        let part = random.fraction() * random.fraction();
        let sides = if random.once_in(8) { most } else { least + ((most - least) as f64 * part) as usize };
        zone.sheet(random, work.grid, sides)
    };
    let sheets = zones.iter().map(sheet).collect();
    let stop = |k: usize| {
        let zone = &zones[random.below(SHEETS)];
        let near = zone.reach * 1.6 * random.fraction().sqrt();
        let away = if k % 2 == 0 { near } else { (2.0 * random.fraction() - 1.0).acos() };
        zone.point(work.grid, away, TAU * random.fraction())
    };
    let stops: Vec<Point> = (0..work.stops).map(stop).collect();
    (sheets, points_bytes(&stops))
}

/// The sets by a feed to each sheet.
fn by_each_sheet(sheets: &[Vec<u8>], queries: &[u8], each: &mut [u8], sets: &mut [[u64; 3]]) {
    sets.fill([0; 3]);
    for (zone, sheet) in sheets.iter().enumerate() {
        assert_eq!(library::feed_number(sheet, queries, each), 0);
        for (set, result) in sets.iter_mut().zip(each.chunks_exact(12)) {
            match result[3] {
                1 => set[0] |= 1 << zone,
                2 => {}
                3 => set[1] |= 1 << zone,
                _ => set[2] |= 1 << zone,
            }
        }
    }
}

/// Nanoseconds a stop: by one call, and by a feed to each sheet whose results are put into the same sets.
fn measure(work: &Work) -> [f64; 2] {
    let (sheets, queries) = sheets_and_stops(work);
    let (book, grid, n) = (sheets.concat(), u32::from(work.grid == Grid::Fine), work.stops);
    let mut least = [f64::INFINITY; 2];
    let mut results = vec![0; 24 * n];
    let mut each = vec![0; 12 * n];
    let mut sets = vec![[0u64; 3]; n];
    for _ in 0..ROUNDS {
        let ours = seconds(|| assert_eq!(library::book::feed_number(&book, grid, &queries, &mut results), 0));
        let feeds = seconds(|| by_each_sheet(&sheets, &queries, &mut each, &mut sets));
        least = [least[0].min(ours), least[1].min(feeds)];
    }
    let expected: Vec<u8> = sets.iter().flat_map(|set| set.map(u64::to_be_bytes).concat()).collect();
    assert!(results == expected, "{}: the sets differ", work.name);
    least.map(|time| 1e9 * time / n as f64)
}

pub fn compare() {
    let title = format!("{SHEETS} zones, half the stops near one: ns of processor time a stop, least of {ROUNDS} rounds");
    heading(&title, &["a feed to the book", "to each sheet"]);
    let times = WORKS.map(|work| {
        let times = measure(&work);
        row(&format!("{}, {} stops", work.name, thousands(work.stops)), &times);
        times
    });
    judge("A stop against 64 harbours: ns,", 450.0, Some(times[0][0]));
    let most = times.iter().map(|[ours, feeds]| ours / feeds).fold(0.0, f64::max);
    judge("A feed to the book divided by one to each sheet:", 1.1, Some(most));
}
