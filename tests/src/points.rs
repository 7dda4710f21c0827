//! Degrees on both grids: grid numbers against exact fractions, and many positions in one call.

use crate::fractions::Angles;
use crate::imports::{point, point_number, point_on, point_on_number, points, position_bytes};
use crate::random::Random;
use crate::sheet::{octant, point_bytes, GRIDS};
use crate::{library, Answer, Point};
use std::thread;

const DEGREE: i32 = 10_000_000;

/// The bound on both grids; on the coarse one the calls without a grid say the same.
fn within_bound(angles: &Angles, position: [i32; 2]) {
    let [longitude, latitude] = position;
    for grid in GRIDS {
        let numbers = point_on(longitude, latitude, grid.number());
        assert_eq!(point_on_number(longitude, latitude, grid.number()), 0);
        assert!(
            angles.within_bound(grid, position, numbers),
            "{grid:?} {longitude}, {latitude}: {numbers:?}"
        );
    }
    let coarse = point_on(longitude, latitude, 0);
    assert_eq!((point_number(longitude, latitude), point(longitude, latitude)), (0, coarse));
}

/// A million positions: every multiple of 90 degrees and its neighbours, and others of every kind.
#[test]
fn points_within_bound() {
    const WORKERS: u64 = 2;
    let angles = Angles::new();
    let near = |limit: i32, quarters: i32| {
        let around = move |k: i32| (-8..=8).map(move |step| k * 90 * DEGREE + step);
        (-quarters..=quarters).flat_map(around).filter(move |k| k.abs() <= limit)
    };
    for longitude in near(180 * DEGREE, 2) {
        near(90 * DEGREE, 1).for_each(|latitude| within_bound(&angles, [longitude, latitude]));
    }
    thread::scope(|scope| {
        for seed in 0..WORKERS {
            let angles = &angles;
            scope.spawn(move || {
                let mut random = Random::new(seed);
                let mut number = move |limit: i32, quarters: i32| match random.below(4) {
                    0 => (random.between(-quarters, quarters) * 90 * DEGREE + random.between(-2_000, 2_000))
                        .clamp(-limit, limit),
                    _ => random.between(-limit, limit),
                };
                for _ in 0..1_000_000 / WORKERS {
                    within_bound(angles, [number(180 * DEGREE, 2), number(90 * DEGREE, 1)]);
                }
            });
        }
    });
    println!("grid numbers: over 1,000,000 positions against exact fractions, on both grids");
}

/// Neighbouring latitudes between which z goes up, so that one of them rounds down and the other up; found by bisection.
#[test]
fn points_near_a_rounding() {
    let angles = Angles::new();
    let random = &mut Random::new(77);
    for grid in GRIDS {
        let z = |latitude: i32| point_on(0, latitude, grid.number())[2];
        for _ in 0..2_000 {
            let (mut low, mut high) = (0, 90 * DEGREE);
            let wanted = random.between(1, grid.limit());
            while high - low > 1 {
                let middle = low + (high - low) / 2;
                *(if z(middle) < wanted { &mut low } else { &mut high }) = middle;
            }
            assert!(z(low) < wanted && wanted <= z(high), "{grid:?} {wanted}");
            for latitude in [low, high] {
                let longitude = random.between(-180 * DEGREE, 180 * DEGREE);
                within_bound(&angles, [longitude, latitude]);
                within_bound(&angles, [longitude, -latitude]);
            }
        }
    }
}

/// Multiples of 90 degrees are exact; past the range a position is refused and has no numbers, and a number that names
/// no grid comes first.
#[test]
fn points_axes() {
    for grid in GRIDS {
        let one = grid.limit();
        for (degrees, expected) in [
            ([0, 0], [one, 0, 0]),
            ([90, 0], [0, one, 0]),
            ([180, 0], [-one, 0, 0]),
            ([-180, 0], [-one, 0, 0]),
            ([-90, 0], [0, -one, 0]),
            ([0, 90], [0, 0, one]),
            ([123, -90], [0, 0, -one]),
        ] {
            let [longitude, latitude] = degrees.map(|k| k * DEGREE);
            assert_eq!(point_on(longitude, latitude, grid.number()), expected, "{degrees:?}");
        }
    }
    for [longitude, latitude] in OUTSIDE {
        assert_eq!((point_number(longitude, latitude), point(longitude, latitude)), (31, [0; 3]));
        for (grid, number) in [(0, 31), (1, 31), (2, 28), (u32::MAX, 28)] {
            let said = (point_on_number(longitude, latitude, grid), point_on(longitude, latitude, grid));
            assert_eq!(said, (number, [0; 3]), "{grid}");
        }
    }
    assert_eq!((point_on_number(0, 0, 2), point_on(0, 0, 2)), (28, [0; 3]));
}

const OUTSIDE: [[i32; 2]; 6] = [
    [1_800_000_001, 0],
    [-1_800_000_001, 0],
    [0, 900_000_001],
    [0, -900_000_001],
    [i32::MIN, 0],
    [0, i32::MAX],
];

/// What the calls for many positions say by their description: 26, 27, 28 in this order; else each point is the single
/// call's, and no other byte changes.
fn compare(positions: &[[i32; 2]], more: usize, grid: u32, room: usize) -> Answer {
    let mut degrees: Vec<u8> = positions.iter().flat_map(|&position| position_bytes(position)).collect();
    degrees.resize(degrees.len() + more, 7);
    let mut buffer = vec![0xa5; room];
    let answer = points(&degrees, grid, &mut buffer);
    let needed = degrees.len() / 8 * 12;
    let refusals = [(26, 0, more % 8 != 0), (27, needed, room < needed), (28, 0, grid > 1)];
    if let Some(&(number, place, _)) = refusals.iter().find(|(.., holds)| *holds) {
        assert_eq!(answer, Answer { number, place, count: 0 });
        assert_eq!(buffer, vec![0xa5; room]);
        return answer;
    }
    let single = |&[longitude, latitude]: &[i32; 2]| point_on(longitude, latitude, grid);
    let expected: Vec<Point> = positions.iter().map(single).collect();
    let outside = positions.iter().filter(|p| point_number(p[0], p[1]) == 31).count();
    assert_eq!(answer, Answer { number: 0, place: 0, count: outside as u32 });
    assert_eq!(buffer[..needed], expected.iter().flat_map(|&p| point_bytes(p)).collect::<Vec<u8>>());
    assert!(buffer[needed..].iter().all(|&byte| byte == 0xa5));
    answer
}

#[test]
fn points_in_bulk() {
    let random = &mut Random::new(36);
    let mut seen = [0; 4];
    for _ in 0..4_000 {
        let n: usize = random.pick(&[0, 1, 2, 3, 7, 40]);
        let positions: Vec<[i32; 2]> = (0..n)
            .map(|_| match random.below(3) {
                0 => random.pick(&OUTSIDE),
                1 => [random.between(-2, 2) * 90 * DEGREE, random.between(-1, 1) * 90 * DEGREE],
                _ => [random.between(-180 * DEGREE, 180 * DEGREE), random.between(-90 * DEGREE, 90 * DEGREE)],
            })
            .collect();
        let more = random.pick(&[0, 0, 0, 0, 1, 4, 7]);
        let grid = random.pick(&[0, 1, 0, 1, 2, u32::MAX]);
        let room = (12 * n + random.pick(&[0, 1, 12, 100])).saturating_sub(random.pick(&[0, 0, 0, 1, 12]));
        let number = compare(&positions, more, grid, room).number;
        seen[[0, 26, 27, 28].iter().position(|&k| k == number).expect("a number of the call")] += 1;
    }
    assert!(seen.iter().all(|&count| count > 100), "{seen:?}");
    println!("many positions: 4,000 calls, {seen:?} of 0, 26, 27, 28");
}

/// A refused position is no point: a feed says 17 of it, and of it alone.
#[test]
fn points_refused_in_a_feed() {
    for grid in GRIDS {
        let inside = [450_000_000, 300_000_000];
        let degrees = [inside, OUTSIDE[0], inside].map(position_bytes).concat();
        let mut queries = vec![0; 36];
        assert_eq!(points(&degrees, grid.number(), &mut queries), Answer { number: 0, place: 0, count: 1 });
        let mut results = vec![0; 36];
        let sheet = octant().on(grid).bytes();
        assert_eq!(library::feed_number(&sheet, &queries, &mut results), 0);
        let numbers: Vec<u8> = results.chunks(12).map(|result| result[3]).collect();
        assert_eq!(numbers, [1, 17, 1], "{grid:?}");
    }
}
