//! How far a zone reaches: the far side's verdict and the box, of stars about many centres, against the second reading,
//! and that no query judged inside or boundary is out of the box.

use crate::random::Random;
use crate::reference::extents::{far, holds, is_bounded, sides_at, Sides, ONE, WHOLE};
use crate::sheet::{octant, octant_pair, Grid, Sheet, GRIDS};
use crate::{library, Answer, Point};

type Direction = [f64; 3];

fn cross(a: Direction, b: Direction) -> Direction {
    [a[1] * b[2] - a[2] * b[1], a[2] * b[0] - a[0] * b[2], a[0] * b[1] - a[1] * b[0]]
}

fn unit(a: Direction) -> Direction {
    let size = a.iter().map(|k| k * k).sum::<f64>().sqrt();
    a.map(|k| k / size)
}

/// The point at this angle from the centre, in degrees, and at this bearing, in radians.
fn away(centre: Direction, angle: f64, bearing: f64) -> Direction {
    let least = (0..3).min_by(|&i, &j| centre[i].abs().total_cmp(&centre[j].abs())).expect("three");
    let mut axis = [0.0; 3];
    axis[least] = 1.0;
    let east = unit(cross(axis, centre));
    let north = cross(centre, east);
    let (sin, cos) = angle.to_radians().sin_cos();
    [0, 1, 2].map(|k| centre[k] * cos + sin * (east[k] * bearing.cos() + north[k] * bearing.sin()))
}

fn on_grid(grid: Grid, direction: Direction, part: f64) -> Point {
    direction.map(|k| (k * part * f64::from(grid.limit())).round() as i32)
}

/// A star: vertices at rising bearings, of lengths of their own if asked for.
fn star(
    random: &mut Random,
    grid: Grid,
    centre: Direction,
    radius: f64,
    sides: usize,
    lengths: bool,
) -> Vec<Point> {
    let vertex = |k: usize| {
        let bearing = (k as f64 + 0.3 * random.fraction()) * std::f64::consts::TAU / sides as f64;
        let part = if lengths { 0.002 + 0.998 * random.fraction() } else { 1.0 };
        on_grid(grid, away(centre, radius * (0.5 + 0.5 * random.fraction()), bearing), part)
    };
    (0..sides).map(vertex).collect()
}

/// The poles, 180 degrees, the middle of a face, an edge and a corner of the cube, and others.
fn centres(random: &mut Random) -> Vec<Direction> {
    let mut all = vec![[0.0, 0.0, 1.0], [0.0, 0.0, -1.0], [-1.0, 0.0, 0.0], [1.0, 0.0, 0.0]];
    all.extend([[1.0, 1.0, 0.0], [-1.0, 0.0, 1.0], [1.0, 1.0, 1.0], [-1.0, 1.0, -1.0], [-1.0, 0.001, 0.5]]);
    all.extend((0..9).map(|_| [0; 3].map(|_| random.fraction() - 0.5)));
    all.into_iter().map(unit).collect()
}

fn boxed(sheet: &[u8]) -> (Answer, Sides) {
    let mut bytes = [0xc3; 27];
    let answer = library::extents::boxed(sheet, &mut bytes);
    assert_eq!(bytes[24..], [0xc3; 3], "bytes past the box");
    (answer, sides_at(&bytes))
}

/// Another box, by the vertices alone: their bounds, divided by the greatest that all of them keep to along one axis.
fn box_by_vertices(vertices: &[Point]) -> Option<Sides> {
    let one = i64::from(ONE);
    let mut bounds = [[one, -one]; 3];
    for v in vertices {
        let most = v.iter().map(|&k| i64::from(k).abs()).max().expect("three");
        for k in 0..3 {
            let number = i64::from(v[k]) * one;
            bounds[k][0] = bounds[k][0].min(number.div_euclid(most));
            bounds[k][1] = bounds[k][1].max(-(-number).div_euclid(most));
        }
    }
    let kept = bounds.iter().map(|b| b[0].max(-b[1])).max().expect("three");
    let low = |b: [i64; 2]| if b[0] < 0 { (b[0] * one).div_euclid(kept).max(-one) } else { b[0] };
    let high = |b: [i64; 2]| if b[1] > 0 { (-(-b[1] * one).div_euclid(kept)).min(one) } else { b[1] };
    (kept > 0).then(|| {
        let [x, y, z] = bounds;
        [low(x), low(y), low(z), high(x), high(y), high(z)].map(|k| k as i32)
    })
}

/// Queries everywhere, near the zone, on its vertices and sides, and at a box's edges.
fn queries(random: &mut Random, sheet: &Sheet, centre: Direction, radius: f64) -> Vec<Point> {
    let (n, vertices) = (sheet.vertices.len(), &sheet.vertices);
    let mut all: Vec<Point> = (0..40).map(|_| random.point(sheet.grid.limit())).collect();
    for _ in 0..160 {
        let near = away(centre, 1.3 * radius * random.fraction(), 7.0 * random.fraction());
        all.push(on_grid(sheet.grid, near, 0.1 + 0.9 * random.fraction()));
        let i = random.below(n);
        let (a, b) = (vertices[i], vertices[(i + 1) % n]);
        all.push(a);
        all.push([0, 1, 2].map(|k| a[k] / 2 + b[k] / 2));
    }
    all
}

/// Everything that is told of one sheet; whether a plane was found, and whether the zone has a box of its own.
fn check(random: &mut Random, sheet: &Sheet, centre: Direction, radius: f64) -> (bool, bool) {
    let bytes = sheet.bytes();
    let told = library::extents::far(&bytes);
    assert_eq!(told, far(&bytes, told != 0), "{:?}", sheet.vertices);
    let (answer, sides) = boxed(&bytes);
    let own = is_bounded(&bytes, &sheet.vertices);
    assert_eq!(answer, Answer { number: 0, place: 0, count: u32::from(own) });
    assert_eq!(sides == WHOLE, !own, "{sides:?}");
    for query in queries(random, sheet, centre, radius) {
        if [1, 3].contains(&library::number(&bytes, query)) {
            assert!(holds(sides, query), "{query:?} {sides:?} {:?}", sheet.vertices);
        }
    }
    if own {
        let other = box_by_vertices(&sheet.vertices).unwrap_or(WHOLE);
        let tight = (0..3).all(|k| sides[k] >= other[k] - 1 && sides[k + 3] <= other[k + 3] + 1);
        assert!(tight, "{sides:?} {other:?}");
    }
    (told != 0, own)
}

fn is_good(sheet: &Sheet) -> bool {
    library::number(&sheet.bytes(), [0; 3]) == 17
}

/// Stars of all sizes, known from their middle and from the other side of the Earth. Up to 60 degrees a plane is found
/// for every one of them.
#[test]
fn stars_in_boxes() {
    let mut random = Random::new(38);
    let (mut good, mut bounded) = (0, 0);
    for round in 0..6 {
        let grid = GRIDS[round % 2];
        for centre in centres(&mut random) {
            for radius in [0.02, 1.0, 20.0, 44.0, 60.0, 80.0, 89.9] {
                let sides = random.pick(&[3, 5, 40, 300]);
                let vertices = star(&mut random, grid, centre, radius, sides, round >= 4);
                for angle in [0.01 * radius, 180.0 - radius] {
                    let known = on_grid(grid, away(centre, angle, 1.0), 1.0);
                    let sheet = Sheet::new(known, &vertices).on(grid);
                    if is_good(&sheet) {
                        let (found, own) = check(&mut random, &sheet, centre, radius);
                        assert!(found || radius > 60.0, "{radius} {vertices:?}");
                        good += 1;
                        bounded += usize::from(own);
                    }
                }
            }
        }
    }
    assert!(good > 1_200 && bounded > 300, "{good} {bounded}");
}

/// A known point on the wrong side: the far side is inside, and the box is the whole.
#[test]
fn wrong_side_told() {
    let mut random = Random::new(39);
    let mut wrong = 0;
    for centre in centres(&mut random) {
        let vertices = star(&mut random, Grid::Fine, centre, 0.1, 64, false);
        for (angle, number) in [(0.001, 2), (0.3, 1), (20.0, 1), (170.0, 1)] {
            let known = on_grid(Grid::Fine, away(centre, angle, 0.5), 1.0);
            let sheet = Sheet::new(known, &vertices).on(Grid::Fine);
            if is_good(&sheet) {
                let bytes = sheet.bytes();
                assert_eq!(library::extents::far(&bytes), number, "{angle}");
                assert!(number == 2 || boxed(&bytes) == (Answer::default(), WHOLE));
                wrong += usize::from(number == 1);
            }
        }
    }
    assert!(wrong > 40, "{wrong}");
}

/// Worked out by hand. The octant touches three coordinate planes, and no axis's plane has all its vertices ahead: its
/// box is the whole, though its far side is outside. A ring around the centre has no far side.
#[test]
fn octant_and_ring() {
    for sheet in [octant(), octant_pair()] {
        let bytes = sheet.bytes();
        assert_eq!(library::extents::far(&bytes), 2);
        assert_eq!(boxed(&bytes), (Answer::default(), WHOLE));
    }
    let ring = [[9, 0, 1], [0, 9, -1], [-9, 0, 1], [0, -9, -1]];
    let bytes = Sheet::new([1, 2, 90], &ring).bytes();
    assert_eq!(library::extents::far(&bytes), 0);
    assert_eq!(boxed(&bytes), (Answer::default(), WHOLE));
}

/// 27 comes before the sheet's refusal, and neither writes.
#[test]
fn refused_boxes() {
    let bytes = octant().bytes();
    for (sheet, number, place) in [(&bytes[..68], 20, 30), (&bytes[..0], 20, 0), (&bytes[..], 0, 0)] {
        for room in 0..30 {
            let mut buffer = vec![0xc3; room];
            let answer = library::extents::boxed(sheet, &mut buffer);
            let expected = if room < 24 { (27, 24) } else { (number, place) };
            assert_eq!((answer.number, answer.place, answer.count), (expected.0, expected.1, 0));
            assert!(answer.number == 0 || buffer.iter().all(|&byte| byte == 0xc3));
        }
        assert_eq!(library::extents::far(sheet), if number == 0 { 2 } else { number });
    }
}
