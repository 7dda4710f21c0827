//! Document 02's P12 at the C boundary: outlines redrawn in chains of steps judge alike; and for each
//! condition outlines that do not, where it is dropped.

use crate::library::{self, choose, feed_number, judge, number, sum};
use crate::outlines::{plain_and_queries, query, Numbers, Source};
use crate::random::Random;
use crate::sheet::{points_bytes, Grid, Sheet, OCTANT};
use crate::Point;

mod conditions;

fn same(a: Point, b: Point) -> bool {
    let [a, b] = [a, b].map(|p| p.map(i128::from));
    let parallel = (0..3).all(|k| a[k] * b[(k + 1) % 3] == a[(k + 1) % 3] * b[k]);
    parallel && (0..3).map(|k| a[k] * b[k]).sum::<i128>() > 0
}

type Side = (Point, Point);

/// A side, and a half of one, is an unordered pair of directions.
fn joins((a, b): Side, (c, d): Side) -> bool {
    (same(a, c) && same(b, d)) || (same(a, d) && same(b, c))
}

fn side(vertices: &[Point], i: usize) -> Side {
    (vertices[i], vertices[(i + 1) % vertices.len()])
}

fn is_side(vertices: &[Point], half: Side) -> bool {
    (0..vertices.len()).any(|i| joins(half, side(vertices, i)))
}

/// M in every side that joins the two directions of side e.
fn with_vertex(vertices: &[Point], e: usize, m: Point) -> Vec<Point> {
    let whole = side(vertices, e);
    let added = |i| joins(whole, side(vertices, i)).then_some(m);
    (0..vertices.len()).flat_map(|i| [Some(vertices[i]), added(i)]).flatten().collect()
}

/// Up to three times as long, where that is on the grid.
fn lengthened(random: &mut Random, limit: i32, p: Point) -> Point {
    let largest = p.iter().map(|k| k.unsigned_abs()).max().unwrap_or(0).max(1);
    let factor = random.between(1, (limit as u32 / largest).clamp(1, 3) as i32);
    p.map(|k| factor * k)
}

/// An outline after some steps: what they were, and whether it is reversed, on the whole.
struct Redrawn {
    vertices: Vec<Point>,
    turned: bool,
    only_lengthened: bool,
    added: u32,
}

impl Redrawn {
    fn step(&mut self, random: &mut Random, limit: i32) {
        let n = self.vertices.len();
        let step = random.below(4);
        self.only_lengthened &= step == 2;
        match step {
            0 => self.vertices.rotate_left(random.below(n)),
            1 => {
                self.vertices.reverse();
                self.turned = !self.turned;
            }
            2 => self.vertices.iter_mut().for_each(|p| *p = lengthened(random, limit, *p)),
            _ => self.add(random, limit),
        }
    }

    /// A vertex on a side, if it is on the grid and neither half was already a side.
    fn add(&mut self, random: &mut Random, limit: i32) {
        let e = random.below(self.vertices.len());
        let (a, b) = side(&self.vertices, e);
        let (s, t) = (i64::from(random.between(1, 3)), i64::from(random.between(1, 3)));
        let m = [0, 1, 2].map(|k| s * i64::from(a[k]) + t * i64::from(b[k]));
        if m.iter().all(|k| k.abs() <= i64::from(limit)) {
            let m = m.map(|k| k as i32);
            if !is_side(&self.vertices, (a, m)) && !is_side(&self.vertices, (m, b)) {
                self.vertices = with_vertex(&self.vertices, e, m);
                self.added += 1;
            }
        }
    }
}

fn redrawn(random: &mut Random, limit: i32, vertices: &[Point]) -> Redrawn {
    let vertices = vertices.to_vec();
    let mut drawing = Redrawn { vertices, turned: false, only_lengthened: true, added: 0 };
    for _ in 0..1 + random.below(10) {
        drawing.step(random, limit);
    }
    drawing
}

#[derive(Default, Debug)]
struct Tally {
    outlines: u32,
    added: u32,
    rings: u32,
    verdicts: [u32; 4],
    places: u32,
    sums: u32,
    second: u32,
}

/// A second point that passes, if one of a few does.
fn with_second(random: &mut Random, sheet: &Sheet) -> Vec<u8> {
    let candidates: Vec<Point> = (0..8).map(|_| random.point(9)).collect();
    let chosen = choose(&sheet.bytes(), &points_bytes(&candidates));
    if chosen.number == 0 {
        return sheet.clone().with_second(candidates[chosen.place]).bytes();
    }
    sheet.bytes()
}

/// Numbers, in order.
fn fed(sheet: &[u8], queries: &[Point]) -> Vec<u32> {
    let bytes = points_bytes(queries);
    let mut results = vec![0; bytes.len()];
    assert_eq!(feed_number(sheet, &bytes, &mut results), 0);
    results.chunks(12).map(|result| u32::from_be_bytes(result[..4].try_into().expect("12 bytes"))).collect()
}

/// The outline of `sheet`, redrawn on `grid`, with its known point and its queries lengthened.
fn compare(tally: &mut Tally, random: &mut Random, sheet: &Sheet, grid: Grid, queries: &[Point]) {
    let left = sheet.bytes();
    // A query of zeros is refused after every check of the sheet.
    if number(&left, [0; 3]) != 17 {
        return;
    }
    let drawing = redrawn(random, grid.limit(), &sheet.vertices);
    let known = lengthened(random, grid.limit(), sheet.known);
    let other = Sheet::new(known, &drawing.vertices).on(grid);
    let right = other.bytes();
    let case = || format!("{:?} {:?} {known:?}", sheet.vertices, drawing.vertices);
    assert_eq!(number(&right, [0; 3]), 17, "redrawn and refused: {}", case());
    tally.outlines += 1;
    tally.added += drawing.added;
    let compared = library::compare(&left, &right);
    assert!(!compared.fields.contains(&4), "{}", case());
    if drawing.added == 0 {
        // P11's same ring: these are the verdicts that it promises.
        assert!(compared.way != 0 && !compared.fields.contains(&5), "{}", case());
        tally.rings += 1;
    }
    let longer: Vec<Point> = queries.iter().map(|&p| lengthened(random, grid.limit(), p)).collect();
    for (&p, &q) in queries.iter().zip(&longer) {
        let (a, b) = (judge(&left, p), judge(&right, q));
        if a.number == 17 || b.number == 17 {
            continue;
        }
        assert_eq!((a.number, a.count), (b.number, b.count), "{} {p:?} {q:?}", case());
        let (s, t) = (sum(&left, p), sum(&right, q));
        assert_eq!(t, if drawing.turned { -s } else { s }, "{} {p:?} {q:?}", case());
        if a.number <= 3 {
            tally.verdicts[a.number as usize] += 1;
            tally.sums += u32::from(s != 0);
        }
        if drawing.only_lengthened {
            assert_eq!(a.place, b.place, "{} {p:?} {q:?}", case());
            tally.places += u32::from(a.number == 3);
        }
    }
    // Each sheet with a second point of its own, or none, and in feeds: the verdicts stay.
    let pair = [with_second(random, sheet), with_second(random, &other)];
    let results = [fed(&pair[0], queries), fed(&pair[1], &longer)];
    for (i, (&a, &b)) in results[0].iter().zip(&results[1]).enumerate() {
        if a <= 3 && b <= 3 {
            assert_eq!(a, b, "{} {:?}", case(), queries[i]);
            tally.second += u32::from(number(&left, queries[i]) == 18);
        }
    }
}

/// The left sheet's grid, and the right one's.
fn compare_grids(left: Grid, right: Grid) {
    let (mut tally, random) = (Tally::default(), &mut Random::new(120));
    let small = [1, 2, 3, 5].map(Numbers::Within);
    for numbers in small.into_iter().chain([Numbers::Within(1_000), Numbers::Lengthened(9)]) {
        for _ in 0..1_500 {
            let source = Source(left, numbers);
            let (sheet, mut queries) = plain_and_queries(random, source, 10, 16);
            // and near the vertices that are added
            let drawing = redrawn(random, left.limit(), &sheet.vertices);
            queries.extend((0..16).map(|_| query(random, source, sheet.known, &drawing.vertices)));
            compare(&mut tally, random, &sheet, right, &queries);
        }
    }
    println!("redrawn outlines, {left:?} and {right:?}: {tally:?}");
    assert!(tally.verdicts.iter().sum::<u32>() > 100_000 && tally.verdicts[1..].iter().all(|&n| n > 10_000));
    assert!(tally.added > 5_000 && tally.rings > 1_000 && tally.places > 1_000);
    assert!(tally.sums > 10_000 && tally.second > 1_000);
}

#[test]
fn redrawn_outlines() {
    for (left, right) in [(Grid::Coarse, Grid::Coarse), (Grid::Fine, Grid::Fine), (Grid::Coarse, Grid::Fine)]
    {
        compare_grids(left, right);
    }
}
