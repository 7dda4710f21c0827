//! Document 02's P11: did the redraw change anything?

use crate::compare::Tally;
use crate::islands::{islands_on, Extent};
use crate::outlines::{sheet_and_queries, Numbers::Within, Source};
use crate::random::Random;
use crate::sheet::{octant, octant_pair, Grid, Sheet, GRIDS};
use crate::{damage, library, reference, Comparison, Point};

/// The library's comparison, which has to be the reference's, with every lent byte as it was.
fn compare(left: &[u8], right: &[u8]) -> Comparison {
    let (lent_left, lent_right) = (left.to_vec(), right.to_vec());
    let found = library::compare(&lent_left, &lent_right);
    assert!(lent_left == left && lent_right == right, "lent bytes changed");
    assert_eq!(found, reference::compare(left, right), "{left:02x?} {right:02x?}");
    found
}

fn told(place: usize, way: u32, named: &[u8]) -> Comparison {
    let mut fields = [0; 7];
    fields[..named.len()].copy_from_slice(named);
    Comparison { number: 0, place, count: named.len() as u32, way, fields }
}

fn refused(number: u32, place: usize) -> Comparison {
    Comparison { number, place, ..Comparison::default() }
}

/// A ring of six, about the known point (1,1,9), that no turn and no reversal brings onto itself.
const RING: [Point; 6] = [[9, 1, 20], [5, 8, 20], [-4, 9, 20], [-9, -2, 20], [-3, -8, 20], [6, -7, 20]];

fn ring() -> Sheet {
    Sheet::new([1, 1, 9], &RING)
}

fn with(vertices: Vec<Point>) -> Vec<u8> {
    Sheet { vertices, ..ring() }.bytes()
}

/// Worked out by hand: started at vertex k, the left's vertex 0 is the right's vertex n - k. Run backwards from
/// vertex k on, it is the right's vertex k.
#[test]
fn redrawn_rings() {
    let left = ring().bytes();
    assert_eq!(compare(&left, &left), told(0, 1, &[]));
    for k in 1..6 {
        let mut started = RING.to_vec();
        started.rotate_left(k);
        assert_eq!(compare(&left, &with(started.clone())), told(6 - k, 1, &[]));
        let longer = started.iter().map(|p| p.map(|x| 3 * x)).collect();
        assert_eq!(compare(&left, &with(longer)), told(6 - k, 1, &[]));
    }
    for k in 0..6 {
        let backwards = (0..6).map(|i| RING[(6 + k - i) % 6]).collect();
        assert_eq!(compare(&left, &with(backwards)), told(k, 2, &[]));
    }
    let moved =
        |i: usize| (0..6).map(|j| if j == i { [RING[j][0], RING[j][1], 21] } else { RING[j] }).collect();
    for i in 0..6 {
        assert_eq!(compare(&left, &with(moved(i))), told(i, 0, &[5]));
    }
    let shorter = with(RING[..5].to_vec());
    let more = with([&RING[..], &[[8, -3, 20]]].concat());
    assert_eq!(compare(&left, &shorter), told(5, 0, &[5]));
    assert_eq!(compare(&shorter, &left), told(5, 0, &[5]));
    assert_eq!(compare(&left, &more), told(6, 0, &[5]));
    let mut swapped = RING.to_vec();
    swapped.swap(0, 1);
    swapped.swap(3, 4);
    assert_eq!(compare(&left, &with(swapped)), told(0, 0, &[5]));
}

/// A ring that meets itself more than once has the lowest place, and forward comes first: out and back along one arc,
/// twice round a triangle.
#[test]
fn lowest_places() {
    let twice = Sheet::new([1, 1, 1], &[octant().vertices.clone(), octant().vertices].concat());
    let mut started = twice.clone();
    started.vertices.rotate_left(2);
    assert_eq!(compare(&twice.bytes(), &started.bytes()), told(1, 1, &[]));
    let out_and_back = Sheet::new([1, 1, 1], &[[1, 0, 0], [0, 1, 0], [0, 0, 1], [0, 1, 0]]);
    let mut back = out_and_back.clone();
    back.vertices.reverse();
    assert_eq!(compare(&out_and_back.bytes(), &back.bytes()), told(3, 1, &[]));
    let mut octant_back = octant();
    octant_back.vertices = vec![[0, 0, 2], [0, 3, 0], [5, 0, 0]];
    assert_eq!(compare(&octant().bytes(), &octant_back.bytes()), told(2, 2, &[]));
}

/// Each field alone, and all together.
#[test]
fn fields() {
    let left = octant_pair();
    let pair = left.bytes();
    let mut all = left.clone();
    let mut alone = |k: u8, change: fn(&mut Sheet)| {
        let mut right = left.clone();
        change(&mut right);
        change(&mut all);
        let (place, way) = if k == 5 { (0, 0) } else { (0, 1) };
        assert_eq!(compare(&pair, &right.bytes()), told(place, way, &[k]));
        assert_eq!(compare(&right.bytes(), &pair), told(place, way, &[k]));
    };
    alone(1, |s| s.zone += 1);
    alone(2, |s| s.charset = 3);
    alone(3, |s| s.name = b"B".to_vec());
    alone(4, |s| s.known = [2, 2, 1]);
    alone(5, |s| s.vertices[0] = [9, 1, 1]);
    alone(6, |s| s.grid = Grid::Fine);
    alone(7, |s| s.second = Some([1, 2, 2]));
    assert_eq!(compare(&pair, &all.bytes()), told(0, 0, &[1, 2, 3, 4, 5, 6, 7]));
    let named = |name: &[u8]| Sheet { name: name.to_vec(), ..left.clone() }.bytes();
    assert_eq!(compare(&named(b"Piraeus"), &named(b"Piraeu")), told(0, 1, &[3]));
    assert_eq!(compare(&named(b"Piraeus"), &named(b"Piraeut")), told(0, 1, &[3]));
    assert_eq!(compare(&octant().bytes(), &pair), told(0, 1, &[7]));
    assert_eq!(compare(&pair, &octant().bytes()), told(0, 1, &[7]));
    for factor in [2, 7, 1_000_000] {
        let longer = left.times(factor).on(Grid::Fine).bytes();
        assert_eq!(compare(&pair, &longer), told(0, 1, &[6]));
    }
}

/// The left sheet's refusal, else the right sheet's.
#[test]
fn refusals() {
    let good = octant().bytes();
    let zero = Sheet::new([1, 1, 1], &[[1, 0, 0], [0, 0, 0], [0, 0, 1]]).bytes();
    assert_eq!(compare(&[], &zero), refused(20, 0));
    assert_eq!(compare(&zero, &[]), refused(12, 1));
    assert_eq!(compare(&good, &zero), refused(12, 1));
    assert_eq!(compare(&good, &good[..30]), refused(20, 30));
    assert_eq!(compare(&octant().with_second([0, 0, 0]).bytes(), &good), refused(19, 0));
    let mut tally = Tally::default();
    for (sheet, _) in damage::all_cases().into_iter().step_by(20) {
        tally.count(compare(&sheet, &good).number);
        tally.count(compare(&good, &sheet).number);
        tally.count(compare(&sheet, &zero).number);
    }
    tally.report("comparisons of damaged sheets", 3_000, [12, 20, 21, 22, 24]);
}

/// What an editor may have done to a sheet, one thing or several.
fn edited(random: &mut Random, left: &Sheet) -> Sheet {
    let mut right = left.clone();
    for _ in 0..random.below(4) {
        let n = right.vertices.len();
        let i = random.below(n);
        match random.below(12) {
            0 | 1 => right.vertices.rotate_left(i),
            2 | 3 => right.vertices.reverse(),
            4 if right.vertices[i].iter().all(|k| k.abs() < 1000) => {
                right.vertices[i] = right.vertices[i].map(|k| 2 * k);
            }
            5 => right.vertices[i][random.below(3)] += 1,
            6 if n > 3 => drop(right.vertices.remove(i)),
            7 => right.vertices.insert(i, random.point(3)),
            8 => right.grid = random.pick(&GRIDS),
            9 => {
                let points = [None, Some(random.point(3)), Some(right.known)];
                right.second = random.pick(&points);
            }
            10 => right.zone ^= 1 << random.below(32),
            11 => right.name = b"AB"[..1 + random.below(2)].to_vec(),
            _ => {}
        }
    }
    right
}

/// Small coordinates, so that directions coincide and rings have symmetries; on both grids.
#[test]
fn edited_sheets() {
    let random = &mut Random::new(1_111);
    let (mut numbers, mut ways) = (Tally::default(), Tally::default());
    for _ in 0..60_000 {
        let source = Source(random.pick(&GRIDS), Within(random.pick(&[1, 2, 3])));
        let left = sheet_and_queries(random, source, 8, 0).0;
        let found = compare(&left.bytes(), &edited(random, &left).bytes());
        numbers.count(found.number);
        if found.number == 0 {
            ways.count(found.way);
        }
    }
    numbers.report("edited sheets", 60_000, [0, 12, 13, 14, 15, 16, 19]);
    ways.report("ways", 3_000, [0, 1, 2]);
}

/// The longest rings, on both grids.
#[test]
fn longest_rings() {
    for grid in GRIDS {
        let islands = islands_on(grid, 5, 4_096, Extent::World);
        let left = Sheet::new(islands.known, &islands.vertices).on(grid);
        let mut right = left.clone();
        right.vertices.rotate_left(1_000);
        assert_eq!(compare(&left.bytes(), &right.bytes()), told(3_096, 1, &[]));
        right.vertices.reverse();
        assert_eq!(compare(&left.bytes(), &right.bytes()), told(999, 2, &[]));
        right.vertices.pop();
        assert_eq!(compare(&left.bytes(), &right.bytes()).way, 0);
    }
}
