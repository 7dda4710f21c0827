//! Request P9: the basin profile, compared with the reference, and cases with answers worked out by hand.

use crate::client::{row, sanitized_client, single_of};
use crate::compare::Tally;
use crate::host::{output_of, Folder};
use crate::outlines::{ring, Numbers, Source};
use crate::random::Random;
use crate::sheet::{points_bytes, Grid, GRIDS, OCTANT};
use crate::stars::star;
use crate::{library, reference, Answer, Point, Single};

/// The grid's number.
fn number(grid: Grid) -> u32 {
    match grid {
        Grid::Coarse => 0,
        Grid::Fine => 1,
    }
}

fn compare(tally: &mut Tally, vertices: &[Point], grid: Grid) -> Answer {
    let bytes = points_bytes(vertices);
    let found = library::basin(&bytes, number(grid));
    assert_eq!(found, reference::basin(&bytes, number(grid)), "{grid:?} {vertices:?}");
    tally.count(found.number);
    found
}

/// Library and reference both give this number, place and count, on both grids, and in larger numbers on the fine one.
fn expect(case: &str, vertices: &[Point], (number, place, count): (u32, usize, u32)) {
    let tally = &mut Tally::default();
    for (grid, factor) in [(Grid::Coarse, 1), (Grid::Fine, 1), (Grid::Fine, 64)] {
        let vertices: Vec<Point> = vertices.iter().map(|p| p.map(|k| factor * k)).collect();
        assert_eq!(compare(tally, &vertices, grid), Answer { number, place, count }, "{case}, {grid:?}");
    }
}

#[test]
fn basin_cases() {
    let square = [[1, 1, 4], [-1, 1, 4], [-1, -1, 4], [1, -1, 4]];
    expect("octant", &OCTANT, (0, 0, 0));
    expect("square", &square, (0, 0, 0));
    expect("three vertices round one great circle", &[[1, 0, 0], [-1, 2, 0], [-1, -2, 0]], (0, 0, 0));
    // Sides 0 and 2 cross at (0, 0, 4).
    expect("bow tie", &[square[0], square[2], square[1], square[3]], (35, 0, 2));
    // Sides 0 and 2 have great circles that meet at (0, 0, 1) and (0, 0, -1), one arc at each.
    expect("opposite points", &[[1, 0, 2], [-1, 0, 2], [0, 1, -2], [0, -1, -2]], (0, 0, 0));
    // A corridor from the square to a point inside it and back: side 3 runs back over side 2.
    expect("corridor", &[square[0], square[1], square[2], [0, -1, 8], square[2], square[3]], (35, 1, 3));
    expect("walked twice", &[&square[..], &square[..]].concat(), (35, 0, 3));
    // Side 1 turns back over side 0: to a point of it, or past its start.
    expect("spike", &[[0, 0, 1], [4, 0, 1], [2, 0, 1], [0, 4, 1]], (35, 0, 1));
    expect("spike past the start", &[[1, 0, 1], [4, 0, 1], [-1, 0, 1], [0, 4, 1]], (35, 0, 1));
    // The last side turns back over side 0.
    expect("spike at vertex 0", &[[0, 0, 1], [2, 0, 1], [2, 2, 1], [4, 0, 1]], (35, 0, 3));
    // Vertex 3 on side 0; vertex 0 on side 2; vertices 1 and 4 in one direction.
    expect("vertex on a side", &[[-2, 0, 1], [2, 0, 1], [2, 2, 1], [0, 0, 1], [-2, 2, 1]], (35, 0, 2));
    expect("first vertex on a side", &[[0, 0, 1], [1, 2, 1], [-2, 0, 1], [2, 0, 1], [3, 1, 1]], (35, 0, 2));
    expect(
        "touched vertex",
        &[[-2, 1, 1], [0, 0, 1], [-2, -1, 1], [2, -1, 1], [0, 0, 3], [2, 1, 1]],
        (35, 0, 3),
    );
    // Sides on one great circle that overlap and share no end; and that do not meet.
    let level = |x: i32| [x, 0, 4];
    expect("overlap", &[level(0), level(3), [6, 2, 4], level(5), level(2), [1, 3, 4]], (35, 0, 3));
    expect("in line", &[level(0), level(1), [1, 1, 4], [2, 1, 4], level(2), level(3), [3, 4, 4]], (0, 0, 0));
}

/// Which refusal is given, and at which place.
#[test]
fn basin_refusals() {
    let bytes = |vertices: &[Point]| points_bytes(vertices);
    let check = |bytes: &[u8], grid, number, place| {
        let expected = Answer { number, place, count: 0 };
        assert_eq!([library::basin(bytes, grid), reference::basin(bytes, grid)], [expected; 2]);
    };
    let octant = bytes(&OCTANT);
    check(&[], 0, 10, 0);
    check(&octant[..35], 0, 10, 0);
    check(&[&octant[..], &[0]].concat(), 7, 10, 0);
    check(&octant[..24], 2, 10, 0);
    for grid in [2, 3, u32::MAX] {
        check(&octant, grid, 28, 0);
        check(&bytes(&[[0, 0, 0]; 3]), grid, 28, 0);
    }
    check(&bytes(&[[0, 0, 0], [1, 0, 0], [1_048_577, 0, 0]]), 0, 11, 2);
    check(&bytes(&[[0, 0, 0], [1, 0, 0], [1_048_577, 0, 0]]), 1, 12, 0);
    check(&bytes(&[[1, 0, 0], [0, 1, 0], [0, 67_108_865, 0]]), 1, 11, 2);
    check(&bytes(&[[1, 0, 0], [0, 1, 0], [0, -1, 0], [0, -2, 0]]), 0, 13, 2);
    check(&bytes(&[[1, 0, 0], [0, 1, 0], [0, -1, 0]]), 0, 14, 1);
    let random = &mut Random::new(92);
    for (grid, number) in [(Grid::Coarse, 0), (Grid::Fine, 1)] {
        let most = star(random, grid, 512);
        check(&bytes(&most), number, 0, 0);
        let over = star(random, grid, 513);
        check(&bytes(&over), number, 34, 0);
        // 11 to 14 come first, also over 512 vertices.
        for (vertex, refusal, place) in [
            ([i32::MAX, 0, 0], 11, 512),
            ([0; 3], 12, 512),
            (over[511], 13, 511),
            (over[511].map(|k| -k), 14, 511),
        ] {
            let bad = [&over[..512], &[vertex]].concat();
            check(&bytes(&bad), number, refusal, place);
        }
        check(&bytes(&star(random, grid, 4_096)), number, 34, 0);
        check(&bytes(&star(random, grid, 4_097)), number, 10, 0);
        // A pair that offends is the last thing looked at.
        check(&bytes(&[&over[..512], &over[..2]].concat()), number, 34, 0);
    }
}

/// Every outline of 3 and 4 vertices with numbers from -1 to 1, all zero among them; of 5 that begin with one of three
/// directions, as the others are these turned; and every one of 5 flat vertices, those with a 0, wherever it begins.
#[test]
fn basin_small_grid() {
    let all: Vec<Point> = (0..27).map(|k| [k % 3 - 1, k / 3 % 3 - 1, k / 9 - 1]).collect();
    let mut tally = Tally::default();
    let mut walk = |starts: &[Point], more: &[Point], n: usize| {
        let choices = more.len().pow(n as u32 - 1);
        for (&start, choice) in
            starts.iter().flat_map(|start| (0..choices).map(move |choice| (start, choice)))
        {
            let rest = (1..n).map(|k| more[choice / more.len().pow(k as u32 - 1) % more.len()]);
            let outline: Vec<Point> = [start].into_iter().chain(rest).collect();
            compare(&mut tally, &outline, Grid::Coarse);
        }
    };
    walk(&all, &all, 3);
    walk(&all, &all, 4);
    let some: Vec<Point> = all.into_iter().filter(|&p| p != [0; 3]).collect();
    walk(&[[1, 0, 0], [1, 1, 0], [1, 1, 1]], &some, 5);
    let flat: Vec<Point> = some.into_iter().filter(|p| p.contains(&0)).collect();
    walk(&flat, &flat, 5);
    tally.report("basin, small grid", 3_800_000, [0, 12, 13, 14, 35]);
}

/// Rings with many coincidences, and with numbers of any size.
#[test]
fn basin_random() {
    let random = &mut Random::new(90);
    let mut tally = Tally::default();
    for round in 0..60_000 {
        let grid = GRIDS[round % 2];
        let limit = grid.limit();
        let numbers = [
            Numbers::Within(2),
            Numbers::Within(4),
            Numbers::Lengthened(3),
            Numbers::Within(limit),
            Numbers::Limits,
        ];
        let n = 3 + random.below(9);
        let outline = ring(random, Source(grid, numbers[round / 2 % 5]), n);
        compare(&mut tally, &outline, grid);
    }
    tally.report("basin, random", 60_000, [0, 12, 35]);
}

/// Stars, which are simple; and stars of which one vertex is moved to another, onto a side, or just across it.
#[test]
fn basin_stars() {
    let random = &mut Random::new(91);
    let mut tally = Tally::default();
    for round in 0..400 {
        let grid = GRIDS[round % 2];
        let most = random.pick(&[10, 60, 510]);
        let n = 3 + random.below(most);
        let mut outline = star(random, grid, n);
        assert_eq!(compare(&mut tally, &outline, grid).number, 0);
        let (k, i) = (random.below(n), random.below(n));
        let (a, b) = (outline[i], outline[(i + 1) % n]);
        let [middle, across] = [0, 1].map(|step| [0, 1, 2].map(|axis| (a[axis] + b[axis]) / 2 + step));
        outline[k] = random.pick(&[a, middle, across.map(|axis| axis.min(grid.limit()))]);
        compare(&mut tally, &outline, grid);
    }
    tally.report("basin, stars", 800, [0, 35]);
}

/// Vertices at the very ends of pages that can only be read, under AddressSanitizer: whole and cut, few and many.
#[test]
fn basin_guard_pages() {
    let folder = Folder::new("basin-pages");
    let random = &mut Random::new(93);
    let mut cases: Vec<(Vec<u8>, u32)> = vec![];
    for round in 0..2_000 {
        let grid = GRIDS[round % 2];
        let n = random.pick(&[0, 1, 2, 3, 4, 5, 6, 7, 8]);
        let outline: Vec<Point> = (0..n).map(|_| random.point(3)).collect();
        let mut bytes = points_bytes(&outline);
        bytes.truncate(bytes.len().saturating_sub(random.pick(&[0, 0, 0, 0, 0, 0, 1, 11])));
        cases.push((bytes, random.pick(&[number(grid), number(grid), number(grid), 2])));
    }
    for (grid, n) in
        GRIDS.into_iter().flat_map(|grid| [511, 512, 513, 4_095, 4_096, 4_097].map(|n| (grid, n)))
    {
        cases.push((points_bytes(&star(random, grid, n)), number(grid)));
    }
    let input: Vec<u8> = cases.iter().flat_map(|(v, g)| [row(v), row(&g.to_be_bytes())].concat()).collect();
    let printed = output_of(sanitized_client(&folder).arg("basin"), &input);
    assert_eq!(printed.lines().count(), cases.len());
    let mut tally = Tally::default();
    for (line, (vertices, grid)) in printed.lines().zip(&cases) {
        let answer = reference::basin(vertices, *grid);
        assert_eq!(single_of(line), Single { answer, sum: 0, looked: 0 }, "{vertices:02x?} {grid}");
        tally.count(answer.number);
    }
    tally.report("basin, guard pages", 2_012, [0, 10, 12, 13, 14, 28, 34, 35]);
}
