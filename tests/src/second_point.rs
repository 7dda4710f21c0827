//! Document 02's P4: choosing a second known point, and what it changes.

use crate::compare::Tally;
use crate::islands::{islands_on, queries, Extent, Islands, EXTENTS};
use crate::outlines::{sheet_and_queries, Numbers::Within, Source};
use crate::random::Random;
use crate::sheet::{field, octant, octant_pair, point_bytes, points_bytes, Grid, Sheet, GRIDS};
use crate::{library, reference, Answer, Point, Single};

fn opposite(p: Point) -> Point {
    p.map(|k| -k)
}

/// The library's choice, which has to be the reference's, with every lent byte as it was.
fn choose(sheet: &[u8], candidates: &[u8]) -> Answer {
    let (lent_sheet, lent_candidates) = (sheet.to_vec(), candidates.to_vec());
    let found = library::choose(&lent_sheet, &lent_candidates);
    assert!(lent_sheet == sheet && lent_candidates == candidates, "lent bytes changed");
    assert_eq!(found, reference::choose(sheet, candidates), "{sheet:02x?} {candidates:02x?}");
    found
}

fn chosen(number: u32, place: usize) -> Answer {
    Answer { number, place, count: 0 }
}

/// Worked out by hand. Passed over: all zero, beyond the grid, the known point's direction, its
/// opposite, on the great circle of a side, outside. At the grid's limit a point may pass.
fn compare_octant(grid: Grid) {
    let (sheet, limit) = (octant().on(grid).bytes(), grid.limit());
    let over = [
        [0, 0, 0],
        [limit + 1, 1, 1],
        [i32::MIN; 3],
        [2, 2, 2],
        [-1, -1, -1],
        [1, 1, 0],
        [0, 1, 0],
        [1, 1, -1],
    ];
    assert_eq!(choose(&sheet, &points_bytes(&over)), chosen(19, 0));
    for n in 0..=over.len() {
        for passes in [[1, 1, 2], [limit, 1, limit - 1]] {
            let list = [&over[..n], &[passes, [3, 2, 1]], &over[n..]].concat();
            assert_eq!(choose(&sheet, &points_bytes(&list)), chosen(0, n));
        }
    }
    let bytes = points_bytes(&[[1, 1, 2]]);
    for length in [1, 4, 11] {
        assert_eq!(choose(&sheet, &bytes[..length]), chosen(10, 0));
        assert_eq!(choose(&[], &bytes[..length]), chosen(10, 0));
    }
    assert_eq!(choose(&[], &bytes), chosen(20, 0));
    assert_eq!(choose(&sheet, &[]), chosen(19, 0));
}

#[test]
fn chosen_of_the_octant() {
    GRIDS.into_iter().for_each(compare_octant);
}

/// A second point that the sheet has already: its bytes are checked, and its point is not.
#[test]
fn chosen_beside_another() {
    let candidates = points_bytes(&[[1, 1, 0], [3, 2, 1]]);
    let with = |second| octant().with_second(second).bytes();
    for second in [[1, 1, 2], [0, 0, 0], [1, 1, 1], [1, 1, 0], [i32::MAX; 3]] {
        assert_eq!(choose(&with(second), &candidates), chosen(0, 1));
    }
    let sheet = octant_pair().bytes();
    assert_eq!(choose(&sheet[..68], &candidates), chosen(20, 30));
    assert_eq!(choose(&sheet[..83], &candidates), chosen(20, 69));
    assert_eq!(choose(&[octant().bytes(), field(6, &[0; 11])].concat(), &candidates), chosen(22, 69));
    assert_eq!(choose(&[sheet.clone(), sheet[69..].to_vec()].concat(), &candidates), chosen(24, 84));
    for (known, side) in [([1, 1, 0], 0), ([0, 1, 1], 1)] {
        assert_eq!(choose(&Sheet { known, ..octant_pair() }.bytes(), &candidates), chosen(16, side));
    }
}

/// Tag 6, worked out by hand: good, cut, doubled, before the vertices, with another length; points that
/// fail. The good one's answer is of three sides looked at and side 1 crossed, by the second pattern.
fn compare_tag_6(grid: Grid) {
    let judge = |sheet: &[u8]| {
        let Single { answer, sum, looked } = Tally::default().compare(sheet, [-1, -1, -1]);
        assert_eq!((sum, looked), if answer.number == 2 { (-1, 3) } else { (0, 0) });
        (answer.number, answer.place, answer.count)
    };
    let octant = || octant().on(grid);
    let (plain, sheet) = (octant().bytes(), octant_pair().on(grid).bytes());
    let sixth = &sheet[69..];
    assert_eq!(judge(&plain), (18, 0, 0));
    assert_eq!(judge(&sheet), (2, 0, 1));
    for end in 70..84 {
        assert_eq!(judge(&sheet[..end]), (20, 69, 0));
    }
    for next in 0..=255 {
        assert_eq!(judge(&[&sheet[..], &[next]].concat()), (24, 84, 0));
        let after_vertices = if next == 6 { (20, 69, 0) } else { (24, 69, 0) };
        assert_eq!(judge(&[&plain[..], &[next]].concat()), after_vertices);
    }
    assert_eq!(judge(&[&sheet[..], sixth].concat()), (24, 84, 0));
    assert_eq!(judge(&[&plain[..30], sixth, &plain[30..]].concat()), (21, 30, 0));
    for length in [0, 4, 11, 13, 24, 36] {
        assert_eq!(judge(&[&plain[..], &field(6, &vec![1; length])].concat()), (22, 69, 0));
    }
    for second in [[0, 0, 0], [2, 2, 2], [-1, -1, -1], [1, 1, 0], [1, 1, -1], [1, 1, grid.limit() + 1]] {
        assert_eq!(judge(&octant().with_second(second).bytes()), (19, 0, 0));
        assert_eq!(judge(&Sheet { known: [1, 0, 1], ..octant().with_second(second) }.bytes()), (16, 2, 0));
    }
}

#[test]
fn tag_6() {
    GRIDS.into_iter().for_each(compare_tag_6);
}

/// Lists of 0, 1 and 1,000 candidates, many of which fail, to many sheets, some of them refused.
fn compare_lists(grid: Grid) {
    let mut tally = Tally::default();
    let (random, limit) = (&mut Random::new(90), grid.limit());
    for k in 0..6_000 {
        let size = random.pick(&[1, 2, 3, 9, limit]);
        let (sheet, _) = sheet_and_queries(random, Source(grid, Within(size)), 9, 0);
        let count = [0, 1, 1_000][k % 3];
        let near = random.once_in(2);
        let candidates: Vec<Point> =
            (0..count).map(|_| random.point(if near { size } else { limit + limit / 9 })).collect();
        tally.count(choose(&sheet.bytes(), &points_bytes(&candidates)).number);
    }
    let large = islands_on(grid, 91, 500, Extent::World);
    let last = queries(92, &large, 1_000);
    tally.count(choose(&large.sheet(), &points_bytes(&last)).number);
    tally.report(&format!("candidates, {grid:?}"), 6_000, [0, 13, 14, 16, 19]);
}

#[test]
fn candidate_lists() {
    GRIDS.into_iter().for_each(compare_lists);
}

/// A point near the coast that passes as a second one, and the sheet with it.
pub fn stored(random: &mut Random, isles: &Islands) -> Option<(Point, Vec<u8>)> {
    let limit = isles.grid.limit();
    let mut near = |p: Point| p.map(|c| (c + random.between(-40, 40)).clamp(-limit, limit));
    let candidates: Vec<Point> = isles.vertices.iter().map(|&vertex| near(vertex)).collect();
    let choice = choose(&isles.sheet(), &points_bytes(&candidates));
    let second = (choice.number == 0).then(|| candidates[choice.place])?;
    Some((second, [isles.sheet(), field(6, &point_bytes(second))].concat()))
}

/// A candidate that is chosen makes a good sheet: the query opposite the known point is judged as if the
/// chosen point were the only one, in a feed as by the single call, and every other query as before.
fn compare_stored(grid: Grid) {
    let random = &mut Random::new(93);
    let mut tally = Tally::default();
    let (mut outside, mut skipped) = (0, 0);
    for k in 0..40 {
        let isles = islands_on(grid, 94 + k, 24 + 40 * (k as usize % 8), EXTENTS[k as usize % 3]);
        let sheet = isles.sheet();
        let (second, pair) = stored(random, &isles).expect("a second point");
        let far = opposite(isles.known);
        let mut asked = queries(95 + k, &isles, 200);
        asked.push(far);
        asked.extend((0..20).map(|_| random.point(9)));
        let mut results = vec![0; 12 * asked.len()];
        assert_eq!(library::feed_number(&pair, &points_bytes(&asked), &mut results), 0);
        for (i, &query) in asked.iter().enumerate() {
            let (before, after) = (library::single(&sheet, query), tally.compare(&pair, query));
            let in_feed = u32::from_be_bytes(results[12 * i..12 * i + 4].try_into().expect("word"));
            assert_eq!(in_feed, after.answer.number);
            assert!(in_feed != 18 && (before.answer.number == 18 || before == after), "{query:?}");
        }
        assert_eq!(library::number(&sheet, far), 18);
        let from_second = library::single(&Sheet::new(second, &isles.vertices).on(grid).bytes(), far);
        assert_eq!(library::single(&pair, far), from_second);
        outside += u32::from(from_second.answer.number == 2);
        skipped += u32::from((from_second.looked as usize) < isles.vertices.len());
    }
    tally.report(&format!("second points, {grid:?}"), 8_000, [1, 2, 3]);
    println!(
        "second points: 40, the opposite point is outside for {outside}, a run is skipped for {skipped}"
    );
    assert!(outside >= 20 && skipped >= 10);
}

#[test]
fn chosen_and_stored() {
    GRIDS.into_iter().for_each(compare_stored);
}

/// Demand 3 of a pair: the point that is used instead, alone or with a second one, replaces both.
fn compare_pairs(grid: Grid) {
    let random = &mut Random::new(96);
    let mut tally = Tally::default();
    let (mut alike, mut exchanged) = (0, 0);
    for _ in 0..20_000 {
        let size = random.pick(&[1, 2, 3, 5, grid.limit()]);
        let n = 3 + random.below(6);
        let vertices: Vec<Point> = (0..n).map(|_| random.point(size)).collect();
        let mut sheets = [0; 2].map(|_| Sheet::new(random.point(size.max(4)), &vertices).on(grid));
        for sheet in &mut sheets {
            let candidates: Vec<Point> = (0..8).map(|_| random.point(size.max(4))).collect();
            let choice = reference::choose(&sheet.bytes(), &points_bytes(&candidates));
            sheet.second = (choice.number == 0).then(|| candidates[choice.place]);
        }
        let [first, instead] = &sheets;
        let [from_first, from_instead] = sheets.each_ref().map(Sheet::bytes);
        // A query of zeros is refused after every check of the sheet.
        let refused = |sheet: &[u8]| library::number(sheet, [0; 3]) != 17;
        if first.second.is_none() || refused(&from_first) || refused(&from_instead) {
            continue;
        }
        let called = library::number(&from_first, instead.known);
        assert!(called == 1 || called == 2, "{vertices:?} {called}");
        let far = [first.known, instead.known].map(opposite);
        for query in [far[0], far[1], random.point(size), random.point(size)] {
            let [p, q] = [&from_first, &from_instead].map(|sheet| tally.compare(sheet, query).answer);
            assert!(p.number != 18 && (q.number != 18 || instead.second.is_none()));
            if p.number > 3 || q.number > 3 {
                continue;
            }
            let expected = if p.number == 3 || called == 1 { p.number } else { 3 - p.number };
            assert!(q.number == expected && q.place == p.place, "{vertices:?} {query:?}: {p:?} {q:?}");
            *(if called == 1 { &mut alike } else { &mut exchanged }) += 1;
        }
    }
    tally.report(&format!("pairs, {grid:?}"), 20_000, [1, 2, 3]);
    println!("pairs, {grid:?}: {alike} verdicts alike, {exchanged} exchanged");
    assert!(alike > 5_000 && exchanged > 2_000);
}

#[test]
fn pair_does_not_matter() {
    GRIDS.into_iter().for_each(compare_pairs);
}
