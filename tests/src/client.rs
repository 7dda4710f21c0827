//! The header and the archive as a C program gets them: compiled, linked, run.

use crate::compare::{expect, Tally};
use crate::host::{command, output_of, repository, Folder};
use crate::islands::{islands_on, queries, Extent};
use crate::outlines::{sheet_and_queries, Numbers::Within, Source};
use crate::random::Random;
use crate::second_point::stored;
use crate::sheet::{point_bytes, points_bytes, Grid, Sheet, GRIDS};
use crate::{damage, library, reference, Answer, Comparison, Point, Single};
use std::collections::BTreeMap;
use std::process::Command;

const STRICT: [&str; 4] = ["-Wall", "-Wextra", "-Werror", "-pedantic"];

/// The flags for the repository's own header and the archive under test.
pub fn flags() -> Vec<String> {
    let path = |name| repository(name).display().to_string();
    vec![
        format!("-I{}", path("include")),
        format!("-L{}", env!("SPG_FOLDER")),
        "-l:libspargolutta.a".to_string(),
    ]
}

/// Compiles a C file of the repository into the folder.
pub fn compile(folder: &Folder, source: &str, words: &[&str], flags: &[String]) -> Command {
    let program = folder.path("program");
    let mut cc = command("cc", STRICT);
    cc.arg("-std=c11").args(words).arg("-o").arg(&program).arg(repository(source)).args(flags);
    output_of(&mut cc, &[]);
    Command::new(program)
}

/// Bytes as the client reads them, with their length before them.
pub fn row(bytes: &[u8]) -> Vec<u8> {
    [&(bytes.len() as u32).to_be_bytes()[..], bytes].concat()
}

/// The client, built with the sanitizers.
pub fn sanitized_client(folder: &Folder) -> Command {
    let sanitize = ["-D_GNU_SOURCE", "-O1", "-g", "-fsanitize=address,undefined"];
    compile(folder, "tests/client.c", &sanitize, &flags())
}

/// The five numbers that a line begins with.
pub fn single_of(line: &str) -> Single {
    let words: Vec<i64> = line.split(' ').take(5).map(|word| word.parse().expect("number")).collect();
    let answer = Answer { number: words[0] as u32, place: words[1] as usize, count: words[2] as u32 };
    Single { answer, sum: words[3] as i32, looked: words[4] as u32 }
}

/// Damaged sheets and long ones at the very ends of pages that can only be read, under AddressSanitizer.
#[test]
fn guard_pages() {
    let folder = Folder::new("pages");
    let mut cases = damage::all_cases();
    let random = &mut Random::new(82);
    for (sides, grid) in [33, 64, 4_096].into_iter().flat_map(|sides| GRIDS.map(|grid| (sides, grid))) {
        let islands = islands_on(grid, 1, sides, Extent::Archipelago);
        cases.extend(queries(2, &islands, 40).into_iter().map(|query| (islands.sheet(), query)));
        let (_, pair) = stored(random, &islands).expect("a second point");
        cases.extend([islands.known, islands.known.map(|k| -k)].map(|query| (pair.clone(), query)));
    }
    let case_bytes = |(sheet, query): &(Vec<u8>, Point)| [row(sheet), row(&point_bytes(*query))].concat();
    let input: Vec<u8> = cases.iter().flat_map(case_bytes).collect();
    let printed = output_of(&mut sanitized_client(&folder), &input);
    assert_eq!(printed.lines().count(), cases.len());
    for (line, (sheet, query)) in printed.lines().zip(&cases) {
        expect(sheet, *query, single_of(line));
    }
    println!("guard pages: {} sheets", cases.len());
}

/// Mostly small coordinates, so that all kinds of answers are common.
fn any_source(random: &mut Random) -> Source {
    Source(random.pick(&GRIDS), Within(random.pick(&[1, 2, 3, 4, 5, 1_048_576])))
}

/// Feeds whose queries and results stand at the very ends of pages: good sheets and damaged ones,
/// queries that are whole and cut, buffers that are short, exact and long.
#[test]
fn feed_guard_pages() {
    let folder = Folder::new("feed-pages");
    let random = &mut Random::new(80);
    let mut feeds = vec![];
    for _ in 0..3_000 {
        let (source, count) = (any_source(random), random.below(30));
        let (sheet, queries) = sheet_and_queries(random, source, 12, count);
        let mut queries = points_bytes(&queries);
        queries.truncate(queries.len().saturating_sub(random.pick(&[0, 0, 0, 0, 0, 0, 1, 11])));
        let room = (queries.len() + random.pick(&[0, 0, 0, 1, 5, 12, 5_000]))
            .saturating_sub(random.pick(&[0, 0, 0, 1]));
        feeds.push((sheet.bytes(), queries, vec![0xc3; room]));
    }
    for (sheet, query) in damage::all_cases().into_iter().step_by(50) {
        let queries = points_bytes(&vec![query; random.below(4)]);
        feeds.push((sheet, queries.clone(), vec![0xc3; queries.len() + random.below(3)]));
    }
    let case_bytes = |(sheet, queries, buffer): &(Vec<u8>, Vec<u8>, Vec<u8>)| {
        [sheet, queries, buffer].map(|b| row(b)).concat()
    };
    let input: Vec<u8> = feeds.iter().flat_map(case_bytes).collect();
    let printed = output_of(sanitized_client(&folder).arg("feed"), &input);
    assert_eq!(printed.lines().count(), feeds.len());
    let mut tally = Tally::default();
    for (line, (sheet, queries, buffer)) in printed.lines().zip(&feeds) {
        let (expected, after) = reference::feed(sheet, queries, buffer);
        assert_eq!(single_of(line), Single { answer: expected, sum: 0, looked: 0 });
        let hex: String = after.iter().map(|byte| format!("{byte:02x}")).collect();
        assert_eq!(line.split(' ').nth(5), Some(&hex[..]), "{expected:?}");
        tally.count(expected.number);
    }
    tally.report("feeds, guard pages", 4_000, [0, 13, 16, 20, 21, 22, 26, 27]);
}

/// Candidates at the very ends of pages: of any number and cut, with good sheets and damaged ones.
#[test]
fn choose_guard_pages() {
    let folder = Folder::new("choose-pages");
    let random = &mut Random::new(81);
    let mut cases: Vec<(Vec<u8>, Vec<u8>)> = vec![];
    for _ in 0..3_000 {
        let source = any_source(random);
        let (sheet, _) = sheet_and_queries(random, source, 12, 0);
        let candidates: Vec<Point> = (0..random.below(20)).map(|_| random.point(3)).collect();
        let mut bytes = points_bytes(&candidates);
        bytes.truncate(bytes.len().saturating_sub(random.pick(&[0, 0, 0, 0, 0, 0, 1, 11])));
        cases.push((sheet.bytes(), bytes));
    }
    for (sheet, query) in damage::all_cases().into_iter().step_by(50) {
        cases.push((sheet, points_bytes(&vec![query; random.below(4)])));
    }
    let input: Vec<u8> = cases.iter().flat_map(|(s, c)| [row(s), row(c)].concat()).collect();
    let printed = output_of(sanitized_client(&folder).arg("choose"), &input);
    assert_eq!(printed.lines().count(), cases.len());
    let mut tally = Tally::default();
    for (line, (sheet, candidates)) in printed.lines().zip(&cases) {
        let expected = reference::choose(sheet, candidates);
        let whole = Single { answer: expected, sum: 0, looked: 0 };
        assert_eq!(single_of(line), whole, "{sheet:02x?} {candidates:02x?}");
        tally.count(expected.number);
    }
    tally.report("candidates, guard pages", 4_000, [0, 10, 13, 16, 19, 20, 21, 22, 24]);
}

/// Two sheets at the very ends of pages: good ones and damaged ones, on either side.
#[test]
fn compare_guard_pages() {
    let folder = Folder::new("compare-pages");
    let random = &mut Random::new(84);
    let sheets: Vec<Vec<u8>> = damage::all_cases().into_iter().step_by(60).map(|(sheet, _)| sheet).collect();
    let mut cases: Vec<[Vec<u8>; 2]> = vec![];
    for _ in 0..3_000 {
        let source = any_source(random);
        let sheet = sheet_and_queries(random, source, 12, 0).0.bytes();
        cases.push([sheet.clone(), sheets[random.below(sheets.len())].clone()]);
        cases.push([sheet.clone(), sheet]);
    }
    cases.extend(sheets.windows(2).map(|pair| [pair[0].clone(), pair[1].clone()]));
    let input: Vec<u8> = cases.iter().flat_map(|pair| [row(&pair[0]), row(&pair[1])].concat()).collect();
    let printed = output_of(sanitized_client(&folder).arg("compare"), &input);
    assert_eq!(printed.lines().count(), cases.len());
    let mut tally = Tally::default();
    for (line, [left, right]) in printed.lines().zip(&cases) {
        let words: Vec<u64> = line.split(' ').map(|word| word.parse().expect("number")).collect();
        let found = Comparison {
            number: words[0] as u32,
            place: words[1] as usize,
            count: words[2] as u32,
            way: words[3] as u32,
            fields: library::field_bytes(words[5]),
        };
        assert_eq!(found, reference::compare(left, right), "{left:02x?} {right:02x?}");
        tally.count(found.number);
    }
    tally.report("comparisons, guard pages", 6_000, [0, 13, 16, 20, 21, 22, 24]);
}

/// More than 2^32 bytes needed: the place is not cut to 32 bits.
#[test]
fn feed_place_is_not_cut() {
    let folder = Folder::new("feed-long");
    let mut client = compile(&folder, "tests/client.c", &["-D_GNU_SOURCE", "-O1"], &flags());
    assert_eq!(output_of(client.arg("long"), &[]), "27 4294967316 0 0 0\n");
}

/// The header promises that a call needs less than 64 KiB of stack, a long feed to a sheet or a book less than 128:
/// measured for each topic, inside, on the boundary, on corridors, and from a second point; on the fine grid with turns that floats leave
/// to exact work, and with numbers so large that floats decide. 640 queries to 4,096 sides are enough for an index.
#[test]
fn stack() {
    let folder = Folder::new("stack");
    let mut client = compile(&folder, "tests/stack_client.c", &["-D_GNU_SOURCE", "-O1"], &flags());
    let vertices: Vec<Point> = (0..4096).map(|i| [(i % 2) * 7, 1, i + 1]).collect();
    let plain = Sheet::new([500, 1, 3], &vertices);
    let pair = plain.clone().with_second([501, 1, 3]);
    // From one vertex out and back, six times: the query there is on corridors before it is on a border side.
    let hub = [40, 3, 50];
    let spokes = plain.vertices.iter().enumerate();
    let spokes: Vec<Point> = spokes.map(|(i, &end)| if i < 12 && i % 2 == 0 { hub } else { end }).collect();
    let hubbed = Sheet::new([500, 1, 3], &spokes);
    let cases =
        [(&plain, 1, [3, 2, 1]), (&plain, 3, vertices[4095]), (&pair, 1, [-500, -1, -3]), (&hubbed, 3, hub)];
    let mut most = BTreeMap::new();
    for (grid, factor) in [(Grid::Coarse, 1), (Grid::Fine, 1), (Grid::Fine, 16_000)] {
        for ((sheet, number, query), n) in cases.iter().flat_map(|case| [(case, 639), (case, 640)]) {
            let (sheet, query) = (sheet.times(factor).on(grid).bytes(), query.map(|k| factor * k));
            let queries = points_bytes(&vec![query; n]);
            assert_eq!(reference::judge(&sheet, query).number, *number);
            let case = [&sheet, &queries, &vec![0; queries.len()]].map(|bytes| row(bytes)).concat();
            for line in output_of(&mut client, &case).lines() {
                let (needed, topic) = line.split_once(' ').expect("two words");
                let long = n == 640 && topic.ends_with("feed");
                let entry = most.entry(if long { format!("long {topic}") } else { topic.to_string() }).or_insert(0);
                *entry = needed.parse::<usize>().expect("bytes").max(*entry);
            }
        }
    }
    let topics: Vec<String> = most.iter().map(|(topic, needed)| format!("{topic} {needed}")).collect();
    println!("stack, bytes, those of starting a thread among them: {}", topics.join("; "));
    for topic in ["long feed", "long book feed"] {
        assert!(most.remove(topic).expect("topic") < 128 << 10, "the promise");
    }
    assert!(most.len() == 13 && most.values().all(|needed| *needed < 64 << 10), "the promise");
}
