//! The program zone_judge, on temporary folders, against the reference.

use crate::charts::fine;
use crate::host::{command, output_of, repository, run_in_pieces, Folder};
use crate::islands::{islands, queries, Extent};
use crate::random::Random;
use crate::sheet::{octant, octant_pair, points_bytes, Grid, Sheet, GRIDS};
use crate::turns::near_feed;
use crate::{reference, Point};
use std::collections::BTreeSet;
use std::fs::{self, File};
use std::process::Command;

pub const K2_K3_K5_K8: [Point; 4] = [[3, 2, 1], [1, 1, 0], [1, 1, -1], [-1, -1, -1]];

pub fn random_input(seed: u64, queries: usize) -> Vec<u8> {
    let mut random = Random::new(seed);
    points_bytes(&(0..queries).map(|_| random.point(3)).collect::<Vec<Point>>())
}

/// The program in a folder with this sheet, or with none.
pub fn zone_judge(folder: &Folder, sheet: Option<&[u8]>) -> Command {
    match sheet {
        Some(bytes) => drop(folder.write("zone.sheet", bytes)),
        None => drop(fs::remove_file(folder.path("zone.sheet"))),
    }
    let mut program = Command::new(repository("target/bin/zone_judge").canonicalize().expect("zone_judge"));
    program.current_dir(folder.path(""));
    program
}

/// Runs the program and holds it to the reference.
fn agrees(folder: &Folder, sheet: Option<&[u8]>, input: &[u8]) -> String {
    let printed = output_of(&mut zone_judge(folder, sheet), input);
    assert_eq!(printed, reference::program(sheet, input));
    printed
}

/// A sheet for each refusal, the octant with one thing wrong, also with its second point.
pub fn refused_sheets(grid: Grid) -> Vec<Vec<u8>> {
    [refused_plain_sheets(grid), vec![octant().on(grid).with_second([0, 0, 0]).bytes()]].concat()
}

/// Those without a second point.
pub fn refused_plain_sheets(grid: Grid) -> Vec<Vec<u8>> {
    let octant = octant().on(grid);
    let change = |what: fn(&mut Sheet)| {
        let mut sheet = octant.clone();
        what(&mut sheet);
        sheet.bytes()
    };
    vec![
        change(|sheet| sheet.vertices[2] = [0, 0, sheet.grid.limit() + 1]),
        change(|sheet| sheet.vertices[1] = [0, 0, 0]),
        change(|sheet| sheet.vertices[1] = [2, 0, 0]),
        change(|sheet| sheet.vertices[1] = [0, 0, -5]),
        change(|sheet| sheet.known = [i32::MIN, 0, 0]),
        change(|sheet| sheet.known = [1, 0, 1]),
        octant.bytes()[..68].to_vec(),
        octant.bytes()[7..].to_vec(),
        change(|sheet| sheet.name = vec![0x41; 121]),
        change(|sheet| sheet.charset = 4),
        [octant.bytes(), vec![0]].concat(),
    ]
}

/// The manual page says that 560 KiB of stack do: with the longest outline and a feed that builds an index too.
#[test]
fn program_in_little_stack() {
    let folder = Folder::new("little-stack");
    let islands = islands(1, 4_096, Extent::World);
    folder.write("queries", &points_bytes(&queries(2, &islands, 4_096)));
    let program = zone_judge(&folder, Some(&islands.sheet()));
    let run = |limit: &str| {
        let mut shell = command("sh", ["-c", "ulimit -s $1; exec \"$0\" < queries"]);
        shell.arg(program.get_program()).arg(limit).current_dir(folder.path(""));
        output_of(&mut shell, &[])
    };
    let printed = run("8192");
    assert_eq!(printed.lines().count(), 4_096);
    assert_eq!(run("560"), printed);
}

#[test]
fn program_octant() {
    let folder = Folder::new("octant");
    let printed = agrees(&folder, Some(&octant().bytes()), &points_bytes(&K2_K3_K5_K8));
    assert_eq!(printed, "1 0 0\n3 0 0\n2 0 1\n18 0 0\n");
}

/// The run that is stored with the program, whose places and counts have two digits: a comb of 23 teeth' sides in the
/// plane z = 1,000, on which straight lines are great circles, a query that is cut, and document 01's run beside it.
#[test]
fn program_stored() {
    let stored = |path: &str| fs::read(repository(path)).expect(path);
    let tooth = |k: i32| [10 * k, if k % 2 == 0 { 0 } else { 40 }, 1000];
    let mut comb = octant();
    (comb.zone, comb.name, comb.known) = (8, b"Comb".to_vec(), [5, -7, 1000]);
    comb.vertices = (0..24).map(tooth).chain([[240, -30, 1000], [-10, -30, 1000]]).collect();
    let input = stored("crates/zone_judge/stdin");
    assert_eq!(stored("crates/zone_judge/data/zone.sheet"), comb.bytes());
    assert_eq!(stored("crates/zone_judge/stdout"), reference::program(Some(&comb.bytes()), &input).as_bytes());
    assert_eq!(stored("sample/octant/zone.sheet"), octant().bytes());
    assert_eq!(stored("sample/octant/queries"), points_bytes(&K2_K3_K5_K8));
}

/// Queries are on their sheet's grid: charts F1 to F3; a number past the coarse grid, and one past the fine grid.
#[test]
fn program_fine() {
    let folder = Folder::new("fine");
    let printed = agrees(&folder, Some(&fine::triangle().bytes()), &points_bytes(&fine::QUERIES));
    assert_eq!(printed, "1 0 0\n2 0 1\n3 0 0\n");
    let sheet = octant().on(Grid::Fine).bytes();
    let printed = agrees(&folder, Some(&sheet), &points_bytes(&K2_K3_K5_K8));
    assert_eq!(printed, "1 0 0\n3 0 0\n2 0 1\n18 0 0\n");
    let far = points_bytes(&[[1_048_577, 1, 1], [67_108_864, 1, 1], [67_108_865, 1, 1]]);
    assert_eq!(agrees(&folder, Some(&sheet), &far), "1 0 0\n1 0 0\n17 0 0\n");
    assert_eq!(agrees(&folder, Some(&octant().bytes()), &far), "17 0 0\n".repeat(3));
    let (random, mut lines) = (&mut Random::new(45), 0);
    for _ in 0..20 {
        let (sheet, asked) = near_feed(random, 40);
        lines += agrees(&folder, Some(&sheet), &points_bytes(&asked)).lines().count();
    }
    assert!(lines > 500);
}

#[test]
fn program_refusals() {
    let folder = Folder::new("refusals");
    let queries = points_bytes(&K2_K3_K5_K8);
    let inputs = [&queries[..], &queries[..7], &[]];
    for (input, grid) in inputs.into_iter().flat_map(|input| GRIDS.map(|grid| (input, grid))) {
        assert_eq!(agrees(&folder, None, input), "20 0 0\n");
        assert_eq!(agrees(&folder, Some(&[]), input), "20 0 0\n");
        let mut numbers = BTreeSet::new();
        for sheet in refused_sheets(grid) {
            let printed = agrees(&folder, Some(&sheet), input);
            numbers.insert(printed.split(' ').next().unwrap().parse::<u32>().unwrap());
        }
        assert_eq!(numbers.into_iter().collect::<Vec<_>>(), [11, 12, 13, 14, 15, 16, 19, 20, 21, 22, 23, 24]);
    }
}

/// A query opposite the known point is judged from the second.
#[test]
fn program_second_point() {
    let folder = Folder::new("second");
    for grid in GRIDS {
        let sheet = octant_pair().on(grid).bytes();
        let printed = agrees(&folder, Some(&sheet), &points_bytes(&K2_K3_K5_K8));
        assert_eq!(printed, "1 0 0\n3 0 0\n2 0 1\n2 0 1\n");
        agrees(&folder, Some(&sheet), &random_input(44, 2_000));
    }
}

/// The longest sheets without a second point and with one, and files that are longer: the program
/// reads 49,320 bytes.
fn compare_long_files(folder: &Folder, grid: Grid) {
    let mut sheet = octant().on(grid);
    sheet.name = vec![0x41; 120];
    sheet.vertices = (0..4096).map(|i| [(i % 2) * 7, 1, i + 1]).collect();
    sheet.known = [500, 1, 3];
    let plain = sheet.bytes();
    let candidates: Vec<Point> = (1..100).map(|k| [500 + k, 1, 3]).collect();
    let chosen = reference::choose(&plain, &points_bytes(&candidates));
    assert_eq!(chosen.number, 0);
    let longest = sheet.with_second(candidates[chosen.place]).bytes();
    assert_eq!((plain.len(), longest.len()), (49_304, 49_319));
    let input = [points_bytes(&[[-500, -1, -3]]), random_input(40, 49)].concat();
    assert!(agrees(folder, Some(&plain), &input).starts_with("18 0 0\n"));
    assert!(!agrees(folder, Some(&longest), &input).contains("18 0 0\n"));
    for more in [1, 2, 1_000, 1_000_000] {
        for (whole, place) in [(&plain, 49_304), (&longest, 49_319)] {
            let long = [whole.clone(), vec![5; more]].concat();
            assert_eq!(agrees(folder, Some(&long), &input), format!("24 {place} 0\n"));
            assert_eq!(agrees(folder, Some(&long[4..]), &input), "21 0 0\n");
        }
        let sixes = |whole: &Vec<u8>| [whole.clone(), vec![6; more]].concat();
        let cut = if more < 3 { 20 } else { 22 };
        assert_eq!(agrees(folder, Some(&sixes(&plain)), &input), format!("{cut} 49304 0\n"));
        assert_eq!(agrees(folder, Some(&sixes(&longest)), &input), "24 49319 0\n");
    }
}

#[test]
fn program_long_files() {
    let folder = Folder::new("long");
    GRIDS.into_iter().for_each(|grid| compare_long_files(&folder, grid));
}

#[test]
fn program_cut_queries() {
    let folder = Folder::new("cut");
    let sheet = octant().bytes();
    assert_eq!(agrees(&folder, Some(&sheet), &[]), "");
    for whole in [0, 1, 5, 2_000] {
        let input = random_input(41, whole + 1);
        for over in 1..12 {
            let printed = agrees(&folder, Some(&sheet), &input[..12 * whole + over]);
            assert!(printed.ends_with(&format!("20 {whole} 0\n")));
        }
    }
}

/// 100,000 queries from a pipe and from a file, to a pipe and to a file, and handed over in pieces
/// that cut queries.
#[test]
fn program_many_queries() {
    let folder = Folder::new("many");
    let sheet = octant().bytes();
    let input = random_input(42, 100_000);
    let expected = reference::program(Some(&sheet), &input);
    assert_eq!(agrees(&folder, Some(&sheet), &input), expected);
    for piece in [7, 4_095, 4_097] {
        let output = run_in_pieces(&mut zone_judge(&folder, Some(&sheet)), &input, piece);
        assert!(output.stdout == expected.as_bytes(), "in pieces of {piece}");
    }
    let queries = folder.write("queries", &input);
    let status = zone_judge(&folder, Some(&sheet))
        .stdin(File::open(queries).expect("queries"))
        .stdout(File::create(folder.path("answers")).expect("answers"))
        .status();
    assert!(status.expect("status").success());
    assert!(fs::read_to_string(folder.path("answers")).expect("answers") == expected, "to a file");
    println!("program: {} lines compared", 5 * expected.lines().count());
}

/// The program's output may be read slowly, or not to its end.
#[test]
fn program_in_a_pipeline() {
    let folder = Folder::new("pipeline");
    let sheet = octant().bytes();
    let input = random_input(43, 100_000);
    let expected = reference::program(Some(&sheet), &input);
    let queries = folder.write("queries", &input);
    let program = format!("{:?} < {queries:?}", zone_judge(&folder, Some(&sheet)).get_program());
    let shell = |then: &str| {
        let mut shell = command("sh", ["-c", &format!("{program} | {then}")]);
        output_of(shell.current_dir(folder.path("")), &[])
    };
    assert!(shell("(sleep 1; cat)") == expected);
    assert_eq!(shell("head -n 3").lines().collect::<Vec<_>>(), expected.lines().take(3).collect::<Vec<_>>());
}
