//! The example that makes a zone from a closed ring in degrees: rings of known shapes become sheets, and stops whose
//! place is known from the shape, not from the ring's sides, are judged by them.

mod geojson;
mod shapes;

use crate::client::{compile, flags};
use crate::host::{command, output_of, repository, run_in_pieces, Folder};
use crate::imports::point_on;
use crate::sheet::{Grid, Sheet, GRIDS};
use crate::{library, Point};
use shapes::{crescent, harbour, long_coast, star, Position};
use std::fs;
use std::os::unix::fs::{symlink, PermissionsExt};
use std::process::{Command, Output};

struct MakeZone {
    program: Command,
    folder: Folder,
}

/// The text of a ring, closed, or of stops.
fn lines(positions: &[Position]) -> String {
    positions.iter().map(|[lon, lat]| format!("{lon:.7} {lat:.7}\n")).collect()
}

fn closed(ring: &[Position]) -> String {
    lines(&[ring, &ring[..1]].concat())
}

fn numbers(line: &str) -> Vec<i32> {
    line.split_whitespace().filter_map(|word| word.parse().ok()).collect()
}

fn as_point(line: &str) -> Point {
    numbers(line).try_into().unwrap_or_else(|_| panic!("no point: {line}"))
}

impl MakeZone {
    fn new(folder: &str) -> MakeZone {
        let folder = Folder::new(folder);
        let flags = [flags(), vec!["-lm".to_string()]].concat();
        MakeZone { program: compile(&folder, "examples/make_zone.c", &["-O1"], &flags), folder }
    }

    fn run(&self, words: &[&str]) -> Output {
        let mut run = command(self.program.get_program(), words);
        run_in_pieces(run.current_dir(self.folder.path("")), &[], 1)
    }

    fn printed(&self, words: &[&str]) -> String {
        let output = self.run(words);
        assert_eq!(String::from_utf8_lossy(&output.stderr), "");
        assert_eq!(output.status.code(), Some(0));
        String::from_utf8(output.stdout).expect("text")
    }

    /// Makes the zone of a ring's text: the sheet's bytes, its known point, the vertices that it has.
    fn make(&self, grid: Grid, text: &str) -> (Vec<u8>, Point, usize) {
        self.folder.write("ring", text.as_bytes());
        let printed = self.printed(&[word(grid), "ring", "7", "Πειραιάς", "zone.sheet"]);
        let (known, vertices) = printed.trim_end().split_once('\n').expect("two lines");
        let known = as_point(known.strip_prefix("known point ").expect("known point"));
        (fs::read(self.folder.path("zone.sheet")).expect("sheet"), known, numbers(vertices)[0] as usize)
    }

    fn stops(&self, grid: Grid, stops: &[Position]) -> Vec<Point> {
        self.folder.write("stops", lines(stops).as_bytes());
        self.printed(&[word(grid), "stops"]).lines().map(as_point).collect()
    }

    fn refused(&self, text: &str, why: &str) {
        self.folder.write("ring", text.as_bytes());
        let output = self.run(&["0", "ring", "7", "A", "none"]);
        assert_eq!(String::from_utf8_lossy(&output.stderr), format!("refused: {why}\n"));
        assert_eq!((output.status.code(), self.folder.path("none").exists()), (Some(1), false));
    }
}

fn word(grid: Grid) -> &'static str {
    match grid {
        Grid::Coarse => "0",
        Grid::Fine => "1",
    }
}

fn position([x, y, z]: Point) -> Position {
    let [x, y, z] = [x, y, z].map(f64::from);
    [y.atan2(x).to_degrees(), z.atan2(x.hypot(y)).to_degrees()]
}

#[test]
fn zones_from_rings() {
    let (make_zone, mut judged) = (MakeZone::new("zones"), 0);
    for shape in [harbour(), star(), crescent(), long_coast()] {
        for grid in GRIDS {
            let (sheet, known, vertices) = make_zone.make(grid, &closed(&shape.ring));
            assert!((shape.holds)(position(known)), "{}: known point outside", shape.name);
            assert!(vertices == shape.ring.len() || (1_000..=4_096).contains(&vertices));
            let (mut found, stops) = ([0, 0], shape.clear_stops());
            for (stop, query) in stops.iter().zip(make_zone.stops(grid, &stops)) {
                let inside = (shape.holds)(*stop);
                let number = library::number(&sheet, query);
                assert_eq!(number, if inside { 1 } else { 2 }, "{} {stop:?}", shape.name);
                found[usize::from(inside)] += 1;
            }
            assert!(found[0] >= 15 && found[1] >= 15, "{} {found:?}", shape.name);
            judged += stops.len();
        }
    }
    println!("zones: {judged} stops judged");
}

/// The sheet byte by byte; and the same one where vertices are repeated, or so near that they are one on the grid.
#[test]
fn zones_repeated_vertices() {
    let (make_zone, ring) = (MakeZone::new("repeated"), harbour().ring);
    for grid in GRIDS {
        let (sheet, known, _) = make_zone.make(grid, &closed(&ring));
        let placed = |[lon, lat]: Position| {
            point_on((lon * 1e7).round() as i32, (lat * 1e7).round() as i32, grid.number())
        };
        let vertices: Vec<Point> = ring.iter().map(|&p| placed(p)).collect();
        let name = "Πειραιάς".as_bytes().to_vec();
        assert_eq!(sheet, Sheet { zone: 7, name, ..Sheet::new(known, &vertices).on(grid) }.bytes());
        assert_eq!(make_zone.stops(grid, &ring), vertices);
        let twice: Vec<Position> = ring.iter().flat_map(|&p| [p, p]).collect();
        assert_eq!(make_zone.make(grid, &closed(&twice)).0, sheet);
        // The closing position stands there twice.
        assert_eq!(make_zone.make(grid, &(closed(&ring) + &lines(&ring[..1]))).0, sheet);
        let near =
            ring.iter().flat_map(|&[lon, lat]| [[lon, lat], [lon + 1e-7, lat - 1e-7]]).collect::<Vec<_>>();
        let same = make_zone.make(grid, &closed(&near)).2 == ring.len();
        assert!(same || grid == Grid::Fine);
    }
}

#[test]
fn zones_refused() {
    let (make_zone, ring) = (MakeZone::new("zones-refused"), harbour().ring);
    let open = "ring: ring not closed or under four positions (32)";
    make_zone.refused(&lines(&ring), open);
    make_zone.refused(&closed(&ring[..2]), open);
    make_zone.refused("", open);
    let far = "line 2: '-565 10': latitude past 90 or longitude past 180 degrees";
    make_zone.refused("1 2\n-565 10\n1 2\n", far);
    make_zone.refused("1 2\n1,5 2\n1 2\n", "line 2: '1,5 2': not 'longitude latitude'");
    let one = [ring[0]; 4];
    make_zone.refused(&lines(&one), "ring: list of a length not allowed (10)");
    let equator: Vec<Position> = (0..36).map(|k| [f64::from(10 * k - 180), 0.0]).collect();
    make_zone.refused(&closed(&equator), "ring: reaches a quarter of the globe: find a known point by hand");
}

/// The page's commands, as they stand there, and what it says that they print.
#[test]
fn zones_page() {
    let folder = Folder::new("zones-page");
    symlink(repository("examples").canonicalize().expect("examples"), folder.path("examples")).expect("link");
    let page = fs::read_to_string(repository("docs/ZONES.md")).expect("page");
    let shown: Vec<&str> = page.lines().filter_map(|line| line.strip_prefix("    ")).collect();
    let commands =
        1 + shown.iter().position(|line| line.starts_with("./importer")).expect("the last command");
    let found = folder.write("pkg-config", format!("#!/bin/sh\necho '{}'\n", flags().join(" ")).as_bytes());
    fs::set_permissions(found, fs::Permissions::from_mode(0o755)).expect("mode");
    let script = format!("set -e\nPATH=$PWD:$PATH\n{}", shown[..commands].join("\n"));
    let printed = output_of(command("sh", ["-c", &script]).current_dir(folder.path("")), &[]);
    let lines: Vec<&str> = printed.lines().collect();
    assert!(lines[0].starts_with("known point "));
    assert_eq!(lines[1], "vertices 6 of 6, within 0 m");
    assert_eq!((&lines[2..], shown.len() - commands), (&shown[commands..], 3));
}
