//! The example importer: stops judged, refused, and judged again from a second known point.

use crate::charts::fine;
use crate::example::Example;
use crate::sheet::{octant, octant_pair, Grid, Sheet, GRIDS};
use std::fs;

struct Importer(Example);

impl Importer {
    fn new(folder: &str) -> Importer {
        Importer(Example::new(folder, "examples/importer.c"))
    }

    fn stops(&self, stops: &str) {
        self.0.folder.write("stops", stops.as_bytes());
    }

    /// Runs it on the sheet and the stops: its exit status and what it has to print.
    fn import(&self, sheet: &[u8], status: i32, stdout: &str, stderr: &str) {
        self.0.folder.write("harbour", sheet);
        self.0.run(&["harbour", "stops"], status, stdout, stderr);
    }
}

/// The expected texts follow document 01's K2, K3, K4, K5, K8 and its line 17. With a second known point
/// the far side is judged.
#[test]
fn importer_stops() {
    let importer = Importer::new("importer-stops");
    let stops = "3 2 1 Lighthouse\n1 1 0 Old pier\n1 0 0 Quay\n1 1 -1 Open sea\n-1 -1 -1 Far side\n\
                 1048577 0 0 Off the map\n0 0 0 Centre\n12 13\n1 1 99999999999 Too far\n2 2 2 Market\n";
    let belong = "Lighthouse: inside\nOld pier: boundary, side 0\nQuay: boundary, side 0\nMarket: inside\n";
    let refused = "refused: Far side: query opposite the known point (18)\n\
                   refused: Off the map: query beyond the grid or all zero (17)\n\
                   refused: Centre: query beyond the grid or all zero (17)\n\
                   refused: '12 13' is not 'x y z name'\n\
                   refused: '1 1 99999999999 Too far' is not 'x y z name'\n";
    importer.stops(stops);
    importer.import(&octant().bytes(), 1, belong, refused);
    let (_, but_far_side) = refused.split_once('\n').expect("lines");
    importer.import(&octant_pair().bytes(), 1, belong, but_far_side);
    importer.stops("3 2 1 Lighthouse\r\n1 1 -1 Open sea");
    importer.import(&octant().bytes(), 0, "Lighthouse: inside\n", "");
    importer.0.run(&["harbour", "missing"], 2, "", "missing: No such file or directory\n");
}

/// A line of over 1,023 bytes is refused whole: its tail makes no stop. One that just fits is judged.
#[test]
fn importer_long_lines() {
    let importer = Importer::new("importer-long");
    let name = |length: usize| "n".repeat(length - "3 2 1 ".len());
    let ghost = format!("3 2 1 {} 3 2 1 ghost", name(1_023));
    let stops = format!("{ghost}\n3 2 1 {}\r\n3 2 1 {}\n{ghost}", name(1_022), name(1_023));
    importer.stops(&stops);
    let told = format!("refused: a line of over 1023 bytes: '{}'\n", &ghost[..40]);
    let belong = format!("{}: inside\n{}: inside\n", name(1_022), name(1_023));
    importer.import(&octant().bytes(), 1, &belong, &told.repeat(2));
}

/// Charts F1 to F3 as stops, and numbers at the fine grid's limit and past it.
#[test]
fn importer_fine_grid() {
    let importer = Importer::new("importer-fine");
    let stops: String =
        (1..).zip(fine::QUERIES).map(|(k, [x, y, z])| format!("{x} {y} {z} Berth {k}\n")).collect();
    importer.stops(&stops);
    let belong = "Berth 1: inside\nBerth 3: boundary, side 0\n";
    importer.import(&fine::triangle().bytes(), 0, belong, "");
    importer.stops("67108864 1 2 Pier\n67108865 1 2 Off the map\n");
    let refused = |name: &str| format!("refused: {name}: query beyond the grid or all zero (17)\n");
    let fine = octant().on(Grid::Fine).bytes();
    importer.import(&fine, 1, "Pier: inside\n", &refused("Off the map"));
    importer.import(&octant().bytes(), 1, "", &(refused("Pier") + &refused("Off the map")));
}

/// Sheets with document 01's lines 20, 22 and 24 and document 02's 19.
#[test]
fn importer_refused_sheets() {
    let importer = Importer::new("importer-refused");
    importer.stops("3 2 1 Lighthouse\n1 1 -1 Open sea\n");
    let refused = |sheet: &[u8], why: &str| {
        importer.import(sheet, 1, "", &format!("refused: harbour: {why}\n"));
    };
    refused(&[], "sheet cut short (20), byte 0");
    let two = Sheet::new([1, 1, 1], &[[1, 0, 0], [0, 1, 0]]).bytes();
    refused(&two, "length not allowed in the sheet (22), byte 30");
    let long = [octant().bytes(), vec![0; 60_000]].concat();
    refused(&long, "bytes after the last field (24), byte 69");
    let fails = octant().with_second([2, 2, 2]).bytes();
    refused(&fails, "no second known point that passes (19)");
}

/// No feed, a full one, and more than one.
#[test]
fn importer_feeds() {
    let importer = Importer::new("importer-feeds");
    for n in [0, 4_096, 9_000] {
        let lines = |start: &str, end: &str| (0..n).map(|k| format!("{start}Stop {k}{end}\n")).collect();
        let (stops, belong): (String, String) = (lines("3 2 1 ", ""), lines("", ": inside"));
        importer.stops(&stops);
        importer.import(&octant().bytes(), 0, &belong, "");
        importer.import(&[], 1, "", "refused: harbour: sheet cut short (20), byte 0\n");
    }
}

/// The far side is opposite the known point. The Lighthouse, K2's query, is inside and not of the Market's direction,
/// the known point's: so it is the first that passes. Judged from it, the far side is outside; the sheet that is stored
/// has it as tag 6.
#[test]
fn importer_second_point() {
    let importer = Importer::new("importer-second");
    let words = ["harbour", "stops", "store"];
    let stops = "-1 -1 -1 Far side\n2 2 2 Market\n3 2 1 Lighthouse\n1 2 3 Tower\n-2 -2 -2 Farther\n";
    let belong = "Market: inside\nLighthouse: inside\nTower: inside\n";
    importer.stops(stops);
    for grid in GRIDS {
        importer.0.folder.write("harbour", &octant().on(grid).bytes());
        importer.0.run(&words, 0, belong, "");
        let stored = fs::read(importer.0.folder.path("store")).expect("stored");
        assert_eq!(stored, octant().on(grid).with_second([3, 2, 1]).bytes());
        importer.import(&stored, 0, belong, "");
    }
    let missing = ["harbour", "stops", "missing/store"];
    importer.0.folder.write("harbour", &octant().bytes());
    importer.0.run(&missing, 2, "", "missing/store: No such file or directory\n");
    // None that passes, none stored.
    fs::remove_file(importer.0.folder.path("store")).expect("stored");
    importer.stops("-1 -1 -1 Far side\n1 1 -1 Open sea\n2 2 2 Market\n");
    let refused = "refused: Far side: query opposite the known point (18)\n";
    importer.0.run(&words, 1, "Market: inside\n", refused);
    assert!(!importer.0.folder.path("store").exists());
}
