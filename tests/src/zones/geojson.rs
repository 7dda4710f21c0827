//! The example on a GeoJSON text: the library's import, with a known point found or given.

use super::{as_point, position, word, MakeZone};
use crate::imports::point_on;
use crate::sheet::{Sheet, GRIDS};
use std::fs;

const SQUARE: &str =
    r#"{"type":"Polygon","coordinates":[[[23.5,37.5],[24,37.5],[24,38],[23.5,38],[23.5,37.5]]]}"#;

/// A square quay: the sheet byte by byte on each grid, and the same after white space and by the grid's name.
#[test]
fn zones_from_geojson() {
    let make_zone = MakeZone::new("zones-geojson");
    make_zone.folder.write("zone.json", SQUARE.as_bytes());
    make_zone.folder.write("spaced.json", format!("\r\n\t {SQUARE}").as_bytes());
    for grid in GRIDS {
        let degrees = |[lon, lat]: [i32; 2]| point_on(lon * 1_000_000, lat * 1_000_000, grid.number());
        let corners = [[235, 375], [240, 375], [240, 380], [235, 380]].map(degrees);
        let name = if word(grid) == "0" { "coarse" } else { "fine" };
        let known_of = |words: &[&str]| {
            let printed = make_zone.printed(words);
            let (known, vertices) = printed.trim_end().split_once('\n').expect("two lines");
            assert_eq!(vertices, "vertices 4 of 4, within 0 m");
            let known = as_point(known.strip_prefix("known point ").expect("known point"));
            let sheet = Sheet { zone: 7, name: b"Quay".to_vec(), ..Sheet::new(known, &corners).on(grid) };
            assert_eq!(fs::read(make_zone.folder.path("zone.sheet")).expect("sheet"), sheet.bytes());
            known
        };
        let found = known_of(&[word(grid), "zone.json", "7", "Quay", "zone.sheet"]);
        let [lon, lat] = position(found);
        assert!(23.5 < lon && lon < 24.0 && 37.5 < lat && lat < 38.0, "{lon} {lat}");
        assert_eq!(known_of(&[name, "spaced.json", "7", "Quay", "zone.sheet"]), found);
        // Eight decimals are rounded.
        let given = known_of(&[word(grid), "zone.json", "7", "Quay", "zone.sheet", "23.70000001", "37.75"]);
        assert_eq!(given, point_on(237_000_000, 377_500_000, grid.number()));
    }
}

#[test]
fn zones_from_geojson_refused() {
    let make_zone = MakeZone::new("zones-geojson-refused");
    make_zone.folder.write("zone.json", SQUARE.as_bytes());
    make_zone.folder.write("cut.json", &SQUARE.as_bytes()[..40]);
    let refused = |words: &[&str], why: &str| {
        let output = make_zone.run(words);
        assert_eq!(String::from_utf8_lossy(&output.stderr), format!("refused: {why}\n"));
        assert_eq!((output.status.code(), make_zone.folder.path("none").exists()), (Some(1), false));
    };
    let quay = |known: [&'static str; 2]| ["0", "zone.json", "7", "Quay", "none", known[0], known[1]];
    let past = "known point: latitude past 90 or longitude past 180 degrees (31), place 0";
    refused(&quay(["23.5", "90.0000001"]), past);
    refused(&quay(["214.8", "37.75"]), past);
    refused(&quay(["23.4", "37.75"]), "known point 23.4 37.75: outside the map");
    refused(&quay(["1e1", "37.75"]), "known point 1e1 37.75: not degrees");
    refused(&["0", "zone.json", "7", "", "none"], "zone.json: length not allowed in the sheet (22), place 0");
    let no_text = "cut.json: not one GeoJSON Polygon of the kind that is read (30), place 40";
    refused(&["0", "cut.json", "7", "Quay", "none"], no_text);
    for (place, bad) in [(0, "2"), (2, "7x"), (2, "-7"), (2, "4294967296")] {
        let mut words = ["0", "zone.json", "7", "Quay", "none"];
        words[place] = bad;
        assert_eq!(make_zone.run(&words).status.code(), Some(2), "{bad}");
    }
    assert_eq!(make_zone.run(&["0", "missing", "7", "Quay", "none"]).status.code(), Some(2));
}
