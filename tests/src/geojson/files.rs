//! Three small files as other tools write them, and what is refused of each: this reads one Polygon and nothing more,
//! so that a file with more in it is not half read.

use super::compare;
use crate::imports::given;

/// Where the text begins with `front` and no further.
fn refused_after(text: &str, front: &str) {
    assert!(text.starts_with(front));
    let answer = compare(text.as_bytes(), &given(), 500);
    assert_eq!((answer.number, answer.place), (30, front.len()));
}

/// As a database writes a geometry: no space, up to seven decimals. It is imported.
#[test]
fn geojson_file_database() {
    let text = r#"{"type":"Polygon","coordinates":[[[23.6206135,37.9420215],[23.6401482,37.9420215],[23.6401482,37.9556981],[23.6206135,37.9556981],[23.6206135,37.9420215]]]}"#;
    assert_eq!(compare(text.as_bytes(), &given(), 500).number, 0);
    // With a coordinate reference system between the two members, as some write it: the key is not one of the two.
    let front = r#"{"type":"Polygon",""#;
    let crs = r#"crs":{"type":"name","properties":{"name":"EPSG:4326"}},"coordinates":[]}"#;
    assert_eq!(compare((front.to_string() + crs).as_bytes(), &given(), 500).place, front.len() + 1);
    // Fifteen decimals, as a double is printed in full: the eighth is refused.
    refused_after(
        r#"{"type":"Polygon","coordinates":[[[23.620613499999999,37.9420215]]]}"#,
        r#"{"type":"Polygon","coordinates":[[[23.6206134"#,
    );
}

/// As a map in the browser exports it: a FeatureCollection, indented. Its type is not Polygon.
#[test]
fn geojson_file_collection() {
    let text = "{\n  \"type\": \"FeatureCollection\",\n  \"features\": [\n    {\n      \"type\": \"Feature\",\n      \
                \"properties\": {},\n      \"geometry\": {\n        \"coordinates\": [[[23.6, 37.9], [23.7, 37.9], \
                [23.7, 38], [23.6, 37.9]]],\n        \"type\": \"Polygon\"\n      }\n    }\n  ]\n}\n";
    refused_after(text, "{\n  \"type\": \"");
    // The geometry alone, cut out of it, is imported: members in either order, any white space.
    let start = text.find("{\n        \"coordinates\"").expect("geometry");
    let end = text.find("      }\n    }").expect("end");
    assert_eq!(compare(text[start..end + 7].as_bytes(), &given(), 500).number, 0);
}

/// As a desktop GIS writes a layer: heights, holes, long sides. Each is refused.
#[test]
fn geojson_file_layer() {
    let start = r#"{ "type": "Polygon", "coordinates": [ [ [ 23.6, 37.9"#;
    // A third number, the height.
    refused_after(&format!("{start}, 0.0 ] ] ] }}"), start);
    // A second ring, a hole: holes are drawn with corridors.
    let ring = "[ [ 23.6, 37.9 ], [ 23.7, 37.9 ], [ 23.7, 38.0 ], [ 23.6, 37.9 ] ]";
    let front = format!(r#"{{ "type": "Polygon", "coordinates": [ {ring}"#);
    refused_after(&format!("{front}, {ring} ] }}"), &front);
    // A side of two degrees: a straight line in degrees is no arc. The earlier end is named.
    let long = r#"{ "type": "Polygon", "coordinates": [ [ [ 23.6, 37.9 ], [ 24.1, 37.9 ], [ 26.1, 38.0 ], [ 23.6, 37.9 ] ] ] }"#;
    let answer = compare(long.as_bytes(), &given(), 500);
    assert_eq!((answer.number, answer.place), (33, 1));
    // Metres, as a projected layer has them, are out of range.
    let metres = r#"{ "type": "Polygon", "coordinates": [ [ [ 2628000.5, 4565000.25 ], [ 2628000.5, 4565000.25 ] ] ] }"#;
    assert_eq!(compare(metres.as_bytes(), &given(), 500).number, 31);
}
