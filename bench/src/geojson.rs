//! An import, from the text of a ring of 1,071 positions to its sheet.

use crate::clock::seconds;
use crate::table::{counted_row, heading, line, row, thousands};
use crate::{instructions, plain_c};
use spargolutta_tests::host::{command, Folder};
use spargolutta_tests::imports::{circle, given, import_number, text, Given};
use std::fs;
use std::path::Path;

const ROUNDS: usize = 200;
const POSITIONS: usize = 1_071;

type Import = fn(&[u8], &Given, &mut [u8]) -> u32;

/// Ours first.
const CONTESTANTS: [(&str, Import); 2] =
    [("ours", import_number), ("C", |text, given, sheet| plain_c::import(text, given, sheet).0)];

/// Callgrind collects while this runs.
#[no_mangle]
#[inline(never)]
fn counted_import(import: Import, text: &[u8], sheet: &mut [u8]) -> u32 {
    import(text, &given(), sheet)
}

/// One import of the folder's text.
pub fn import_once(folder: &Path, contestant: &str) {
    let text = fs::read(folder.join("text")).expect("file");
    let (_, import) = CONTESTANTS.into_iter().find(|(name, _)| *name == contestant).expect("contestant");
    assert_eq!(counted_import(import, &text, &mut room()), 0);
}

/// The sheet's length: the last position is dropped.
fn room() -> Vec<u8> {
    vec![0; 33 + 12 * (POSITIONS - 1)]
}

/// Microseconds an import for each contestant, and the sheets.
fn measure(text: &[u8]) -> (Vec<f64>, Vec<Vec<u8>>) {
    let mut least = vec![f64::INFINITY; CONTESTANTS.len()];
    let mut sheets = vec![room(); CONTESTANTS.len()];
    for _ in 0..ROUNDS {
        for (k, (_, import)) in CONTESTANTS.iter().enumerate() {
            let time = seconds(|| assert_eq!(import(text, &given(), &mut sheets[k]), 0));
            least[k] = least[k].min(1e6 * time);
        }
    }
    (least, sheets)
}

/// How many numbers of the vertices differ, at most by one: floats round some the other way.
fn differing(ours: &[u8], theirs: &[u8]) -> usize {
    assert!(ours.len() == theirs.len() && ours[..33] == theirs[..33]);
    let word = |bytes: &[u8]| i32::from_be_bytes(bytes.try_into().expect("four bytes"));
    let words = ours[33..].chunks(4).zip(theirs[33..].chunks(4));
    let apart = |(a, b): (&[u8], &[u8])| word(a).abs_diff(word(b));
    words.map(apart).inspect(|&apart| assert!(apart <= 1)).filter(|&apart| apart == 1).count()
}

/// Microseconds an import by Python's json module, and its sheet; none if there is no Python.
fn python(folder: &Folder) -> Option<(f64, Vec<u8>)> {
    let script = concat!(env!("CARGO_MANIFEST_DIR"), "/src/geojson.py");
    let mut python = command("python3", [script]);
    let output = python.args(["text", "sheet"].map(|name| folder.path(name))).output().ok()?;
    assert!(output.status.success(), "{}", String::from_utf8_lossy(&output.stderr));
    let time = String::from_utf8_lossy(&output.stdout).trim().parse().expect("microseconds");
    Some((time, fs::read(folder.path("sheet")).expect("sheet")))
}

pub fn compare() {
    let text = text(&circle(POSITIONS)).into_bytes();
    let folder = Folder::new("import");
    folder.write("text", &text);
    let (mut times, sheets) = measure(&text);
    let sizes = [POSITIONS, text.len()].map(thousands);
    let title = format!("Import of {} positions, {} bytes: µs, least of {ROUNDS} rounds", sizes[0], sizes[1]);
    heading(&title, &["ours", "C", "Python's json"]);
    let by_python = python(&folder);
    times.extend(by_python.iter().map(|(time, _)| time));
    row("time", &times);
    let others = sheets[1..].iter().chain(by_python.iter().map(|(_, sheet)| sheet));
    let apart = others.map(|sheet| differing(&sheets[0], sheet).to_string());
    let name = format!("of {} numbers one apart", thousands(3 * (POSITIONS - 1)));
    line(&name, [String::new()].into_iter().chain(apart));
    let count =
        |(name, _): &(&str, Import)| instructions::count(&folder, "counted_import", &["import", name]);
    let counts: Option<Vec<f64>> = CONTESTANTS.iter().map(count).collect();
    counted_row("millions of instructions", counts.as_deref());
}
