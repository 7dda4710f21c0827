//! The import as C programs get it: on guarded pages, and its stack.

use super::BASES;
use crate::client::{compile, flags, row};
use crate::host::{output_of, Folder};
use crate::imports::{circle, given, point_on, text};
use crate::reference;

/// Texts at the very ends of pages, under AddressSanitizer: good, cut at each byte, with buffers of any length.
#[test]
fn geojson_guard_pages() {
    let folder = Folder::new("import-pages");
    let sanitize = ["-D_GNU_SOURCE", "-O1", "-g", "-fsanitize=address,undefined"];
    let mut client = compile(&folder, "tests/import_client.c", &sanitize, &flags());
    let mut cases: Vec<(Vec<u8>, Vec<u8>, usize)> = vec![];
    for base in BASES.map(str::as_bytes) {
        cases.extend((0..=base.len()).map(|at| (base[..at].to_vec(), b"A".to_vec(), 90)));
        cases.extend((0..80).map(|room| (base.to_vec(), vec![b'n'; room % 3], room)));
    }
    cases.push((text(&circle(2_000)).into_bytes(), vec![b'n'; 120], 25_000));
    let case_bytes = |(text, name, room): &(Vec<u8>, Vec<u8>, usize)| {
        [row(text), row(name), row(&vec![0xc3; *room])].concat()
    };
    let printed = output_of(&mut client, &cases.iter().flat_map(case_bytes).collect::<Vec<_>>());
    assert_eq!(printed.lines().count(), cases.len());
    for (line, (text, name, room)) in printed.lines().zip(&cases) {
        let mut given = given();
        given.name = name;
        let (answer, sheet) = reference::import(text, &given, *room, point_on);
        let after: Vec<u8> = sheet.iter().copied().chain(vec![0xc3; *room]).take(*room).collect();
        let hex: String = after.iter().map(|byte| format!("{byte:02x}")).collect();
        assert_eq!(
            line,
            format!("{} {} {hex}", answer.number, answer.place),
            "{}",
            String::from_utf8_lossy(text)
        );
    }
    println!("imports, guard pages: {} texts", cases.len());
}

/// Less than the header's 64 KiB, with 4,096 vertices.
#[test]
fn geojson_stack() {
    let folder = Folder::new("import-stack");
    let mut client = compile(&folder, "tests/import_client.c", &["-D_GNU_SOURCE", "-O1"], &flags());
    let case = [row(text(&circle(4_097)).as_bytes()), row(b"A"), row(&vec![0; 49_304])].concat();
    let needed: usize = output_of(client.arg("stack"), &case).trim().parse().expect("bytes");
    println!("stack, import: {needed} bytes, those of starting a thread among them");
    // The archive keeps some room free below the promise, and the C form the promise.
    let most = if env!("SPG_FOLDER").ends_with("portable") { 65_535 } else { 60_000 };
    assert!(needed <= most, "more than the room kept free below the promise");
}
