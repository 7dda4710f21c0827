//! Compiles the C contestants: an archive with the calls, and the program.

use std::process::Command;
use std::{env, fs};

/// The archive's objects; what goes by the grid is compiled for each.
const OBJECTS: [(&str, &str, &[&str]); 9] = [
    ("calls.o", "src/calls.c", &[]),
    ("coarse_outline.o", "src/outline.c", &[]),
    ("coarse_judge.o", "src/judge.c", &[]),
    ("geojson.o", "src/geojson.c", &[]),
    ("positions.o", "src/positions.c", &[]),
    ("fine_outline.o", "src/outline.c", &["-DFINE"]),
    ("fine_judge.o", "src/judge.c", &["-DFINE"]),
    ("coarse_basin.o", "src/basin.c", &[]),
    ("fine_basin.o", "src/basin.c", &["-DFINE"]),
];

fn run(program: &str, words: &[&str]) {
    let status = Command::new(program).args(words).status();
    assert!(status.expect(program).success(), "{program} {words:?}");
}

fn cc(words: &[&str]) {
    run("cc", &[&["-std=c11", "-O3", "-Wall", "-Wextra"], words].concat());
}

fn main() {
    let out = env::var("OUT_DIR").expect("OUT_DIR");
    let [archive, program] = ["libjudge.a", "zone_judge"].map(|name| format!("{out}/{name}"));
    // An archive that is there would keep its other objects.
    let _ = fs::remove_file(&archive);
    for (name, source, words) in OBJECTS {
        let object = format!("{out}/{name}");
        cc(&[words, &["-c", source, "-o", &object]].concat());
        run("ar", &["rcs", &archive, &object]);
    }
    cc(&["src/zone_judge.c", &archive, "-o", &program]);
    println!("cargo:rustc-link-search=native={out}");
    println!("cargo:rustc-link-lib=static=judge");
    println!("cargo:rustc-link-lib=m");
    println!("cargo:rerun-if-changed=src");
}
