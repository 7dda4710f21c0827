//! The library as one C file: built with a C compiler alone, and the plain C program beside the proved one.

use crate::host::{command, output_of, repository, run_in_pieces, Folder};
use crate::sheet::point_bytes;
use std::fs;
use std::process::{Command, Output};

const SOURCE: &str = "portable/spargolutta.c";

fn copied(folder: &Folder, name: &str) -> String {
    let bytes = fs::read(repository(name)).unwrap_or_else(|error| panic!("{name}: {error}"));
    folder.write(name.rsplit('/').next().expect("name"), &bytes).display().to_string()
}

/// On a machine without the Rattle toolchain, header, C file and a client of twenty lines give the octant's lines.
#[test]
fn portable_octant() {
    let folder = Folder::new("portable");
    let source = copied(&folder, SOURCE);
    let client = copied(&folder, "tests/octant.c");
    copied(&folder, "include/spargolutta.h");
    assert!(fs::read_to_string(&client).expect("client").lines().count() <= 20);
    let [object, program] = ["spargolutta.o", "octant"].map(|name| folder.path(name).display().to_string());
    let alone = |words: &[&str]| {
        let mut cc = command("cc", words);
        output_of(cc.env_clear().env("PATH", "/usr/bin:/bin"), &[]);
    };
    alone(&["-O2", "-c", &source, "-o", &object]);
    alone(&[&client, &object, "-o", &program]);
    let sheet = fs::read(repository("sample/octant/zone.sheet")).expect("sheet");
    let lines = "1 0 0\n3 0 0\n2 0 1\n18 0 0\n";
    assert_eq!(output_of(&mut Command::new(program), &sheet), lines);
}

/// Where floats are not IEEE's, it does not compile.
#[test]
fn portable_floats() {
    for (flag, says) in [("-ffast-math", "-ffast-math"), ("-mfpmath=387", "excess precision")] {
        if flag == "-mfpmath=387" && !cfg!(target_arch = "x86_64") {
            continue;
        }
        let mut cc = command("gcc", ["-fsyntax-only", flag]);
        cc.arg(format!("-I{}", repository("include").display())).arg(repository(SOURCE));
        let Ok(output) = cc.output() else { return println!("portable: no gcc here") };
        let text = String::from_utf8_lossy(&output.stderr).into_owned();
        assert!(!output.status.success() && text.contains("#error") && text.contains(says), "{flag}: {text}");
    }
}

fn plain_program(folder: &Folder) -> Command {
    let program = folder.path("zone_judge");
    let mut cc = command("cc", ["-std=c99", "-O2", "-Wall", "-Wextra", "-Werror", "-pedantic"]);
    cc.arg(format!("-I{}", repository("include").display())).arg(repository("portable/zone_judge.c"));
    output_of(cc.arg(repository(SOURCE)).arg("-o").arg(&program), &[]);
    Command::new(program)
}

/// Both programs in a folder with this sheet, or with none: the same bytes come out.
fn same_output(plain: &mut Command, name: &str, sheet: Option<&[u8]>, input: &[u8]) -> Output {
    let folder = Folder::new(name);
    if let Some(bytes) = sheet {
        folder.write("zone.sheet", bytes);
    }
    let mut proved = Command::new(repository("target/bin/zone_judge").canonicalize().expect("zone_judge"));
    let [ours, theirs] = [plain, &mut proved].map(|program| {
        program.current_dir(folder.path(""));
        run_in_pieces(program, input, 65_536)
    });
    assert_eq!(ours.stdout, theirs.stdout, "{name}");
    assert_eq!(
        (ours.stderr.is_empty(), ours.status.code()),
        (theirs.stderr.is_empty(), theirs.status.code()),
        "{name}"
    );
    ours
}

/// The stored run, no queries, many of them, a cut one, a sheet that is refused, and none.
#[test]
fn portable_program() {
    let folder = Folder::new("portable-program");
    let plain = &mut plain_program(&folder);
    let sheet = fs::read(repository("crates/zone_judge/data/zone.sheet")).expect("sheet");
    let queries = fs::read(repository("crates/zone_judge/stdin")).expect("queries");
    let stored = same_output(plain, "stored", Some(&sheet), &queries);
    assert_eq!(stored.stdout, fs::read(repository("crates/zone_judge/stdout")).expect("lines"));
    same_output(plain, "none", Some(&sheet), &[]);
    let many: Vec<u8> = (0..9_001).flat_map(|i| point_bytes([i % 7 - 3, i % 5 - 2, i % 11 - 5])).collect();
    same_output(plain, "many", Some(&sheet), &many);
    same_output(plain, "cut", Some(&sheet), &many[..12 * 4_096 + 7]);
    same_output(plain, "short", Some(&sheet[..40]), &queries);
    same_output(plain, "missing", None, &queries);
    same_output(plain, "long", Some(&[1; 60_000]), &queries);
}
