//! Clients of what is installed: a C program by pkg-config and by CMake, the program, and what the libraries export.

use super::{scratch, version};
use crate::host::{command, output_of, repository, Folder};
use crate::sheet::{octant, points_bytes};
use std::collections::BTreeSet;
use std::fs;
use std::path::{Path, PathBuf};
use std::process::Command;

/// A client that judges K2 by the octant's sheet: document 01 says 1, inside.
fn client(folder: &Folder) -> PathBuf {
    let bytes: Vec<String> = octant().bytes().iter().map(u8::to_string).collect();
    let source = format!(
        "#include <spargolutta.h>\n#include <stdio.h>\nstatic const uint8_t sheet[] = {{{}}};\n\
         int main(void) {{ puts(spg_meaning(spg_judge_number(sheet, sizeof sheet, 3, 2, 1))); }}\n",
        bytes.join(",")
    );
    folder.write("client.c", source.as_bytes())
}

/// What the program needs of other libraries, by `readelf -d`.
fn needed(program: &Path) -> String {
    let printed = output_of(command("readelf", ["-d"]).arg(program), &[]);
    printed.lines().filter(|line| line.contains("(NEEDED)")).collect()
}

/// The installed program, and a client by pkg-config: with the shared library, and with the archive.
#[test]
fn install_by_pkg_config() {
    let scratch = scratch("install-pkg-config");
    let (prefix, source) = (scratch.path("prefix"), client(&scratch.0));
    output_of(&mut scratch.make(["install", &format!("PREFIX={prefix}"), "DESTDIR="]), &[]);
    scratch.0.write("zone.sheet", &octant().bytes());
    let mut program = Command::new(format!("{prefix}/bin/zone_judge"));
    let printed = output_of(program.current_dir(scratch.0.path("")), &points_bytes(&[[3, 2, 1], [1, 1, -1]]));
    assert_eq!(printed, "1 0 0\n2 0 1\n");
    if Command::new("pkg-config").arg("--version").output().is_err() {
        return println!("install: no pkg-config here");
    }
    let folder = format!("{prefix}/lib/pkgconfig");
    let say = |words: &[&str]| {
        let mut pkg_config = command("pkg-config", words);
        let printed = output_of(pkg_config.arg("spargolutta").env("PKG_CONFIG_PATH", &folder), &[]);
        printed.split_whitespace().map(str::to_string).collect::<Vec<_>>()
    };
    assert_eq!(say(&["--modversion"]), [version().1]);
    let archive = [say(&["--cflags"]), say(&["--variable=archive"])].concat();
    for (flags, is_shared) in [(say(&["--cflags", "--libs"]), true), (archive, false)] {
        let program = scratch.0.path("client");
        output_of(command("cc", ["-o"]).arg(&program).arg(&source).args(flags), &[]);
        let soname = format!("[libspargolutta.so.{}]", version().0);
        assert_eq!(needed(&program).contains(&soname), is_shared);
        assert_eq!(output_of(&mut Command::new(&program), &[]), "inside\n");
    }
}

/// A client by CMake, with both targets, from a stage.
#[test]
fn install_by_cmake() {
    if Command::new("cmake").arg("--version").output().is_err() {
        return println!("install: no cmake here");
    }
    let scratch = scratch("install-cmake");
    client(&scratch.0);
    let lists = format!(
        "cmake_minimum_required(VERSION 3.10)\nproject(client C)\nfind_package(spargolutta {} REQUIRED)\n\
         foreach(kind spargolutta static)\nadd_executable(by_${{kind}} client.c)\n\
         target_link_libraries(by_${{kind}} spargolutta::${{kind}})\nendforeach()\n",
        version().1
    );
    scratch.0.write("CMakeLists.txt", lists.as_bytes());
    let stage = scratch.path("a stage");
    let to_stage = format!("DESTDIR={stage}");
    output_of(&mut scratch.make(["install", "PREFIX=/opt/spg", "LIBDIR=/opt/lib", &to_stage]), &[]);
    let build = scratch.path("build");
    let found = format!("-Dspargolutta_DIR={stage}/opt/lib/cmake/spargolutta");
    let source = scratch.path("");
    output_of(&mut command("cmake", ["-S", &source, "-B", &build, &found]), &[]);
    output_of(&mut command("cmake", ["--build", &build]), &[]);
    for (name, is_shared) in [("by_spargolutta", true), ("by_static", false)] {
        let program = scratch.0.path("build").join(name);
        assert_eq!(needed(&program).contains("libspargolutta"), is_shared);
        assert_eq!(output_of(&mut Command::new(program), &[]), "inside\n");
    }
}

/// The names that nm prints.
fn names<const N: usize>(words: [&str; N], file: &str) -> BTreeSet<String> {
    let printed = output_of(command("nm", words).arg(repository(file)), &[]);
    let name = |line: &str| line.split(" T ").nth(1).map(str::to_string);
    printed.lines().filter_map(name).collect()
}

/// The shared library exports the archive's calls and nothing else; the manual page names each.
#[test]
fn install_exports() {
    let shared = "target/sharedlib/libspargolutta.so";
    let printed = output_of(command("nm", ["-D", "--defined-only"]).arg(repository(shared)), &[]);
    assert!(printed.lines().all(|line| line.contains(" T spg_")), "{printed}");
    let calls = names(["-D", "--defined-only"], shared);
    assert_eq!(calls, names(["--defined-only"], "target/staticlib/libspargolutta.a"));
    assert!(calls.contains("spg_judge_number"));
    let page = fs::read_to_string(repository("man/spargolutta.3")).expect("page");
    for call in calls {
        assert!(page.contains(&format!(" {call}(")), "spargolutta.3 lacks {call}");
    }
    for page in ["man/spargolutta.3", "man/zone_judge.1"] {
        let output = command("groff", ["-man", "-Tutf8", "-ww", "-z"]).arg(repository(page)).output();
        let Ok(output) = output else { return println!("install: no groff here") };
        assert!(output.status.success() && output.stderr.is_empty(), "{page}: {output:?}");
    }
}
