//! `make install` and `make uninstall` as a packager meets them: into scratch folders, where `rt` fails if it is called.

mod clients;

use crate::host::{command, output_of, repository, run_in_pieces, Folder};
use std::collections::{BTreeMap, BTreeSet};
use std::os::unix::fs::PermissionsExt;
use std::path::{Path, PathBuf};
use std::process::{Command, Output};
use std::{env, fs};

/// A scratch folder with an `rt` of its own.
struct Scratch(Folder);

impl Scratch {
    /// An `rt` that is a script: what it prints.
    fn new(name: &str, rt: &str) -> Scratch {
        let folder = Folder::new(name);
        fs::create_dir(folder.path("tools")).expect("folder");
        let rt = folder.write("tools/rt", format!("#!/bin/sh\n{rt}\n").as_bytes());
        fs::set_permissions(rt, fs::Permissions::from_mode(0o755)).expect("mode");
        Scratch(folder)
    }

    fn path(&self, name: &str) -> String {
        self.0.path(name).display().to_string()
    }

    /// `make` in the repository under a mean umask. No variable of an outer make comes through.
    fn make<const N: usize>(&self, words: [&str; N]) -> Command {
        let mut make = command("sh", ["-c", "umask 077; exec make --no-print-directory \"$@\"", "make"]);
        let path = env::var_os("PATH").unwrap_or_default();
        let folders = [self.0.path("tools")].into_iter().chain(env::split_paths(&path));
        make.env("PATH", env::join_paths(folders).expect("PATH")).current_dir(repository("")).args(words);
        make.env_remove("MAKEFLAGS").env_remove("PREFIX").env_remove("DESTDIR");
        make
    }

    /// What `make` says when it fails.
    fn refusal<const N: usize>(&self, words: [&str; N]) -> String {
        let Output { status, stderr, .. } = run_in_pieces(&mut self.make(words), &[], 1);
        assert!(!status.success(), "{words:?}");
        String::from_utf8(stderr).expect("text")
    }
}

/// With no toolchain.
fn scratch(name: &str) -> Scratch {
    Scratch::new(name, "exit 127")
}

/// Every file and folder under `top`, by its name from there on: mode, and what a link points to.
fn tree(top: &Path) -> BTreeMap<String, String> {
    let (mut found, mut folders) = (BTreeMap::new(), vec![top.to_path_buf()]);
    while let Some(folder) = folders.pop() {
        for entry in fs::read_dir(&folder).expect("folder") {
            let path = entry.expect("entry").path();
            let meta = fs::symlink_metadata(&path).expect("metadata");
            let what = match fs::read_link(&path) {
                Ok(target) => target.display().to_string(),
                Err(_) => format!("{:o}", meta.permissions().mode() & 0o777),
            };
            found.insert(path.strip_prefix(top).expect("under it").display().to_string(), what);
            folders.extend(meta.is_dir().then_some(path));
        }
    }
    found
}

/// The header's version: major, and whole.
fn version() -> (String, String) {
    let header = fs::read_to_string(repository("include/spargolutta.h")).expect("header");
    let part = |name: &str| {
        let start = format!("#define SPG_VERSION_{name} ");
        header.lines().find_map(|line| line.strip_prefix(&start)).expect("version").to_string()
    };
    (part("MAJOR"), ["MAJOR", "MINOR", "PATCH"].map(part).join("."))
}

/// What is installed of the tree `built`, from the prefix on, with the libraries in `lib`: files, and links.
fn expected(built: &Path, lib: &str) -> BTreeMap<String, String> {
    let (major, version) = version();
    let mut files = vec![
        ("include/spargolutta.h".to_string(), "644"),
        (format!("{lib}/libspargolutta.a"), "644"),
        (format!("{lib}/libspargolutta.so.{version}"), "755"),
        (format!("{lib}/pkgconfig/spargolutta.pc"), "644"),
        (format!("{lib}/cmake/spargolutta/spargolutta-config.cmake"), "644"),
        (format!("{lib}/cmake/spargolutta/spargolutta-config-version.cmake"), "644"),
        ("bin/zone_judge".to_string(), "755"),
        ("bin/spargolutta".to_string(), "755"),
        ("share/man/man1/spargolutta.1".to_string(), "644"),
        ("share/man/man1/zone_judge.1".to_string(), "644"),
        ("share/man/man3/spargolutta.3".to_string(), "644"),
    ];
    let examples = tree(&repository("examples")).into_keys();
    files.extend(examples.map(|name| (format!("share/spargolutta/examples/{name}"), "644")));
    let package = tree(&repository("python/spargolutta")).into_keys();
    let wasm = built.join("target/wasm/spargolutta.wasm").exists().then(|| "spargolutta.wasm".to_string());
    let sources =
        package.filter(|name| [".py", ".js", ".html", ".typed"].iter().any(|end| name.ends_with(end)));
    files.extend(
        sources.chain(wasm).map(|name| (format!("share/spargolutta/python/spargolutta/{name}"), "644")),
    );
    let numbers = "share/spargolutta/numbers.tsv";
    files.extend(repository(numbers).exists().then(|| (numbers.to_string(), "644")));
    let mut expected: BTreeMap<String, String> =
        files.into_iter().map(|(name, mode)| (name, mode.to_string())).collect();
    expected.insert(format!("{lib}/libspargolutta.so"), format!("libspargolutta.so.{major}"));
    expected.insert(format!("{lib}/libspargolutta.so.{major}"), format!("libspargolutta.so.{version}"));
    let parents = |name: &String| Path::new(name).ancestors().skip(1).map(PathBuf::from).collect::<Vec<_>>();
    let folders: BTreeSet<PathBuf> = expected.keys().flat_map(parents).collect();
    let named = folders.iter().filter(|folder| **folder != PathBuf::new());
    expected.extend(named.map(|folder| (folder.display().to_string(), "755".to_string())));
    expected
}

/// Installs, looks at every file, and uninstalls: only folders that others use too are left.
fn comes_and_goes(scratch: &Scratch, words: [&str; 3], top: &str, lib: &str) {
    let top = scratch.0.path(top);
    let make = |goal| output_of(&mut scratch.make([goal, words[0], words[1], words[2]]), &[]);
    for _ in 0..2 {
        make("install");
        assert_eq!(tree(&top), expected(&repository(""), lib));
    }
    make("uninstall");
    let left = tree(&top);
    assert!(left.keys().all(|name| top.join(name).is_dir() && !name.contains("spargolutta")), "{left:?}");
}

/// Under a prefix with a space; with LIBDIR; below DESTDIR.
#[test]
fn install_files() {
    let scratch = scratch("install-files");
    let word = |name: &str, path: &str| format!("{name}={}", scratch.path(path));
    let spaced = word("PREFIX", "a prefix");
    comes_and_goes(&scratch, [&spaced, "DESTDIR=", "-s"], "a prefix", "lib");
    let [prefix, lib] = [word("PREFIX", "plain"), word("LIBDIR", "plain/lib/x86_64")];
    comes_and_goes(&scratch, [&prefix, "DESTDIR=", &lib], "plain", "lib/x86_64");
    let stage = word("DESTDIR", "a stage");
    comes_and_goes(&scratch, ["PREFIX=/usr", "LIBDIR=/usr/lib64", &stage], "a stage/usr", "lib64");
}

/// What is built is not built again; a build asks for the pinned toolchain; bare `make` lists the goals.
#[test]
fn install_messages() {
    let scratch = scratch("install-none");
    output_of(&mut scratch.make(["lib", "bin"]), &[]);
    let pinned = fs::read_to_string(repository("rattle-toolchain")).expect("file");
    let wanted = format!("Proving needs the Rattle toolchain '{}'; on the PATH is ", pinned.trim());
    for goal in ["lib", "bin", "test", "check"] {
        assert!(scratch.refusal(["-W", "crates.txt", goal]).starts_with(&(wanted.clone() + "none.\n")));
    }
    let other = Scratch::new("install-other", "[ $1 = version ] && echo other kit");
    assert!(other.refusal(["-W", "crates.txt", "lib"]).starts_with(&(wanted + "other kit.\n")));
    for (prefix, says) in [("", "PREFIX is empty."), ("/a\"b", "PREFIX has a character that ")] {
        let refusal = scratch.refusal(["install", &format!("PREFIX={prefix}"), "DESTDIR=/nowhere"]);
        assert!(refusal.starts_with(&format!("make install: {says}")), "{refusal}");
    }
    let help = output_of(&mut scratch.make([]), &[]);
    let makefile = fs::read_to_string(repository("Makefile")).expect("file");
    let goals = makefile.lines().find_map(|line| line.strip_prefix(".PHONY: help ")).expect("goals");
    let listed: BTreeSet<&str> = help.lines().filter_map(|line| line.split_whitespace().nth(1)).collect();
    assert!(goals.split(' ').all(|goal| listed.contains(goal)), "{help}");
}

/// A tree in which nothing is built says so. With a C compiler alone, the C form is built and installed there.
#[test]
fn install_unbuilt() {
    let scratch = scratch("install-unbuilt");
    let tree_of = scratch.path("tree");
    let parts = ["Makefile", "packaging", "include", "portable", "python", "man", "examples", "share"]
        .map(repository);
    fs::create_dir(&tree_of).expect("folder");
    output_of(command("cp", ["-r"]).args(parts).arg(&tree_of), &[]);
    let refusal = scratch.refusal(["-C", &tree_of, "install", "PREFIX=/nowhere", "DESTDIR="]);
    let says = "make install: target/staticlib/libspargolutta.a is not built yet. 'make lib bin' builds it";
    assert!(refusal.contains(says), "{refusal}");
    output_of(&mut scratch.make(["-C", &tree_of, "lib-c", "bin-c", "CFLAGS=-O1"]), &[]);
    let stage = format!("DESTDIR={}", scratch.path("stage"));
    let told = output_of(&mut scratch.make(["-C", &tree_of, "install", "PREFIX=/usr", &stage]), &[]);
    assert!(told.contains("the C compiler built portable/spargolutta.c"), "{told}");
    assert_eq!(tree(&scratch.0.path("stage/usr")), expected(Path::new(&tree_of), "lib"));
}
