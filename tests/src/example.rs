//! An example as a user gets it: the library installed, the example compiled with what pkg-config says of it, and run.

use crate::client::compile;
use crate::host::{command, output_of, repository, run_in_pieces, Folder};
use std::fs;
use std::path::Path;
use std::process::Command;

/// What pkg-config says of the library installed under `prefix`. On a machine without pkg-config its
/// file is read here: the values of Cflags and Libs, with each ${name} replaced by name's line.
fn installed_flags(prefix: &Path) -> Vec<String> {
    let folder = prefix.join("lib/pkgconfig");
    let mut pkg_config = command("pkg-config", ["--cflags", "--libs", "spargolutta"]);
    let words = |text: &str| text.split_whitespace().map(str::to_string).collect();
    match pkg_config.env("PKG_CONFIG_PATH", &folder).output() {
        Ok(output) => words(&String::from_utf8(output.stdout).expect("flags")),
        Err(_) => words(&flags_of(&fs::read_to_string(folder.join("spargolutta.pc")).expect("file"))),
    }
}

fn flags_of(pkg_config_file: &str) -> String {
    let value = |start: &str| {
        let line = pkg_config_file.lines().find_map(|line| line.strip_prefix(start));
        line.unwrap_or_else(|| panic!("no {start}")).to_string()
    };
    let mut flags = value("Cflags: ") + " " + &value("Libs: ");
    for name in ["includedir", "libdir", "prefix"] {
        flags = flags.replace(&format!("${{{name}}}"), &value(&format!("{name}=")));
    }
    flags
}

/// Installs under a prefix in the folder: what pkg-config says of the library there.
fn install(folder: &Folder) -> Vec<String> {
    let prefix = folder.path("prefix");
    // The archive is there: `-o lib` keeps make from making it again.
    let mut make = command("make", ["--no-print-directory", "-o", "lib", "install"]);
    make.args([format!("PREFIX={}", prefix.display()), "DESTDIR=".to_string()]);
    output_of(make.env_remove("MAKEFLAGS").current_dir(repository("")), &[]);
    let flags = installed_flags(&prefix);
    let file = fs::read_to_string(prefix.join("lib/pkgconfig/spargolutta.pc")).expect("file");
    assert_eq!(flags_of(&file).split_whitespace().collect::<Vec<_>>(), flags);
    flags
}

/// A program, and the folder that it is run in.
pub struct Example {
    program: Command,
    pub folder: Folder,
}

impl Example {
    /// Installs under a temporary prefix and compiles the example with what pkg-config says.
    pub fn new(folder: &str, source: &str) -> Example {
        let folder = Folder::new(folder);
        let flags = install(&folder);
        Example { program: compile(&folder, source, &[], &flags), folder }
    }

    /// Runs it with these words: its exit status and what it has to print.
    pub fn run(&self, words: &[&str], status: i32, stdout: &str, stderr: &str) {
        let mut run = command(self.program.get_program(), words);
        let output = run_in_pieces(run.current_dir(self.folder.path("")), &[], 1);
        assert_eq!(String::from_utf8_lossy(&output.stdout), stdout);
        assert_eq!(String::from_utf8_lossy(&output.stderr), stderr);
        assert_eq!(output.status.code(), Some(status));
    }
}
