//! The header in use: each of its declarations, as C99 and as C++, under each compiler at hand; the table of numbers.

use crate::client::flags;
use crate::host::{command, output_of, repository, Folder};
use std::collections::BTreeSet;
use std::fs;
use std::process::Command;

mod degrees;
mod expected;

const COMPILERS: [(&str, &[&str]); 3] =
    [("gcc", &["-std=c99"]), ("clang", &["-std=c99"]), ("g++", &["-x", "c++", "-std=c++11"])];

/// tests/header.c with every warning an error, or none if there is no such compiler here.
fn compiled(folder: &Folder, compiler: &str, words: &[&str]) -> Option<Command> {
    Command::new(compiler).arg("--version").output().ok()?;
    let program = folder.path(compiler);
    let mut cc = command(compiler, ["-Wall", "-Wextra", "-Werror", "-pedantic", "-O2"]);
    cc.args(words).arg("-o").arg(&program).arg(repository("tests/header.c")).args(flags());
    output_of(&mut cc, &[]);
    Some(Command::new(program))
}

/// What each call says of document 01's octant; what it says of NULL and 0; each number's kind and text, which the
/// inline function and the exported one have to agree on.
#[test]
fn header_in_use() {
    let folder = Folder::new("header");
    let mut meanings = expected::numbers();
    meanings.iter_mut().for_each(|line| *line = line.splitn(2, ' ').collect::<Vec<_>>().join("\t"));
    for (compiler, words) in COMPILERS {
        let Some(program) = compiled(&folder, compiler, words) else {
            println!("header: no {compiler} here");
            continue;
        };
        let run = |mode: &[&str]| output_of(&mut command(program.get_program(), mode), &[]);
        assert_eq!(run(&[]), expected::octant_lines(), "{compiler}");
        assert_eq!(run(&["null"]), expected::null_lines(), "{compiler}");
        let told = run(&["meanings"]);
        let kinds: Vec<String> =
            told.lines().map(|line| line.rsplit_once('\t').expect("text").0.to_string()).collect();
        assert_eq!(kinds, meanings, "{compiler}");
        let texts: BTreeSet<&str> =
            told.lines().map(|line| line.rsplit_once('\t').expect("text").1).collect();
        assert_eq!(texts.len(), meanings.len(), "two numbers with one text");
    }
}

/// Degrees as texts and as doubles, against exact fractions.
#[test]
fn header_degrees() {
    let folder = Folder::new("degrees");
    let (input, expected) = degrees::lines();
    for (compiler, words) in COMPILERS {
        let Some(program) = compiled(&folder, compiler, words) else {
            println!("header: no {compiler} here");
            continue;
        };
        let found = output_of(&mut command(program.get_program(), ["degrees"]), input.as_bytes());
        let differs = |(k, (found, expected)): (usize, (&str, &str))| {
            (found != expected)
                .then(|| format!("{}: {found}, not {expected}", input.lines().nth(k / 8).unwrap_or("")))
        };
        let first = found.lines().zip(expected.lines()).enumerate().find_map(differs);
        assert!(first.is_none() && found.len() == expected.len(), "{compiler}: {first:?}");
    }
}

/// The compiler is told what a call must not be given and that its answer is to be looked at. The buffers a and b stand
/// apart; NULL is an error where there are always bytes.
#[test]
fn header_attributes() {
    let folder = Folder::new("attributes");
    let gcc = |line: &str| {
        let source = format!(
            "#include <spargolutta.h>\nextern uint8_t a[99], b[12];\nvoid f(void);\nvoid f(void) {{ {line} }}\n"
        );
        let file = folder.write("line.c", source.as_bytes());
        let mut cc =
            command("gcc", ["-std=c99", "-Wall", "-Wextra", "-Werror", "-O1", "-c", "-o", "/dev/null"]);
        cc.args(flags()).arg(file).output().expect("gcc").status.success()
    };
    assert!(gcc("if (spg_feed_number(a, 99, a, 12, b, 12)) spg_put_point(b, 1, 1, 1);"));
    for line in [
        "if (spg_feed_number(a, 99, a + 84, 12, a + 84, 12)) spg_put_point(b, 1, 1, 1);",
        "spg_feed_number(a, 99, a, 12, b, 12);",
        "spg_judge_number(a, 99, 1, 1, 1);",
        "spg_judge(a, 99, 1, 1, 1);",
        "spg_book_feed_number(a, 99, 0, a, 12, b, 12);",
        "spg_book(a, 99, 0, 1, 1, 1);",
        "spg_point_x(0, 0);",
        "spg_put_point(NULL, 1, 1, 1);",
        "if (spg_result_at(NULL, 0).number) spg_put_point(b, 1, 1, 1);",
    ] {
        assert!(!gcc(line), "{line}");
    }
}

/// The words of a C text that begin so.
fn words_of(text: &str, start: &str) -> BTreeSet<String> {
    let is_word = |c: char| c.is_ascii_alphanumeric() || c == '_';
    text.split(|c| !is_word(c)).filter(|word| word.starts_with(start)).map(str::to_string).collect()
}

/// The header without its comments and what is for it alone.
fn declarations() -> String {
    let header = fs::read_to_string(repository("include/spargolutta.h")).expect("header");
    let code: String = header.split("/*").map(|part| part.rsplit("*/").next().expect("part")).collect();
    let own = |line: &&str| !line.starts_with("#undef");
    let undefined: Vec<&str> = code.lines().filter_map(|line| line.strip_prefix("#undef ")).collect();
    let mut lines: String = code.lines().filter(own).map(|line| line.to_string() + "\n").collect();
    undefined.iter().for_each(|word| lines = lines.replace(word, ""));
    lines
}

/// What the archive exports is what the header declares and does not define, and tests/header.c uses all of it, with
/// every macro and every inline function.
#[test]
fn header_complete() {
    let declared = declarations();
    let archive = concat!(env!("SPG_FOLDER"), "/libspargolutta.a");
    let symbols = output_of(command("nm", ["-g", "--defined-only"]).arg(archive), &[]);
    let exported = words_of(&symbols, "spg_");
    let is_call = |word: &String| declared.contains(&format!("{word}("));
    let functions: BTreeSet<String> = words_of(&declared, "spg_").into_iter().filter(is_call).collect();
    let inline: BTreeSet<String> = declared
        .lines()
        .filter(|line| line.contains("static inline"))
        .flat_map(|line| words_of(line.split('(').next().expect("name"), "spg_"))
        .filter(|word| is_call(word))
        .collect();
    assert_eq!(functions, exported.union(&inline).cloned().collect());
    assert!(exported.is_disjoint(&inline));
    let defined = declared.lines().filter_map(|line| line.strip_prefix("#define SPG_"));
    let macros = defined.map(|line| "SPG_".to_string() + line.split([' ', '(']).next().expect("name"));
    let client = fs::read_to_string(repository("tests/header.c")).expect("client");
    for word in functions.into_iter().chain(macros.filter(|word| word != "SPG_")) {
        assert!(client.contains(&word), "{word} is not in use");
    }
}

/// share/spargolutta/numbers.tsv has the header's names and the library's kinds and texts, as `make numbers` makes it.
#[test]
fn header_numbers() {
    let folder = Folder::new("numbers");
    let program = crate::client::compile(&folder, "share/numbers.c", &[], &flags());
    let header = fs::read(repository("include/spargolutta.h")).expect("header");
    let made = output_of(&mut command(program.get_program(), [""; 0]), &header);
    let table = fs::read_to_string(repository("share/spargolutta/numbers.tsv")).expect("table");
    assert_eq!(table, made, "`make numbers` makes it anew");
    let kinds = ["none", "side", "vertex", "byte", "needed", "position", "call"];
    let rows: Vec<Vec<&str>> = table.lines().map(|line| line.split('\t').collect()).collect();
    assert_eq!(rows[0], ["number", "name", "place", "text"]);
    let listed: Vec<String> = rows[1..]
        .iter()
        .map(|row| {
            let kind = kinds.iter().position(|kind| *kind == row[2]).expect("kind");
            format!("{} {kind}", row[0])
        })
        .collect();
    assert_eq!(listed, expected::numbers());
    let names: BTreeSet<&str> = rows[1..].iter().map(|row| row[1]).collect();
    assert!(names.len() == listed.len() && names.iter().all(|name| name.starts_with("SPG_")));
}
