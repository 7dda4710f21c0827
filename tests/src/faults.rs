//! The program zone_judge where something cannot be read or written: a line on standard error for each fault, and on
//! standard output nothing but whole, right lines. Its status is 0 all the same.

use crate::host::{command, run_in_pieces, Folder};
use crate::program::{random_input, zone_judge, K2_K3_K5_K8};
use crate::reference;
use crate::sheet::{octant, points_bytes};
use std::fs::{self, File};
use std::io::{Read, Write};
use std::os::fd::{AsRawFd, FromRawFd, OwnedFd};
use std::os::unix::net::UnixStream;
use std::process::{Command, Stdio};
use std::time::Duration;
use std::{io, ptr, thread};

extern "C" {
    fn fcntl(fd: i32, command: i32, ...) -> i32;
    fn openpty(main: *mut i32, other: *mut i32, name: *mut u8, termios: *const u8, size: *const u8) -> i32;
}

const ANSWERS: &str = "1 0 0\n3 0 0\n2 0 1\n18 0 0\n";

/// Runs the program to its end, on these queries unless its input is another: what it prints.
fn printed(program: &mut Command, input: &[u8]) -> (String, String) {
    let output = run_in_pieces(program, input, 65_536);
    assert_eq!(output.status.code(), Some(0), "{program:?}");
    let text = |bytes: Vec<u8>| String::from_utf8(bytes).expect("text");
    (text(output.stdout), text(output.stderr))
}

/// The program in a shell, with what the shell is to do first, and with inputs and outputs redirected.
fn in_shell(folder: &Folder, sheet: Option<&[u8]>, first: &str, redirected: &str) -> (String, String) {
    let program = zone_judge(folder, sheet);
    let script = format!("{first} exec {:?} {redirected}", program.get_program());
    let mut shell = command("sh", ["-c", &script]);
    printed(shell.current_dir(folder.path("")), &random_input(46, 100_000))
}

fn said(what: &str, error: &str) -> (String, String) {
    (String::new(), format!("zone_judge: {what}: {error}\n"))
}

#[test]
fn faults_full_disk() {
    let folder = Folder::new("full-disk");
    let full = said("standard output", "No space left on device");
    assert_eq!(in_shell(&folder, Some(&octant().bytes()), "", "> /dev/full"), full);
    assert_eq!(in_shell(&folder, None, "", "> /dev/full"), full);
    // A disk that fills up: what fits is written. The limit is in blocks of 512 bytes.
    let limited = "trap '' XFSZ; ulimit -f 8;";
    let (_, error) = in_shell(&folder, Some(&octant().bytes()), limited, "> answers");
    assert_eq!(error, "zone_judge: standard output: File too large\n");
    let (written, all) = (fs::read(folder.path("answers")).expect("answers"), random_input(46, 100_000));
    assert_eq!(written.len(), 8 * 512);
    assert!(reference::program(Some(&octant().bytes()), &all).as_bytes().starts_with(&written));
}

#[test]
fn faults_closed_output() {
    let folder = Folder::new("closed-output");
    let (sheet, closed) = (octant().bytes(), said("standard output", "Bad file descriptor"));
    assert_eq!(in_shell(&folder, Some(&sheet), "", ">&-"), closed);
    assert_eq!(in_shell(&folder, Some(&sheet[1..]), "", ">&-"), closed);
    // Nothing to write, nothing lost.
    assert_eq!(in_shell(&folder, Some(&sheet), "", "< /dev/null >&-"), (String::new(), String::new()));
    // A reader that has gone ends the program by a signal or, where that is ignored, is told of.
    let gone =
        format!("trap '' PIPE; {:?} 2> errors | true", zone_judge(&folder, Some(&sheet)).get_program());
    printed(command("sh", ["-c", &gone]).current_dir(folder.path("")), &random_input(47, 200_000));
    let errors = fs::read_to_string(folder.path("errors")).expect("errors");
    assert_eq!(errors, "zone_judge: standard output: Broken pipe\n");
}

/// A directory opens and cannot be read; a link to itself does not open.
#[test]
fn faults_sheet() {
    let folder = Folder::new("sheet-faults");
    assert_eq!(in_shell(&folder, None, "", ""), ("20 0 0\n".into(), String::new()));
    assert_eq!(in_shell(&folder, None, "mkdir zone.sheet;", ""), said("zone.sheet", "Is a directory"));
    fs::remove_dir(folder.path("zone.sheet")).expect("directory");
    let linked = in_shell(&folder, None, "ln -s zone.sheet zone.sheet;", "");
    assert_eq!(linked, said("zone.sheet", "Too many levels of symbolic links"));
}

#[test]
fn faults_input() {
    let folder = Folder::new("input-faults");
    let sheet = Some(&octant().bytes()[..]);
    assert_eq!(in_shell(&folder, sheet, "", "< ."), said("standard input", "Is a directory"));
    assert_eq!(in_shell(&folder, sheet, "", "<&-"), said("standard input", "Bad file descriptor"));
    // A refused sheet needs no input.
    assert_eq!(in_shell(&folder, None, "", "< ."), ("20 0 0\n".into(), String::new()));
}

/// An input that breaks off within query 4: the first four are answered, and it is no cut query at the end. A socket
/// whose other end is closed before all was read there gives the bytes sent, and then an error.
#[test]
fn faults_input_broken() {
    let folder = Folder::new("broken");
    let (mut ours, mut theirs) = UnixStream::pair().expect("sockets");
    theirs.write_all(&[0]).expect("a byte that is not read");
    ours.write_all(&[points_bytes(&K2_K3_K5_K8), vec![0; 5]].concat()).expect("queries");
    drop(ours);
    let mut program = zone_judge(&folder, Some(&octant().bytes()));
    let output = program.stdin(OwnedFd::from(theirs)).output().expect("output");
    assert_eq!(String::from_utf8_lossy(&output.stdout), ANSWERS);
    let error = "zone_judge: standard input: Connection reset by peer\n";
    assert_eq!(String::from_utf8_lossy(&output.stderr), error);
}

fn set_nonblocking(end: &impl AsRawFd) {
    const F_SETFL: i32 = 4;
    const O_NONBLOCK: i32 = 0o4000;
    assert_eq!(unsafe { fcntl(end.as_raw_fd(), F_SETFL, O_NONBLOCK) }, 0);
}

/// Non-blocking pipes are waited for: one that is filled late and by bits, and one that is read late.
#[test]
fn faults_nonblocking_pipes() {
    let folder = Folder::new("nonblocking");
    let (sheet, input) = (octant().bytes(), random_input(48, 100_000));
    let (stdin, mut to_program) = io::pipe().expect("pipe");
    let (mut from_program, stdout) = io::pipe().expect("pipe");
    set_nonblocking(&stdin);
    set_nonblocking(&stdout);
    let mut program = zone_judge(&folder, Some(&sheet));
    let mut child = program.stdin(stdin).stdout(stdout).stderr(Stdio::piped()).spawn().expect("zone_judge");
    drop(program); // and with it this process's copies of the program's ends
    let late = Duration::from_millis(200);
    let mut answers = String::new();
    thread::scope(|scope| {
        scope.spawn(|| {
            for bytes in [&input[..7], &input[7..30], &input[30..]] {
                thread::sleep(late);
                to_program.write_all(bytes).expect("queries");
            }
            drop(to_program);
        });
        thread::sleep(5 * late);
        from_program.read_to_string(&mut answers).expect("answers");
    });
    let mut errors = String::new();
    child.stderr.take().expect("pipe").read_to_string(&mut errors).expect("errors");
    assert_eq!(child.wait().expect("status").code(), Some(0));
    assert!(answers == reference::program(Some(&sheet), &input));
    assert_eq!(errors, "");
}

/// What is typed is judged, up to the second end of file (the first one hands on a line without its end); a sheet's
/// refusal needs no input.
#[test]
fn faults_terminal() {
    let folder = Folder::new("terminal");
    let (mut main, mut other) = (-1, -1);
    let none = ptr::null();
    assert_eq!(unsafe { openpty(&mut main, &mut other, ptr::null_mut(), none, none) }, 0);
    let (mut main, terminal) = unsafe { (File::from_raw_fd(main), File::from_raw_fd(other)) };
    let line = "zone_judge: standard input is a terminal; queries of 12 bytes come from a file or a pipe\n";
    main.write_all(&[points_bytes(&[[65, 66, 67]]), vec![4, 4]].concat()).expect("typed");
    for (sheet, printed) in [(Some(octant().bytes()), "1 0 0\n"), (None, "20 0 0\n")] {
        let mut program = zone_judge(&folder, sheet.as_deref());
        let output = program.stdin(terminal.try_clone().expect("terminal")).output().expect("output");
        assert_eq!(String::from_utf8_lossy(&output.stdout), printed);
        assert_eq!(String::from_utf8_lossy(&output.stderr), line);
        assert_eq!(output.status.code(), Some(0));
    }
}
