//! What it takes to start programs: the repository's files, temporary folders, commands.

use std::ffi::OsStr;
use std::io::{ErrorKind, Write};
use std::path::{Path, PathBuf};
use std::process::{Command, Output, Stdio};
use std::{env, fs, process, thread};

/// A path of the repository.
pub fn repository(path: &str) -> PathBuf {
    Path::new(concat!(env!("CARGO_MANIFEST_DIR"), "/..")).join(path)
}

/// A temporary folder, removed with all it holds when it is dropped.
pub struct Folder(PathBuf);

impl Folder {
    /// A new one. Another test that runs at the same time may ask for the name too, and a run that was stopped
    /// leaves its own.
    pub fn new(name: &str) -> Folder {
        let temporary = env::temp_dir();
        for i in 0u32.. {
            let path = temporary.join(format!("spargolutta-{}-{name}-{i}", process::id()));
            match fs::create_dir(&path) {
                Ok(()) => return Folder(path),
                Err(error) if error.kind() == ErrorKind::AlreadyExists => {}
                Err(error) => panic!("temporary folder: {error}"),
            }
        }
        panic!("temporary folder: every name is taken")
    }

    pub fn path(&self, name: &str) -> PathBuf {
        self.0.join(name)
    }

    pub fn write(&self, name: &str, bytes: &[u8]) -> PathBuf {
        fs::write(self.path(name), bytes).expect("file in the temporary folder");
        self.path(name)
    }
}

impl Drop for Folder {
    fn drop(&mut self) {
        let _ = fs::remove_dir_all(&self.0);
    }
}

pub fn command<S: AsRef<OsStr>>(program: impl AsRef<OsStr>, words: impl IntoIterator<Item = S>) -> Command {
    let mut command = Command::new(program);
    command.args(words);
    command
}

/// Runs the command on `input`, handed over in pieces of `piece` bytes while its output is read.
pub fn run_in_pieces(command: &mut Command, input: &[u8], piece: usize) -> Output {
    let pipe = Stdio::piped;
    let child = command.stdin(pipe()).stdout(pipe()).stderr(pipe()).spawn();
    let mut child = child.unwrap_or_else(|error| panic!("{command:?}: {error}"));
    let mut stdin = child.stdin.take().expect("pipe");
    thread::scope(|scope| {
        scope.spawn(move || {
            for bytes in input.chunks(piece) {
                match stdin.write_all(bytes) {
                    Ok(()) => {}
                    // A program need not read what it does not want.
                    Err(error) if error.kind() == ErrorKind::BrokenPipe => break,
                    Err(error) => panic!("{error}"),
                }
            }
        });
        child.wait_with_output().expect("output")
    })
}

/// Runs the command on `input`. It has to succeed; its output comes back.
pub fn output_of(command: &mut Command, input: &[u8]) -> String {
    let output = run_in_pieces(command, input, 65_536);
    let text = |bytes: &[u8]| String::from_utf8_lossy(bytes).into_owned();
    assert!(
        output.status.success(),
        "{command:?} failed: {}\n{}{}",
        output.status,
        text(&output.stdout),
        text(&output.stderr)
    );
    text(&output.stdout)
}
