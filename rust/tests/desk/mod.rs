//! The program `ringbook` at work in a folder of its own, and a naive desk to compare it with.
#![allow(dead_code)]

mod naive;
mod typed;

use std::fs;
use std::io::{BufRead, BufReader, Read, Write};
use std::path::PathBuf;
use std::process::{Child, ChildStdin, ChildStdout, Command, ExitStatus, Stdio};

#[allow(unused_imports)]
pub use naive::*;
#[allow(unused_imports)]
pub use typed::*;

/// A folder that is empty at first; the book's file is `book`, and the new one that takes its place `book.new`.
pub struct Folder(PathBuf);

impl Folder {
    pub fn new(name: &str) -> Folder {
        let path = PathBuf::from(env!("CARGO_TARGET_TMPDIR")).join(name);
        let _ = fs::remove_dir_all(&path);
        fs::create_dir_all(&path).unwrap();
        Folder(path)
    }

    pub fn file(&self, name: &str) -> PathBuf {
        self.0.join(name)
    }

    /// The bytes of a file, or none if there is no such file.
    pub fn bytes(&self, name: &str) -> Option<Vec<u8>> {
        fs::read(self.file(name)).ok()
    }

    /// Makes the file what the bytes say, or takes it away.
    pub fn put(&self, name: &str, bytes: &Option<Vec<u8>>) {
        match bytes {
            Some(bytes) => fs::write(self.file(name), bytes).unwrap(),
            None => {
                let _ = fs::remove_file(self.file(name));
            }
        }
    }

    /// The program on file `book`.
    pub fn program(&self) -> Command {
        let program = concat!(env!("CARGO_MANIFEST_DIR"), "/../crates/ringbook/out/ringbook");
        let mut command = Command::new(program);
        command.current_dir(&self.0);
        command
    }

    /// What the program answers to an input.
    pub fn answer(&self, input: &str) -> String {
        let mut command = self.program();
        let run = run(command.arg("book"), input.as_bytes(), 4096);
        assert!(run.status.success());
        run.output
    }
}

impl Drop for Folder {
    fn drop(&mut self) {
        let _ = fs::remove_dir_all(&self.0);
    }
}

/// What came of a run.
pub struct Run {
    pub output: String,
    pub errors: String,
    pub status: ExitStatus,
}

/// Runs the program on an input that comes in pieces of a size.
pub fn run(command: &mut Command, input: &[u8], piece: usize) -> Run {
    let mut child = command
        .stdin(Stdio::piped())
        .stdout(Stdio::piped())
        .stderr(Stdio::piped())
        .spawn()
        .expect("the program is built");
    let mut stdin = child.stdin.take().unwrap();
    let input = input.to_vec();
    let writer = std::thread::spawn(move || {
        // A program that is gone or wants no input leaves the rest unread.
        let _ = input
            .chunks(piece)
            .try_for_each(|part| stdin.write_all(part));
    });
    let (mut output, mut errors) = (String::new(), String::new());
    child
        .stdout
        .take()
        .unwrap()
        .read_to_string(&mut output)
        .unwrap();
    child
        .stderr
        .take()
        .unwrap()
        .read_to_string(&mut errors)
        .unwrap();
    writer.join().unwrap();
    Run {
        output,
        errors,
        status: child.wait().unwrap(),
    }
}

/// A session that is typed into: each line is answered before the next one is entered.
pub struct Session {
    child: Child,
    input: ChildStdin,
    output: BufReader<ChildStdout>,
}

impl Session {
    pub fn new(command: &mut Command) -> Session {
        let mut child = command
            .stdin(Stdio::piped())
            .stdout(Stdio::piped())
            .spawn()
            .expect("the program is built");
        let input = child.stdin.take().unwrap();
        let output = BufReader::new(child.stdout.take().unwrap());
        Session {
            child,
            input,
            output,
        }
    }

    /// The answer to a line that has an answer of one line.
    pub fn enter(&mut self, line: &str) -> String {
        self.input.write_all(line.as_bytes()).unwrap();
        let mut answer = String::new();
        self.output.read_line(&mut answer).unwrap();
        answer
    }

    /// The terminal is closed, and its program gone, with no end of the input.
    pub fn close_terminal(mut self) {
        self.child.kill().unwrap();
        self.child.wait().unwrap();
    }

    /// The end of the input.
    pub fn end(mut self) {
        drop(self.input);
        assert!(self.child.wait().unwrap().success());
    }
}
