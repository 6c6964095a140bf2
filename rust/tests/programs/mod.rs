//! The proved programs, run on given input. Used by the other tests as a module.
#![allow(dead_code)]

use std::fs::OpenOptions;
use std::io::Write;
use std::process::{Command, Stdio};

/// A program with its words.
pub fn program(words: &[&str]) -> Command {
    let crates = concat!(env!("CARGO_MANIFEST_DIR"), "/../crates");
    let name = words[0];
    let mut command = Command::new(format!("{crates}/{name}/out/{name}"));
    command.args(&words[1..]);
    command
}

/// What a program writes, and what it says on standard error, for an input that comes in pieces of the given size.
pub fn outputs(words: &[&str], input: &[u8], piece: usize) -> (Vec<u8>, String) {
    let mut child = program(words)
        .stdin(Stdio::piped())
        .stdout(Stdio::piped())
        .stderr(Stdio::piped())
        .spawn()
        .expect("the program is built");
    let mut stdin = child.stdin.take().unwrap();
    for part in input.chunks(piece.max(1)) {
        // A program reads no further than one byte past its limit, so a write may find it gone.
        if stdin.write_all(part).and_then(|()| stdin.flush()).is_err() {
            break;
        }
    }
    drop(stdin);
    let ended = child.wait_with_output().unwrap();
    assert!(ended.status.success());
    (ended.stdout, String::from_utf8(ended.stderr).unwrap())
}

/// What a program prints for an input that comes in pieces of the given size.
pub fn output(words: &[&str], input: &[u8], piece: usize) -> String {
    let (printed, errors) = outputs(words, input, piece);
    assert_eq!(errors, "");
    String::from_utf8(printed).unwrap()
}

/// What a program prints and what it says on standard error, where reading a directory as the input fails.
pub fn unreadable(words: &[&str]) -> [String; 2] {
    let folder = OpenOptions::new().read(true).open("/").unwrap();
    let ended = program(words).stdin(folder).output().unwrap();
    [ended.stdout, ended.stderr].map(|text| String::from_utf8(text).unwrap())
}

/// What a program says on standard error, where no output can be written.
pub fn unwritable(words: &[&str], input: &[u8]) -> String {
    let full = OpenOptions::new().write(true).open("/dev/full").unwrap();
    let mut child = program(words)
        .stdin(Stdio::piped())
        .stdout(full)
        .stderr(Stdio::piped())
        .spawn()
        .unwrap();
    child.stdin.take().unwrap().write_all(input).unwrap();
    let ended = child.wait_with_output().unwrap();
    String::from_utf8(ended.stderr).unwrap()
}
