//! Stories of commands at a desk, run with a library between the program and its calls on files.
use std::process::Command;
use std::sync::OnceLock;

use crate::desk::{run, Folder, NaiveDesk, Run};
use crate::reference::books::{NaiveBook, DESK};
use crate::reference::old::encode_old;

/// The library that stands between the program and its calls.
fn shim() -> &'static str {
    static BUILT: OnceLock<String> = OnceLock::new();
    BUILT.get_or_init(|| {
        let source = concat!(env!("CARGO_MANIFEST_DIR"), "/tests/crash/shim.c");
        let library = concat!(env!("CARGO_TARGET_TMPDIR"), "/shim.so").to_string();
        let mut compiler = Command::new("cc");
        compiler.args(["-shared", "-fPIC", "-O1", "-o", &library, source]);
        assert!(compiler.status().expect("a C compiler").success());
        library
    })
}

/// A desk, and commands that are typed at it. Each has an answer of one line.
pub struct Story {
    pub desk: NaiveDesk,
    pub lines: Vec<String>,
}

impl Story {
    pub fn new(desk: NaiveDesk, lines: &[&str]) -> Story {
        let lines = lines.iter().map(|line| format!("{line}\n")).collect();
        Story { desk, lines }
    }

    pub fn input(&self) -> String {
        self.lines.concat()
    }

    /// The desk after the first so many lines.
    pub fn after(&self, count: usize) -> NaiveDesk {
        let mut desk = self.desk.clone();
        desk.answers(&self.lines[..count.min(self.lines.len())].concat());
        desk
    }

    /// Runs the program on the book with what the shim is told.
    pub fn run(&self, folder: &Folder, told: &str) -> Run {
        folder.put("book", &self.desk.bytes());
        folder.put("book.new", &None);
        folder.put("kept-by-the-shim", &None);
        let mut command = folder.program();
        command.arg("book");
        command.env("LD_PRELOAD", shim()).env("SHIM", told);
        run(&mut command, self.input().as_bytes(), 4096)
    }

    /// The calls of a run that touch files, and where it says something.
    pub fn calls(&self, folder: &Folder) -> Vec<String> {
        let run = self.run(folder, "list");
        run.errors.lines().map(str::to_string).collect()
    }
}

/// A book of so many circuits of one link each.
fn book_of(live: u16) -> NaiveBook {
    let mut book = NaiveBook::open(64, 16).unwrap();
    for i in 0..live {
        book.grant([i % 63, i % 63 + 1, 0, i / 63, DESK]).unwrap();
    }
    book
}

/// A desk with a book of so many circuits.
pub fn desk_of(live: u16) -> NaiveDesk {
    NaiveDesk::of(&book_of(live))
}

/// The same with a file in the old form.
pub fn old_desk_of(live: u16) -> NaiveDesk {
    NaiveDesk(Some(encode_old(&book_of(live))))
}

/// A book that is opened; forms that get longer, keep their length and get shorter; refusals and questions between; the longest form; an
/// old form that becomes a new one.
pub fn stories() -> [Story; 5] {
    [
        Story::new(
            NaiveDesk::default(),
            &["count", "open 64 16", "grant 0 1 0 0", "remove 1"],
        ),
        Story::new(
            desk_of(0),
            &[
                "grant 0 63 1 2",
                "open 3 1",
                "grant 3 9 0 2 7",
                "show 1 7",
                "grant 3 9 0 3 0",
            ],
        ),
        Story::new(
            desk_of(42),
            &[
                "grant 0 9 0 9",
                "show 43",
                "remove 7",
                "confirm 7",
                "grant 9 18 0 9",
            ],
        ),
        Story::new(
            desk_of(510),
            &["grant 0 1 0 15", "grant 1 2 0 15 999", "grant 2 3 0 15"],
        ),
        Story::new(
            old_desk_of(63),
            &["revision", "confirm 7", "remove 7", "revision"],
        ),
    ]
}

/// After a kill: as many lines are in the file as were answered, or one more. Gives how many.
pub fn found_after(story: &Story, folder: &Folder, output: &str, told: &str) -> usize {
    let answered = output.lines().count();
    let want = story.desk.clone().answers(&story.input());
    let complete = output.is_empty() || output.ends_with('\n');
    assert!(want.starts_with(output) && complete, "{told}: {output}");
    let found = NaiveDesk(folder.bytes("book"));
    let next = (answered + 1).min(story.lines.len());
    match found {
        desk if desk == story.after(answered) => answered,
        desk if desk == story.after(next) => next,
        _ => panic!("{told}: neither what was answered nor one command more"),
    }
}

/// After what the message says, the next session makes the changes that are left.
pub fn next_session_works(story: &Story, folder: &Folder, done: usize) {
    let mut desk = story.after(done);
    folder.put("book.new", &None);
    let rest = story.lines[done..].concat() + "count\nlist\n";
    let want = desk.answers(&rest);
    assert_eq!(folder.answer(&rest), want);
    assert_eq!(folder.bytes("book"), desk.bytes());
    assert_eq!(folder.bytes("book.new"), None);
}
