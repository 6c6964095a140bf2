//! Program `ringbook` killed at every call that touches a file: what was answered is in the file and on disk, and the file is whole.
mod crash;
mod desk;
mod reference;

use std::os::unix::process::ExitStatusExt;

use crash::{desk_of, found_after, next_session_works, old_desk_of, stories, Story};
use desk::{Folder, NaiveDesk};

/// Kills the program before each of its calls in turn, in the way that the word says; gives the number of kills.
fn kill_everywhere(folder: &Folder, story: &Story, word: &str) -> usize {
    for k in 0.. {
        let told = format!("{word} {k}");
        let run = story.run(folder, &told);
        if run.status.signal().is_none() {
            assert!(run.status.success());
            assert_eq!(run.output, story.desk.clone().answers(&story.input()));
            assert_eq!(folder.bytes("book"), story.after(usize::MAX).bytes());
            assert_eq!(folder.bytes("book.new"), None);
            return k;
        }
        assert_eq!(run.status.signal(), Some(9));
        let done = found_after(story, folder, &run.output, &told);
        next_session_works(story, folder, done);
    }
    unreachable!()
}

#[test]
fn killed_before_every_call() {
    let folder = Folder::new("killed");
    let mut kills = 0;
    for story in stories() {
        for word in ["kill", "half", "lose"] {
            let count = kill_everywhere(&folder, &story, word);
            assert!(
                count > 10 * story.lines.len() / 2,
                "the shim sees the calls"
            );
            kills += count;
        }
    }
    println!("{kills} kills, what was answered in the file after each");
}

/// The order of the calls of a change, of one that is refused and of a question.
#[test]
fn on_disk_before_it_is_said() {
    let folder = Folder::new("ordered");
    let change = "create open read read close write fsync close open rename fsync folder close say";
    let refused = "create open read read close close unlink say";
    let question = "open read read close say";
    let cases = [
        ("grant 0 2 0 9", change),
        ("grant 0 2 0 9 7", change),
        ("remove 7", change),
        ("grant 0 1 0 0", refused),
        ("remove 71", refused),
        ("grant 0 2 0 9 1000", refused),
        ("confirm 7", refused),
        ("count", question),
        ("revision", question),
        ("show 7 7", question),
        ("holder 0 0 7", question),
        ("preview 0 2 0 9, 2 4 0 9 7", question),
        // There is nothing to say.
        ("pending", "open read read close"),
        ("help", "say"),
    ];
    for (line, want) in cases {
        for desk in [desk_of(70), old_desk_of(70)] {
            let calls = Story::new(desk, &[line]).calls(&folder);
            assert_eq!(calls.join(" "), want, "{line}");
        }
    }
    let opening = Story::new(NaiveDesk::default(), &["open 4 1"]).calls(&folder);
    assert_eq!(opening.join(" "), change.replace("read read close ", ""));
}
