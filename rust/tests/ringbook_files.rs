//! Files and streams of program `ringbook`: files that hold no book, cannot be read or made, arguments, inputs and outputs that fail.
mod desk;
mod programs;
mod reference;

use std::fs;
use std::os::unix::fs::{symlink, MetadataExt, PermissionsExt};
use std::os::unix::process::CommandExt;
use std::process::{Command, Stdio};

use desk::{busy, refused, run, Folder, NaiveDesk, BOOK_THERE, HELP, NO_BOOK};
use reference::blocks::seal;
use reference::books::{many, NaiveBook};
use reference::old::encode_old;
use reference::stored::encode;

/// Files that hold no book in either form, and the refusal of each.
fn broken_files() -> Vec<(Vec<u8>, u16)> {
    let (form, old) = (encode(&many(70, 70)), encode_old(&many(70, 70)));
    let mut files = vec![
        (vec![], 18),
        (vec![0; 7169], 18),
        (vec![0; 7680], 18),
        (vec![0; 1 << 20], 18),
        // Too long for the old form alone.
        (vec![0; 5632], 19),
        (vec![0; 512], 20),
    ];
    for form in [form, old] {
        let damaged = |at: usize| {
            let mut bytes = form.clone();
            bytes[at] ^= 1;
            bytes
        };
        files.push((form[..form.len() - 1].to_vec(), 18));
        files.push(([&form[..], b"\n"].concat(), 18));
        files.push((damaged(0), 19));
        files.push((damaged(form.len() - 1), 19));
        files.push((form[..1024].to_vec(), 20));
        // With right checks: a mark of neither form, a serial 0, equal ends.
        for at in [8, 512, 514] {
            let mut bytes = damaged(at);
            seal(&mut bytes);
            files.push((bytes, 20));
        }
    }
    files
}

#[test]
fn files_that_are_no_book() {
    let folder = Folder::new("files");
    let commands = "open 4 1\ngrant 0 1 0 0\npreview 0 1 0 0\npreview\nremove 1\nconfirm 1\nshow 1\nholder 0 0\ncount\nlist\npending\n\
revision\ngrant 0 1 0 0 1000\npreview 0 1 0 0 1000\nshow 1 1\nshow 1 1000\nholder 0 0 1\nholder 0 0 1000\n";
    let count = commands.lines().count();
    for (bytes, number) in broken_files() {
        let file = Some(bytes);
        folder.put("book", &file);
        assert_eq!(folder.answer(commands), refused(number).repeat(count));
        assert_eq!(NaiveDesk(file.clone()).answers("count\n"), refused(number));
        assert_eq!(folder.answer("\nhelp\n"), HELP, "no file is needed");
        assert_eq!(folder.bytes("book"), file, "the file stays");
        assert_eq!(folder.bytes("book.new"), None);
    }
}

/// What the program prints for a file of this name.
fn answer_on(folder: &Folder, name: &str, input: &str) -> String {
    let run = run(folder.program().arg(name), input.as_bytes(), 4096);
    assert!(run.status.success() && run.errors.is_empty());
    run.output
}

#[test]
fn files_that_cannot_be_read_or_made() {
    let folder = Folder::new("unread");
    let form = Some(encode(&many(70, 70)));
    folder.put("book", &form);
    fs::create_dir(folder.file("folder")).unwrap();
    let long = "x".repeat(253);
    let cases = [
        ("folder", "it is a folder"),
        ("book/book", "a part of the path is no folder"),
        (&"x".repeat(300), "the name is too long"),
    ];
    for (name, ground) in cases {
        let unread = format!("error {name} cannot be read: {ground}\n");
        assert_eq!(answer_on(&folder, name, "count\n"), unread);
        let (at, what) = match name {
            "folder" => (name.to_string(), "read"),
            _ => (format!("{name}.new"), "made"),
        };
        assert_eq!(
            answer_on(&folder, name, "open 4 1\n"),
            format!("error nothing was changed, since {at} cannot be {what}: {ground}\n")
        );
        assert_eq!(answer_on(&folder, name, "help\n"), HELP);
    }
    // Names that are not too long themselves, but with `.new` are.
    let deep = "x/".repeat(2046);
    let answer = answer_on(&folder, &deep, "open 4 1\n");
    assert!(answer.ends_with("/.new cannot be made: the name is too long\n"));
    assert_eq!(
        answer_on(&folder, &long, "open 4 1\ncount\n"),
        format!("error nothing was changed, since {long}.new cannot be made: the name is too long\n{NO_BOOK}")
    );
    assert_eq!(
        answer_on(&folder, "nowhere/book", "open 4 1\n"),
        "error nothing was changed, since nowhere/book.new cannot be made: no such file or folder\n"
    );
    assert_eq!(folder.bytes("book"), form);
    assert_eq!(fs::read_dir(folder.file("")).unwrap().count(), 2);
}

#[test]
fn arguments() {
    let folder = Folder::new("arguments");
    for names in [vec![], vec![""], vec!["book", "book"]] {
        let run = run(folder.program().args(names), b"open 4 1\n", 4096);
        assert_eq!(run.output, "usage: ringbook FILE\n");
    }
    let longer = "x/".repeat(3000);
    assert_eq!(
        answer_on(&folder, &longer, "open 4 1\n"),
        "error the name of the file is too long\n"
    );
    // A link would be replaced by a file, and its other name would lead to another book.
    folder.answer("open 4 1\n");
    let form = folder.bytes("book");
    symlink("book", folder.file("link")).unwrap();
    symlink("loop", folder.file("loop")).unwrap();
    for name in ["link", "loop"] {
        assert_eq!(
            answer_on(&folder, name, "grant 0 1 0 0\ncount\n"),
            "error the file is a link: name the file that it leads to\n"
        );
    }
    assert!(fs::symlink_metadata(folder.file("link"))
        .unwrap()
        .is_symlink());
    assert_eq!(folder.bytes("book"), form);
    // Names with folders, from the root and from here.
    fs::create_dir_all(folder.file("a/b")).unwrap();
    let whole = folder.file("a/b/c").to_str().unwrap().to_string();
    let sessions = [
        ("a/b/c", "opened 9 1\n"),
        ("./a//b/c", BOOK_THERE),
        (&whole, BOOK_THERE),
    ];
    for (name, want) in sessions {
        assert_eq!(answer_on(&folder, name, "open 9 1\n"), want);
    }
}

#[test]
fn a_folder_that_is_read_only() {
    // Root may write everywhere, so the program runs as nobody there, on copies that nobody can reach.
    let place = std::env::temp_dir().join(format!("ringbook-read-only-{}", std::process::id()));
    fs::create_dir_all(&place).unwrap();
    let binary = place.join("program");
    fs::copy(Folder::new("copied").program().get_program(), &binary).unwrap();
    let form = encode(&many(70, 70));
    fs::write(place.join("book"), &form).unwrap();
    let session = |input: &str| {
        let mut command = Command::new(&binary);
        command.arg("book").current_dir(&place);
        if fs::metadata(&place).unwrap().uid() == 0 {
            command.uid(65534).gid(65534);
        }
        run(&mut command, input.as_bytes(), 4096).output
    };
    let mode = |bits: u32| fs::set_permissions(&place, fs::Permissions::from_mode(bits)).unwrap();
    mode(0o555);
    let answers = session("count\ngrant 0 1 0 3\ncount\n");
    let names = fs::read_dir(&place).unwrap().count();
    mode(0o777);
    let found = fs::read(place.join("book")).unwrap();
    let later = session("grant 0 1 0 3\n");
    fs::remove_dir_all(&place).unwrap();
    assert_eq!(
        answers,
        "live 70 grants 70\nerror nothing was changed, since book.new cannot be made: permission denied\nlive 70 grants 70\n"
    );
    assert!(names == 2 && found == form);
    assert_eq!(later, "granted 71\n", "the same folder, writable");
}

#[test]
fn questions_leave_the_file_alone() {
    let folder = Folder::new("questions");
    folder.put("book", &Some(encode(&many(70, 90))));
    let inode = || fs::metadata(folder.file("book")).unwrap().ino();
    let before = inode();
    folder.answer(
        "show 1\nholder 0 0\ncount\nlist\npending\nrevision\ngrant 0 0 0 0\nopen 3 1\nno\n",
    );
    folder.answer("remove 80\nremove 0\nconfirm 91\nconfirm 1\nconfirm 80\n");
    folder.answer("show 1 7\nholder 0 0 7\ngrant 0 1 0 3 1000\npreview 0 1 0 3 7\n");
    folder.answer("preview 0 1 0 3\npreview 0 1 0 3, 0 1 0 3\npreview 0 0 0 0\npreview\n");
    assert_eq!(inode(), before);
    // A question waits for nobody.
    folder.put("book.new", &Some(vec![7]));
    assert_eq!(folder.answer("count\n"), "live 70 grants 90\n");
    assert_eq!(folder.answer("preview 0 1 0 3\n"), "would grant 91\n");
    assert_eq!(folder.answer("pending\n"), "");
    folder.put("book.new", &None);
    folder.answer("grant 0 1 0 3\n");
    assert_ne!(inode(), before);
}

#[test]
fn output_that_cannot_be_written_ends_the_program() {
    let folder = Folder::new("unsaid");
    let book = folder.file("book");
    let words = ["ringbook", book.to_str().unwrap()];
    let input = b"open 8 1\ngrant 0 1 0 0\ngrant 1 2 0 0\n";
    let said = programs::unwritable(&words, input);
    assert_eq!(said, "error the output cannot be written\n");
    let opened = NaiveBook::open(8, 1).unwrap();
    assert_eq!(folder.bytes("book"), Some(encode(&opened)), "and no more");
    // A pipe that nobody reads: a write to it fails as any other may.
    let mut child = programs::program(&words)
        .stdin(Stdio::piped())
        .stdout(Stdio::piped())
        .stderr(Stdio::piped())
        .spawn()
        .unwrap();
    drop(child.stdout.take());
    std::io::Write::write_all(&mut child.stdin.take().unwrap(), &input[9..]).unwrap();
    let ended = child.wait_with_output().unwrap();
    assert!(ended.status.success());
    assert_eq!(String::from_utf8(ended.stderr).unwrap(), said);
    assert_eq!(folder.answer("count\n"), "live 1 grants 1\n");
}

#[test]
fn input_that_cannot_be_read() {
    let folder = Folder::new("unheard");
    let book = folder.file("book");
    let [output, errors] = programs::unreadable(&["ringbook", book.to_str().unwrap()]);
    assert_eq!(output, "error the input cannot be read\n");
    assert_eq!(errors, "");
}

#[test]
fn a_file_of_that_name_already() {
    // A folder named FILE.new is there as much as a file is.
    let folder = Folder::new("named");
    let form = Some(encode(&many(70, 70)));
    folder.put("book", &form);
    fs::create_dir(folder.file("book.new")).unwrap();
    assert_eq!(folder.answer("grant 0 1 0 3\n"), busy("book"));
    assert_eq!(folder.bytes("book"), form);
    assert!(folder.file("book.new").is_dir());
}
