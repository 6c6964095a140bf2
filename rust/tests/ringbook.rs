//! Commands to program `ringbook`: every command and refusal, and lines as people type them.
mod desk;
mod reference;

use desk::{
    not_understood, refused, run, Folder, NaiveDesk, BOOK_THERE, HELP, NO_BOOK, TOO_LONG,
    UNFINISHED,
};
use reference::books::many;
use reference::stored::encode;

/// Every command.
#[rustfmt::skip]
const SESSION: [(&str, &str); 55] = [
    ("count", "error there is no book yet (open N W begins one)"),
    ("confirm 1", "error there is no book yet (open N W begins one)"),
    ("pending", "error there is no book yet (open N W begins one)"),
    ("revision", "error there is no book yet (open N W begins one)"),
    ("preview 0 2 0 0", "error there is no book yet (open N W begins one)"),
    ("grant 0 2 0 0 1000", "error there is no book yet (open N W begins one)"),
    ("open 4 1", "opened 4 1"),
    ("revision", "revision 0"),
    ("open 4 1", "error there is a book in the file already"),
    ("grant 0 2 0 0", "granted 1"),
    ("grant 3 2 0 0 0", "granted 2"),
    ("revision", "revision 2"),
    ("preview 0 3 1 0", "would grant 3"),
    ("preview 0 3 1 0 7", "would grant 3"),
    ("preview 3 0 1 0, 0 3 1 0 0, 9 9 9 9", "would grant 3, line 1 refused 11 that colour is held on a link of the way"),
    ("preview 3 0 1 0 999, 0 3 1 0 1000, 9 9 9 9", "would grant 3, line 1 refused 26 crew above 999"),
    ("preview 4 0 0 0", "would grant none, line 0 refused 4 an end is n or more"),
    ("preview", "refused 22 no line or more than 16"),
    ("grant 3 0 1 0 1000", "refused 26 crew above 999"),
    ("grant 1 3 0 0 7", "refused 11 that colour is held on a link of the way"),
    ("holder 2 0", "held 2"),
    ("holder 2 0 0", "held 2"),
    ("holder 2 0 7", "held"),
    ("holder 2 0 1000", "refused 26 crew above 999"),
    ("holder 3 0", "free"),
    ("holder 3 0 7", "free"),
    ("show 2", "circuit 2 3 P 0"),
    ("show 2 7", "refused 14 serial 0 or never given"),
    ("show 2 1000", "refused 26 crew above 999"),
    ("list", "order 1 0 2 P 0\norder 2 2 3 P 0"),
    ("remove 3", "refused 14 serial 0 or never given"),
    ("confirm 1", "refused 23 the circuit is live"),
    ("confirm 3", "refused 14 serial 0 or never given"),
    ("pending", ""),
    ("remove 1", "removed 1"),
    ("revision", "revision 3"),
    ("remove 1", "refused 15 removed"),
    ("show 1", "refused 15 removed"),
    ("pending", "order 1 0 2 P 0"),
    ("grant 0 1 0 0", "refused 11 that colour is held on a link of the way"),
    ("holder 0 0", "held 1"),
    ("confirm 1", "confirmed 1"),
    ("confirm 1", "refused 24 already confirmed"),
    ("revision", "revision 3"),
    ("holder 0 0", "free"),
    ("grant 3 0 1 0 7", "granted 3"),
    ("show 3", "circuit 0 3 S 0"),
    ("show 3 7", "circuit 0 3 S 0"),
    ("show 3 8", "refused 14 serial 0 or never given"),
    ("holder 3 0", "held 3"),
    ("holder 3 0 7", "held 3"),
    ("holder 3 0 8", "held"),
    ("list", "order 2 2 3 P 0\norder 3 0 3 S 0"),
    ("count", "live 2 grants 3"),
    ("revision", "revision 4"),
];

/// The lines, each with its line feed; an answer without a line is empty.
fn lines<'a>(words: impl Iterator<Item = &'a str>) -> String {
    words
        .filter(|line| !line.is_empty())
        .map(|line| format!("{line}\n"))
        .collect()
}

#[test]
fn every_command_in_pieces_of_every_size() {
    let input = lines(SESSION.iter().map(|(command, _)| *command));
    let want = lines(SESSION.iter().map(|(_, answer)| *answer));
    let mut naive = NaiveDesk::default();
    assert_eq!(naive.answers(&input), want);
    for piece in [1, 2, 7, 4096] {
        let folder = Folder::new("commands");
        let run = run(folder.program().arg("book"), input.as_bytes(), piece);
        assert_eq!((run.output, run.errors), (want.clone(), String::new()));
        assert!(run.status.success());
        assert_eq!(folder.bytes("book"), naive.bytes());
        assert_eq!(folder.bytes("book.new"), None);
        assert_eq!(
            folder.answer("show 3\nopen 3 1\n"),
            format!("circuit 0 3 S 0\n{BOOK_THERE}")
        );
    }
}

/// Refused where there is no book yet.
const WITHOUT_BOOK: [(&str, u16); 4] = [
    ("open 2 0", 1),
    ("open 257 1", 1),
    ("open 3 0", 2),
    ("open 3 129", 2),
];

/// Refused by a book of 256 nodes, 4 colours, 512 live circuits and 600 grants so far: the file no longer has orders 513 to 600.
#[rustfmt::skip]
const FULL_BOOK: [(&str, u16); 40] = [
    ("grant 256 256 2 4", 4), ("grant 256 256 2 4 1000", 4),
    ("grant 7 7 2 4", 5), ("grant 7 7 2 4 1000", 5),
    ("grant 7 8 2 4", 9), ("grant 7 8 2 4 1000", 9),
    ("grant 7 8 0 4", 10), ("grant 7 8 0 4 1000", 10),
    ("grant 7 8 0 0 1000", 26), ("grant 0 255 1 3 65535", 26),
    ("grant 7 8 0 0", 11), ("grant 7 8 0 0 999", 11),
    ("grant 0 255 1 3", 12), ("grant 0 255 1 3 999", 12),
    ("preview", 22),
    ("remove 0", 14), ("remove 601", 14), ("remove 600", 15), ("remove 513", 15),
    ("confirm 0", 14), ("confirm 601", 14), ("confirm 65535", 14), ("confirm 1", 23), ("confirm 512", 23),
    ("confirm 513", 24), ("confirm 600", 24),
    ("show 0", 14), ("show 65535", 14), ("show 513", 15),
    ("show 0 1", 14), ("show 512 1", 14), ("show 513 999", 14), ("show 0 1000", 26), ("show 512 65535", 26),
    ("holder 256 4", 16), ("holder 255 4", 10),
    ("holder 256 4 999", 16), ("holder 255 4 999", 10), ("holder 256 4 1000", 26), ("holder 0 0 1000", 26),
];

#[test]
fn every_refusal() {
    let folder = Folder::new("refusals");
    for (command, number) in WITHOUT_BOOK {
        assert_eq!(
            folder.answer(&format!("{command}\ncount\n")),
            refused(number) + NO_BOOK
        );
        assert_eq!(folder.bytes("book"), None);
        assert_eq!(folder.bytes("book.new"), None);
    }
    let form = Some(encode(&many(512, 600)));
    folder.put("book", &form);
    for (command, number) in FULL_BOOK {
        assert_eq!(
            folder.answer(&format!("{command}\n")),
            refused(number),
            "{command}"
        );
        assert_eq!(folder.bytes("book"), form, "a refusal changes nothing");
        assert_eq!(folder.bytes("book.new"), None);
    }
    assert_eq!(
        folder.answer("list\n"),
        NaiveDesk::of(&many(512, 600)).answers("list\n")
    );
    println!("{} refusals by text", WITHOUT_BOOK.len() + FULL_BOOK.len());
}

/// Answers of a book with 65,534 grants so far, one after another.
#[rustfmt::skip]
const LATE_BOOK: [(&str, &str); 10] = [
    ("grant 7 8 0 0 1", "granted 65535"),
    ("grant 8 9 0 0", "refused 13 serial 65,535 has been given"),
    ("grant 8 9 0 0 999", "refused 13 serial 65,535 has been given"),
    ("grant 8 9 0 0 1000", "refused 26 crew above 999"),
    ("revision", "revision 131064"),
    ("confirm 65535", "refused 23 the circuit is live"),
    ("confirm 65534", "refused 24 already confirmed"),
    ("remove 65535", "removed 65535"),
    ("revision", "revision 131065"),
    ("count", "live 5 grants 65535"),
];

#[test]
fn a_late_book() {
    let folder = Folder::new("late");
    folder.put("book", &Some(encode(&many(5, 65534))));
    for (command, want) in LATE_BOOK {
        let answer = folder.answer(&format!("{command}\n"));
        assert_eq!(answer, format!("{want}\n"), "{command}");
    }
}

/// Lines that are no command.
#[rustfmt::skip]
const BROKEN: [&str; 64] = [
    "Count", "count 1", "counts", "show", "show ", "show 1 1 1", "show 000001", "show 65536", "show 99999",
    "show 100000", "show -1", "show +1", "show 1a", "show 0x1", "show\t1", "show 1\r", "show 1\0",
    "show \u{663}", "sh ow 1", "open 4", "open 4 1 1", "grant 0 1 0", "grant 0 1 0 0 0 0", "grant 0 1 P 0",
    "remove", "holder 1", "holder 1 1 1 1", "help me", "lists", "\t", "close", "previews", "preview 1", "preview 1 2 0",
    "confirm", "confirm 1 1", "confirm1", "confirmed 1", "pending 1", "pendings", "Pending",
    "revision 1", "revisions", "Revision",
    "preview 1 2 0 0 0 0", "preview ,", "preview 1 2 0 0,", "preview ,1 2 0 0", "preview 1 2 0 0, 2 3 0",
    "preview 1 2 0 0,,2 3 0 0", "preview 1 2 0 0 , 2 3 0 0", "preview 1 2 0 0 2 3 0 0", "preview 1,2,0,0",
    "preview 1 2 0 0, 2 3 0 65536", "preview,1 2 0 0",
    "remove 1 1", "show 1 65536", "show 1 -1", "show 1, 1", "holder 0 0 000001", "grant 0 1 0 0 desk", "grant 0 1 0 0, 1",
    "preview 1 2 0 0 0, 2 3 0 0 0 0", "preview 1 2 0 0 65536",
];

#[test]
fn lines_that_are_no_command() {
    let long = ["show 1".repeat(150), "9".repeat(1023)];
    let around = (55..75).map(|length| format!("show {:0>length$}", 1));
    let all: Vec<String> = BROKEN
        .iter()
        .map(|line| line.to_string())
        .chain(long)
        .chain(around)
        .collect();
    let folder = Folder::new("unreadable");
    let input = format!("open 4 1\n{}\ngrant 00000 00002 0 000\n", all.join("\n"));
    let want = format!(
        "opened 4 1\n{}granted 1\n",
        all.iter().map(|l| not_understood(l)).collect::<String>()
    );
    assert_eq!(folder.answer(&input), want);
    let mut naive = NaiveDesk::default();
    assert_eq!(naive.answers(&input), want);
    assert_eq!(folder.bytes("book"), naive.bytes());
    assert_eq!(
        not_understood("show  1 and more"),
        "error not understood: show 1 and more (help lists the commands)\n"
    );
    println!("{} lines that are no command", all.len());
}

#[test]
fn as_people_type() {
    let folder = Folder::new("typed");
    assert_eq!(folder.answer(""), "");
    assert_eq!(folder.answer("\n\n   \n"), "");
    assert_eq!(folder.bytes("book"), None);
    assert_eq!(folder.answer("help\n  help  \n"), HELP.repeat(2));
    assert_eq!(
        folder.answer("  open   4  1 \n\ngrant 0  2 0   0\n count\nlist \n"),
        "opened 4 1\ngranted 1\nlive 1 grants 1\norder 1 0 2 P 0\n"
    );
    assert_eq!(
        folder.answer("show 00001\nshow 65535\n"),
        format!("circuit 0 2 P 0\n{}", refused(14))
    );
    let names: Vec<&str> = HELP.lines().map(|l| l.split(' ').next().unwrap()).collect();
    assert_eq!(
        names.join(" "),
        "open grant preview remove confirm show holder count revision list pending help"
    );
}

#[test]
fn lines_without_end_and_long_lines() {
    let folder = Folder::new("long");
    folder.answer("open 4 1\n");
    let form = folder.bytes("book");
    for input in ["grant 0 1 0 0", "c", " ", "open 4 1", "grant 0 1 0 0\r"] {
        assert_eq!(folder.answer(input), UNFINISHED, "{input:?}");
    }
    assert_eq!(folder.answer("count\ngrant 0 1 0 0").lines().count(), 2);
    assert_eq!(folder.bytes("book"), form, "half a line changes nothing");
    // Spaces count as one: the longest line that is obeyed has 1,024 bytes with its line feed.
    let spaced = |length: usize| format!("count{}\n", " ".repeat(length - 6));
    for length in [1000, 1023, 1024] {
        assert_eq!(folder.answer(&spaced(length)), "live 0 grants 0\n");
    }
    for length in [1025, 1026, 2048, 4096, 5000, 100_000] {
        let input = spaced(length) + "count\n";
        assert_eq!(
            folder.answer(&input),
            format!("{TOO_LONG}live 0 grants 0\n")
        );
        assert_eq!(
            folder.answer(&format!("grant 0 1 0 0{}", " ".repeat(length))),
            TOO_LONG
        );
    }
    let both = "remove 1".repeat(200) + "\ngrant 0 1 0 0\nlist";
    assert_eq!(
        folder.answer(&both),
        format!("{TOO_LONG}granted 1\n{UNFINISHED}")
    );
}
