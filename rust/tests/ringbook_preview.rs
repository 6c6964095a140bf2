//! Bundles typed at program `ringbook`: what it says of them, and that it only reads.
mod desk;
mod reference;

use desk::{not_understood, refused, typed, typed_grant, Folder, NaiveDesk, NO_BOOK, TOO_LONG};
use reference::books::{many, NaiveBook};
use reference::draws::draw_bundle;
use reference::stored::encode;
use reference::Random;

/// Answers of a book of 256 nodes and 4 colours, with links 0 to 3 held in colour 0 and 7 grants so far.
const ANSWERS: [(&str, &str); 17] = [
    ("preview 7 8 0 0", "would grant 8"),
    ("preview 7 8 0 0, 8 9 0 0, 9 10 0 0", "would grant 8 9 10"),
    ("preview 7 8 0 0,8 9 0 0,9 10 0 0", "would grant 8 9 10"),
    (
        "  preview   7 8  0 0,   9 8 0 0,00009 10 00 0 ",
        "would grant 8 9 10",
    ),
    (
        "preview 7 9 0 0, 20 21 0 0, 8 10 0 0, 300 300 9 9",
        "would grant 8 9, line 2 refused 11 that colour is held on a link of the way",
    ),
    (
        "preview 7 8 0 0, 7 8 0 0",
        "would grant 8, line 1 refused 11 that colour is held on a link of the way",
    ),
    (
        "preview 4 3 0 0, 7 8 0 0",
        "would grant none, line 0 refused 11 that colour is held on a link of the way",
    ),
    (
        "preview 256 256 9 9",
        "would grant none, line 0 refused 4 an end is n or more",
    ),
    (
        "preview 0 255 1 0, 7 7 9 9",
        "would grant 8, line 1 refused 5 equal ends",
    ),
    (
        "preview 0 255 1 0, 7 8 2 9",
        "would grant 8, line 1 refused 9 way not 0 (plain) or 1 (seam)",
    ),
    (
        "preview 0 255 1 0, 7 8 0 4",
        "would grant 8, line 1 refused 10 colour w or more",
    ),
    ("preview 7 8 0 0 0", "would grant 8"),
    (
        "preview 7 8 0 0 999, 8 9 0 0,9 10 0 0 00001",
        "would grant 8 9 10",
    ),
    (
        "preview 7 8 0 0 7, 7 8 0 0 7",
        "would grant 8, line 1 refused 11 that colour is held on a link of the way",
    ),
    (
        "preview 7 8 0 0 7, 7 8 0 0 1000",
        "would grant 8, line 1 refused 26 crew above 999",
    ),
    (
        "preview 0 255 1 0, 7 8 0 4 65535",
        "would grant 8, line 1 refused 10 colour w or more",
    ),
    (
        "preview 0 1 0 0 1000",
        "would grant none, line 0 refused 26 crew above 999",
    ),
];

/// The answer to a line on a book, from a file that stays as it is, while another session writes.
fn answer_on(folder: &Folder, book: &NaiveBook, line: &str) -> String {
    let (form, new) = (Some(encode(book)), Some(vec![7]));
    folder.put("book", &form);
    folder.put("book.new", &new);
    let input = format!("{line}\n");
    let answer = folder.answer(&input);
    assert_eq!(answer, NaiveDesk(form.clone()).answers(&input));
    assert_eq!(folder.bytes("book"), form, "{line}");
    assert_eq!(folder.bytes("book.new"), new, "{line}");
    answer
}

#[test]
fn answers_in_words() {
    let folder = Folder::new("bundles");
    assert_eq!(
        folder.answer("preview\npreview 0 1 0 0\n"),
        NO_BOOK.repeat(2)
    );
    assert_eq!(folder.bytes("book"), None);
    for (line, answer) in ANSWERS {
        assert_eq!(answer_on(&folder, &many(4, 7), line), format!("{answer}\n"));
    }
    let line = "preview 20 21 0 3, 21 22 0 3 7, 22 23 0 3 999";
    for (book, answer) in [
        (many(510, 600), "would grant 601 602, line 2 refused 12"),
        (many(512, 600), "would grant none, line 0 refused 12"),
        (many(5, 65533), "would grant 65534 65535, line 2 refused 13"),
        (many(5, 65535), "would grant none, line 0 refused 13"),
    ] {
        let ground = match answer.ends_with("12") {
            true => "512 circuits are live or pending, and the book has no other place",
            false => "serial 65,535 has been given",
        };
        assert_eq!(
            answer_on(&folder, &book, line),
            format!("{answer} {ground}\n")
        );
    }
}

/// A line of so many bytes with its line feed, by spaces behind the name.
fn spaced(line: &str, length: usize) -> String {
    let spaces = " ".repeat(length - line.len());
    line.replacen(' ', &spaces, 1)
}

/// A bundle of so many lines that a book of `many` would grant, with all digits that a number may have.
fn long(count: usize) -> String {
    let line = |i: usize| format!("{:05} {:05} 00000 00003 00999", i + 1, i);
    let words: Vec<String> = (0..count).map(line).collect();
    format!("preview {}", words.join(", "))
}

#[test]
fn the_longest_bundle_and_answer() {
    let folder = Folder::new("bundled");
    let book = many(4, 65519);
    let serials: String = (65520..=65535).map(|serial| format!(" {serial}")).collect();
    let all = format!("would grant{serials}\n");
    assert_eq!(long(16).len(), 502);
    for line in [long(16), spaced(&long(16), 1023), spaced(&long(16), 1024)] {
        assert_eq!(answer_on(&folder, &book, &line), all);
    }
    assert_eq!(
        answer_on(&folder, &book, &spaced(&long(16), 1025)),
        TOO_LONG
    );
    let stopped = long(15) + ", 00000 00001 00000 00003 00999";
    assert_eq!(
        answer_on(&folder, &many(4, 65520), &stopped),
        all.replace(" 65520", "").replace('\n', ", line 15 ") + &refused(11)
    );
}

/// No line of too many is looked at, but each is read.
#[test]
fn too_many_lines() {
    let folder = Folder::new("crowded");
    let book = many(4, 7);
    let bad = [[65535; 5]; 17];
    let most = format!("preview {}", ["1 2 0 0"; 127].join(","));
    assert_eq!(most.len(), 1023);
    for line in [&long(17), &typed(&bad, ", "), &most] {
        assert_eq!(answer_on(&folder, &book, line), refused(22));
    }
    assert_eq!(
        answer_on(&folder, &book, &typed(&bad[..16], ", ")),
        format!("would grant none, line 0 {}", refused(4))
    );
    for broken in [
        long(16) + ",",
        long(16) + ", 1 2 0",
        long(16) + " 1",
        long(17) + " 1",
        most[..1021].to_string(),
    ] {
        assert_eq!(answer_on(&folder, &book, &broken), not_understood(&broken));
    }
}

#[test]
fn random_bundles_are_what_the_grants_say() {
    let mut random = Random::new(13);
    let (mut bundles, mut grants) = (0, 0);
    for (n, w) in [(5, 2), (16, 4), (200, 100)] {
        let folder = Folder::new("tried");
        let mut naive = NaiveDesk::of(&NaiveBook::open(n, w).unwrap());
        folder.put("book", &naive.bytes());
        for _ in 0..8 {
            let (mut input, mut want) = (String::new(), String::new());
            for _ in 0..20 {
                let lines = draw_bundle(&mut random, n, w);
                let line = typed(&lines, [",", ", "][random.below(2) as usize]) + "\n";
                want += &naive.answers(&line);
                input += &line;
                bundles += 1;
                if random.below(10) > 0 {
                    continue;
                }
                for asked in lines {
                    let line = format!("grant {}\n", typed_grant(asked, false));
                    want += &naive.answers(&line);
                    input += &line;
                    grants += 1;
                }
            }
            assert_eq!(folder.answer(&input), want);
            assert_eq!(folder.bytes("book"), naive.bytes());
            assert_eq!(folder.bytes("book.new"), None);
        }
    }
    println!("{bundles} bundles typed, and {grants} grants between them");
}
