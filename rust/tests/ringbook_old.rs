//! Files in the old form at program `ringbook`: they are read as they are, and the first change writes the new form.
mod desk;
mod reference;

use std::fs;
use std::os::unix::fs::MetadataExt;

use desk::{Folder, NaiveDesk};
use reference::books::{many, NaiveBook};
use reference::draws::draw_old_book;
use reference::old::{encode_old, load_old};
use reference::stored::{encode, load};
use reference::Random;

/// Questions, and changes that every book refuses; all orders of the desk.
const QUESTIONS: &str = "count\nlist\npending\nrevision\nshow 1\nshow 1 7\nholder 0 0\nholder 0 0 7\npreview 0 1 0 0, 0 2 1 0 7\n\
open 4 1\ngrant 0 0 0 0\ngrant 0 1 0 0 1000\nremove 0\nremove 65535\nconfirm 0\nhelp\nnonsense\n";

/// A folder with a file in the old form, and the desk that it is.
fn desk(folder: &Folder, book: &NaiveBook) -> NaiveDesk {
    let file = Some(encode_old(book));
    folder.put("book", &file);
    NaiveDesk(file)
}

/// Books of every length of the old form.
fn books() -> Vec<NaiveBook> {
    let mut random = Random::new(34);
    let mut all: Vec<NaiveBook> = [0, 1, 42, 43, 63, 64, 130, 421, 511]
        .map(|live| draw_old_book(&mut random, 256, 128, live))
        .into();
    all.extend([NaiveBook::open(3, 1).unwrap(), many(70, 65534)]);
    all
}

#[test]
fn questions_leave_an_old_file_as_it_is() {
    let folder = Folder::new("old-questions");
    for book in books() {
        let mut naive = desk(&folder, &book);
        let inode = || fs::metadata(folder.file("book")).unwrap().ino();
        let before = inode();
        assert_eq!(folder.answer(QUESTIONS), naive.answers(QUESTIONS));
        assert_eq!(folder.bytes("book"), Some(encode_old(&book)));
        assert_eq!(inode(), before, "the same file");
        // The same book in the new form is answered alike.
        folder.put("book", &Some(encode(&book)));
        assert_eq!(folder.answer(QUESTIONS), naive.answers(QUESTIONS));
    }
}

/// Each kind of change that an old file can meet: a confirmation finds nothing that is pending.
#[test]
fn the_first_change_writes_the_new_form() {
    let folder = Folder::new("old-changes");
    let mut changed = 0;
    for book in books() {
        let some = book
            .live
            .keys()
            .nth(book.live.len() / 2)
            .copied()
            .unwrap_or(0);
        let (n, w) = (book.n, book.w);
        for line in [
            format!("remove {some}\n"),
            format!("grant {} {} 0 {}\n", n - 2, n - 1, w - 1),
            format!("grant {} {} 0 {} 999\n", n - 2, n - 1, w - 1),
            format!("confirm {some}\n"),
        ] {
            let mut naive = desk(&folder, &book);
            assert_eq!(folder.answer(&line), naive.answer(&line), "{line}");
            assert_eq!(folder.bytes("book"), naive.bytes(), "{line}");
            let bytes = folder.bytes("book").unwrap();
            match load_old(&bytes) {
                Ok(same) => assert_eq!(same, book, "{line}"),
                Err(_) => {
                    let after = load(&bytes, book.revision() + 1).unwrap();
                    assert_eq!(Some(after), naive.book());
                    changed += 1;
                }
            }
            // The session that follows goes on from there.
            let rest = format!("confirm {some}\nrevision\ncount\n");
            assert_eq!(folder.answer(&rest), naive.answers(&rest));
            assert_eq!(folder.bytes("book"), naive.bytes());
        }
    }
    assert!(changed > 20, "{changed}");
    println!("{changed} files of the old form became new ones at the first change");
}
