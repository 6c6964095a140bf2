//! The charges that the tool `rings` prints, against a naive reader of its text and a second computation: on books in both stored forms,
//! on every way of breaking the text, at its limits, and where files fail.
mod desk;
mod programs;
mod reference;

use desk::{refused, Folder};
use reference::books::{many, NaiveBook, DESK};
use reference::charges::{charge, charge_all, draw_lengths, draw_rates, tariff};
use reference::draws::{draw_book, draw_old_book};
use reference::old::{encode_old, load_old};
use reference::stored::{encode, load};
use reference::Random;

/// What the program prints for a book's file and a text that comes in pieces.
fn output(folder: &Folder, text: &[u8], piece: usize) -> String {
    let file = folder.file("book");
    programs::output(&["rings", "charges", file.to_str().unwrap()], text, piece)
}

/// A number of 1 to 10 digits up to 4,294,967,295.
fn number(field: &str) -> Option<u32> {
    let digits = field.bytes().all(|b| b.is_ascii_digit()) && (1..=10).contains(&field.len());
    digits.then(|| field.parse().ok()).flatten()
}

/// The rates and the lengths of a text, if it is of the stated form.
fn says(text: &[u8]) -> Option<(Vec<u32>, Vec<u32>)> {
    let text = std::str::from_utf8(text)
        .ok()
        .filter(|text| text.len() <= 8192)?;
    let mut lines = text.strip_suffix('\n')?.split('\n');
    let rates: Option<Vec<u32>> = lines.next()?.split(' ').map(number).collect();
    let lengths: Option<Vec<u32>> = lines.map(number).collect();
    Some((rates.filter(|rates| rates.len() == 3)?, lengths?))
}

/// The book of a file in either form.
fn book_in(bytes: &[u8]) -> Result<NaiveBook, u16> {
    load(bytes, 0).or_else(|number| load_old(bytes).map_err(|_| number))
}

/// What the rules ask for: the number of a refusal, or the lines.
fn expected(bytes: &[u8], text: &[u8]) -> Result<String, u16> {
    let (rates, lengths) = says(text).ok_or(21u16)?;
    let book = book_in(bytes)?;
    tariff(book.n, &lengths, &rates)?;
    let mut lines = String::new();
    for &serial in book.live.keys() {
        let cents = charge(&book, serial, &lengths, &rates)?;
        lines += &format!("{serial} {cents}\n");
    }
    let total = charge_all(&book, &lengths, &rates)?;
    Ok(lines + &format!("total {total}\n"))
}

/// The text that says rates and lengths.
fn text(rates: &[u32], lengths: &[u32]) -> Vec<u8> {
    let rates: Vec<String> = rates.iter().map(u32::to_string).collect();
    let lengths: String = lengths.iter().map(|l| format!("{l}\n")).collect();
    format!("{}\n{lengths}", rates.join(" ")).into_bytes()
}

/// The program agrees with the rules; gives the number of the refusal, or 0.
fn agree(folder: &Folder, bytes: &[u8], text: &[u8], piece: usize) -> u16 {
    folder.put("book", &Some(bytes.to_vec()));
    let want = expected(bytes, text);
    let got = output(folder, text, piece);
    let shown = String::from_utf8_lossy(text);
    assert_eq!(got, want.clone().unwrap_or_else(refused), "{shown:?}");
    want.err().unwrap_or(0)
}

/// The book of the rules' example: order 1 on link 0 of three, order 2 on the two others.
fn example() -> NaiveBook {
    let mut book = NaiveBook::open(3, 2).unwrap();
    book.grant([0, 1, 0, 0, 7]).unwrap();
    book.grant([0, 1, 1, 1, DESK]).unwrap();
    book
}

const TEXT: &[u8] = b"30 20 10\n60000\n30000\n30001\n";

#[test]
fn the_example_whole_and_piece_by_piece() {
    let folder = Folder::new("charges_example");
    folder.put("book", &Some(encode(&example())));
    for piece in [1, 3, 4096] {
        assert_eq!(output(&folder, TEXT, piece), "1 1700\n2 1701\ntotal 3401\n");
    }
    let mut removed = example();
    removed.remove(1).unwrap();
    folder.put("book", &Some(encode(&removed)));
    assert_eq!(output(&folder, TEXT, 64), "2 1701\ntotal 1701\n");
    folder.put("book", &Some(encode(&NaiveBook::open(3, 1).unwrap())));
    assert_eq!(output(&folder, TEXT, 64), "total 0\n");
}

/// The session and the sample that README.md shows.
#[test]
fn the_sample_on_the_book_of_a_session() {
    let folder = Folder::new("charges_sample");
    folder.answer(
        "open 8 2\ngrant 0 3 0 0\ngrant 3 6 0 0\ngrant 1 2 1 1\nremove 2\nconfirm 2\ngrant 3 6 0 0 12\n",
    );
    let sample = concat!(env!("CARGO_MANIFEST_DIR"), "/../samples/tariff.txt");
    assert_eq!(
        output(&folder, &std::fs::read(sample).unwrap(), 4096),
        "1 1700\n3 4501\n4 1701\ntotal 7902\n"
    );
}

#[test]
fn drawn_books_in_both_forms() {
    let folder = Folder::new("charges_drawn");
    let mut random = Random::new(91);
    let mut answers = std::collections::BTreeMap::new();
    for (n, w, records) in [(3, 1, 1), (9, 3, 8), (64, 16, 100), (256, 128, 512)] {
        for round in 0..60 {
            let bytes = match round % 3 {
                0 => encode_old(&draw_old_book(&mut random, n, w, records)),
                _ => encode(&draw_book(&mut random, n, w, records)),
            };
            let mut rates = draw_rates(&mut random);
            rates.resize(3, 0);
            let lengths = draw_lengths(&mut random, n);
            let number = agree(&folder, &bytes, &text(&rates, &lengths), 4096);
            *answers.entry(number).or_insert(0) += 1;
        }
    }
    assert!([0, 29, 30].iter().all(|number| answers[number] > 0));
    println!("240 books charged by the program alike, or refused alike");
}

#[test]
fn every_changed_byte_is_answered_by_the_form() {
    let folder = Folder::new("charges_form");
    let bytes = encode(&example());
    let (mut broken, mut read) = (0, 0);
    let mut compare = |text: &[u8]| match agree(&folder, &bytes, text, 4096) {
        21 => broken += 1,
        _ => read += 1,
    };
    for at in 0..TEXT.len() {
        compare(&TEXT[..at]);
        let mut without = TEXT.to_vec();
        without.remove(at);
        compare(&without);
        for byte in *b" \n\r\t05x-" {
            let mut with = TEXT.to_vec();
            with[at] = byte;
            compare(&with);
            with = TEXT.to_vec();
            with.insert(at, byte);
            compare(&with);
        }
    }
    for behind in ["\n", "1", "1\n", "1 1\n", " "] {
        compare(&[TEXT, behind.as_bytes()].concat());
    }
    for length in [
        "4294967295",
        "4294967296",
        "0000000001",
        "00000000001",
        "9999999999",
        "1000000",
        "1000001",
    ] {
        compare(format!("30 20 10\n1\n{length}\n1\n").as_bytes());
        compare(format!("30 {length} 10\n1\n1\n1\n").as_bytes());
    }
    println!("{broken} texts of charges refused by their form alike, {read} read alike");
}

#[test]
fn limits_of_the_text_and_of_the_book() {
    let folder = Folder::new("charges_limits");
    let bytes = encode(&many(512, 65_535));
    let longest = text(&[100_000; 3], &[1_000_000; 256]);
    assert_eq!(agree(&folder, &bytes, &longest, 4096), 0);
    let padded = |length: usize| {
        // Lines of one digit, the first of two where an odd number of bytes is left.
        let mut text = b"0 0 0\n".to_vec();
        if (length - text.len()) % 2 == 1 {
            text.extend(b"01\n");
        }
        while text.len() < length {
            text.extend(b"1\n");
        }
        text
    };
    assert_eq!(agree(&folder, &bytes, &padded(8192), 4096), 29);
    assert_eq!(agree(&folder, &bytes, &padded(8192), 1), 29, "in bytes");
    assert_eq!(agree(&folder, &bytes, &padded(8193), 4096), 21);
    assert_eq!(agree(&folder, &bytes, &padded(100_000), 4096), 21);
    // 21 comes before what is wrong with the file, and that before 29.
    assert_eq!(agree(&folder, b"", b"0 0\n", 64), 21);
    assert_eq!(agree(&folder, b"", b"0 0 0\n", 64), 18);
    let longer = [&bytes[..], &[0; 512]].concat();
    assert_eq!(agree(&folder, &longer, &longest, 4096), 18);
    let mut changed = bytes.clone();
    changed[700] ^= 1;
    assert_eq!(agree(&folder, &changed, b"0 0 0\n", 64), 19);
    assert_eq!(agree(&folder, &[0; 512], b"0 0 0\n", 64), 20);
}

#[test]
fn failures_are_said() {
    let folder = Folder::new("charges_failures");
    folder.put("book", &Some(encode(&example())));
    let file = folder.file("book");
    let words = ["rings", "charges", file.to_str().unwrap()];
    let cannot_read = "error the input cannot be read\n".to_string();
    assert_eq!(
        programs::unreadable(&words),
        [String::new(), cannot_read.clone()]
    );
    assert_eq!(
        programs::unwritable(&words, TEXT),
        "error the output cannot be written\n"
    );
    let (printed, said) = programs::outputs(&["rings", "charges", "/"], TEXT, 64);
    assert!(printed.is_empty());
    assert_eq!(said, cannot_read);
    let (printed, said) = programs::outputs(&["rings", "charges", "no such file"], TEXT, 64);
    assert!(printed.is_empty());
    assert_eq!(said, "no such file: No such file or directory\n");
}
