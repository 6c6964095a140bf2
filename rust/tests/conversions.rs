//! Conversions from the old form and back to it, against naive ones and there and back, into buffers of every kind.
mod files;
mod reference;

use files::{damage, number};
use reference::blocks::seal;
use reference::books::{NaiveBook, DESK};
use reference::draws::{draw_book, draw_grant, draw_old_book, draw_serial};
use reference::old::{convert, convert_back, encode_old, load_old, OLD};
use reference::stored::{encode, load, NEW};
use reference::tallies::Tally;
use reference::Random;
use ring_planner::{buffers, Book};

/// What a buffer holds that is not written.
const MARK: u8 = 0xA5;

/// Converts an old file and converts it back; what is behind the forms stays.
fn there_and_back(naive: &NaiveBook) {
    let (old, new) = (encode_old(naive), encode(naive));
    let mut buffer = [MARK; Book::MAX_LENGTH + 1];
    assert_eq!(number(buffers::convert(&old, &mut buffer)), Ok(new.len()));
    assert!(buffer[..new.len()] == new, "the new form");
    assert!(buffer[new.len()..].iter().all(|&byte| byte == MARK));
    let mut back = [MARK; Book::MAX_OLD_LENGTH + 1];
    let length = number(buffers::convert_back(&buffer[..new.len()], &mut back));
    assert_eq!(length, Ok(old.len()));
    assert!(back[..old.len()] == old, "the same old bytes");
    assert!(back[old.len()..].iter().all(|&byte| byte == MARK));
}

/// Nodes, colours, and how many orders are live, more or less: small books, and large ones.
const RUNS: [(u16, u16, usize); 10] = [
    (3, 1, 2),
    (4, 2, 3),
    (9, 3, 8),
    (20, 4, 20),
    (64, 8, 42),
    (64, 16, 63),
    (256, 16, 130),
    (256, 128, 260),
    (200, 128, 380),
    (256, 128, 511),
];

/// The next book: one order more, or one less, and now and then many grants later.
fn step(random: &mut Random, book: &mut NaiveBook, live: usize) {
    let above = book.live.len() > live;
    if random.below(4) == 0 || above {
        let serial = draw_serial(random, book);
        let _ = book.lapse(serial);
    }
    let mut asked = draw_grant(random, book.n, book.w);
    asked[4] = DESK;
    let _ = book.grant(asked);
    if random.below(64) == 0 {
        let room = (65535 - book.grants) / 8;
        book.grants += random.below(room as u64 + 1) as u16;
    }
}

#[test]
fn a_hundred_thousand_there_and_back() {
    let mut random = Random::new(29);
    let (mut conversions, mut sizes) = (0, 0);
    for (n, w, live) in RUNS {
        for _ in 0..10 {
            let mut book = draw_old_book(&mut random, n, w, live / 2);
            for _ in 0..1000 {
                step(&mut random, &mut book, live);
                there_and_back(&book);
                sizes += book.live.len();
                conversions += 1;
            }
        }
    }
    let mean = sizes / conversions;
    println!("{conversions} conversions there and back, of {mean} circuits in the mean");
}

/// A file to convert: of either form, of a book with marks or without, whole or damaged.
fn draw_file(random: &mut Random) -> Vec<u8> {
    let records = random.below(90) as usize;
    let naive = match random.below(2) {
        0 => draw_old_book(random, 64, 16, records),
        _ => draw_book(random, 64, 16, records),
    };
    let old = naive.has_old_form() && random.below(2) == 0;
    let (mut bytes, layout) = match old {
        true => (encode_old(&naive), OLD),
        false => (encode(&naive), NEW),
    };
    if random.below(8) == 0 {
        damage(random, &layout, &mut bytes);
        if random.below(2) == 0 {
            seal(&mut bytes);
        }
        bytes.truncate(bytes.len() - random.below(2) as usize);
    }
    bytes
}

/// Every refusal in its order, and what is lent stays as it is.
#[test]
fn into_buffers_of_every_size() {
    let mut random = Random::new(30);
    let mut tally = Tally::default();
    for _ in 0..1500 {
        let bytes = draw_file(&mut random);
        let sizes = [0, 511, 512, 1023, 1024, 1535, 1536, 2048, 5120, 7168];
        let drawn = random.below(8000) as usize;
        for size in sizes
            .into_iter()
            .chain([drawn, bytes.len(), bytes.len() + 511])
        {
            let before: Vec<u8> = (0..size).map(|_| random.below(256) as u8).collect();
            let (mut buffer, mut copy) = (before.clone(), before.clone());
            let got = buffers::convert(&bytes, &mut buffer);
            tally.agree("convert", got, convert(&bytes, &mut copy));
            assert!(buffer == copy && (got.is_ok() || buffer == before));
            let (mut buffer, mut copy) = (before.clone(), before.clone());
            let got = buffers::convert_back(&bytes, &mut buffer);
            tally.agree("convert back", got, convert_back(&bytes, &mut copy));
            assert!(buffer == copy && (got.is_ok() || buffer == before));
        }
    }
    tally.report(
        "conversions",
        &[
            ("convert", &[0, 17, 18, 19, 20]),
            ("convert back", &[0, 17, 18, 19, 20, 27]),
        ],
    );
}

/// A book of 8 nodes with six circuits of the desk.
fn six_orders() -> NaiveBook {
    let mut book = NaiveBook::open(8, 1).unwrap();
    for i in 0..6 {
        book.grant([i, i + 1, 0, 0, DESK]).unwrap();
    }
    book
}

/// 27 comes before 17, for a pending record, for a crew, and for both.
#[test]
fn a_single_mark() {
    for serial in 1..=6 {
        let mut pending = six_orders();
        pending.remove(serial).unwrap();
        let mut crewed = six_orders();
        crewed.crews.insert(serial, 1 + 998 * (serial % 2));
        let mut both = pending.clone();
        both.crews.insert(serial, 7);
        for book in [pending, crewed, both] {
            let form = encode(&book);
            for size in [0, 1023, 1024, 5120] {
                let mut buffer = vec![MARK; size];
                let back = number(buffers::convert_back(&form, &mut buffer));
                assert_eq!(back, Err(27));
                assert!(buffer.iter().all(|&byte| byte == MARK));
            }
            let loaded = Book::from_bytes(&form, 0).unwrap();
            assert_eq!(number(loaded.to_old()), Err(27));
        }
    }
}

/// A book whose marks are gone has an old form again; in too short a buffer 17 comes, there and back.
#[test]
fn marks_that_are_gone() {
    let mut book = six_orders();
    book.grant([6, 7, 0, 0, 5]).unwrap();
    book.lapse(7).unwrap();
    book.lapse(2).unwrap();
    let loaded = Book::from_bytes(&encode(&book), book.revision()).unwrap();
    let old = loaded.to_old().unwrap();
    assert_eq!(old, encode_old(&book));
    assert_eq!(load_old(&old), Ok(book));
    assert_eq!(Book::from_old(&old).as_ref(), Ok(&loaded));
    for size in [0, 512, 1023] {
        let mut buffer = vec![MARK; size];
        let back = number(buffers::convert_back(loaded.bytes(), &mut buffer));
        let there = number(buffers::convert(&old, &mut buffer));
        assert_eq!([back, there], [Err(17), Err(17)]);
        assert!(buffer.iter().all(|&byte| byte == MARK));
    }
}

/// A file of the one form, whole as it is, is none of the other.
#[test]
fn each_form_in_the_load_of_the_other() {
    let mut random = Random::new(31);
    let mut tried = 0;
    for records in (0..512)
        .step_by(7)
        .chain([41, 42, 43, 62, 63, 64, 420, 421, 512])
    {
        let old = encode_old(&draw_old_book(&mut random, 256, 128, records));
        assert_eq!(load(&old, 0), Err(20));
        assert_eq!(number(Book::from_bytes(&old, 0)).unwrap_err(), 20);
        assert_eq!(number(buffers::load(&old, u32::MAX)), Err(20));
        let new = encode(&draw_book(&mut random, 256, 128, records));
        let refused = if new.len() > 5120 { 18 } else { 20 };
        assert_eq!(load_old(&new), Err(refused), "{records} records");
        assert_eq!(number(Book::from_old(&new)).unwrap_err(), refused);
        tried += 2;
    }
    println!("{tried} files of the one form refused by the load of the other");
}
