//! Every ground of refusal 20 in the stored form, alone, in files whose numbers and checks are right, as the naive loader has it.
mod files;
mod reference;

use files::{same_book, verdict};
use reference::blocks::{put, seal, word};
use reference::books::NaiveBook;
use reference::draws::draw_book;
use reference::stored::{encode, load};
use reference::Random;
use ring_planner::{Book, Circuit, Way};

/// A file of 50 records, live and pending: 42 of them in the first later block, and 8 in the second.
struct File {
    naive: NaiveBook,
    bytes: Vec<u8>,
}

/// The first and the last record of each block.
const PLACES: [usize; 4] = [0, 41, 42, 49];

/// Where a record stands.
fn place(record: usize) -> usize {
    512 * (1 + record / 42) + 12 * (record % 42)
}

impl File {
    fn new(seed: u64) -> File {
        let naive = draw_book(&mut Random::new(seed), 200, 20, 50);
        let few = |count: usize| count < 5;
        assert!(!few(naive.live.len()) && !few(naive.pending.len()) && !few(naive.crews.len()));
        let bytes = encode(&naive);
        assert_eq!((bytes.len(), verdict(&bytes)), (1536, None));
        File { naive, bytes }
    }

    /// The verdict on the file after an edit, with its checks put right: both loaders'.
    fn after(&self, edit: impl FnOnce(&mut Vec<u8>)) -> Option<u16> {
        let mut bytes = self.bytes.clone();
        edit(&mut bytes);
        seal(&mut bytes);
        let want = load(&bytes, 0);
        assert_eq!(verdict(&bytes), want.as_ref().err().copied());
        if let Ok(naive) = &want {
            same_book(&Book::from_bytes(&bytes, 0).unwrap(), naive);
        }
        want.err()
    }

    /// The same with a number put to a position.
    fn with(&self, at: usize, number: u16) -> Option<u16> {
        self.after(|bytes| put(bytes, at, number))
    }

    /// The same with a byte put to a position.
    fn with_byte(&self, at: usize, byte: u8) -> Option<u16> {
        self.after(|bytes| bytes[at] = byte)
    }
}

#[test]
fn the_mark_of_the_form() {
    let file = File::new(21);
    for byte in 0..=255 {
        assert_eq!(file.with_byte(8, byte).is_none(), byte == 2);
        assert_eq!(file.with_byte(9, byte).is_none(), byte == 0);
    }
}

#[test]
fn the_ring_and_the_counts() {
    let file = File::new(22);
    for n in [0, 1, 2, 257, 258, 456, 65535] {
        assert_eq!(file.with(0, n), Some(20), "{n} nodes");
    }
    for w in [0, 129, 130, 148, 65535] {
        assert_eq!(file.with(2, w), Some(20), "{w} colours");
    }
    assert_eq!(file.with(0, 256), None, "room to spare");
    assert_eq!(file.with(2, 128), None, "colours to spare");
    let last = word(&file.bytes, place(49));
    for grants in [0, 1, last - 1] {
        assert_eq!(file.with(4, grants), Some(20), "{grants} grants");
    }
    for grants in [last, last + 1, 65535] {
        assert_eq!(file.with(4, grants), None, "{grants} grants");
    }
    for count in (0..=600).chain([65535]) {
        let right = count == 50;
        assert_eq!(file.with(6, count).is_none(), right, "{count} records");
    }
    // A block too many, of zeros or a copy, and a block too few.
    for extra in [vec![0; 512], file.bytes[1024..].to_vec()] {
        assert_eq!(file.after(|bytes| bytes.extend(extra)), Some(20));
    }
    assert_eq!(file.after(|bytes| bytes.truncate(1024)), Some(20));
}

#[test]
fn crews_states_and_zeros() {
    let file = File::new(23);
    let crews = (0..1100).chain((1100..65535).step_by(311)).chain([65535]);
    for crew in crews {
        for record in PLACES {
            let loads = file.with(place(record) + 8, crew).is_none();
            assert_eq!(loads, crew <= 999, "crew {crew}");
        }
    }
    for byte in 0..=255 {
        for record in PLACES {
            let loads = file.with_byte(place(record) + 10, byte).is_none();
            assert_eq!(loads, byte <= 1, "state {byte}");
            let loads = file.with_byte(place(record) + 11, byte).is_none();
            assert_eq!(loads, byte == 0, "last byte {byte}");
        }
    }
}

#[test]
fn serials() {
    let file = File::new(24);
    let serial = |record: usize| word(&file.bytes, place(record));
    for record in 0..50 {
        let at = place(record);
        assert_eq!(file.with(at, 0), Some(20), "serial 0");
        assert_eq!(file.with(at, file.naive.grants + 1), Some(20));
        assert_eq!(file.with(at, 65535), Some(20), "never given");
        if record > 0 {
            for same in [serial(record - 1), serial(0), serial(record - 1) - 1] {
                assert_eq!(file.with(at, same), Some(20), "serial {same}");
            }
            let swapped = file.after(|bytes| {
                let before: Vec<u8> = bytes[place(record - 1)..][..12].to_vec();
                bytes.copy_within(at..at + 12, place(record - 1));
                bytes[at..at + 12].copy_from_slice(&before);
            });
            assert_eq!(swapped, Some(20), "records out of order");
        }
    }
    // Any serial between its neighbours' will do.
    let gap = (1..50).find(|&i| serial(i - 1) + 1 < serial(i)).unwrap();
    assert_eq!(file.with(place(gap), serial(gap) - 1), None);
}

#[test]
fn ends_and_fates() {
    let file = File::new(25);
    for record in 0..50 {
        let at = place(record);
        let (a, b) = (word(&file.bytes, at + 2), word(&file.bytes, at + 4));
        assert_eq!(file.with(at + 2, b), Some(20), "equal ends");
        assert_eq!(file.with(at + 4, a), Some(20), "equal ends");
        let turned = file.after(|bytes| {
            put(bytes, at + 2, b);
            put(bytes, at + 4, a);
        });
        assert_eq!(turned, Some(20), "the larger end first");
        for end in [200, 201, 255, 256, 65535] {
            assert_eq!(file.with(at + 4, end), Some(20), "end {end}");
            assert_eq!(file.with(at + 2, end), Some(20), "end {end}");
        }
        for fate in [0, 41, 42, 256, 65535] {
            assert_eq!(file.with(at + 6, fate), Some(20), "fate {fate}");
        }
    }
}

/// Two circuits that share links, by every two ways.
fn clashes() -> Vec<[Circuit; 2]> {
    let circuit = |a, b, way| Circuit {
        a,
        b,
        way,
        colour: 3,
    };
    let (plain, seam) = (Way::Plain, Way::Seam);
    vec![
        [circuit(2, 9, plain), circuit(8, 11, plain)],
        [circuit(2, 9, plain), circuit(3, 4, seam)],
        [circuit(2, 9, seam), circuit(0, 1, plain)],
        [circuit(2, 9, seam), circuit(8, 12, seam)],
        [circuit(2, 9, plain), circuit(2, 9, plain)],
    ]
}

/// No two records of one colour share a link, whether they are live or pending, and whosever they are.
#[test]
fn feasibility_of_live_and_pending_records() {
    let mut tried = 0;
    for circuits in clashes() {
        for marks in 0..16u16 {
            let mut book = NaiveBook::open(20, 5).unwrap();
            book.grants = 9;
            for (i, circuit) in circuits.into_iter().enumerate() {
                let (serial, marks) = (3 + 4 * i as u16, marks >> (2 * i));
                let state = match marks % 2 {
                    0 => &mut book.live,
                    _ => &mut book.pending,
                };
                state.insert(serial, circuit);
                if marks & 2 != 0 {
                    book.crews.insert(serial, 7 + i as u16);
                }
            }
            let bytes = encode(&book);
            assert_eq!(verdict(&bytes), Some(20), "{book:?}");
            assert_eq!(load(&bytes, 0), Err(20));
            // In another colour the second is in nobody's way.
            let moved = book.live.get_mut(&7);
            moved.or(book.pending.get_mut(&7)).unwrap().colour = 4;
            let bytes = encode(&book);
            same_book(&Book::from_bytes(&bytes, 0).unwrap(), &book);
            tried += 1;
        }
    }
    println!("{tried} clashes of live and pending records refused");
}

#[test]
fn bytes_that_are_not_used() {
    let file = File::new(26);
    let header = 10..508;
    let full = 512 + 504..512 + 508;
    let rest = place(49) + 12..1024 + 508;
    let mut tried = 0;
    for at in header.chain(full).chain(rest) {
        for byte in [1, 2, 128, 255] {
            assert_eq!(file.with_byte(at, byte), Some(20), "byte {at}");
            tried += 1;
        }
    }
    // In an empty book that is all but the header's fields.
    let empty = NaiveBook::open(3, 1).unwrap();
    let file = File {
        bytes: encode(&empty),
        naive: empty,
    };
    for at in 10..508 {
        assert_eq!(file.with_byte(at, 1), Some(20), "byte {at}");
        tried += 1;
    }
    println!("{tried} files with a byte that is not used refused");
}
