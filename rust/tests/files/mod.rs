//! The two stored forms under test, damage to their files, and the verdicts of the proved loaders. Used by the tests of files as a module.
#![allow(dead_code)]

use ring_planner::{buffers, Book, Crew, Refusal};

use crate::reference::blocks::{put, word, Layout, BLOCK};
use crate::reference::books::{NaiveBook, DESK};
use crate::reference::draws::{draw_book, draw_old_book};
use crate::reference::old::{encode_old, load_old, OLD};
use crate::reference::stored::{encode, load, NEW};
use crate::reference::Random;

/// A form: its naive writer and reader with the books that they are tried on, and the proved loader.
pub struct Form {
    pub name: &'static str,
    pub layout: Layout,
    pub draw: fn(&mut Random, u16, u16, usize) -> NaiveBook,
    pub encode: fn(&NaiveBook) -> Vec<u8>,
    pub load: fn(&[u8]) -> Result<NaiveBook, u16>,
    pub loaded: fn(&[u8]) -> Result<Book, Refusal>,
    /// The proved loader's verdict: the refusal's number, or none.
    pub verdict: fn(&[u8]) -> Option<u16>,
}

pub const NEW_FORM: Form = Form {
    name: "new",
    layout: NEW,
    draw: draw_book,
    encode,
    load: |bytes| load(bytes, 0),
    loaded: |bytes| Book::from_bytes(bytes, 0),
    verdict,
};

/// Books come from the old form by a conversion.
pub const OLD_FORM: Form = Form {
    name: "old",
    layout: OLD,
    draw: draw_old_book,
    encode: encode_old,
    load: load_old,
    loaded: Book::from_old,
    verdict: verdict_old,
};

/// A question on the same bytes is refused alike, and so is a load under the highest revision; their own grounds come behind.
pub fn verdict(bytes: &[u8]) -> Option<u16> {
    let number = buffers::load(bytes, 0).err().map(|r| r.number);
    let asked = buffers::holder(bytes, 65535, 0, Crew(1000)).unwrap_err();
    assert_eq!(asked.number, number.unwrap_or(26));
    let late = buffers::load(bytes, u32::MAX).unwrap_err();
    assert_eq!(late.number, number.unwrap_or(28));
    number
}

/// A conversion without any room is refused alike, and its own ground comes behind.
pub fn verdict_old(bytes: &[u8]) -> Option<u16> {
    let number = Book::from_old(bytes).err().map(|r| r.number);
    let crowded = buffers::convert(bytes, &mut []).unwrap_err();
    assert_eq!(crowded.number, number.unwrap_or(17));
    number
}

/// Adds to a number, modulo 65,536.
fn add(bytes: &mut [u8], at: usize, number: u16) {
    let sum = word(bytes, at).wrapping_add(number);
    put(bytes, at, sum);
}

/// Numbers at the limits of n, w and the number of records, and the mark of the new form.
const LIMITS: [u16; 9] = [0, 2, 3, 128, 129, 256, 257, 512, 513];

/// One damage that a careless writer or a bad copy might do.
pub fn damage(random: &mut Random, layout: &Layout, bytes: &mut Vec<u8>) {
    let Layout {
        record: size,
        in_block,
        ..
    } = *layout;
    let blocks = bytes.len() / BLOCK;
    let block = BLOCK * random.below(blocks as u64) as usize;
    let mut place = || block + size * random.below(in_block as u64) as usize;
    let (record, other) = (place(), place());
    let field = record + 2 * random.below(size as u64 / 2) as usize;
    let header = 2 * random.below(5) as usize;
    match random.below(15) {
        0 => bytes[block + random.below(508) as usize] = random.below(256) as u8,
        1 => put(bytes, header, LIMITS[random.below(9) as usize]),
        2 => put(bytes, header, random.below(65536) as u16),
        3 => add(bytes, header, 1),
        4 => add(bytes, header, 65535),
        5 => put(bytes, field, random.below(300) as u16),
        6 => add(bytes, field, 1),
        7 => add(bytes, field, 65535),
        8 => bytes.copy_within(record..record + size, other),
        9 => bytes[record..record + size].fill(0),
        10 => bytes.truncate(BLOCK * (1 + random.below(blocks as u64) as usize)),
        11 => bytes.extend_from_within(block..block + BLOCK),
        // In the new form the crew, the state and the zero behind it.
        12 => put(bytes, record + size - 4, 998 + random.below(4) as u16),
        13 => bytes[record + size - 2] ^= 1,
        _ => bytes[record + size - 1] = random.below(2) as u8,
    }
}

/// The number of a refusal.
pub fn number<T>(answer: Result<T, Refusal>) -> Result<T, u16> {
    answer.map_err(|refusal| refusal.number)
}

/// A loaded book is the naive one: it has that stored form and revision, and answers alike, to the desk and to crews with an order of their
/// own and without.
pub fn same_book(loaded: &Book, naive: &NaiveBook) {
    assert!(loaded.bytes() == encode(naive), "the stored form");
    assert_eq!(loaded.revision(), naive.revision());
    assert_eq!(number(loaded.to_old()).err(), no_old_form(naive));
    let owner = naive.crews.values().next().copied().unwrap_or(1);
    for (crew, step) in [(DESK, 1), (owner, 4), (999, 16)] {
        let given = [0, naive.grants, naive.grants.wrapping_add(1)];
        let orders = naive.records().map(|(serial, _)| serial).step_by(step);
        for &serial in given.iter().chain(orders) {
            let shown = loaded.show(serial, Crew(crew));
            assert_eq!(number(shown), naive.show(serial, crew));
        }
        let (n, w) = (naive.n, naive.w);
        for (link, colour) in [(0, 0), (n - 1, w - 1), (n, 0), (0, w)] {
            let held = loaded.holder(link, colour, Crew(crew));
            assert_eq!(number(held), naive.holder(link, colour, crew));
        }
    }
    let first = naive.records().next().map_or(1, |(&serial, _)| serial);
    for serial in [0, first, first.wrapping_add(1), naive.grants] {
        same_changes(loaded.clone(), naive.clone(), serial);
    }
}

/// Why a book cannot be converted back, if it cannot.
fn no_old_form(naive: &NaiveBook) -> Option<u16> {
    (!naive.has_old_form()).then_some(27)
}

/// An order is confirmed, removed and confirmed again as in the naive book.
fn same_changes(mut loaded: Book, mut naive: NaiveBook, serial: u16) {
    assert_eq!(number(loaded.confirm(serial)), naive.confirm(serial));
    assert_eq!(number(loaded.remove(serial)), naive.remove(serial));
    assert!(loaded.bytes() == encode(&naive), "after a removal");
    assert_eq!(number(loaded.confirm(serial)), naive.confirm(serial));
    assert!(loaded.bytes() == encode(&naive), "after a confirmation");
}
