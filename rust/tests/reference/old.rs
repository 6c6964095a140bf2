//! A second writer and reader of the old form, which has no room for states and crews, and the conversions from it and back to it.
use super::blocks::{circuits, front, store, Layout};
use super::books::NaiveBook;
use super::stored::{encode, load};

/// The fields of the header are n, w, grants so far and the live count.
pub const OLD: Layout = Layout {
    record: 8,
    in_block: 63,
    header: 8,
    longest: 5120,
};

/// The old form of a book whose records are all live and the desk's.
pub fn encode_old(book: &NaiveBook) -> Vec<u8> {
    assert!(book.has_old_form(), "every record has a form");
    let records: Vec<Vec<u8>> = book.live.iter().map(|(&s, c)| front(s, c)).collect();
    let header = [book.n, book.w, book.grants, records.len() as u16];
    OLD.write(&header, &records)
}

/// The book of an old form, in which every record is live and the desk's, or the number of the refusal.
pub fn load_old(bytes: &[u8]) -> Result<NaiveBook, u16> {
    OLD.test(bytes)?;
    read(bytes).ok_or(20)
}

/// The book of blocks whose numbers and checks are right.
fn read(bytes: &[u8]) -> Option<NaiveBook> {
    let (mut book, records) = OLD.read(bytes)?;
    book.live = circuits(&book, &records)?.into_iter().collect();
    Some(book)
}

/// From the old form to the new one, into a buffer; gives the length.
pub fn convert(bytes: &[u8], buffer: &mut [u8]) -> Result<usize, u16> {
    store(&encode(&load_old(bytes)?), buffer)
}

/// From the new form to the old one.
pub fn convert_back(bytes: &[u8], buffer: &mut [u8]) -> Result<usize, u16> {
    let book = load(bytes, 0)?;
    if !book.has_old_form() {
        return Err(27);
    }
    store(&encode_old(&book), buffer)
}
