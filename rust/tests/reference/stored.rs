//! A second writer and reader of the stored form, in which records have states and crews.
use std::collections::BTreeMap;

use ring_planner::Circuit;

use super::blocks::{circuits, front, word, Layout};
use super::books::{NaiveBook, DESK};

/// The fields of the header are n, w, grants so far, the number of records, and a byte 2 with a zero.
pub const NEW: Layout = Layout {
    record: 12,
    in_block: 42,
    header: 10,
    longest: 7168,
};

/// The stored form of a book. The records of both states stand together, by rising serial.
pub fn encode(book: &NaiveBook) -> Vec<u8> {
    let all: BTreeMap<u16, &Circuit> = book.records().map(|(&serial, c)| (serial, c)).collect();
    let records: Vec<Vec<u8>> = all
        .into_iter()
        .map(|(serial, circuit)| {
            let mut record = front(serial, circuit);
            record.extend(book.crew_of(serial).to_le_bytes());
            record.extend([book.pending.contains_key(&serial) as u8, 0]);
            record
        })
        .collect();
    let header = [book.n, book.w, book.grants, records.len() as u16, 2];
    NEW.write(&header, &records)
}

/// The book of a stored form, or the number of the refusal; 28 comes last, for a revision below the lowest.
pub fn load(bytes: &[u8], lowest: u32) -> Result<NaiveBook, u16> {
    NEW.test(bytes)?;
    let book = read(bytes).ok_or(20u16)?;
    if book.revision() < lowest {
        return Err(28);
    }
    Ok(book)
}

/// The book of blocks whose numbers and checks are right.
fn read(bytes: &[u8]) -> Option<NaiveBook> {
    if bytes[8] != 2 || bytes[9] != 0 {
        return None;
    }
    let (mut book, records) = NEW.read(bytes)?;
    let fronts = circuits(&book, &records)?;
    for ((serial, circuit), record) in fronts.into_iter().zip(records) {
        let (crew, state, last) = (word(record, 8), record[10], record[11]);
        if crew > 999 || last != 0 {
            return None;
        }
        match state {
            0 => book.live.insert(serial, circuit),
            1 => book.pending.insert(serial, circuit),
            _ => return None,
        };
        if crew != DESK {
            book.crews.insert(serial, crew);
        }
    }
    Some(book)
}
