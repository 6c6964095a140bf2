//! Blocks with their numbers and checks, of which both stored forms are made, and the front of a record, which both have.
use ring_planner::{Circuit, Way};

use super::books::{conflict, NaiveBook};

/// The length of a block.
pub const BLOCK: usize = 512;

/// A stored form: the bytes of a record, the records of a block, the fields of the header in bytes, and the length of the longest.
pub struct Layout {
    pub record: usize,
    pub in_block: usize,
    pub header: usize,
    pub longest: usize,
}

/// The number whose low byte stands at a position.
pub fn word(bytes: &[u8], at: usize) -> u16 {
    u16::from_le_bytes([bytes[at], bytes[at + 1]])
}

/// Puts a number, low byte first.
pub fn put(bytes: &mut [u8], at: usize, number: u16) {
    bytes[at..at + 2].copy_from_slice(&number.to_le_bytes());
}

fn check(block: &[u8]) -> u16 {
    let sum: usize = (0..510).map(|i| block[i] as usize * (i + 1)).sum();
    (sum % 65521) as u16
}

/// Puts the numbers and the checks of the blocks right.
pub fn seal(bytes: &mut [u8]) {
    for (i, block) in bytes.chunks_mut(BLOCK).enumerate() {
        put(block, 508, i as u16);
        let check = check(block);
        put(block, 510, check);
    }
}

/// Writes a form to the front of a buffer; gives its length.
pub fn store(form: &[u8], buffer: &mut [u8]) -> Result<usize, u16> {
    let place = buffer.get_mut(..form.len()).ok_or(17u16)?;
    place.copy_from_slice(form);
    Ok(form.len())
}

impl Layout {
    /// The form of a header and records.
    pub fn write(&self, header: &[u16], records: &[Vec<u8>]) -> Vec<u8> {
        let header: Vec<u8> = header.iter().flat_map(|f| f.to_le_bytes()).collect();
        let groups = records.chunks(self.in_block).map(|group| group.concat());
        let mut bytes = Vec::new();
        for (i, contents) in [header].into_iter().chain(groups).enumerate() {
            bytes.extend(contents);
            bytes.resize(BLOCK * (i + 1), 0);
        }
        seal(&mut bytes);
        bytes
    }

    /// 18 for the length of no form, 19 for a block with a wrong number or check.
    pub fn test(&self, bytes: &[u8]) -> Result<(), u16> {
        if bytes.is_empty() || !bytes.len().is_multiple_of(BLOCK) || bytes.len() > self.longest {
            return Err(18);
        }
        for (i, block) in bytes.chunks(BLOCK).enumerate() {
            if word(block, 508) as usize != i || word(block, 510) != check(block) {
                return Err(19);
            }
        }
        Ok(())
    }

    /// The book of the header as yet without records, and the records that it counts, if they take all the blocks and everything else is
    /// zero.
    pub fn read<'a>(&self, bytes: &'a [u8]) -> Option<(NaiveBook, Vec<&'a [u8]>)> {
        let (header, later) = bytes.split_at(BLOCK);
        let mut book = NaiveBook::open(word(header, 0), word(header, 2)).ok()?;
        book.grants = word(header, 4);
        let count = word(header, 6) as usize;
        if count > 512 || later.len() != BLOCK * count.div_ceil(self.in_block) {
            return None;
        }
        let used = self.record * self.in_block;
        let places: Vec<&[u8]> = later
            .chunks(BLOCK)
            .flat_map(|block| block[..used].chunks(self.record))
            .collect();
        let (records, vacant) = places.split_at(count);
        let ends = later.chunks(BLOCK).map(|block| &block[used..508]);
        let mut unused = [&header[self.header..508]]
            .into_iter()
            .chain(vacant.iter().copied())
            .chain(ends);
        let zeros = unused.all(|part| part.iter().all(|&byte| byte == 0));
        zeros.then(|| (book, records.to_vec()))
    }
}

/// The front of a record: serial, a, b and fate number.
pub fn front(serial: u16, circuit: &Circuit) -> Vec<u8> {
    let fate = 1 + 2 * circuit.colour + circuit.way as u16;
    let fields = [serial, circuit.a, circuit.b, fate];
    fields.into_iter().flat_map(u16::to_le_bytes).collect()
}

/// The circuits at the fronts of records, if each is in the limits, they come by rising serial up to the grants so far, and no two of them
/// conflict.
pub fn circuits(book: &NaiveBook, records: &[&[u8]]) -> Option<Vec<(u16, Circuit)>> {
    let mut found: Vec<(u16, Circuit)> = Vec::new();
    let mut last = 0;
    for record in records {
        let (serial, fate) = (word(record, 0), word(record, 6));
        if fate == 0 || fate > 2 * book.w || serial <= last || serial > book.grants {
            return None;
        }
        let circuit = Circuit {
            a: word(record, 2),
            b: word(record, 4),
            way: if fate % 2 == 1 { Way::Plain } else { Way::Seam },
            colour: (fate - 1) / 2,
        };
        if circuit.a >= circuit.b || circuit.b >= book.n {
            return None;
        }
        if found.iter().any(|(_, c)| conflict(book.n, c, &circuit)) {
            return None;
        }
        found.push((serial, circuit));
        last = serial;
    }
    Some(found)
}
