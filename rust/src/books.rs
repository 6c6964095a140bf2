//! The book.

use std::fmt;

use crate::{buffers, Refusal};

/// One of the two ways between two nodes of the ring.
#[derive(Clone, Copy, Debug, PartialEq, Eq)]
pub enum Way {
    Plain = 0,
    Seam = 1,
}

/// A circuit: its ends, the smaller first, its way and its colour.
#[derive(Clone, Copy, Debug, PartialEq, Eq)]
pub struct Circuit {
    pub a: u16,
    pub b: u16,
    pub way: Way,
    pub colour: u16,
}

/// A crew, 0 to 999, of which 0 is the desk. A call with any other number is refused by 26.
#[derive(Clone, Copy, Debug, PartialEq, Eq)]
pub struct Crew(pub u16);

impl Crew {
    /// The desk, which reads every order.
    pub const DESK: Crew = Crew(0);
}

/// A grant that is asked for: its ends in any order, its way, its colour and its crew.
#[derive(Clone, Copy, Debug, PartialEq, Eq)]
pub struct Line {
    pub x: u16,
    pub y: u16,
    pub way: Way,
    pub colour: u16,
    pub crew: Crew,
}

/// What a crew learns of a colour on a link.
#[derive(Clone, Copy, Debug, PartialEq, Eq)]
pub enum Holder {
    Free,
    /// Held by an order that the crew may not read.
    Held,
    /// Held by the order of this serial: a live one of the crew's own, for the desk any, live or pending.
    HeldBy(u16),
}

/// What grants would give one after another: the serials up to the first line that would be turned down, if there is one.
#[derive(Clone, Debug, PartialEq, Eq)]
pub struct Preview {
    pub serials: Vec<u16>,
    pub stop: Option<Stop>,
}

/// The line, counted from 0, that would be turned down, and why.
#[derive(Clone, Copy, Debug, PartialEq, Eq)]
pub struct Stop {
    pub line: usize,
    pub refusal: Refusal,
}

/// A book, held as its stored form. Two books are equal if n, w, grants so far, and live and pending circuits with their crews agree.
///
/// Every circuit has a crew. The desk reads all orders, another crew its own live ones only. A removal leaves a circuit pending:
/// its place and its colour stay held until the pull of its patch is confirmed.
///
/// A book has a revision, which rises with each grant and each removal. A caller that passes the latest one it knows to
/// [`Book::from_bytes`] gets no earlier file of the book.
#[derive(Clone)]
pub struct Book {
    buffer: [u8; Book::MAX_LENGTH],
    length: usize,
}

impl Book {
    /// The length of the longest stored form, that of 512 circuits.
    pub const MAX_LENGTH: usize = 7168;
    /// The same of the old form, which has no room for pending marks and crews.
    pub const MAX_OLD_LENGTH: usize = 5120;

    /// An empty book of n nodes and w colours.
    pub fn open(n: u16, w: u16) -> Result<Book, Refusal> {
        let mut buffer = [0; Book::MAX_LENGTH];
        let length = buffers::open(n, w, &mut buffer)?;
        Ok(Book { buffer, length })
    }

    /// The book of a stored form, if its revision is the lowest that is told or a later one; 0 takes every book. Refused: 18, 19, 20,
    /// and last 28 for an earlier revision.
    pub fn from_bytes(bytes: &[u8], lowest: u32) -> Result<Book, Refusal> {
        buffers::load(bytes, lowest)?;
        let mut buffer = [0; Book::MAX_LENGTH];
        buffer[..bytes.len()].copy_from_slice(bytes);
        Ok(Book {
            buffer,
            length: bytes.len(),
        })
    }

    /// The book of a file in the old form, in which every circuit is live and the desk's.
    pub fn from_old(bytes: &[u8]) -> Result<Book, Refusal> {
        let mut buffer = [0; Book::MAX_LENGTH];
        let length = buffers::convert(bytes, &mut buffer)?;
        Ok(Book { buffer, length })
    }

    /// The old form, which has no room for pending marks and crews: 27 for a book with a circuit that is pending or not the desk's.
    pub fn to_old(&self) -> Result<Vec<u8>, Refusal> {
        let mut form = vec![0; Book::MAX_OLD_LENGTH];
        let length = buffers::convert_back(self.bytes(), &mut form)?;
        form.truncate(length);
        Ok(form)
    }

    /// Twice the grants so far less the live circuits: it rises by one with each grant and each removal, and stays with a confirmation.
    pub fn revision(&self) -> u32 {
        buffers::load(self.bytes(), 0).expect("the bytes of a book are its stored form")
    }

    /// The stored form.
    pub fn bytes(&self) -> &[u8] {
        &self.buffer[..self.length]
    }

    /// Grants a circuit between two nodes to a crew; gives its serial.
    pub fn grant(
        &mut self,
        x: u16,
        y: u16,
        way: Way,
        colour: u16,
        crew: Crew,
    ) -> Result<u16, Refusal> {
        let way = way as u16;
        let (serial, length) =
            buffers::grant(&mut self.buffer, self.length, [x, y], way, colour, crew)?;
        self.length = length;
        Ok(serial)
    }

    /// Removes the circuit of a serial, which leaves it pending: 14, and 15 for one that was removed before.
    pub fn remove(&mut self, serial: u16) -> Result<(), Refusal> {
        self.length = buffers::remove(&mut self.buffer, self.length, serial)?;
        Ok(())
    }

    /// Confirms that the patch of a removed circuit is pulled, which frees its place and its colour: 14, 23 for a live circuit,
    /// and 24 for one that is confirmed already.
    pub fn confirm(&mut self, serial: u16) -> Result<(), Refusal> {
        self.length = buffers::confirm(&mut self.buffer, self.length, serial)?;
        Ok(())
    }

    /// Shows the circuit of a serial to a crew: for the desk 14, and 15 for one that was removed; for another crew 14 for every
    /// serial that is not a live circuit of its own.
    pub fn show(&self, serial: u16, crew: Crew) -> Result<Circuit, Refusal> {
        buffers::show(self.bytes(), serial, crew)
    }

    /// Says to a crew whether a colour is held on a link, and by which order if it may read it.
    pub fn holder(&self, link: u16, colour: u16, crew: Crew) -> Result<Holder, Refusal> {
        buffers::holder(self.bytes(), link, colour, crew)
    }

    /// Tries 1 to 16 grants, one after another, on a copy of the book.
    pub fn preview(&self, lines: &[Line]) -> Result<Preview, Refusal> {
        let numbers: Vec<u16> = lines
            .iter()
            .flat_map(|line| [line.x, line.y, line.way as u16, line.colour, line.crew.0])
            .collect();
        buffers::preview(self.bytes(), &numbers)
    }

    /// What the order of a serial pays for the metres of its way, in cents, rounded up once. There is a length for each link, in
    /// metres; the rates, in cents per kilometre, are those of the first 50,000 metres, of those on to 200,000, and of those beyond.
    /// Refused: 14, and 15 for a removed order, then 29 and 30.
    pub fn charge(&self, serial: u16, lengths: &[u32], rates: [u32; 3]) -> Result<u64, Refusal> {
        buffers::charge(self.bytes(), serial, lengths, &rates)
    }

    /// What the live orders pay together: the sum of what each pays. Refused: 29 and 30.
    pub fn charge_all(&self, lengths: &[u32], rates: [u32; 3]) -> Result<u64, Refusal> {
        buffers::charge_all(self.bytes(), lengths, &rates)
    }
}

impl PartialEq for Book {
    fn eq(&self, other: &Book) -> bool {
        self.bytes() == other.bytes()
    }
}

impl Eq for Book {}

impl fmt::Debug for Book {
    fn fmt(&self, f: &mut fmt::Formatter<'_>) -> fmt::Result {
        f.debug_struct("Book")
            .field("bytes", &self.bytes())
            .finish()
    }
}
