//! Revisions: what a load under a lowest one takes, and that no file of a book brings back an order that was removed.
mod files;
#[allow(dead_code)]
#[path = "../src/raw.rs"]
mod raw;
mod reference;

use files::number;
use reference::books::{many, NaiveBook, DESK};
use reference::draws::{draw_book, draw_grant, draw_pending, draw_serial};
use reference::stored::{encode, load};
use reference::Random;
use ring_planner::{buffers, Book, Crew, Way};

/// Loads a file under a lowest revision; gives whether it is taken.
fn taken(bytes: &[u8], naive: &NaiveBook, lowest: u32) -> bool {
    let got = Book::from_bytes(bytes, lowest).map_err(|r| (r.number, r.values));
    let want = load(bytes, lowest).map_err(|number| (number, [0, 0]));
    assert_eq!(got.as_ref().err(), want.as_ref().err(), "lowest {lowest}");
    if let Ok(book) = &got {
        assert_eq!(book.bytes(), bytes, "it reads back as itself");
        assert_eq!(want.as_ref(), Ok(naive));
        assert_eq!(book.revision(), naive.revision());
    }
    got.is_ok()
}

#[test]
fn the_lowest_revision() {
    let mut random = Random::new(27);
    let mut books = vec![NaiveBook::open(3, 1).unwrap(), many(512, 512)];
    books.extend(
        [(0, 65535), (1, 65535), (512, 65535), (5, 32768), (6, 32771)].map(|(l, g)| many(l, g)),
    );
    for _ in 0..200 {
        let records = random.below(60) as usize;
        let mut book = draw_book(&mut random, 64, 16, records);
        if random.below(2) == 0 {
            let gap = random.below(65536 - book.grants as u64);
            book.grants += gap as u16;
        }
        books.push(book);
    }
    let mut tried = 0;
    for naive in &books {
        let (bytes, own) = (encode(naive), naive.revision());
        let below = [0, 1, own / 2, own % 65536, own.saturating_sub(1), own];
        for lowest in below.into_iter().filter(|&lowest| lowest <= own) {
            assert!(taken(&bytes, naive, lowest));
            tried += 1;
        }
        let above = [1, 2, 255, 256, 32768, 65535, 65536, 131072, 1 << 31];
        let above = above.map(|step| own + step).into_iter();
        for lowest in above.chain([131_071, u32::MAX - 1, u32::MAX]) {
            assert!(!taken(&bytes, naive, lowest), "{own} under {lowest}");
            tried += 1;
        }
    }
    println!("{tried} loads under a lowest revision");
}

/// The values of a load go as far as there is room, and a refusal writes none.
#[test]
fn values_of_a_load() {
    let bytes = encode(&many(3, 65535));
    for (lowest, result) in [(0, 0), (131_067, 0), (131_068, 28)] {
        for room in 0..4 {
            let mut values = [7; 4];
            // SAFETY: each pointer comes with the length of what it points to, or with less.
            let got = unsafe {
                let place = values.as_mut_ptr();
                raw::tarziloen_book_load(bytes.as_ptr(), bytes.len(), lowest, place, room)
            };
            assert_eq!(got, result);
            let mut want = [7; 4];
            if result == 0 {
                let written = room.min(2);
                want[..written].copy_from_slice(&[65531, 1][..written]);
            }
            assert_eq!(values, want);
        }
    }
}

/// A book at some moment of its history: its file, its revision, and how many of the removals had been made.
struct Moment {
    file: Vec<u8>,
    revision: u32,
    removals: usize,
}

/// A book from its opening on: itself and its naive fellow, its moments, and the orders that were removed, with their crews.
struct History {
    book: Book,
    naive: NaiveBook,
    moments: Vec<Moment>,
    removed: Vec<(u16, u16)>,
}

impl History {
    fn open(n: u16, w: u16) -> History {
        History {
            book: Book::open(n, w).unwrap(),
            naive: NaiveBook::open(n, w).unwrap(),
            moments: Vec::new(),
            removed: Vec::new(),
        }
    }

    /// A call; gives by how much it raises the revision, which is one for an accepted grant or removal.
    fn call(&mut self, random: &mut Random) -> u32 {
        let History { book, naive, .. } = self;
        let [live, pending] = [draw_serial(random, naive), draw_pending(random, naive)];
        let risen = match random.below(8) {
            0..=3 => {
                let [x, y, way, colour, crew] = draw_grant(random, naive.n, naive.w);
                let way = if way == 0 { Way::Plain } else { Way::Seam };
                let got = number(book.grant(x, y, way, colour, Crew(crew)));
                assert_eq!(got, naive.grant([x, y, way as u16, colour, crew]));
                got.is_ok()
            }
            4 | 5 => {
                let got = number(book.remove(live));
                assert_eq!(got, naive.remove(live));
                if got.is_ok() {
                    self.removed.push((live, naive.crew_of(live)));
                }
                got.is_ok()
            }
            6 => {
                assert_eq!(number(book.confirm(pending)), naive.confirm(pending));
                false
            }
            _ => {
                let shown = number(book.show(live, Crew::DESK));
                assert_eq!(shown, naive.show(live, DESK));
                false
            }
        };
        risen as u32
    }

    /// A moment, and a call, through which the revision is followed.
    fn step(&mut self, random: &mut Random) {
        let revision = self.book.revision();
        assert_eq!(revision, self.naive.revision());
        self.moments.push(Moment {
            file: self.book.bytes().to_vec(),
            revision,
            removals: self.removed.len(),
        });
        let rise = self.call(random);
        assert_eq!(self.book.revision(), revision + rise);
    }
}

/// What came of files under the revisions of other moments.
#[derive(Default)]
struct Outcome {
    taken: usize,
    refused: usize,
    /// The removed orders that were asked for in files that were taken.
    asked: usize,
    /// The files that were refused and would have shown an order that was removed by then.
    outdated: usize,
}

impl Outcome {
    /// The file of a moment under the revision of another: if it is taken, it does not show what was removed by the other, neither to the
    /// desk nor to its crew.
    fn load(&mut self, random: &mut Random, file: &Moment, known: &Moment, removed: &[(u16, u16)]) {
        let loaded = number(Book::from_bytes(&file.file, known.revision));
        let recent = file.revision >= known.revision;
        assert_eq!(loaded.as_ref().err(), (!recent).then_some(&28));
        let Ok(loaded) = loaded else {
            let shown = removed
                .iter()
                .rev()
                .take(4)
                .any(|&(serial, _)| buffers::show(&file.file, serial, Crew::DESK).is_ok());
            self.outdated += shown as usize;
            self.refused += 1;
            return;
        };
        let step = 1 + random.below(8) as usize;
        for &(serial, crew) in removed.iter().rev().step_by(step).take(6) {
            let told = [Crew::DESK, Crew(crew)].map(|crew| number(loaded.show(serial, crew)));
            let own = if crew == DESK { 15 } else { 14 };
            assert_eq!(told, [Err(15), Err(own)], "order {serial}");
            self.asked += 1;
        }
        self.taken += 1;
    }
}

/// Every two moments of a history from an opening.
#[test]
fn no_file_brings_a_removed_order_back() {
    let mut random = Random::new(28);
    let mut outcome = Outcome::default();
    for round in 0..40 {
        let n = 3 + random.below(if round % 2 == 0 { 4 } else { 40 }) as u16;
        let w = 1 + random.below(if round % 4 == 0 { 2 } else { 8 }) as u16;
        let mut history = History::open(n, w);
        (0..100).for_each(|_| history.step(&mut random));
        for known in &history.moments {
            for file in &history.moments {
                let removed = &history.removed[..known.removals];
                outcome.load(&mut random, file, known, removed);
            }
        }
    }
    let Outcome {
        taken,
        refused,
        asked,
        outdated,
    } = outcome;
    assert!(taken > 100_000 && refused > 100_000 && asked > 100_000);
    assert!(outdated > 50_000, "{outdated} outdated files");
    println!("{taken} files taken under the revision of another moment, none with one of {asked} removed orders");
    println!("{refused} files refused under it, {outdated} of them with a removed order");
}
