//! The book in its stored form against naive maps, over long histories of calls, out of range too.
mod reference;

use reference::books::{NaiveBook, DESK};
use reference::draws::{draw, draw_crew, draw_grant, draw_pending, draw_serial};
use reference::stored::{encode, load};
use reference::tallies::{asked_by, Tally};
use reference::Random;
use ring_planner::{Book, Crew, Holder, Refusal, Way};

/// A book, its naive fellow, and what came of the calls so far.
struct Pair {
    book: Book,
    naive: NaiveBook,
    tally: Tally,
}

impl Pair {
    fn open(n: u16, w: u16) -> Pair {
        let pair = Pair::load(NaiveBook::open(n, w).unwrap());
        assert_eq!(Book::open(n, w).as_ref(), Ok(&pair.book));
        pair
    }

    /// The naive book's fellow is loaded from its stored form.
    fn load(naive: NaiveBook) -> Pair {
        Pair {
            book: Book::from_bytes(&encode(&naive), naive.revision()).unwrap(),
            naive,
            tally: Tally::default(),
        }
    }

    fn grant(&mut self, [x, y]: [u16; 2], way: Way, colour: u16, crew: u16) {
        let got = self.book.grant(x, y, way, colour, Crew(crew));
        let want = self.naive.grant([x, y, way as u16, colour, crew]);
        let name = asked_by(crew, ["grant", "grant to a crew"]);
        self.tally.agree(name, got, want);
    }

    fn remove(&mut self, serial: u16) {
        let got = self.book.remove(serial);
        let want = self.naive.remove(serial);
        self.tally.agree("remove", got, want);
    }

    fn confirm(&mut self, serial: u16) {
        let got = self.book.confirm(serial);
        let want = self.naive.confirm(serial);
        self.tally.agree("confirm", got, want);
    }

    fn show(&mut self, serial: u16, crew: u16) {
        let got = self.book.show(serial, Crew(crew));
        let name = asked_by(crew, ["show", "show to a crew"]);
        self.tally.agree(name, got, self.naive.show(serial, crew));
    }

    fn holder(&mut self, link: u16, colour: u16, crew: u16) {
        let got = self.book.holder(link, colour, Crew(crew));
        let want = self.naive.holder(link, colour, crew);
        let name = match (crew, want) {
            (DESK, Ok(Holder::HeldBy(serial))) => match self.naive.pending.contains_key(&serial) {
                true => "held by a pending order",
                false => "held by an order",
            },
            (_, Ok(Holder::HeldBy(_))) => "held by a crew's own",
            (_, Ok(Holder::Held)) => "held for a crew",
            _ => asked_by(crew, ["holder", "holder for a crew"]),
        };
        self.tally.agree(name, got, want);
    }

    /// Any call; grants come `grants` times in 16. The stored form and the revision are compared after each.
    fn call(&mut self, random: &mut Random, grants: u64) {
        let (n, w) = (self.naive.n, self.naive.w);
        let serial = match random.below(2) {
            0 => draw_serial(random, &self.naive),
            _ => draw_pending(random, &self.naive),
        };
        match random.below(16) {
            k if k < grants => {
                let [x, y, way, colour, crew] = draw_grant(random, n, w);
                let way = if way == 0 { Way::Plain } else { Way::Seam };
                self.grant([x, y], way, colour, crew);
            }
            14 => {
                let crew = match random.below(2) {
                    0 => self.naive.crew_of(serial),
                    _ => draw_crew(random),
                };
                self.show(serial, crew);
            }
            15 => self.holder(draw(random, n), draw(random, w), draw_crew(random)),
            k if k % 2 == 0 => self.remove(serial),
            _ => self.confirm(serial),
        }
        self.same_form();
    }

    fn same_form(&self) {
        assert!(self.book.bytes() == encode(&self.naive), "the stored form");
        assert_eq!(self.book.revision(), self.naive.revision());
    }

    /// Every link and colour's holder and each of the serials, asked by the desk and by a crew; the way through the stored form; and on a
    /// copy, every one of the orders removed and confirmed.
    fn compare(&mut self, serials: impl Iterator<Item = u16>, crew: u16) {
        for link in 0..=self.naive.n {
            for colour in 0..=self.naive.w {
                self.holder(link, colour, DESK);
                self.holder(link, colour, crew);
            }
        }
        let loaded = Book::from_bytes(self.book.bytes(), self.book.revision()).unwrap();
        assert!(loaded == self.book && load(self.book.bytes(), 0) == Ok(self.naive.clone()));
        self.book = loaded;
        let before = (self.book.clone(), self.naive.clone());
        for serial in serials {
            self.show(serial, DESK);
            self.show(serial, crew);
            self.remove(serial);
            self.confirm(serial);
            self.same_form();
        }
        (self.book, self.naive) = before;
    }
}

/// The answers that histories bring; those that only a full book or a late one gives are named there.
const ANSWERS: [(&str, &[u16]); 12] = [
    ("grant", &[0, 4, 5, 10, 11]),
    ("grant to a crew", &[0, 4, 5, 10, 11, 26]),
    ("remove", &[0, 14, 15]),
    ("confirm", &[0, 14, 23, 24]),
    ("show", &[0, 14, 15]),
    ("show to a crew", &[0, 14, 26]),
    ("holder", &[0, 10, 16]),
    ("held by an order", &[0]),
    ("held by a pending order", &[0]),
    ("holder for a crew", &[0, 10, 16, 26]),
    ("held for a crew", &[0]),
    ("held by a crew's own", &[0]),
];

#[test]
fn histories_agree_with_maps() {
    let mut random = Random::new(4);
    let mut tally = Tally::default();
    for round in 0..240 {
        let n = 3 + random.below(if round % 2 == 0 { 4 } else { 30 }) as u16;
        let w = 1 + random.below(if round % 3 == 0 { 2 } else { 12 }) as u16;
        let mut pair = Pair::open(n, w);
        pair.tally = tally;
        for step in 1..=600 {
            pair.call(&mut random, 9);
            if step % 200 == 0 {
                let grants = pair.naive.grants;
                pair.compare(0..=grants + 1, draw_crew(&mut random));
            }
        }
        tally = pair.tally;
    }
    let mut openings = Tally::default();
    for (n, w) in [(2, 0), (257, 1), (65535, 65535), (3, 0), (256, 129), (0, 1)] {
        let want = NaiveBook::open(n, w).map(|naive| encode(&naive));
        openings.agree("open", Book::open(n, w).map(|b| b.bytes().to_vec()), want);
    }
    tally.report("histories", &ANSWERS);
    openings.report("openings", &[("open", &[1, 2])]);
}

/// A book of 256 nodes with 512 live circuits.
fn full_book(random: &mut Random) -> Pair {
    let mut pair = Pair::open(256, 8);
    while pair.naive.live.len() < 512 {
        pair.call(random, 14);
    }
    pair
}

#[test]
fn a_full_book_and_the_last_serial() {
    let mut random = Random::new(5);
    let mut pair = full_book(&mut random);
    for _ in 0..5000 {
        pair.call(&mut random, 12);
    }
    let grants = pair.naive.grants;
    pair.compare((0..=grants + 1).step_by(7), 1);
    let mut tally = std::mem::take(&mut pair.tally);
    tally.report("a full book", &ANSWERS);
    // Every later history starts from a stored form that says how many grants there were.
    for (grants, steps) in [(65535, 400), (65500, 400)] {
        let mut naive = pair.naive.clone();
        naive.grants = grants;
        let mut late = Pair::load(naive);
        late.tally = tally;
        (0..steps).for_each(|_| late.call(&mut random, 8));
        for serial in [0, 1, grants, 65534, 65535] {
            late.show(serial, DESK);
            late.show(serial, 999);
        }
        tally = late.tally;
    }
    let full: &[u16] = &[12, 13];
    tally.report(
        "and the last serial",
        &[("grant", full), ("grant to a crew", full)],
    );
}

/// The last two serials, to a crew and to the desk: a confirmation brings none back.
#[test]
fn the_last_serial() {
    let mut last = Pair::load(NaiveBook {
        grants: 65533,
        ..NaiveBook::open(4, 1).unwrap()
    });
    for ([x, y], crew) in [([0, 1], 5), ([2, 1], 0), ([2, 3], 0), ([3, 0], 999)] {
        last.grant([x, y], Way::Plain, 0, crew);
    }
    assert_eq!(last.book.revision(), 131_068);
    last.remove(65534);
    last.confirm(65534);
    last.remove(65535);
    assert_eq!(last.book.revision(), 131_070);
    for (crew, number) in [(0, 13), (999, 13), (1000, 26)] {
        let refused = last.book.grant(2, 3, Way::Plain, 0, Crew(crew));
        assert_eq!(refused.map_err(|r| r.number), Err(number));
    }
    last.compare([0, 1, 65533, 65534, 65535].into_iter(), 5);
}

/// Case T7 of the rules, with the revision after each call.
#[test]
fn case_t7() {
    let number = |refusal: Refusal| refusal.number;
    let mut book = Book::open(4, 1).unwrap();
    let grant = |book: &mut Book, x, y, way| book.grant(x, y, way, 0, Crew::DESK).map_err(number);
    let show = |book: &Book, serial| book.show(serial, Crew::DESK).map_err(number);
    assert_eq!(book.revision(), 0);
    assert_eq!(grant(&mut book, 0, 2, Way::Plain), Ok(1));
    assert_eq!(grant(&mut book, 2, 3, Way::Plain), Ok(2));
    assert_eq!(grant(&mut book, 1, 3, Way::Plain), Err(11));
    assert_eq!(book.confirm(1).map_err(number), Err(23));
    assert_eq!(book.revision(), 2);
    assert_eq!(book.remove(1), Ok(()));
    assert_eq!(book.revision(), 3);
    assert_eq!(grant(&mut book, 0, 1, Way::Plain), Err(11));
    assert_eq!(book.holder(0, 0, Crew::DESK), Ok(Holder::HeldBy(1)));
    assert_eq!(book.remove(1).map_err(number), Err(15));
    assert_eq!(book.confirm(1), Ok(()));
    assert_eq!(book.confirm(1).map_err(number), Err(24));
    assert_eq!(book.revision(), 3);
    assert_eq!(grant(&mut book, 0, 2, Way::Seam), Err(11));
    assert_eq!(grant(&mut book, 0, 1, Way::Plain), Ok(3));
    assert_eq!(book.revision(), 4);
    assert_eq!(show(&book, 1), Err(15));
    assert_eq!(show(&book, 4), Err(14));
}

/// The bytes of a book, one by one: an order of crew 999 that is pending, and one of the desk's that is live.
#[test]
fn the_stored_form_byte_by_byte() {
    let mut book = Book::open(4, 1).unwrap();
    book.grant(2, 0, Way::Plain, 0, Crew(999)).unwrap();
    book.grant(3, 2, Way::Plain, 0, Crew::DESK).unwrap();
    book.remove(1).unwrap();
    let mut want = [0; 1024];
    want[..9].copy_from_slice(&[4, 0, 1, 0, 2, 0, 2, 0, 2]);
    let first = [1, 0, 0, 0, 2, 0, 1, 0, 231, 3, 1, 0];
    let second = [2, 0, 2, 0, 3, 0, 1, 0, 0, 0, 0, 0];
    want[512..524].copy_from_slice(&first);
    want[524..536].copy_from_slice(&second);
    want[1020] = 1;
    for block in want.chunks_mut(512) {
        let sum: u32 = (1..=510).zip(&*block).map(|(i, &b)| i * b as u32).sum();
        block[510] = (sum % 65521 % 256) as u8;
        block[511] = (sum % 65521 / 256) as u8;
    }
    assert_eq!(book.bytes(), want);
    assert_eq!(book.revision(), 3);
}
