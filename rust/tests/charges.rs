//! Charges against a second computation in wide numbers: on drawn books, at the edges of the bands, at the limits and over the seam.
mod reference;

use reference::books::NaiveBook;
use reference::charges::{charge, charge_all, draw_lengths, draw_rates, paid};
use reference::draws::{draw_book, draw_serial};
use reference::stored::encode;
use reference::tallies::Tally;
use reference::Random;
use ring_planner::{buffers, Book, Crew, Way};

/// The ring, the colours and the records of drawn books.
const BOOKS: [(u16, u16, usize); 6] = [
    (3, 1, 1),
    (4, 2, 3),
    (9, 3, 8),
    (64, 16, 120),
    (256, 128, 512),
    (200, 8, 300),
];

/// The charge of an order and of the whole book, both ways.
fn agree(tally: &mut Tally, naive: &NaiveBook, serial: u16, lengths: &[u32], rates: &[u32]) {
    let form = encode(naive);
    let got = buffers::charge(&form, serial, lengths, rates);
    let want = charge(naive, serial, lengths, rates);
    tally.agree("charge", got.map(u128::from), want);
    let got = buffers::charge_all(&form, lengths, rates);
    let want = charge_all(naive, lengths, rates);
    tally.agree("charge all", got.map(u128::from), want);
}

#[test]
fn drawn_books() {
    let mut random = Random::new(90);
    let mut tally = Tally::default();
    for (n, w, records) in BOOKS {
        for _ in 0..40 {
            let naive = draw_book(&mut random, n, w, records);
            for _ in 0..25 {
                let lengths = draw_lengths(&mut random, n);
                let rates = draw_rates(&mut random);
                let serial = draw_serial(&mut random, &naive);
                agree(&mut tally, &naive, serial, &lengths, &rates);
            }
        }
    }
    tally.report(
        "charges",
        &[
            ("charge", &[0, 14, 15, 29, 30]),
            ("charge all", &[0, 29, 30]),
        ],
    );
}

/// One order by each way between nodes 0 and k, in colours of their own.
fn both_ways(n: u16, k: u16) -> Book {
    let mut book = Book::open(n, 2).unwrap();
    assert_eq!(book.grant(0, k, Way::Plain, 0, Crew::DESK), Ok(1));
    assert_eq!(book.grant(0, k, Way::Seam, 1, Crew::DESK), Ok(2));
    book
}

#[test]
fn edges_of_the_bands() {
    let book = both_ways(3, 1);
    let mut compared = 0;
    for rates in [
        [30, 20, 10],
        [1, 1, 1],
        [0, 0, 1],
        [999, 1, 100_000],
        [7, 0, 3],
    ] {
        let circuit = book.show(1, Crew::DESK).unwrap();
        for metres in (49_990..=50_010)
            .chain(199_990..=200_010)
            .chain(1..=20)
            .chain(999_990..=1_000_000)
        {
            let lengths = [metres, 1, 1];
            let got = book.charge(1, &lengths, rates).unwrap();
            assert_eq!(got as u128, paid(&circuit, &lengths, &rates), "{metres} m");
            // The seam way of the same nodes has the two other links.
            let (half, rest) = (metres / 2, metres - metres / 2);
            if half > 0 {
                let seam = book.charge(2, &[1_000, half, rest], rates);
                assert_eq!(seam, Ok(got), "{metres} m over the seam");
            }
            compared += 1;
        }
    }
    println!("{compared} ways at the edges of the bands charged alike");
}

#[test]
fn the_example_of_the_rules() {
    let book = both_ways(3, 1);
    let rates = [30, 20, 10];
    for (metres, cents) in [
        (60_000, 1_700),
        (60_001, 1_701),
        (50_000, 1_500),
        (200_000, 4_500),
    ] {
        assert_eq!(book.charge(1, &[metres, 1, 1], rates), Ok(cents));
    }
    assert_eq!(book.charge_all(&[60_000, 30_000, 30_001], rates), Ok(3_401));
}

#[test]
fn the_greatest_charge() {
    let (lengths, rates) = ([1_000_000; 256], [100_000; 3]);
    for k in [1, 255] {
        let book = both_ways(256, k);
        let [plain, seam] = [1, 2].map(|serial| book.charge(serial, &lengths, rates).unwrap());
        assert_eq!(plain, 100_000_000 * k as u64);
        assert_eq!(seam, 100_000_000 * (256 - k) as u64);
        assert_eq!(plain.max(seam), 25_500_000_000);
        assert_eq!(book.charge_all(&lengths, rates), Ok(25_600_000_000));
    }
    // A colour has room for one way of 255 links.
    let mut book = Book::open(256, 128).unwrap();
    for colour in 0..128 {
        book.grant(0, 255, Way::Plain, colour, Crew(colour))
            .unwrap();
    }
    assert_eq!(book.charge_all(&lengths, rates), Ok(128 * 25_500_000_000));
}

/// Every ground comes in its turn: 18 to 20, then 14 and 15, then 29, then 30, and the charge leaves the book alone.
#[test]
fn grounds_in_their_order() {
    let mut naive = NaiveBook::open(4, 1).unwrap();
    naive.grant([0, 2, 0, 0, 7]).unwrap();
    naive.grant([2, 3, 0, 0, 0]).unwrap();
    naive.remove(2).unwrap();
    let form = encode(&naive);
    let number = |bytes: &[u8], serial, lengths: &[u32], rates: &[u32]| {
        buffers::charge(bytes, serial, lengths, rates)
            .err()
            .map(|refusal| refusal.number)
    };
    let (good, bad, long) = ([1, 1, 1, 1], [1, 1, 1, 0], [1; 5]);
    let (fair, dear, few) = ([0, 0, 0], [0, 0, 100_001], [0, 0]);
    assert_eq!(number(&form[..511], 0, &bad, &dear), Some(18));
    let mut changed = form.clone();
    changed[4] ^= 1;
    assert_eq!(number(&changed, 0, &bad, &dear), Some(19));
    for lengths in [&good[..], &bad, &long, &[]] {
        for rates in [&fair[..], &dear, &few, &[]] {
            assert_eq!(number(&form, 0, lengths, rates), Some(14));
            assert_eq!(number(&form, 3, lengths, rates), Some(14));
            assert_eq!(number(&form, 2, lengths, rates), Some(15), "pending");
            let tariff = match (lengths == &good[..], rates == &fair[..]) {
                (false, _) => Some(29),
                (true, false) => Some(30),
                (true, true) => None,
            };
            assert_eq!(number(&form, 1, lengths, rates), tariff);
            let all = buffers::charge_all(&form, lengths, rates);
            assert_eq!(all.err().map(|refusal| refusal.number), tariff);
        }
    }
}
