//! Arguments for the calls on a book, now and then out of range.
use std::collections::BTreeMap;

use ring_planner::Circuit;

use super::books::{Asked, NaiveBook, DESK};
use super::Random;

/// A number below the limit, now and then another one.
pub fn draw(random: &mut Random, limit: u16) -> u16 {
    match random.below(64) {
        0 => limit,
        1 => 65535,
        2 => random.below(65536) as u16,
        _ => random.below(limit as u64) as u16,
    }
}

/// A crew: the desk or one of three others, now and then the last one there is, the first one there is not, or any number.
pub fn draw_crew(random: &mut Random) -> u16 {
    match random.below(32) {
        0 => 999,
        1 => 1000,
        2 => random.below(65536) as u16,
        _ => random.below(4) as u16,
    }
}

/// A grant: ways of few links for the most part, so that many fit.
pub fn draw_grant(random: &mut Random, n: u16, w: u16) -> Asked {
    let x = draw(random, n);
    let step = match random.below(8) {
        0 => draw(random, n),
        _ => 1 + random.below(3) as u16,
    };
    let y = if x < n {
        x.wrapping_add(step) % n
    } else {
        step
    };
    let around = (x > y) != (random.below(16) == 0);
    let way = match random.below(64) {
        0 => random.below(65536) as u16,
        _ => around as u16,
    };
    let [x, y] = if random.below(2) == 0 { [x, y] } else { [y, x] };
    [x, y, way, draw(random, w), draw_crew(random)]
}

/// The lines of a bundle, 0 to 17 of them.
pub fn draw_bundle(random: &mut Random, n: u16, w: u16) -> Vec<Asked> {
    let count = random.below(18);
    (0..count).map(|_| draw_grant(random, n, w)).collect()
}

/// A serial, most often one that is live.
pub fn draw_serial(random: &mut Random, naive: &NaiveBook) -> u16 {
    draw_order(random, naive.grants, &naive.live)
}

/// A serial, most often one that is pending.
pub fn draw_pending(random: &mut Random, naive: &NaiveBook) -> u16 {
    draw_order(random, naive.grants, &naive.pending)
}

/// A serial, most often one of these orders.
fn draw_order(random: &mut Random, grants: u16, orders: &BTreeMap<u16, Circuit>) -> u16 {
    match random.below(8) {
        0 => draw(random, grants.saturating_add(2)),
        _ => {
            let place = random.below(orders.len().max(1) as u64) as usize;
            orders.keys().nth(place).copied().unwrap_or(1)
        }
    }
}

/// A book with so many records, live and pending, of any crews, and with orders in its past that were confirmed.
pub fn draw_book(random: &mut Random, n: u16, w: u16, records: usize) -> NaiveBook {
    filled(random, n, w, records, true)
}

/// A book with so many records, all live and the desk's, and with orders in its past that were confirmed.
pub fn draw_old_book(random: &mut Random, n: u16, w: u16, live: usize) -> NaiveBook {
    filled(random, n, w, live, false)
}

fn filled(random: &mut Random, n: u16, w: u16, records: usize, marked: bool) -> NaiveBook {
    let mut book = NaiveBook::open(n, w).unwrap();
    while book.live.len() + book.pending.len() < records {
        let [x, y, way, colour, crew] = draw_grant(random, n, w);
        let crew = if marked { crew } else { DESK };
        match (book.grant([x, y, way, colour, crew]), random.below(16)) {
            (Ok(serial), 0..=2) => book.lapse(serial).unwrap(),
            (Ok(serial), 3..=6) if marked => book.remove(serial).unwrap(),
            // Now and then an order goes, lest a long way be in that of all others.
            (Err(11), 0) => {
                let place = random.below(book.records().count() as u64) as usize;
                let serial = book.records().nth(place).map_or(0, |(&serial, _)| serial);
                let _ = book.remove(serial);
                book.confirm(serial).unwrap();
            }
            _ => {}
        }
    }
    book
}
