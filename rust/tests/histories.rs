//! The proved book in memory, on which program `calls_run` plays calls, and in a buffer of the C interface, against the naive one: removals
//! leave their records pending, confirmations free them, and every crew reads what it may.
mod calls;
mod programs;
mod reference;

use std::collections::BTreeMap;

use calls::{answer, Answer, Call, History, CONFIRM, GRANT, HOLDER, REMOVE, SHOW};
use reference::books::{NaiveBook, DESK};
use reference::draws::{draw, draw_crew, draw_grant, draw_pending, draw_serial};
use reference::Random;
use ring_planner::Holder;

/// How often each answer came, by the kind of the call and its number, and by what the call is about.
type Tally = BTreeMap<String, usize>;

/// The answers of a book, but 13, which no list of calls is long enough for, and 12 without a pending record, which comes seldom. `pending`
/// stands behind a change that a pending record made so; behind a question, what the order is to the crew that asks.
#[rustfmt::skip]
const ANSWERS: [&str; 49] = [
    "grant 0", "grant 4", "grant 5", "grant 9", "grant 10", "grant 11", "grant 11 pending", "grant 12 pending", "grant 26",
    "remove 0", "remove 14", "remove 15", "remove 15 pending",
    "confirm 0 pending", "confirm 14", "confirm 23", "confirm 24",
    "desk's show 0 own live", "desk's show 0 another's live", "desk's show 14 never given",
    "desk's show 15 own pending", "desk's show 15 another's pending", "desk's show 15 confirmed",
    "crew's show 0 own live", "crew's show 14 another's live", "crew's show 14 the desk's live", "crew's show 14 never given",
    "crew's show 14 own pending", "crew's show 14 another's pending", "crew's show 14 the desk's pending", "crew's show 14 confirmed",
    "crew's show 26",
    "desk's holder 0 free", "desk's holder 2 own live", "desk's holder 2 another's live",
    "desk's holder 2 own pending", "desk's holder 2 another's pending", "desk's holder 10", "desk's holder 16",
    "crew's holder 0 free", "crew's holder 2 own live", "crew's holder 1 another's live", "crew's holder 1 the desk's live",
    "crew's holder 1 own pending", "crew's holder 1 another's pending", "crew's holder 1 the desk's pending",
    "crew's holder 10", "crew's holder 16", "crew's holder 26",
];

/// What an order is to a crew.
fn standing(book: &NaiveBook, serial: u16, crew: u16) -> String {
    let state = match serial {
        _ if book.live.contains_key(&serial) => "live",
        _ if book.pending.contains_key(&serial) => "pending",
        0 => return "never given".to_string(),
        _ if serial > book.grants => return "never given".to_string(),
        _ => return "confirmed".to_string(),
    };
    let whose = match book.crew_of(serial) {
        owner if owner == crew => "own",
        DESK => "the desk's",
        _ => "another's",
    };
    format!("{whose} {state}")
}

/// The name of a change's answer: `pending` is behind it if it is about a pending order, or would be another with all of them confirmed.
fn change_named(book: &NaiveBook, call: Call, number: u16) -> String {
    let mark = match call {
        [GRANT, ..] => {
            let mut confirmed = book.clone();
            confirmed.pending.clear();
            answer(&mut confirmed, call).err().unwrap_or(0) != number
        }
        [_, serial, ..] => book.pending.contains_key(&serial),
    };
    let name = ["grant", "remove", "confirm"][call[0] as usize];
    format!("{name} {number}{}", if mark { " pending" } else { "" })
}

/// The name of a question's answer: who asks, the state or the refusal, and what the order is to that crew.
fn question_named(book: &NaiveBook, call: Call, given: &Answer) -> String {
    let (name, crew) = match call {
        [SHOW, _, crew, ..] => ("show", crew),
        [_, _, _, crew, ..] => ("holder", crew),
    };
    let asker = if crew == DESK { "desk's" } else { "crew's" };
    let about = match (call, given) {
        ([SHOW, serial, ..], Ok(_) | Err(14 | 15)) => standing(book, serial, crew),
        ([_, link, colour, ..], Ok(_)) => match book.holder(link, colour, DESK) {
            Ok(Holder::HeldBy(serial)) => standing(book, serial, crew),
            _ => "free".to_string(),
        },
        _ => String::new(),
    };
    let number = match given {
        Ok(values) if name == "holder" => values[0],
        Ok(_) => 0,
        Err(number) => *number,
    };
    format!("{asker} {name} {number} {about}")
        .trim()
        .to_string()
}

/// Makes a call, and counts its answer.
fn call(history: &mut History, call: Call, tally: &mut Tally) {
    let before = history.book.clone();
    let given = history.call(call);
    let name = match call[0] {
        GRANT | REMOVE | CONFIRM => change_named(&before, call, given.err().unwrap_or(0)),
        _ => question_named(&before, call, &given),
    };
    *tally.entry(name).or_default() += 1;
}

/// A crew that asks about an order: every second time the one whose order it is.
fn draw_asker(random: &mut Random, book: &NaiveBook, serial: u16) -> u16 {
    match random.below(2) {
        0 => book.crew_of(serial),
        _ => draw_crew(random),
    }
}

/// Any call; grants come `grants` times in 16. Numbers that a kind does not read are anything.
fn draw_call(random: &mut Random, book: &NaiveBook, grants: u64) -> Call {
    let mut any = || random.below(65536) as u16;
    let [q, r, s, t] = [any(), any(), any(), any()];
    let usual = random.below(4) > 0;
    if random.below(16) < grants {
        let [x, y, way, colour, _] = draw_grant(random, book.n, book.w);
        return [GRANT, x, y, way, colour, draw_crew(random)];
    }
    let [live, pending] = [draw_serial(random, book), draw_pending(random, book)];
    match random.below(12) {
        0..=2 => [REMOVE, if usual { live } else { pending }, q, r, s, t],
        3..=5 => [CONFIRM, if usual { pending } else { live }, q, r, s, t],
        6 | 7 => [SHOW, live, draw_asker(random, book, live), r, s, t],
        8 => [SHOW, pending, draw_asker(random, book, pending), r, s, t],
        _ => {
            let kind = if usual { HOLDER } else { HOLDER.max(q) };
            let (link, colour) = (draw(random, book.n), draw(random, book.w));
            let crew = match book.holder(link, colour, DESK) {
                Ok(Holder::HeldBy(serial)) => draw_asker(random, book, serial),
                _ => draw_crew(random),
            };
            [kind, link, colour, crew, s, t]
        }
    }
}

/// Nodes, colours, and how many calls in 16 are grants: small rings, where circuits are in each other's way, and three whose 512
/// records fill up.
#[rustfmt::skip]
const RUNS: [(u16, u16, u64); 18] = [
    (3, 1, 6), (3, 2, 6), (4, 1, 6), (4, 3, 6), (5, 2, 6), (6, 1, 6), (6, 4, 6), (8, 2, 6), (8, 8, 7),
    (12, 3, 7), (16, 2, 7), (24, 6, 8), (40, 4, 8), (64, 16, 9), (100, 5, 9),
    (256, 128, 11), (256, 16, 11), (200, 32, 12),
];

#[test]
fn histories_agree_with_maps() {
    let mut random = Random::new(14);
    let mut tally = Tally::new();
    for (n, w, grants) in RUNS {
        let mut history = History::new(NaiveBook::open(n, w).unwrap());
        for _ in 0..5000 {
            let drawn = draw_call(&mut random, &history.book, grants);
            call(&mut history, drawn, &mut tally);
        }
        let places = (0..n).flat_map(|link| (0..w).map(move |colour| (link, colour)));
        for (link, colour) in places.take(400) {
            let crew = draw_crew(&mut random);
            call(&mut history, [HOLDER, link, colour, crew, 0, 0], &mut tally);
        }
        history.agree(n, w);
    }
    for name in ANSWERS {
        let count = tally.get(name).copied().unwrap_or(0);
        assert!(count >= 20, "{name} {count} times: {tally:?}");
    }
    let calls: usize = tally.values().sum();
    println!("{calls} calls in {} histories answered alike", RUNS.len());
}

/// The program's calls on a book that open refuses: there is one of no nodes in its place.
#[test]
fn a_book_of_no_nodes() {
    let mut random = Random::new(15);
    let mut tally = Tally::new();
    let drawn = NaiveBook::open(5, 2).unwrap();
    for (n, w) in [(2, 1), (257, 1), (4, 0), (4, 129), (65535, 65535)] {
        assert!(NaiveBook::open(n, w).is_err());
        let mut history = History::new(NaiveBook {
            n: 0,
            w: 0,
            ..drawn.clone()
        });
        for _ in 0..200 {
            let next = draw_call(&mut random, &drawn, 6);
            call(&mut history, next, &mut tally);
        }
        history.agree(n, w);
    }
    let names: Vec<&str> = tally.keys().map(String::as_str).collect();
    let want = [
        "confirm 14",
        "crew's holder 16",
        "crew's holder 26",
        "crew's show 14 never given",
        "crew's show 26",
        "desk's holder 16",
        "desk's show 14 never given",
        "grant 4",
        "remove 14",
    ];
    assert_eq!(names, want);
}
