//! What a crew other than the desk learns of the proved book, in memory and in a buffer, and what it does not: two books that differ only
//! in what it may not see give it the same answers.
mod calls;
mod programs;
mod reference;
mod scenes;

use std::collections::BTreeMap;

use calls::{play_told, played, Call, CONFIRM, GRANT, HOLDER, REMOVE, SHOW};
use reference::books::{NaiveBook, DESK};
use reference::Random;
use ring_planner::{Circuit, Holder};
use scenes::Scene;

/// What a crew's own orders and those of others are to it: live, pending and confirmed.
const STATES: [(&[u16], &str); 37] = [
    (&[GRANT, 0, 2, 0, 0, 7], "0 1"),
    (&[GRANT, 2, 3, 0, 0, 8], "0 2"),
    (&[GRANT, 3, 4, 0, 0, 0], "0 3"),
    // Each order to the desk, to its crew, and to another.
    (&[SHOW, 1, 0], "0 0 2 0 0"),
    (&[SHOW, 1, 7], "0 0 2 0 0"),
    (&[SHOW, 1, 8], "14"),
    (&[SHOW, 2, 7], "14"),
    (&[SHOW, 2, 8], "0 2 3 0 0"),
    (&[SHOW, 3, 7], "14"),
    (&[SHOW, 3, 0], "0 3 4 0 0"),
    (&[SHOW, 4, 7], "14"),
    (&[SHOW, 0, 7], "14"),
    (&[HOLDER, 1, 0, 0], "0 2 1"),
    (&[HOLDER, 1, 0, 7], "0 2 1"),
    (&[HOLDER, 1, 0, 8], "0 1 0"),
    (&[HOLDER, 2, 0, 7], "0 1 0"),
    (&[HOLDER, 3, 0, 7], "0 1 0"),
    (&[HOLDER, 4, 0, 7], "0 0 0"),
    (&[HOLDER, 4, 0, 0], "0 0 0"),
    // A pending order is to its own crew as another's, and the desk still learns its serial.
    (&[REMOVE, 1], "0"),
    (&[SHOW, 1, 0], "15"),
    (&[SHOW, 1, 7], "14"),
    (&[SHOW, 1, 8], "14"),
    (&[HOLDER, 0, 0, 0], "0 2 1"),
    (&[HOLDER, 0, 0, 7], "0 1 0"),
    (&[HOLDER, 0, 0, 8], "0 1 0"),
    (&[GRANT, 0, 1, 0, 0, 7], "11"),
    // A confirmed one is gone, and its links are free for every crew.
    (&[CONFIRM, 1], "0"),
    (&[SHOW, 1, 0], "15"),
    (&[SHOW, 1, 7], "14"),
    (&[HOLDER, 0, 0, 7], "0 0 0"),
    (&[GRANT, 0, 1, 0, 0, 8], "0 4"),
    (&[SHOW, 4, 7], "14"),
    (&[SHOW, 4, 8], "0 0 1 0 0"),
    (&[HOLDER, 0, 0, 8], "0 2 4"),
    (&[HOLDER, 0, 0, 7], "0 1 0"),
    (&[HOLDER, 1, 0, 7], "0 0 0"),
];

#[test]
fn own_orders_and_others() {
    play_told(6, 1, &STATES, "live 3 grants 4");
}

/// 26 comes behind 4, 5, 9 and 10 in a grant and before 11, and first in both questions, whatever else is wrong.
const ABOVE_999: [(&[u16], &str); 23] = [
    (&[GRANT, 0, 2, 0, 0, 999], "0 1"),
    (&[GRANT, 4, 4, 2, 1, 1000], "4"),
    (&[GRANT, 3, 3, 2, 1, 1000], "5"),
    (&[GRANT, 2, 3, 2, 1, 1000], "9"),
    (&[GRANT, 2, 3, 0, 1, 1000], "10"),
    (&[GRANT, 2, 3, 0, 0, 1000], "26"),
    (&[GRANT, 2, 3, 0, 0, 65535], "26"),
    (&[GRANT, 1, 3, 0, 0, 1000], "26"),
    (&[GRANT, 1, 3, 0, 0, 999], "11"),
    (&[SHOW, 1, 999], "0 0 2 0 0"),
    (&[SHOW, 1, 1000], "26"),
    (&[SHOW, 0, 1000], "26"),
    (&[SHOW, 2, 65535], "26"),
    (&[HOLDER, 0, 0, 999], "0 2 1"),
    (&[HOLDER, 0, 0, 1000], "26"),
    (&[HOLDER, 4, 1, 1000], "26"),
    (&[HOLDER, 4, 1, 999], "16"),
    (&[HOLDER, 4, 1, 0], "16"),
    (&[HOLDER, 3, 1, 65535], "26"),
    (&[HOLDER, 3, 1, 1], "10"),
    (&[REMOVE, 1], "0"),
    (&[SHOW, 1, 1000], "26"),
    (&[GRANT, 2, 3, 0, 0, 1], "0 2"),
];

#[test]
fn crews_above_999() {
    play_told(4, 1, &ABOVE_999, "live 1 grants 2");
}

/// The live orders of a crew.
fn own_orders(book: &NaiveBook, crew: u16) -> BTreeMap<u16, Circuit> {
    let own = |(serial, _): &(&u16, &Circuit)| book.crew_of(**serial) == crew;
    let copied = |(serial, circuit): (&u16, &Circuit)| (*serial, *circuit);
    book.live.iter().filter(own).map(copied).collect()
}

/// The links and colours that are held.
fn held(book: &NaiveBook) -> Vec<(u16, u16)> {
    let all = (0..book.n).flat_map(|link| (0..book.w).map(move |colour| (link, colour)));
    all.filter(|&(link, colour)| book.holder(link, colour, DESK) != Ok(Holder::Free))
        .collect()
}

/// Both questions, about every serial up to so many grants and every link and colour, and about some that are none.
fn questions(book: &NaiveBook, grants: u16, crew: u16) -> Vec<Call> {
    let shows = (0..=grants + 1).chain([65535]);
    let links = (0..=book.n).flat_map(|link| (0..=book.w).map(move |colour| (link, colour)));
    shows
        .map(|serial| [SHOW, serial, crew, 0, 0, 0])
        .chain(links.map(|(link, colour)| [HOLDER, link, colour, crew, 0, 0]))
        .collect()
}

/// What came of the questions about pairs of books.
#[derive(Default)]
struct Outcome {
    asked: usize,
    /// The questions that the desk finds answered otherwise.
    told_apart: usize,
    /// How often the crew got each kind of answer.
    kinds: BTreeMap<&'static str, usize>,
}

/// The kind of an answer to a question.
fn kind(question: Call, line: &str) -> &'static str {
    let words: Vec<&str> = line.split(' ').collect();
    match (question[0], &words[..]) {
        (SHOW, ["0", ..]) => "shown",
        (SHOW, ["14"]) => "not shown",
        (HOLDER, ["0", "0", "0"]) => "free",
        (HOLDER, ["0", "1", "0"]) => "held",
        (HOLDER, ["0", "2", _]) => "held by its own",
        (HOLDER, ["16"] | ["10"]) => "no place",
        _ => panic!("{question:?} answered {line}"),
    }
}

impl Outcome {
    /// Asks the same of two books of a scene, first for its crew and then for the desk.
    fn ask(&mut self, random: &mut Random, scene: &Scene) {
        let books = [scene.book(random), scene.book(random)];
        let [one, other] = [&books[0].book, &books[1].book];
        assert_eq!(own_orders(one, scene.crew), own_orders(other, scene.crew));
        assert_eq!(held(one), held(other));
        let grants = one.grants.max(other.grants);
        let asked = questions(one, grants, scene.crew);
        let by_desk = questions(one, grants, DESK);
        let [answers, others] = books.each_ref().map(|history| {
            let built = history.calls.len();
            let calls = [&history.calls[..], &asked, &by_desk].concat();
            played(scene.n, scene.w, &calls)[built..].to_vec()
        });
        for (i, &question) in asked.iter().enumerate() {
            assert_eq!(answers[i], others[i], "{question:?}");
            *self.kinds.entry(kind(question, &answers[i])).or_default() += 1;
            let desk = i + asked.len();
            self.told_apart += (answers[desk] != others[desk]) as usize;
        }
        self.asked += asked.len();
    }
}

/// Two books in which a crew has the same live orders, and the same colours are held on the same links, answer it alike.
#[test]
fn a_crew_cannot_tell_books_apart() {
    let mut random = Random::new(16);
    let mut outcome = Outcome::default();
    for round in 0..150 {
        let n = 3 + random.below(if round % 5 == 0 { 60 } else { 14 }) as u16;
        let w = 1 + random.below(if round % 5 == 0 { 8 } else { 5 }) as u16;
        let scene = Scene::draw(&mut random, n, w);
        outcome.ask(&mut random, &scene);
    }
    let Outcome {
        asked,
        told_apart,
        kinds,
    } = outcome;
    assert!(asked >= 10_000, "{asked} questions");
    assert!(4 * told_apart >= asked, "{told_apart} of {asked}");
    let often = |name: &&str| kinds.get(name).is_some_and(|&count| count >= 300);
    let names = [
        "shown",
        "not shown",
        "free",
        "held",
        "held by its own",
        "no place",
    ];
    assert!(names.iter().all(often), "{kinds:?}");
    println!("{asked} questions answered to a crew alike by two books, {told_apart} of them to the desk otherwise");
}
