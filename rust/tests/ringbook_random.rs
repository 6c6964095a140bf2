//! Long random sessions with program `ringbook`, each line answered as by the naive desk.
mod desk;
mod reference;

use std::collections::BTreeMap;

use desk::{draw_line, Folder, NaiveDesk};
use reference::old::encode_old;
use reference::Random;

/// The answers that must come, by the command and the kind of its answer.
#[rustfmt::skip]
const ANSWERS: [&str; 40] = [
    "open opened", "open error",
    "grant granted", "grant refused 4", "grant refused 9", "grant refused 10", "grant refused 11", "grant refused 26",
    "preview would", "preview would refuse 4", "preview would refuse 9", "preview would refuse 10", "preview would refuse 11",
    "preview would refuse 26", "preview refused 22",
    "remove removed", "remove refused 14", "remove refused 15",
    "confirm confirmed", "confirm refused 14", "confirm refused 23", "confirm refused 24",
    "show circuit", "show refused 14", "show refused 15", "show refused 26",
    "holder free", "holder held", "holder held SERIAL", "holder refused 10", "holder refused 16", "holder refused 26",
    "count live", "list order", "pending order", "revision revision", "help open", "", "grant error", "remove error",
];

/// The kind of an answer: its first word, and a refusal's number or that there is a serial.
fn kind(command: &str, answer: &str) -> String {
    let words: Vec<&str> = answer.split_whitespace().collect();
    let refused = words.iter().skip_while(|word| **word != "refused").nth(1);
    let answered = match (&words[..], refused) {
        (["would", ..], Some(number)) => format!(" would refuse {number}"),
        (["refused", ..], Some(number)) => format!(" refused {number}"),
        (["held", _], _) => " held SERIAL".to_string(),
        ([first, ..], _) => format!(" {first}"),
        ([], _) => String::new(),
    };
    format!("{command}{answered}")
}

/// The book between two sessions: many grants later, or with every record the desk's and live, in a file of the old form.
fn between(random: &mut Random, desk: &mut NaiveDesk) -> bool {
    let Some(mut book) = desk.book() else {
        return false;
    };
    match random.below(3) {
        0 => {
            book.grants += random.below((65535 - book.grants as u64) / 4 + 1) as u16;
            *desk = NaiveDesk::of(&book);
            false
        }
        1 => {
            book.pending.clear();
            book.crews.clear();
            *desk = NaiveDesk(Some(encode_old(&book)));
            true
        }
        _ => false,
    }
}

#[test]
fn random_sessions_agree() {
    let mut random = Random::new(10);
    let [mut sessions, mut commands, mut old_files] = [0; 3];
    let mut tally: BTreeMap<String, usize> = BTreeMap::new();
    for _ in 0..6 {
        let folder = Folder::new("random");
        let mut naive = NaiveDesk::default();
        for _ in 0..6 {
            let (mut input, mut want) = (String::new(), String::new());
            for _ in 0..random.below(110) {
                let line = draw_line(&mut random, &naive);
                let answer = naive.answers(&line);
                let command = line.split_whitespace().next().unwrap_or("");
                *tally.entry(kind(command, &answer)).or_default() += 1;
                want += &answer;
                input += &line;
                commands += 1;
            }
            assert_eq!(folder.answer(&input), want);
            assert_eq!(folder.bytes("book"), naive.bytes());
            assert_eq!(folder.bytes("book.new"), None);
            sessions += 1;
            // The next session may find another file.
            old_files += between(&mut random, &mut naive) as usize;
            folder.put("book", &naive.bytes());
        }
    }
    for answer in ANSWERS {
        assert!(tally.contains_key(answer), "never {answer}: {tally:?}");
    }
    assert!(old_files > 3, "{old_files} files of the old form");
    println!("{commands} commands in {sessions} sessions answered alike, {old_files} of them on a file of the old form");
}
