//! Sessions with program `ringbook`: a terminal that is closed, and several sessions at once on one file.
mod desk;
mod reference;

use std::thread;

use desk::{refused, Folder, NaiveDesk, Session};

#[test]
fn a_terminal_closed_without_end_of_input() {
    let folder = Folder::new("terminal");
    let mut first = Session::new(folder.program().arg("book"));
    assert_eq!(first.enter("open 8 2\n"), "opened 8 2\n");
    for serial in 1..4 {
        let line = format!("grant {serial} {} 0 0\n", serial + 1);
        assert_eq!(first.enter(&line), format!("granted {serial}\n"));
    }
    first.close_terminal();
    let mut second = Session::new(folder.program().arg("book"));
    assert_eq!(second.enter("count\n"), "live 3 grants 3\n");
    assert_eq!(second.enter("show 3\n"), "circuit 3 4 P 0\n");
    assert_eq!(second.enter("grant 5 6 0 0\n"), "granted 4\n");
    // A third session beside it sees what the second was told, and the second what the third was.
    let mut third = Session::new(folder.program().arg("book"));
    assert_eq!(third.enter("show 4\n"), "circuit 5 6 P 0\n");
    assert_eq!(third.enter("remove 4\n"), "removed 4\n");
    assert_eq!(third.enter("grant 6 7 0 0 5\n"), "granted 5\n");
    assert_eq!(second.enter("show 4\n"), refused(15));
    assert_eq!(second.enter("holder 5 0\n"), "held 4\n");
    assert_eq!(second.enter("pending\n"), "order 4 5 6 P 0\n");
    assert_eq!(second.enter("show 5 5\n"), "circuit 6 7 P 0\n");
    assert_eq!(second.enter("show 5 6\n"), refused(14));
    assert_eq!(second.enter("grant 5 7 0 0\n"), refused(11));
    assert_eq!(second.enter("revision\n"), "revision 6\n");
    assert_eq!(second.enter("confirm 4\n"), "confirmed 4\n");
    assert_eq!(third.enter("revision\n"), "revision 6\n");
    assert_eq!(third.enter("grant 5 6 0 0\n"), "granted 6\n");
    assert_eq!(second.enter("confirm 4\n"), refused(24));
    third.end();
    second.end();
}

/// What a session was told of an order: its serial, the line that asked for it, and the changes of it that followed.
type Told = (u16, String, Vec<String>);

/// A session that gets so many grants, each answered before the next line is entered: in a colour of its own, and now and then in one of
/// the places that every session wants, the first that is free. The latter are removed, so that they stay held, and some of the former are
/// removed and confirmed.
fn grants(folder: &Folder, colour: usize, count: usize) -> Vec<Told> {
    let mut session = Session::new(folder.program().arg("book"));
    let (mut told, mut wanted) = (Vec::new(), 0);
    while told.len() < count {
        let (place, colour) = match told.len() % 5 {
            0 => (wanted, 0),
            _ => (told.len(), colour),
        };
        let crew = told.len() % 3;
        let line = format!("grant {place} {} 0 {colour} {crew}\n", place + 1);
        let answer = session.enter(&line);
        let Some(serial) = answer.strip_prefix("granted ") else {
            assert!(colour == 0 && answer == refused(11), "{line}{answer}");
            wanted += 1;
            continue;
        };
        let changes: &[&str] = match told.len() % 5 {
            0 => &["remove"],
            3 => &["remove", "confirm"],
            _ => &[],
        };
        for &change in changes {
            let done = if change == "remove" {
                "removed"
            } else {
                "confirmed"
            };
            let answer = session.enter(&format!("{change} {serial}"));
            assert_eq!(answer, format!("{done} {serial}"));
        }
        let changes = changes.iter().map(|change| format!("{change} {serial}"));
        told.push((serial.trim().parse().unwrap(), line, changes.collect()));
    }
    session.end();
    told
}

/// Sessions at once on one file, in processes of their own, with 500 grants in all: each gives the answers of a desk that gets the grants
/// of all sessions in the order of the serials, and the file is that of a desk that then gets the other changes.
fn at_once(sessions: usize) {
    let folder = Folder::new(&format!("at-once-{sessions}"));
    folder.answer("open 256 8\n");
    let mut desk = NaiveDesk(folder.bytes("book"));
    let mut told: Vec<Told> = thread::scope(|scope| {
        let start = |i| {
            let folder = &folder;
            scope.spawn(move || grants(folder, i + 1, 500 / sessions))
        };
        let workers: Vec<_> = (0..sessions).map(start).collect();
        workers
            .into_iter()
            .flat_map(|w| w.join().unwrap())
            .collect()
    });
    told.sort();
    let given: Vec<u16> = told.iter().map(|(serial, ..)| *serial).collect();
    assert_eq!(given, (1..=500).collect::<Vec<u16>>(), "each given once");
    for (serial, line, _) in &told {
        assert_eq!(desk.answer(line), format!("granted {serial}\n"), "{line}");
    }
    let changes: Vec<&str> = told
        .iter()
        .flat_map(|(.., changes)| changes.iter().map(String::as_str))
        .collect();
    desk.answers(&changes.concat());
    assert_eq!(folder.bytes("book"), desk.bytes());
    assert_eq!(folder.bytes("book.new"), None);
    let others = changes.len();
    println!("500 grants and {others} other changes by {sessions} sessions at once");
}

#[test]
fn two_sessions_at_once() {
    at_once(2);
}

#[test]
fn four_sessions_at_once() {
    at_once(4);
}
