//! Calls that program `calls_run` plays on the proved book in memory, and the C interface on the same book in a buffer.
#![allow(dead_code)]

use ring_planner::{buffers, Book, Circuit, Crew, Holder};

use crate::programs;
use crate::reference::books::NaiveBook;
use crate::reference::stored::load;

/// A call: its kind and five numbers, of which most kinds read only the first ones.
pub type Call = [u16; 6];

/// The kinds by their numbers; every other number is a holder's too.
pub const GRANT: u16 = 0;
pub const REMOVE: u16 = 1;
pub const CONFIRM: u16 = 2;
pub const SHOW: u16 = 3;
pub const HOLDER: u16 = 4;

/// The most calls that the program reads.
pub const MOST: usize = (65536 - 4) / 12;

/// The values of an answer, or the number of its refusal.
pub type Answer = Result<Vec<u16>, u16>;

/// The naive book's answer.
pub fn answer(book: &mut NaiveBook, [kind, p, q, r, s, t]: Call) -> Answer {
    match kind {
        GRANT => book.grant([p, q, r, s, t]).map(|serial| vec![serial]),
        REMOVE => book.remove(p).map(|()| vec![]),
        CONFIRM => book.confirm(p).map(|()| vec![]),
        SHOW => book.show(p, q).map(shown),
        _ => book.holder(p, q, r).map(held),
    }
}

fn shown(c: Circuit) -> Vec<u16> {
    vec![c.a, c.b, c.way as u16, c.colour]
}

fn held(holder: Holder) -> Vec<u16> {
    match holder {
        Holder::Free => vec![0, 0],
        Holder::Held => vec![1, 0],
        Holder::HeldBy(serial) => vec![2, serial],
    }
}

/// An answer as it is printed: 0 and the values, or the refusal's number.
fn printed(answer: &Answer) -> String {
    let numbers = match answer {
        Ok(values) => [&[0], &values[..]].concat(),
        Err(number) => vec![*number],
    };
    let words: Vec<String> = numbers.iter().map(u16::to_string).collect();
    words.join(" ")
}

/// The counts as they are printed behind the last call.
fn counts(book: &NaiveBook) -> String {
    format!("live {} grants {}", book.live.len(), book.grants)
}

/// The answer of the C interface to a call on a book in a buffer, and the length of its form afterwards.
fn answer_in(buffer: &mut [u8], length: usize, call: Call) -> (Answer, usize) {
    let [kind, p, q, r, s, t] = call;
    let changed = match kind {
        GRANT => buffers::grant(buffer, length, [p, q], r, s, Crew(t)).map(|(o, l)| (vec![o], l)),
        REMOVE => buffers::remove(buffer, length, p).map(|l| (vec![], l)),
        CONFIRM => buffers::confirm(buffer, length, p).map(|l| (vec![], l)),
        SHOW => buffers::show(&buffer[..length], p, Crew(q)).map(|c| (shown(c), length)),
        _ => buffers::holder(&buffer[..length], p, q, Crew(r)).map(|h| (held(h), length)),
    };
    match changed {
        Ok((values, after)) => (Ok(values), after),
        Err(refusal) => (Err(refusal.number), length),
    }
}

/// What the C interface says of calls on a book of n nodes and w colours, in the program's lines.
fn played_in_buffer(n: u16, w: u16, calls: &[Call]) -> Vec<String> {
    let mut buffer = [0; Book::MAX_LENGTH];
    let mut length = buffers::open(n, w, &mut buffer).unwrap();
    let mut lines = Vec::new();
    for &call in calls {
        let (answer, after) = answer_in(&mut buffer, length, call);
        lines.push(printed(&answer));
        length = after;
    }
    lines.push(counts(&load(&buffer[..length], 0).unwrap()));
    lines
}

/// What the program prints of calls on a book of n nodes and w colours: a line for each, and the counts behind the last. The C interface
/// says the same, if there is such a book.
pub fn played(n: u16, w: u16, calls: &[Call]) -> Vec<String> {
    assert!(calls.len() <= MOST, "the program reads all calls");
    let words = [n, w].into_iter().chain(calls.iter().flatten().copied());
    let input: Vec<u8> = words.flat_map(u16::to_le_bytes).collect();
    let output = programs::output(&["calls_run"], &input, 4096);
    assert!(output.ends_with('\n'), "every line is ended");
    let lines: Vec<String> = output.lines().map(str::to_string).collect();
    if NaiveBook::open(n, w).is_ok() {
        let others = played_in_buffer(n, w, calls);
        same_lines(calls, &lines, &others, "in memory and in a buffer");
    }
    lines
}

fn same_lines(calls: &[Call], lines: &[String], want: &[String], what: &str) {
    for (i, (got, want)) in lines.iter().zip(want).enumerate() {
        assert_eq!(got, want, "{what}, call {i}: {:?}", calls.get(i));
    }
    assert_eq!(lines.len(), want.len(), "{what}: a line for each call");
}

/// Has the calls played; each answer, and the counts behind the last, must be the line that is wanted.
pub fn play(n: u16, w: u16, calls: &[Call], want: &[String]) {
    let what = format!("n {n} w {w}");
    same_lines(calls, &played(n, w, calls), want, &what);
}

/// Has the calls played, each answered by the line beside it. A call's numbers that are left out are zeros.
pub fn play_told(n: u16, w: u16, told: &[(&[u16], &str)], counts: &str) {
    let whole = |numbers: &[u16]| std::array::from_fn(|i| numbers.get(i).copied().unwrap_or(0));
    let calls: Vec<Call> = told.iter().map(|(numbers, _)| whole(numbers)).collect();
    let lines = told.iter().map(|(_, line)| *line).chain([counts]);
    let lines: Vec<String> = lines.map(str::to_string).collect();
    play(n, w, &calls, &lines);
}

/// Calls on a naive book, and the lines that answer them.
pub struct History {
    pub book: NaiveBook,
    pub calls: Vec<Call>,
    lines: Vec<String>,
}

impl History {
    pub fn new(book: NaiveBook) -> History {
        let (calls, lines) = (Vec::new(), Vec::new());
        History { book, calls, lines }
    }

    /// Makes a call; gives the naive book's answer.
    pub fn call(&mut self, call: Call) -> Answer {
        let answer = answer(&mut self.book, call);
        self.calls.push(call);
        self.lines.push(printed(&answer));
        answer
    }

    /// Plays the calls for real; n and w are those that the program is told.
    pub fn agree(mut self, n: u16, w: u16) {
        self.lines.push(counts(&self.book));
        play(n, w, &self.calls, &self.lines);
    }
}
