//! A naive desk: what the program is to answer, and what its file is to hold.
use std::collections::BTreeMap;

use ring_planner::{Circuit, Holder, Refusal, Way};

use crate::reference::books::{NaiveBook, Previewed, DESK};
use crate::reference::old::load_old;
use crate::reference::stored::{encode, load};

/// The commands, with how many numbers each has; `preview` has those of a grant for each line.
const COMMANDS: [(&str, usize); 11] = [
    ("open", 2),
    ("grant", 4),
    ("remove", 1),
    ("confirm", 1),
    ("show", 1),
    ("holder", 2),
    ("count", 0),
    ("list", 0),
    ("pending", 0),
    ("revision", 0),
    ("help", 0),
];

/// The commands behind whose numbers a crew may stand.
const WITH_CREW: [&str; 3] = ["grant", "show", "holder"];

/// What `help` prints.
pub const HELP: &str = "\
open N W                     begins a book for a ring of N nodes and W colours
grant X Y WAY COLOUR [CREW]  enters a circuit between X and Y for CREW, WAY 0 plain or 1 seam, and gives its order a serial
preview LINE, ..             the serials that up to 16 grants would get, each LINE as X Y WAY COLOUR [CREW]
remove SERIAL                removes an order; its colour stays held until the pull is confirmed
confirm SERIAL               confirms that a removed order's patch is pulled, and frees its colour
show SERIAL [CREW]           the circuit of an order that CREW may read: its ends, P (plain) or S (seam), its colour
holder LINK COLOUR [CREW]    the order that has the colour on the link, if CREW may read it
count                        how many orders are live, and how many were granted so far
revision                     the book's revision, which rises by one with each grant and each removal
list                         every live order with its circuit
pending                      every removed order whose pull is not yet confirmed, with its circuit
help                         these lines; CREW is 0 to 999, and 0, the desk, where it is left out
";

pub const NO_BOOK: &str = "error there is no book yet (open N W begins one)\n";
pub const BOOK_THERE: &str = "error there is a book in the file already\n";
pub const UNFINISHED: &str = "error the last line has no line feed and is not obeyed\n";
pub const TOO_LONG: &str = "error a line of more than 1,024 bytes is not obeyed\n";

/// The answer where the new file stays another's.
pub fn busy(name: &str) -> String {
    format!(
        "error nothing was changed, since {name}.new is there: another session is writing, or one was stopped while it wrote. \
If no session is at work, remove {name}.new and type the command again\n"
    )
}

/// A desk as the rules have it: what its file holds, or no file. Nothing else is kept between two lines.
#[derive(Clone, Debug, Default, PartialEq)]
pub struct NaiveDesk(pub Option<Vec<u8>>);

/// The numbers of a line's words, if each has 1 to 5 digits and is at most 65,535.
fn numbers(words: &[&str]) -> Option<Vec<u16>> {
    let digits =
        |word: &&str| (1..=5).contains(&word.len()) && word.bytes().all(|b| b.is_ascii_digit());
    words
        .iter()
        .map(|word| Some(word).filter(|w| digits(w))?.parse().ok())
        .collect()
}

/// The numbers, if there are so many, and behind them a crew: the desk, if no number more is there.
fn with_crew(mut numbers: Vec<u16>, count: usize) -> Option<Vec<u16>> {
    if numbers.len() == count {
        numbers.push(DESK);
    }
    Some(numbers).filter(|found| found.len() == count + 1)
}

/// The numbers of a bundle, five for each line, if its lines are those of a grant, a comma between them and behind it one space or none.
fn bundle(text: &str) -> Option<Vec<u16>> {
    if text.is_empty() {
        return Some(Vec::new());
    }
    let mut all = Vec::new();
    for line in text.split(',') {
        let words: Vec<&str> = line.strip_prefix(' ').unwrap_or(line).split(' ').collect();
        all.extend(with_crew(numbers(&words)?, 4)?);
    }
    Some(all)
}

/// The numbers of a command, if the words behind its name are as it has them, with the crew where one may stand.
fn numbers_of(command: &str, words: &[&str]) -> Option<Vec<u16>> {
    if command == "preview" {
        return bundle(&words.join(" "));
    }
    let (_, count) = COMMANDS.iter().find(|(name, _)| *name == command)?;
    let found = numbers(words)?;
    match WITH_CREW.contains(&command) {
        true => with_crew(found, *count),
        false => Some(found).filter(|found| found.len() == *count),
    }
}

pub fn refused(number: u16) -> String {
    let refusal = Refusal {
        number,
        values: [0, 0],
    };
    format!("refused {number} {}\n", refusal.ground())
}

/// What is said of a line that is no command: the front of it, its spaces squeezed.
pub fn not_understood(line: &str) -> String {
    let words: Vec<&str> = line.split(' ').filter(|word| !word.is_empty()).collect();
    let squeezed = words.join(" ");
    let front = &squeezed[..squeezed.len().min(60)];
    format!("error not understood: {front} (help lists the commands)\n")
}

/// The book of a file: in the new form, and if it is none, in the old one. What is neither is refused as the new form is.
fn book_in(bytes: &[u8]) -> Result<NaiveBook, u16> {
    load(bytes, 0).or_else(|number| load_old(bytes).map_err(|_| number))
}

impl NaiveDesk {
    /// The desk whose file holds a book.
    pub fn of(book: &NaiveBook) -> NaiveDesk {
        NaiveDesk(Some(encode(book)))
    }

    /// The bytes of the file.
    pub fn bytes(&self) -> Option<Vec<u8>> {
        self.0.clone()
    }

    /// The book in the file, if there is one.
    pub fn book(&self) -> Option<NaiveBook> {
        book_in(self.0.as_ref()?).ok()
    }

    /// The answer to an input of many lines.
    pub fn answers(&mut self, input: &str) -> String {
        input
            .split_inclusive('\n')
            .map(|line| self.answer(line))
            .collect()
    }

    /// The answer to a line, its line feed included.
    pub fn answer(&mut self, line: &str) -> String {
        if line.len() > 1024 {
            return TOO_LONG.to_string();
        }
        let Some(text) = line.strip_suffix('\n') else {
            return UNFINISHED.to_string();
        };
        let words: Vec<&str> = text.split(' ').filter(|word| !word.is_empty()).collect();
        let Some(&first) = words.first() else {
            return String::new();
        };
        let Some(numbers) = numbers_of(first, &words[1..]) else {
            return not_understood(text);
        };
        match (first, self.0.as_deref().map(book_in)) {
            ("help", _) => HELP.to_string(),
            (_, Some(Err(number))) => refused(number),
            ("open", None) => self.open(numbers[0], numbers[1]),
            ("open", Some(_)) => BOOK_THERE.to_string(),
            (_, None) => NO_BOOK.to_string(),
            (_, Some(Ok(book))) => self.answer_by(book, first, &numbers),
        }
    }

    fn open(&mut self, n: u16, w: u16) -> String {
        match NaiveBook::open(n, w) {
            Ok(book) => {
                *self = NaiveDesk::of(&book);
                format!("opened {n} {w}\n")
            }
            Err(number) => refused(number),
        }
    }

    /// The answer to a command on the book in the file; a change writes the new form, whatever the form was.
    fn answer_by(&mut self, book: NaiveBook, command: &str, numbers: &[u16]) -> String {
        let mut changed = book.clone();
        let answer = answer_on(&mut changed, command, numbers);
        if changed != book {
            *self = NaiveDesk::of(&changed);
        }
        answer.unwrap_or_else(refused)
    }
}

/// A circuit as it is printed.
fn shown(c: &Circuit) -> String {
    let way = match c.way {
        Way::Plain => 'P',
        Way::Seam => 'S',
    };
    format!("{} {} {way} {}\n", c.a, c.b, c.colour)
}

/// Orders as `list` and `pending` print them.
fn orders(of: &BTreeMap<u16, Circuit>) -> String {
    let order = |(serial, c): (&u16, &Circuit)| format!("order {serial} {}", shown(c));
    of.iter().map(order).collect()
}

/// A preview as it is printed.
fn previewed((serials, stop): Previewed) -> String {
    let granted = match serials.is_empty() {
        true => " none".to_string(),
        false => serials.iter().map(|serial| format!(" {serial}")).collect(),
    };
    match stop {
        None => format!("would grant{granted}\n"),
        Some((line, number)) => format!("would grant{granted}, line {line} {}", refused(number)),
    }
}

/// The answer to a command on a book, or the refusal's number.
fn answer_on(book: &mut NaiveBook, command: &str, numbers: &[u16]) -> Result<String, u16> {
    Ok(match (command, numbers) {
        ("grant", &[x, y, way, colour, crew]) => {
            let serial = book.grant([x, y, way, colour, crew])?;
            format!("granted {serial}\n")
        }
        ("preview", lines) => previewed(book.preview(lines.as_chunks().0)?),
        ("holder", &[link, colour, crew]) => match book.holder(link, colour, crew)? {
            Holder::Free => "free\n".to_string(),
            Holder::Held => "held\n".to_string(),
            Holder::HeldBy(serial) => format!("held {serial}\n"),
        },
        ("remove", &[serial]) => {
            book.remove(serial)?;
            format!("removed {serial}\n")
        }
        ("confirm", &[serial]) => {
            book.confirm(serial)?;
            format!("confirmed {serial}\n")
        }
        ("show", &[serial, crew]) => format!("circuit {}", shown(&book.show(serial, crew)?)),
        ("list", []) => orders(&book.live),
        ("pending", []) => orders(&book.pending),
        ("revision", []) => format!("revision {}\n", book.revision()),
        _ => format!("live {} grants {}\n", book.live.len(), book.grants),
    })
}
