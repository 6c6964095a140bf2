//! Bundles tried on a stored book through every interface, and the same grants made for real.
#[allow(dead_code)]
#[path = "../../src/raw.rs"]
mod raw;

use ring_planner::{buffers, Book, Crew, Line, Preview, Refusal, Way};

use crate::reference::books::{Asked, NaiveBook, Previewed};
use crate::reference::stored::encode;

/// No value of a preview in these tests.
pub const MARK: u16 = 54321;

/// What a call gives and what it leaves in the values, which are more than it is told of.
pub type Outcome = (u16, [u16; 24]);

/// A call of the C function with room for so many values.
pub fn call(form: &[u8], entries: &[u16], room: usize) -> Outcome {
    let (mut bytes, mut lines, mut values) = (form.to_vec(), entries.to_vec(), [MARK; 24]);
    let (book, length) = (bytes.as_mut_ptr(), bytes.len());
    let (given, count) = (lines.as_mut_ptr(), lines.len());
    // SAFETY: each pointer comes with the length of what it points to, or with less.
    let result = unsafe {
        raw::tarziloen_book_preview(book, length, given, count, values.as_mut_ptr(), room)
    };
    assert!(bytes == form && lines == entries, "what is lent stays");
    (result, values)
}

/// The same of the naive answer: as many values as fit, and none with a refusal.
pub fn in_numbers(want: &Result<Previewed, u16>, room: usize) -> Outcome {
    let mut values = [MARK; 24];
    let (serials, stop) = match want {
        Ok(told) => told,
        Err(number) => return (*number, values),
    };
    let (line, number) = stop.map_or((65535, 0), |(line, number)| (line as u16, number));
    let all = [&[serials.len() as u16, line, number], &serials[..]].concat();
    let count = all.len().min(room);
    values[..count].copy_from_slice(&all[..count]);
    (0, values)
}

/// A preview in the naive book's terms.
pub fn told(got: Result<Preview, Refusal>) -> Result<Previewed, u16> {
    let number = |refusal: Refusal| {
        assert_eq!(refusal.values, [0, 0]);
        refusal.number
    };
    got.map(|preview| {
        let stop = preview.stop.map(|stop| (stop.line, number(stop.refusal)));
        (preview.serials, stop)
    })
    .map_err(number)
}

/// The lines, if each goes one of the two ways.
fn as_lines(lines: &[Asked]) -> Option<Vec<Line>> {
    let ways = [Way::Plain, Way::Seam];
    lines
        .iter()
        .map(|&[x, y, way, colour, crew]| {
            Some(Line {
                x,
                y,
                way: *ways.get(way as usize)?,
                colour,
                crew: Crew(crew),
            })
        })
        .collect()
}

/// The lines granted for real, up to the first that is refused.
fn granted(form: &[u8], lines: &[Asked]) -> Previewed {
    let mut buffer = [0; Book::MAX_LENGTH];
    let mut length = form.len();
    buffer[..length].copy_from_slice(form);
    let mut serials = Vec::new();
    for (i, &[x, y, way, colour, crew]) in lines.iter().enumerate() {
        match buffers::grant(&mut buffer, length, [x, y], way, colour, Crew(crew)) {
            Ok((serial, after)) => {
                serials.push(serial);
                length = after;
            }
            Err(refusal) => return (serials, Some((i, refusal.number))),
        }
    }
    (serials, None)
}

/// Tries a bundle on a book through every interface; gives the naive answer, which each of them gave.
pub fn agree(naive: &NaiveBook, lines: &[Asked], room: usize) -> Result<Previewed, u16> {
    let form = encode(naive);
    let entries = lines.concat();
    let want = naive.preview(lines);
    assert_eq!(call(&form, &entries, room), in_numbers(&want, room));
    assert_eq!(told(buffers::preview(&form, &entries)), want);
    if let Some(lines) = as_lines(lines) {
        let book = Book::from_bytes(&form, naive.revision()).unwrap();
        assert_eq!(told(book.preview(&lines)), want);
        assert_eq!(book.bytes(), form);
    }
    if let Ok(want) = &want {
        assert_eq!(&granted(&form, lines), want, "the grants themselves");
    }
    want
}
