//! A book in a buffer of the caller's, where its stored form is the first bytes.
//!
//! Each call loads the book, whatever its revision, acts and stores it. Refusals of the load come first,
//! then those of the operation, then 17 for a buffer with no room for the changed book. Bytes past its
//! stored form stay.

use crate::refusals::{answered, answered_with, charged};
use crate::{raw, Circuit, Crew, Holder, Preview, Refusal, Stop, Way};

/// The most values of a preview: the number of serials, a line and its refusal, 16 serials.
const PREVIEW_VALUES: usize = 19;

/// Loads the book of a stored form, if its revision is the lowest that is told or a later one; gives that revision.
pub fn load(bytes: &[u8], lowest: u32) -> Result<u32, Refusal> {
    // SAFETY: each pointer comes with the length of the slice that it points to, and the library stays within them.
    answered(|values, count| unsafe {
        raw::tarziloen_book_load(bytes.as_ptr(), bytes.len(), lowest, values, count)
    })
    .map(|[low, high, ..]| u32::from(low) + 65536 * u32::from(high))
}

/// Writes the stored form of the book that the bytes are the old form of, in which every record is live and the desk's; gives its
/// length.
pub fn convert(bytes: &[u8], buffer: &mut [u8]) -> Result<usize, Refusal> {
    let (start, room) = (buffer.as_mut_ptr(), buffer.len());
    // SAFETY: as in `load`.
    answered(|values, count| unsafe {
        raw::tarziloen_book_convert(bytes.as_ptr(), bytes.len(), start, room, values, count)
    })
    .map(|values| values[0] as usize)
}

/// Writes the old form of the book of a stored form; gives its length. A book with a record that is pending or whose crew is not 0
/// has none, and is refused by 27.
pub fn convert_back(bytes: &[u8], buffer: &mut [u8]) -> Result<usize, Refusal> {
    let (start, room) = (buffer.as_mut_ptr(), buffer.len());
    // SAFETY: as in `load`.
    answered(|values, count| unsafe {
        raw::tarziloen_book_convert_back(bytes.as_ptr(), bytes.len(), start, room, values, count)
    })
    .map(|values| values[0] as usize)
}

/// Opens a book of n nodes and w colours; gives the length of its form.
pub fn open(n: u16, w: u16, buffer: &mut [u8]) -> Result<usize, Refusal> {
    let (start, room) = (buffer.as_mut_ptr(), buffer.len());
    // SAFETY: as in `load`.
    answered(|values, count| unsafe { raw::tarziloen_book_open(n, w, start, room, values, count) })
        .map(|values| values[0] as usize)
}

/// Grants a circuit between two nodes, by way 0 (plain) or 1 (seam), to a crew; gives its serial and the length of the stored form.
pub fn grant(
    buffer: &mut [u8],
    length: usize,
    [x, y]: [u16; 2],
    way: u16,
    colour: u16,
    Crew(crew): Crew,
) -> Result<(u16, usize), Refusal> {
    let (start, room) = (buffer.as_mut_ptr(), buffer.len());
    // SAFETY: as in `load`; the library compares `length` with the buffer's own length.
    answered(|values, count| unsafe {
        raw::tarziloen_book_grant(start, room, length, x, y, way, colour, crew, values, count)
    })
    .map(|values| (values[0], values[1] as usize))
}

/// Removes the circuit of a serial, which leaves it pending; gives the length of the stored form.
pub fn remove(buffer: &mut [u8], length: usize, serial: u16) -> Result<usize, Refusal> {
    let (start, room) = (buffer.as_mut_ptr(), buffer.len());
    // SAFETY: as in `grant`.
    answered(|values, count| unsafe {
        raw::tarziloen_book_remove(start, room, length, serial, values, count)
    })
    .map(|values| values[0] as usize)
}

/// Confirms that the patch of a removed circuit is pulled, which frees its place and its colour; gives the length of the stored form.
pub fn confirm(buffer: &mut [u8], length: usize, serial: u16) -> Result<usize, Refusal> {
    let (start, room) = (buffer.as_mut_ptr(), buffer.len());
    // SAFETY: as in `grant`.
    answered(|values, count| unsafe {
        raw::tarziloen_book_confirm(start, room, length, serial, values, count)
    })
    .map(|values| values[0] as usize)
}

/// Shows the circuit of a serial in the book of a stored form to a crew.
pub fn show(bytes: &[u8], serial: u16, Crew(crew): Crew) -> Result<Circuit, Refusal> {
    // SAFETY: as in `load`.
    answered(|values, count| unsafe {
        raw::tarziloen_book_show(bytes.as_ptr(), bytes.len(), serial, crew, values, count)
    })
    .map(|[a, b, way, colour]| Circuit {
        a,
        b,
        way: if way == 0 { Way::Plain } else { Way::Seam },
        colour,
    })
}

/// Says to a crew whether a colour is held on a link in the book of a stored form, and by which order if it may read it.
pub fn holder(bytes: &[u8], link: u16, colour: u16, Crew(crew): Crew) -> Result<Holder, Refusal> {
    let (start, length) = (bytes.as_ptr(), bytes.len());
    // SAFETY: as in `load`.
    answered(|values, count| unsafe {
        raw::tarziloen_book_holder(start, length, link, colour, crew, values, count)
    })
    .map(|[state, serial, ..]| match state {
        0 => Holder::Free,
        1 => Holder::Held,
        _ => Holder::HeldBy(serial),
    })
}

/// Tries 1 to 16 grants, one after another, on a copy of the book of a stored form; each has five numbers: x, y, way, colour and
/// crew.
pub fn preview(bytes: &[u8], lines: &[u16]) -> Result<Preview, Refusal> {
    let (start, given) = (lines.as_ptr(), lines.len());
    // SAFETY: as in `load`.
    answered_with::<PREVIEW_VALUES>(|values, count| unsafe {
        raw::tarziloen_book_preview(bytes.as_ptr(), bytes.len(), start, given, values, count)
    })
    .map(|[granted, line, number, serials @ ..]| Preview {
        serials: serials[..granted as usize].to_vec(),
        stop: (number != 0).then_some(Stop {
            line: line as usize,
            refusal: Refusal {
                number,
                values: [0, 0],
            },
        }),
    })
}

/// What the order of a serial pays, in cents, in the book of a stored form: by the length of each link in metres, and three rates in
/// cents per kilometre. Refused: 14 and 15 as to the desk, then 29, and 30 for any number of rates but three too.
pub fn charge(bytes: &[u8], serial: u16, lengths: &[u32], rates: &[u32]) -> Result<u64, Refusal> {
    let (start, length) = (bytes.as_ptr(), bytes.len());
    let (links, given) = (lengths.as_ptr(), lengths.len());
    let (prices, count) = (rates.as_ptr(), rates.len());
    // SAFETY: as in `load`; `cents` points to a number.
    charged(|cents| unsafe {
        raw::tarziloen_book_charge(start, length, serial, links, given, prices, count, cents)
    })
}

/// What the live orders in the book of a stored form pay together, in cents: the sum of what each pays.
pub fn charge_all(bytes: &[u8], lengths: &[u32], rates: &[u32]) -> Result<u64, Refusal> {
    let (start, length) = (bytes.as_ptr(), bytes.len());
    let (links, given) = (lengths.as_ptr(), lengths.len());
    let (prices, count) = (rates.as_ptr(), rates.len());
    // SAFETY: as in `charge`.
    charged(|cents| unsafe {
        raw::tarziloen_book_charge_all(start, length, links, given, prices, count, cents)
    })
}
