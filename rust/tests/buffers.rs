//! The book in lent buffers of many sizes and under any length, against a naive one that is loaded, acts and is stored.
mod reference;

use reference::blocks::store;
use reference::books::NaiveBook;
use reference::draws::{draw_grant, draw_pending, draw_serial};
use reference::stored::{encode, load};
use reference::tallies::{asked_by, Tally};
use reference::Random;
use ring_planner::{buffers, Crew};

/// A change of the book in a buffer as the rules have it: load, act, store.
fn naive_call<T>(
    buffer: &mut [u8],
    length: usize,
    act: impl FnOnce(&mut NaiveBook) -> Result<T, u16>,
) -> Result<(T, usize), u16> {
    let mut book = load(buffer.get(..length).ok_or(18u16)?, 0)?;
    let answer = act(&mut book)?;
    let length = store(&encode(&book), buffer)?;
    Ok((answer, length))
}

/// A grant on a buffer and on its copy; gives the length of the form afterwards.
fn grant_call(
    random: &mut Random,
    buffer: &mut [u8],
    copy: &mut [u8],
    told: usize,
    tally: &mut Tally,
) -> Result<usize, u16> {
    let asked @ [x, y, way, colour, crew] = draw_grant(random, 64, 8);
    let got = buffers::grant(buffer, told, [x, y], way, colour, Crew(crew));
    let want = naive_call(copy, told, |book| book.grant(asked));
    tally.agree(asked_by(crew, ["grant", "grant to a crew"]), got, want);
    want.map(|(_, length)| length)
}

/// One call on a buffer and on its copy; gives the length of the form afterwards.
fn buffer_call(random: &mut Random, buffer: &mut [u8], length: usize, tally: &mut Tally) -> usize {
    let mut copy = buffer.to_vec();
    let told = match random.below(24) {
        0 => random.below(8200) as usize,
        1 => 512 * random.below(16) as usize,
        2 => usize::MAX - random.below(512) as usize,
        _ => length,
    };
    let orders = load(buffer.get(..length).unwrap_or(&[]), 0)
        .map(|book| [draw_serial(random, &book), draw_pending(random, &book)]);
    let [live, pending] = orders.unwrap_or([1, 2]);
    let after = match random.below(16) {
        0..=9 => grant_call(random, buffer, &mut copy, told, tally),
        10..=12 => {
            let want = naive_call(&mut copy, told, |book| book.remove(live)).map(|(_, l)| l);
            tally.agree("remove", buffers::remove(buffer, told, live), want);
            assert!(want.is_err() || want == Ok(told), "its record stays");
            want
        }
        _ => {
            let want = naive_call(&mut copy, told, |book| book.confirm(pending)).map(|(_, l)| l);
            let got = buffers::confirm(buffer, told, pending);
            let shorter = want.is_ok_and(|after| after < told);
            let name = ["confirm", "confirm, a shorter form"][shorter as usize];
            tally.agree(name, got, want);
            want
        }
    };
    assert!(buffer == copy, "all of the buffer");
    after.unwrap_or(length)
}

#[test]
fn lent_buffers_of_every_size() {
    let mut random = Random::new(6);
    let mut tally = Tally::default();
    for size in (0..512)
        .step_by(73)
        .chain((512..2700).step_by(211))
        .chain([1023, 1024, 1535, 1536, 7168])
    {
        let mut buffer: Vec<u8> = (0..size).map(|_| random.below(256) as u8).collect();
        let mut copy = buffer.clone();
        let want = store(&encode(&NaiveBook::open(64, 8).unwrap()), &mut copy);
        tally.agree("open", buffers::open(64, 8, &mut buffer), want);
        tally.agree("open", buffers::open(2, 8, &mut buffer), Err(1));
        tally.agree("open", buffers::open(64, 129, &mut buffer), Err(2));
        assert!(buffer == copy, "all of the buffer");
        let mut length = want.unwrap_or(0);
        for _ in 0..500 {
            length = buffer_call(&mut random, &mut buffer, length, &mut tally);
        }
    }
    tally.report(
        "lent buffers",
        &[
            ("open", &[0, 1, 2, 17]),
            ("grant", &[0, 4, 5, 9, 10, 11, 17, 18, 19, 20]),
            ("grant to a crew", &[0, 4, 5, 9, 10, 11, 17, 18, 19, 20, 26]),
            ("remove", &[0, 14, 15, 18]),
            ("confirm", &[0, 14, 18, 23, 24]),
            ("confirm, a shorter form", &[0]),
        ],
    );
}
