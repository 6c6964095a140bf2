//! The loaders of both stored forms against naive ones, on damaged files.
mod files;
mod reference;

use std::collections::BTreeMap;

use files::{damage, same_book, Form, NEW_FORM, OLD_FORM};
use reference::blocks::seal;
use reference::Random;

/// Nodes, colours, records, and whether every other value of each byte is tried.
const FILES: [(u16, u16, usize, bool); 6] = [
    (3, 1, 0, true),
    (256, 128, 1, true),
    (9, 3, 5, true),
    (64, 8, 42, false),
    (200, 9, 64, false),
    (256, 128, 512, false),
];

fn every_changed_byte(form: &Form, random: &mut Random) {
    let mut changes = 0;
    for (n, w, records, all) in FILES {
        let whole = (form.encode)(&(form.draw)(random, n, w, records));
        assert_eq!((form.verdict)(&whole), None);
        for at in 0..whole.len() {
            let mut bytes = whole.clone();
            let steps = match all {
                true => (1..=255).collect(),
                false => vec![1, 1 + random.below(255) as u8, 128],
            };
            for step in steps {
                bytes[at] = whole[at].wrapping_add(step);
                assert_eq!((form.verdict)(&bytes), Some(19), "byte {at}");
                assert_eq!((form.load)(&bytes), Err(19));
                changes += 1;
            }
        }
    }
    let (files, name) = (FILES.len(), form.name);
    println!("{changes} changes of one byte in {files} files of the {name} form refused");
}

#[test]
fn every_changed_byte_is_refused() {
    every_changed_byte(&NEW_FORM, &mut Random::new(7));
}

#[test]
fn every_changed_byte_of_an_old_file_is_refused() {
    every_changed_byte(&OLD_FORM, &mut Random::new(17));
}

/// Damaged files, most of them with their checks put right again; gives how often each verdict came.
fn damaged_files(form: &Form, random: &mut Random) -> BTreeMap<u16, usize> {
    let mut verdicts = BTreeMap::new();
    for _ in 0..250 {
        let n = 3 + random.below(254) as u16;
        let w = 1 + random.below(128) as u16;
        let records = random.below(200).min(n as u64 * w as u64 / 8);
        let whole = (form.encode)(&(form.draw)(random, n, w, records as usize));
        for _ in 0..120 {
            let mut bytes = whole.clone();
            for _ in 0..=random.below(3) {
                damage(random, &form.layout, &mut bytes);
            }
            match random.below(32) {
                0 => {}
                1 => bytes.truncate(random.below(bytes.len() as u64) as usize),
                _ => seal(&mut bytes),
            }
            if bytes == whole {
                continue;
            }
            let want = (form.load)(&bytes);
            assert_eq!((form.verdict)(&bytes), want.as_ref().err().copied());
            if let Ok(naive) = &want {
                same_book(&(form.loaded)(&bytes).unwrap(), naive);
            }
            *verdicts.entry(want.err().unwrap_or(0)).or_default() += 1;
        }
    }
    verdicts
}

/// One line; each verdict must have come often.
fn report(form: &Form, verdicts: BTreeMap<u16, usize>) {
    let count = |number: u16| verdicts.get(&number).copied().unwrap_or(0);
    let [loaded, length, check, broken] = [0, 18, 19, 20].map(count);
    let least = [loaded, length, check, broken].into_iter().min();
    assert!(least >= Some(100), "{verdicts:?}");
    let name = form.name;
    println!("damaged files of the {name} form: {loaded} loaded, {length} refused 18, {check} refused 19, {broken} refused 20");
}

#[test]
fn damaged_files_get_the_naive_verdict() {
    let verdicts = damaged_files(&NEW_FORM, &mut Random::new(8));
    report(&NEW_FORM, verdicts);
}

#[test]
fn damaged_old_files_get_the_naive_verdict() {
    let verdicts = damaged_files(&OLD_FORM, &mut Random::new(18));
    report(&OLD_FORM, verdicts);
}

#[test]
fn lengths() {
    let mut random = Random::new(9);
    let mut tried = 0;
    for form in [NEW_FORM, OLD_FORM] {
        let most = form.layout.longest;
        let empty = (form.encode)(&(form.draw)(&mut random, 3, 1, 0));
        let full = (form.encode)(&(form.draw)(&mut random, 256, 128, 512));
        assert_eq!((empty.len(), full.len()), (512, most));
        for whole in [empty, full, vec![0; most]] {
            let mut bytes = whole.clone();
            bytes.resize(most + 1024, 0);
            let near = |k: &usize| k % 64 == 0 || k % 512 == 1 || k % 512 == 511;
            for length in (0..bytes.len() + 1).filter(near) {
                let got = (form.verdict)(&bytes[..length]);
                let want = (form.load)(&bytes[..length]);
                assert_eq!(got, want.err(), "{length} bytes");
                let possible = length % 512 == 0 && (512..=most).contains(&length);
                assert_eq!(got == Some(18), !possible, "{length} bytes");
                tried += 1;
            }
        }
    }
    println!("{tried} files by their length");
}

/// The length of each form for each number of records.
#[test]
fn lengths_of_forms() {
    let mut random = Random::new(19);
    let book = (OLD_FORM.draw)(&mut random, 256, 128, 512);
    for count in 0..=512 {
        let mut some = book.clone();
        some.live = book.live.clone().into_iter().take(count).collect();
        for (form, in_block) in [(NEW_FORM, 42), (OLD_FORM, 63)] {
            let bytes = (form.encode)(&some);
            assert_eq!(bytes.len(), 512 + 512 * count.div_ceil(in_block));
            assert_eq!((form.verdict)(&bytes), None, "{count} records");
        }
    }
}
