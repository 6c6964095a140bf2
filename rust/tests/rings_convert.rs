//! Files converted by the tool `rings`, from the old form and back to it, against naive conversions, and the desk on what it writes.
mod desk;
mod programs;
mod reference;

use std::collections::BTreeMap;

use desk::{refused, Folder, NaiveDesk};
use reference::blocks::seal;
use reference::books::{many, NaiveBook};
use reference::draws::{draw_book, draw_old_book};
use reference::old::{convert, convert_back, encode_old};
use reference::stored::encode;
use reference::Random;

/// The words of the two conversions, and the naive one of each.
type Conversion = fn(&[u8], &mut [u8]) -> Result<usize, u16>;
const THERE: (&[&str], Conversion) = (&["rings", "convert"], convert);
const BACK: (&[&str], Conversion) = (&["rings", "convert", "back"], convert_back);

/// Converts a file, which comes in pieces: the new one on standard output, or a line on standard error and nothing else. Gives what the
/// naive conversion does.
fn agree((words, naive): (&[&str], Conversion), file: &[u8], piece: usize) -> Result<Vec<u8>, u16> {
    let mut buffer = [0; 7168];
    let want = naive(file, &mut buffer).map(|length| buffer[..length].to_vec());
    let (written, said) = programs::outputs(words, file, piece);
    match &want {
        Ok(form) => assert!(written == *form && said.is_empty(), "{words:?}"),
        Err(number) => {
            assert!(written.is_empty(), "{words:?}");
            assert_eq!(said, refused(*number), "{words:?}");
        }
    }
    want
}

#[test]
fn there_and_back() {
    let mut random = Random::new(32);
    let mut files = 0;
    for (n, w, live) in [
        (3, 1, 0),
        (9, 3, 5),
        (64, 8, 42),
        (64, 16, 63),
        (256, 128, 511),
    ] {
        for piece in [1, 511, 4096, 8192] {
            let naive = draw_old_book(&mut random, n, w, live);
            let old = encode_old(&naive);
            let new = agree(THERE, &old, piece).unwrap();
            assert_eq!(new, encode(&naive));
            assert_eq!(agree(BACK, &new, piece), Ok(old), "the same old bytes");
            files += 1;
        }
    }
    println!("{files} files converted there and back by the program");
}

/// A file of a kind: the new form of a book with marks or without, or the old one, whole, cut, changed, or changed with right checks.
fn draw_file(random: &mut Random) -> Vec<u8> {
    let records = random.below(80) as usize;
    let naive = match random.below(3) {
        0 => draw_book(random, 64, 16, records),
        _ => draw_old_book(random, 64, 16, records),
    };
    let mut bytes = match naive.has_old_form() && random.below(2) == 0 {
        true => encode_old(&naive),
        false => encode(&naive),
    };
    let at = random.below(bytes.len() as u64) as usize;
    match random.below(6) {
        0 => bytes.truncate(at),
        1 => bytes[at] ^= 1,
        2 => {
            bytes[at] ^= 1;
            seal(&mut bytes);
        }
        3 if random.below(4) == 0 => bytes.resize(512 * (10 + records % 6), 0),
        _ => {}
    }
    bytes
}

#[test]
fn every_refusal_is_one_line_on_standard_error() {
    let mut random = Random::new(33);
    let mut answers: BTreeMap<(usize, u16), usize> = BTreeMap::new();
    for _ in 0..300 {
        let file = draw_file(&mut random);
        for (which, conversion) in [THERE, BACK].into_iter().enumerate() {
            let answer = agree(conversion, &file, 4096);
            let number = answer.err().unwrap_or(0);
            *answers.entry((which, number)).or_default() += 1;
        }
    }
    for number in [0, 18, 19, 20] {
        assert!(answers.contains_key(&(0, number)), "{answers:?}");
        assert!(answers.contains_key(&(1, number)), "{answers:?}");
    }
    assert!(answers.contains_key(&(1, 27)), "{answers:?}");
    let done: usize = [0, 1]
        .iter()
        .filter_map(|&which| answers.get(&(which, 0)))
        .sum();
    println!("600 files given to a conversion, {done} converted, the others refused alike");
}

#[test]
fn lengths_of_the_input() {
    let full = many(512, 512);
    let (old, new) = (encode_old(&full), encode(&full));
    assert_eq!((old.len(), new.len()), (5120, 7168));
    assert_eq!(agree(THERE, &old, 4096), Ok(new.clone()));
    assert_eq!(agree(BACK, &new, 4096), Ok(old.clone()));
    let behind = |form: &[u8], more: usize| [form, &vec![0; more]].concat();
    for more in [1, 511, 512, 1024, 100_000] {
        assert_eq!(agree(THERE, &behind(&old, more), 4096), Err(18));
        assert_eq!(agree(BACK, &behind(&new, more), 4096), Err(18));
    }
    for conversion in [THERE, BACK] {
        assert_eq!(agree(conversion, b"", 1), Err(18));
        assert_eq!(agree(conversion, &[0; 512], 1), Err(20));
    }
    // A form that is whole is none of the other.
    assert_eq!(agree(BACK, &old, 4096), Err(20));
    assert_eq!(agree(THERE, &new, 4096), Err(18));
    assert_eq!(agree(THERE, &encode(&many(70, 70)), 4096), Err(20));
}

/// The desk works on both forms, and what it writes can be converted back as long as every record is live and the desk's.
#[test]
fn with_the_desk() {
    let folder = Folder::new("converted");
    folder.answer("open 64 4\ngrant 0 3 0 0\ngrant 3 5 0 0\nremove 1\nconfirm 1\ngrant 0 2 0 0\n");
    let new = folder.bytes("book").unwrap();
    let old = agree(BACK, &new, 4096).unwrap();
    assert_eq!(agree(THERE, &old, 4096), Ok(new.clone()));
    folder.put("book", &Some(old.clone()));
    assert_eq!(
        folder.answer("list\nrevision\n"),
        "order 2 3 5 P 0\norder 3 0 2 P 0\nrevision 4\n"
    );
    assert_eq!(folder.bytes("book"), Some(old), "as it was");
    assert_eq!(folder.answer("grant 9 8 0 0 7\n"), "granted 4\n");
    assert_eq!(agree(BACK, &folder.bytes("book").unwrap(), 4096), Err(27));
    folder.put("book", &Some(new));
    assert_eq!(folder.answer("remove 2\n"), "removed 2\n");
    assert_eq!(agree(BACK, &folder.bytes("book").unwrap(), 4096), Err(27));
    assert_eq!(folder.answer("confirm 2\n"), "confirmed 2\n");
    assert!(agree(BACK, &folder.bytes("book").unwrap(), 4096).is_ok());
}

#[test]
fn failed_reads_and_writes_are_said() {
    let file = encode_old(&NaiveBook::open(3, 1).unwrap());
    let new = NaiveDesk::of(&NaiveBook::open(3, 1).unwrap())
        .bytes()
        .unwrap();
    for ((words, _), file) in [(THERE, file), (BACK, new)] {
        let cannot_read = "error the input cannot be read\n".to_string();
        assert_eq!(programs::unreadable(words), [String::new(), cannot_read]);
        let cannot_write = "error the output cannot be written\n";
        assert_eq!(programs::unwritable(words, &file), cannot_write);
    }
}
