//! The tool `rings`: its usage, and its check against a naive reader and checker: on plans, on damaged plans and on every way
//! of breaking the form.
mod programs;
mod reference;

use reference::{requests, Random};
use ring_planner::plan;

/// What the check prints for an input that comes in pieces of the given size.
fn output(input: &[u8], piece: usize) -> String {
    programs::output(&["rings", "check"], input, piece)
}

/// A number of 1 to 5 digits up to 65,535.
fn number(field: &str) -> Option<u16> {
    let digits = field.bytes().all(|b| b.is_ascii_digit()) && (1..=5).contains(&field.len());
    digits.then(|| field.parse().ok()).flatten()
}

/// The numbers of a line, one space between.
fn numbers(line: Option<&str>, count: usize) -> Option<Vec<u16>> {
    let found: Option<Vec<u16>> = line?.split(' ').map(number).collect();
    found.filter(|f| f.len() == count)
}

/// What a text says, if it is of the stated form: n, w, the ends and the table.
fn says(text: &[u8]) -> Option<(u16, u16, Vec<u16>, Vec<u16>)> {
    let text = std::str::from_utf8(text)
        .ok()
        .filter(|t| t.len() <= 16384)?;
    let mut lines = text.strip_suffix('\n')?.split('\n');
    let heading = numbers(lines.next(), 3)?;
    let (mut ends, mut table) = (Vec::new(), Vec::new());
    for _ in 0..heading[2] {
        ends.extend(numbers(lines.next(), 2)?);
    }
    for _ in 0..heading[2] {
        table.extend(numbers(lines.next(), 1)?);
    }
    let ended = lines.next().is_none();
    ended.then_some((heading[0], heading[1], ends, table))
}

/// The line that the rules ask for.
fn expected(text: &[u8]) -> String {
    let Some((n, w, ends, table)) = says(text) else {
        return "refused 21\n".into();
    };
    if !(3..=256).contains(&n) {
        return "refused 1\n".into();
    }
    if !(1..=128).contains(&w) {
        return "refused 2\n".into();
    }
    if table.len() > 512 {
        return "refused 3\n".into();
    }
    for (i, e) in ends.chunks(2).enumerate() {
        if e[0] >= n || e[1] >= n {
            return format!("refused 4 {i}\n");
        }
        if e[0] == e[1] {
            return format!("refused 5 {i}\n");
        }
    }
    match reference::check(n as usize, w as usize, &requests(&ends), &table) {
        Ok(served) => format!("served {served}\n"),
        Err((7, [i, _])) => format!("refused 7 {i}\n"),
        Err((number, [i, j])) => format!("refused {number} {i} {j}\n"),
    }
}

/// The text that says a list and a table.
fn text(n: u16, w: u16, ends: &[u16], table: &[u16]) -> Vec<u8> {
    let mut text = format!("{n} {w} {}\n", ends.len() / 2);
    for e in ends.chunks(2) {
        text += &format!("{} {}\n", e[0], e[1]);
    }
    for fate in table {
        text += &format!("{fate}\n");
    }
    text.into_bytes()
}

const CONFLICT: &[u8] = b"4 1 2\n0 2\n1 3\n1\n1\n";
const FEASIBLE: &[u8] = b"4 1 2\n0 2\n1 3\n1\n0\n";

#[test]
fn answers_whole_and_piece_by_piece() {
    for piece in [1, 3, 4096] {
        assert_eq!(output(CONFLICT, piece), "refused 8 0 1\n");
        assert_eq!(output(FEASIBLE, piece), "served 1\n");
    }
    assert_eq!(output(b"3 1 0\n", 64), "served 0\n");
    assert_eq!(output(b"2 1 0\n", 64), "refused 1\n");
    assert_eq!(output(b"3 129 0\n", 64), "refused 2\n");
    assert_eq!(output(b"4 1 2\n0 2\n1 4\n0\n9\n", 64), "refused 4 1\n");
    assert_eq!(output(b"4 1 2\n2 2\n1 4\n0\n9\n", 64), "refused 5 0\n");
    assert_eq!(output(b"4 1 2\n0 2\n1 3\n1\n3\n", 64), "refused 7 1\n");
    assert_eq!(
        output(b"004 01 2\n00000 2\n1 03\n001\n0\n", 64),
        "served 1\n"
    );
}

#[test]
fn answers_agree_on_plans_and_damaged_plans() {
    let mut random = Random::new(11);
    let (mut served, mut refused) = (0, 0);
    for round in 0..400 {
        let n = 3 + random.below(if round % 8 == 0 { 254 } else { 20 });
        let m = random.below(if round % 8 == 0 { 513 } else { 12 });
        let w = 1 + random.below(if round % 8 == 0 { 128 } else { 4 });
        let mut ends = Vec::new();
        for _ in 0..m {
            let a = random.below(n);
            ends.extend([a as u16, ((a + 1 + random.below(n - 1)) % n) as u16]);
        }
        let (n, w) = (n as u16, w as u16);
        let mut table = vec![0u16; m as usize];
        plan(n, w, &ends, &mut table).expect("a plan");
        let right = text(n, w, &ends, &table);
        let got = output(&right, 4096);
        assert!(got.starts_with("served "), "a plan is feasible");
        assert_eq!(got, expected(&right));
        served += 1;
        for _ in 0..3 {
            if m > 0 {
                let fate = random.below(2 * w as u64 + 2) as u16;
                table[random.below(m) as usize] = fate;
            }
            let input = text(n, w, &ends, &table);
            let got = output(&input, 4096);
            assert_eq!(got, expected(&input), "n {n} w {w} {ends:?} {table:?}");
            match got.starts_with("served ") {
                true => served += 1,
                false => refused += 1,
            }
        }
    }
    println!("{served} tables served alike, {refused} refused alike");
}

#[test]
fn every_changed_byte_is_answered_by_the_form() {
    let (mut broken, mut read) = (0, 0);
    let mut compare = |input: &[u8]| {
        let got = output(input, 4096);
        let shown = String::from_utf8_lossy(input);
        assert_eq!(got, expected(input), "{shown:?}");
        match got == "refused 21\n" {
            true => broken += 1,
            false => read += 1,
        }
    };
    for at in 0..FEASIBLE.len() {
        compare(&FEASIBLE[..at]);
        let mut without = FEASIBLE.to_vec();
        without.remove(at);
        compare(&without);
        for byte in *b" \n\r\t05x-" {
            let mut with = FEASIBLE.to_vec();
            with[at] = byte;
            compare(&with);
            with = FEASIBLE.to_vec();
            with.insert(at, byte);
            compare(&with);
        }
    }
    for behind in ["\n", "0", "0\n", "0 1\n", " "] {
        compare(&[FEASIBLE, behind.as_bytes()].concat());
    }
    for fate in ["65535", "65536", "000001", "00001", "99999"] {
        compare(format!("4 1 1\n0 2\n{fate}\n").as_bytes());
    }
    println!("{broken} texts refused by their form alike, {read} read alike");
}

#[test]
fn limits_of_the_text_and_of_the_list() {
    let list = |head: &str, line: &str, fate: &str, m: usize| {
        format!("{head}{}{}", line.repeat(m), fate.repeat(m)).into_bytes()
    };
    let longest = list("00008 00001 00512\n", "00000 00001\n", "00000\n", 512);
    assert_eq!(longest.len(), 9234, "longer than a list to plan may be");
    assert_eq!(output(&longest, 4096), "served 0\n");
    let most = list("8 1 513\n", "0 1\n", "0\n", 513);
    assert_eq!(output(&most, 4096), "refused 3\n");
    let full = list("08 1 2729\n", "0 1\n", "0\n", 2729);
    assert_eq!(full.len(), 16384);
    assert_eq!(output(&full, 4096), "refused 3\n");
    assert_eq!(output(&full, 1), "refused 3\n", "in single bytes");
    let over = list("008 1 2729\n", "0 1\n", "0\n", 2729);
    assert_eq!(over.len(), 16385);
    assert_eq!(output(&over, 4096), "refused 21\n");
    let large = list("0 0 9999\n", "0 1\n", "0\n", 9999);
    assert_eq!(output(&large, 4096), "refused 21\n");
}

#[test]
fn a_file_may_be_named() {
    let sample = concat!(env!("CARGO_MANIFEST_DIR"), "/../samples/t10.txt");
    let got = programs::output(&["rings", "check", sample], b"", 1);
    assert_eq!(got, "refused 8 0 1\n");
    let missing = programs::program(&["rings", "check", "no such file"])
        .output()
        .unwrap();
    assert!(missing.stdout.is_empty());
    assert_eq!(
        String::from_utf8(missing.stderr).unwrap(),
        "no such file: No such file or directory\n"
    );
}

#[test]
fn anything_else_prints_the_usage() {
    let usage = programs::output(&["rings"], b"", 1);
    assert!(usage.starts_with("usage: rings SUBCOMMAND [FILE]"));
    for word in ["charges", "check", "convert", "help"] {
        assert!(usage
            .lines()
            .any(|line| line.split(' ').next() == Some(word)));
    }
    let long = "x".repeat(5000);
    for words in [
        &["rings", "help"][..],
        &["rings", "chec"],
        &["rings", "checks"],
        &["rings", ""],
        &["rings", &long],
        &["rings", "check", "one", "two"],
        &["rings", "charges"],
        &["rings", "charge", "one"],
        &["rings", "charges", "one", "two"],
        &["rings", "converts"],
        &["rings", "convert", ""],
        &["rings", "convert", "backs"],
        &["rings", "convert", &long],
        &["rings", "convert", "back", "one"],
    ] {
        assert_eq!(programs::output(words, b"", 1), usage);
    }
}

#[test]
fn failed_reads_and_writes_are_said() {
    let cannot_read = "error the input cannot be read\n".to_string();
    assert_eq!(
        programs::unreadable(&["rings", "check"]),
        [String::new(), cannot_read]
    );
    assert_eq!(
        programs::unwritable(&["rings", "check"], FEASIBLE),
        "error the output cannot be written\n"
    );
}
