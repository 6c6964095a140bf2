//! Previews against the naive book, where they are grants one after another on a copy, and against the same grants made for real.
mod bundles;
mod reference;

use std::collections::BTreeMap;

use bundles::{agree, call, in_numbers, told, MARK};
use reference::books::{many, Asked, NaiveBook, Previewed, DESK};
use reference::draws::{draw_book, draw_bundle};
use reference::old::encode_old;
use reference::stored::encode;
use reference::Random;
use ring_planner::buffers;

/// What a bundle without refusal 22 comes to.
fn preview(naive: &NaiveBook, lines: &[Asked]) -> Previewed {
    agree(naive, lines, 19).unwrap()
}

/// A book with a history of grants, removals and confirmations.
fn any_book(random: &mut Random) -> NaiveBook {
    let small = random.below(2) == 0;
    let n = 3 + random.below(if small { 8 } else { 254 }) as u16;
    let w = 1 + random.below(if small { 3 } else { 128 }) as u16;
    let most = (n as u64 / 8).max(2) * w as u64;
    let records = random.below(most.min(200) + 1);
    draw_book(random, n, w, records as usize)
}

#[test]
fn bundles_are_grants_on_a_copy() {
    let mut random = Random::new(12);
    let mut stops: BTreeMap<u16, usize> = BTreeMap::new();
    let [mut inside, mut others, mut pending, mut tried] = [0; 4];
    for _ in 0..300 {
        let naive = any_book(&mut random);
        for _ in 0..12 {
            let lines = draw_bundle(&mut random, naive.n, naive.w);
            let answer = agree(&naive, &lines, random.below(24) as usize);
            let number = match &answer {
                Ok((_, stop)) => stop.map_or(0, |(_, number)| number),
                Err(number) => *number,
            };
            *stops.entry(number).or_default() += 1;
            if let Ok((_, Some((line, 11)))) = answer {
                let alone = naive.clone().grant(lines[line]);
                inside += alone.is_ok() as usize;
                let mut confirmed = naive.clone();
                confirmed.pending.clear();
                let stop = confirmed.preview(&lines).unwrap().1;
                pending += (stop != Some((line, 11))) as usize;
            }
            if let Ok((serials, _)) = answer {
                let granted = &lines[..serials.len()];
                others += granted.iter().filter(|line| line[4] != DESK).count();
            }
            tried += 1;
        }
    }
    let often = |number: &u16| stops.get(number).is_some_and(|&count| count >= 10);
    assert!([0, 4, 5, 9, 10, 11, 22, 26].iter().all(often), "{stops:?}");
    assert!(inside >= 50, "{inside} stopped by an earlier line");
    assert!(pending >= 50, "{pending} stopped by a pending record");
    assert!(others >= 50, "{others} lines granted to other crews");
    println!(
        "{tried} bundles, {inside} stopped by an earlier line, {pending} by a pending record, {others} lines granted to other crews"
    );
}

#[test]
fn a_line_against_an_earlier_one() {
    let empty = NaiveBook::open(6, 2).unwrap();
    // Two lines that share a link, by either way; in the book itself each is free.
    let pairs = [
        ([0, 2, 0, 0, 0], [3, 1, 0, 0, 0]),
        ([1, 2, 0, 1, 7], [1, 2, 0, 1, 7]),
        ([0, 1, 1, 0, 0], [4, 5, 0, 0, 999]),
        ([5, 0, 1, 0, 1], [2, 1, 1, 0, 2]),
    ];
    for (first, second) in pairs {
        for line in [first, second] {
            assert_eq!(preview(&empty, &[line]), (vec![1], None));
        }
        let held = (vec![1], Some((1, 11)));
        assert_eq!(preview(&empty, &[first, second]), held);
        assert_eq!(preview(&empty, &[first, second, [9; 5]]), held);
        assert_eq!(preview(&empty, &[second, first]), held);
        let apart = [second[0], second[1], second[2], 1 - first[3], second[4]];
        assert_eq!(preview(&empty, &[first, apart]), (vec![1, 2], None));
        let later = (vec![1, 2], Some((2, 11)));
        assert_eq!(preview(&empty, &[first, apart, second]), later);
    }
}

/// Circuits of one link each in a colour that `many` leaves free, to the desk and to other crews.
fn free_lines(count: u16) -> Vec<Asked> {
    (0..count).map(|i| [i + 1, i, 0, 3, i % 4 * 333]).collect()
}

#[test]
fn a_full_book() {
    for room in 0..=16 {
        let naive = many(512 - room, 600);
        let stop = (room < 16).then_some((room as usize, 12));
        let serials = (601..601 + room).collect();
        assert_eq!(preview(&naive, &free_lines(16)), (serials, stop));
    }
    let full = many(512, 600);
    for (line, number) in [
        ([0, 256, 2, 4, 1000], 4),
        ([7, 7, 2, 4, 1000], 5),
        ([7, 8, 2, 4, 1000], 9),
        ([7, 8, 0, 4, 1000], 10),
        ([7, 8, 0, 0, 1000], 26),
        ([7, 8, 0, 0, 999], 11),
        ([7, 8, 0, 3, 65535], 26),
        ([7, 8, 0, 3, 999], 12),
    ] {
        assert_eq!(preview(&full, &[line]), (vec![], Some((0, number))));
    }
}

#[test]
fn the_last_serial() {
    let lines = free_lines(16);
    for given in 0..=16u16 {
        let naive = many(5, 65535 - given);
        let stop = (given < 16).then_some((given as usize, 13));
        let serials = (65535 - given..65535).map(|last| last + 1).collect();
        assert_eq!(preview(&naive, &lines), (serials, stop));
    }
    // 12 comes before 13, and 26 before both.
    for (live, number) in [(512, 12), (511, 13)] {
        let naive = many(live, 65535);
        assert_eq!(preview(&naive, &lines), (vec![], Some((0, number))));
        let stop = (vec![], Some((0, 26)));
        assert_eq!(preview(&naive, &[[7, 8, 0, 3, 1000]]), stop);
    }
}

#[test]
fn no_line_and_too_many() {
    let naive = many(70, 90);
    let form = encode(&naive);
    let good = free_lines(17).concat();
    let bad = [65535; 5 * 17];
    // Up to 17 lines, and numbers of entries or lines that 16 bits do not hold.
    for entries in (0..=85).chain([100, 65_540, 65_541, 65_616, 327_685, 327_760]) {
        let fits = entries % 5 == 0 && (1..=80).contains(&entries);
        for lines in [&good[..], &bad] {
            let lines: Vec<u16> = lines.iter().copied().cycle().take(entries).collect();
            let (result, values) = call(&form, &lines, 19);
            assert_eq!(result, if fits { 0 } else { 22 }, "{entries} entries");
            let refused = told(buffers::preview(&form, &lines)).err();
            assert_eq!(refused, (!fits).then_some(22));
            assert_eq!(values.iter().all(|&value| value == MARK), !fits);
        }
    }
    assert_eq!(agree(&naive, &[], 19), Err(22));
    assert_eq!(agree(&naive, &free_lines(17), 19), Err(22));
    let serials = (91..107).collect();
    assert_eq!(agree(&naive, &free_lines(16), 19), Ok((serials, None)));
}

#[test]
fn room_for_few_values() {
    let naive = many(70, 90);
    let mut stopped = free_lines(16);
    stopped[15] = [0, 1, 0, 3, 5];
    for room in 0..24 {
        for lines in [free_lines(1), free_lines(16), stopped.clone()] {
            agree(&naive, &lines, room).unwrap();
        }
    }
    assert_eq!(
        call(&encode(&naive), &stopped.concat(), 5).1[..6],
        [15, 15, 11, 91, 92, MARK]
    );
}

#[test]
fn a_broken_book_comes_first() {
    let form = encode(&many(70, 70));
    let mut damaged = form.clone();
    damaged[600] ^= 1;
    let files = [
        (vec![], 18),
        (form[..form.len() - 1].to_vec(), 18),
        (vec![0; 7680], 18),
        (vec![0; 5632], 19),
        (damaged, 19),
        (form[..1024].to_vec(), 20),
        (encode_old(&many(70, 70)), 20),
        (vec![0; 512], 20),
    ];
    let good = free_lines(17).concat();
    for (bytes, number) in files {
        for entries in [0, 4, 5, 80, 85] {
            let want = in_numbers(&Err(number), 19);
            assert_eq!(call(&bytes, &good[..entries], 19), want);
            assert_eq!(call(&bytes, &vec![65535; entries], 19), want);
        }
        assert_eq!(told(buffers::preview(&bytes, &[])), Err(number));
    }
}
