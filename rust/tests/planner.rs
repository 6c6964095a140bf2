//! The planner against a second one and a second checker, on random and adversarial lists; its bounds against every plan and
//! every matching of small lists.
mod reference;

use reference::matchings::{largest_matching, match_count, maximum_pairs};
use reference::pairs::{pair_part, pairs_shown};
use reference::{best_plan, chain_count, check, requests, Random};
use ring_planner::{plan, Part};

/// What was seen of a plan: how many requests it serves, how many of them in spare colours, how many pairs are twins whose
/// lower-numbered request goes by the seam, and its ceiling.
struct Seen {
    served: usize,
    spare: usize,
    turned: usize,
    ceiling: usize,
}

/// Plans a list and compares all that is said of the plan with the second planner.
fn compare(n: u16, w: u16, ends: &[u16]) -> Seen {
    let m = ends.len() / 2;
    let list = requests(ends);
    let mut table = vec![9999u16; m + 3];
    let got = plan(n, w, ends, &mut table)
        .unwrap_or_else(|r| panic!("refused {} on n {n} w {w} {ends:?}", r.number));
    let (nodes, colours) = (n as usize, w as usize);
    let chain = chain_count(colours, &list);
    let pairs = maximum_pairs(&list);
    let second = pair_part(nodes, colours, &list, &pairs);
    let paired = check(nodes, colours, &list, &second).expect("a feasible pair part") as usize;
    let ceiling = m.min(chain + colours.min(pairs.len()));
    assert_eq!(
        (
            got.chain as usize,
            got.matched as usize,
            got.paired as usize,
            got.ceiling as usize
        ),
        (chain, pairs.len(), paired, ceiling),
        "n {n} w {w} {ends:?}"
    );
    assert_eq!(
        got.used,
        if paired > chain {
            Part::Pair
        } else {
            Part::Chain
        }
    );
    let (mut spare, mut turned) = (0, 0);
    if got.used == Part::Pair {
        let shown = pairs_shown(pairs.len().min(colours), &table[..m]);
        spare = paired - 2 * shown.len();
        turned = shown
            .iter()
            .filter(|&&(i, j)| list[i] == list[j] && table[i] % 2 == 0)
            .count();
        assert_eq!(
            &table[..m],
            pair_part(nodes, colours, &list, &shown),
            "the table follows from its pairs: n {n} w {w} {ends:?}"
        );
    }
    assert_eq!(&table[m..], &[9999, 9999, 9999], "entries past m stay");
    let served = check(nodes, colours, &list, &table).expect("the plan is feasible") as usize;
    assert_eq!(served, chain.max(paired));
    assert!(served <= ceiling, "n {n} w {w} {ends:?}");
    Seen {
        served,
        spare,
        turned,
        ceiling,
    }
}

fn random_list(random: &mut Random, n: u64, m: u64) -> Vec<u16> {
    let mut ends = Vec::new();
    for _ in 0..m {
        let a = random.below(n);
        let b = (a + 1 + random.below(n - 1)) % n;
        ends.extend([a as u16, b as u16]);
    }
    ends
}

/// Bundles of parallel chords, each bundle crossing all the others.
fn bundles(k: u64, size: u64, random: &mut Random) -> (u16, Vec<u16>) {
    let n = (2 * k).max(3);
    let mut list: Vec<(u16, u16)> = (0..k)
        .flat_map(|i| (0..size).map(move |_| (i as u16, (i + k) as u16)))
        .collect();
    for i in (1..list.len()).rev() {
        list.swap(i, random.below(i as u64 + 1) as usize);
    }
    (
        n as u16,
        list.into_iter().flat_map(|(a, b)| [a, b]).collect(),
    )
}

/// Nearly antipodal chords: most pairs cross, and the rest make odd cycles.
fn antipodal(m: u64, jitter: u64, random: &mut Random) -> Vec<u16> {
    let mut ends = Vec::new();
    for _ in 0..m {
        let a = random.below(256);
        let b = (a + 128 + random.below(2 * jitter + 1) + 256 - jitter) % 256;
        ends.extend([
            a as u16,
            if b == a {
                ((b + 1) % 256) as u16
            } else {
                b as u16
            },
        ]);
    }
    ends
}

#[test]
fn counts_agree_on_many_lists() {
    let mut random = Random::new(1);
    let (mut lists, mut filled, mut turned) = (0, 0, 0);
    let mut count = |n: u16, w: u16, ends: &[u16]| {
        let seen = compare(n, w, ends);
        lists += 1;
        filled += usize::from(seen.spare > 0);
        turned += usize::from(seen.turned > 0);
    };
    for round in 0..6000 {
        let n = 3 + random.below(if round % 3 == 0 { 254 } else { 12 });
        let m = random.below(if round % 50 == 0 { 160 } else { 24 });
        let w = 1 + random.below(if round % 2 == 0 { 4 } else { 128 });
        count(n as u16, w as u16, &random_list(&mut random, n, m));
    }
    for size in [1, 3, 5, 7] {
        for k in [1, 2, 3, 8, 17, 40, 73, 128] {
            if k * size <= 512 {
                let (n, ends) = bundles(k, size, &mut random);
                let pairs = k * (size / 2);
                for w in [1, pairs, pairs + 1, pairs + k / 2, pairs + k, 128] {
                    count(n, w.clamp(1, 128) as u16, &ends);
                }
            }
        }
    }
    for jitter in [1, 2, 4, 8] {
        for m in [64, 200, 512] {
            let ends = antipodal(m, jitter, &mut random);
            for w in [1, 16, 64, 96, 128] {
                count(256, w, &ends);
            }
        }
    }
    for m in [511, 512] {
        let ends = random_list(&mut random, 256, m);
        count(256, 128, &ends);
        count(256, 3, &ends);
    }
    assert!(filled > 0 && turned > 0);
    println!(
        "{lists} lists planned alike, {filled} with spare colours given out, {turned} with the older of twins by the seam"
    );
}

#[test]
fn the_older_of_twins_takes_the_shorter_way() {
    let mut random = Random::new(9);
    let mut lists = 0;
    for n in 3..=256u16 {
        for distance in 1..n {
            let drawn = random.below((n - distance) as u64) as u16;
            for a in [0, drawn, n - 1 - distance] {
                let (b, other) = (a + distance, n - distance);
                for ends in [[a, b, a, b], [b, a, a, b]] {
                    let mut table = [0u16; 2];
                    plan(n, 1, &ends, &mut table).unwrap();
                    let right = if other < distance { [2, 1] } else { [1, 2] };
                    assert_eq!(table, right, "n {n} {ends:?}");
                    lists += 1;
                }
            }
        }
    }
    println!("{lists} lists of twins");
}

/// Compares what is said of the plan for a small list with every plan: whether two thirds are met exactly, and the ceiling.
fn compare_with_every_plan(n: u16, w: u16, ends: &[u16]) -> (bool, bool) {
    let list = requests(ends);
    let seen = compare(n, w, ends);
    let (n, w) = (n as usize, w as usize);
    let best = best_plan(n, w, &list, None);
    assert!(
        2 * best <= 3 * seen.served,
        "n {n} w {w} {ends:?}: {} of {best}",
        seen.served
    );
    assert!(
        best <= seen.ceiling,
        "n {n} w {w} {ends:?}: {best} above {}",
        seen.ceiling
    );
    assert_eq!(chain_count(w, &list), best_plan(n, w, &list, Some(n - 1)));
    (
        2 * best == 3 * seen.served && best > 0,
        best == seen.ceiling,
    )
}

#[test]
fn bounds_on_small_rings_by_trying_all() {
    let mut random = Random::new(2);
    let (mut lists, mut tight, mut reached) = (0, 0, 0);
    let mut count = |n: u16, w: u16, ends: &[u16]| {
        let (two_thirds, ceiling) = compare_with_every_plan(n, w, ends);
        lists += 1;
        tight += usize::from(two_thirds);
        reached += usize::from(ceiling);
    };
    for _ in 0..1500 {
        let n = 3 + random.below(4);
        let m = random.below(6);
        let w = 1 + random.below(2);
        count(n as u16, w as u16, &random_list(&mut random, n, m));
    }
    for (n, m) in [(3, 4), (4, 4), (5, 3), (6, 3)] {
        for ends in every_list(n, m) {
            count(n, 1, &ends);
            count(n, 2, &ends);
        }
    }
    println!("{lists} lists against every plan, two thirds met exactly on {tight}, the ceiling on {reached}");
}

/// Every list of at most m requests whose smaller end comes first.
fn every_list(n: u16, m: usize) -> Vec<Vec<u16>> {
    let mut lists = vec![Vec::new()];
    let mut from = 0;
    for _ in 0..m {
        let to = lists.len();
        for i in from..to {
            for (a, b) in (0..n).flat_map(|a| (a + 1..n).map(move |b| (a, b))) {
                lists.push([&lists[i][..], &[a, b]].concat());
            }
        }
        from = to;
    }
    lists
}

#[test]
fn match_counts_on_small_lists_by_trying_all() {
    let mut random = Random::new(5);
    for _ in 0..3000 {
        let (n, m) = (3 + random.below(14), random.below(11));
        let ends = random_list(&mut random, n, m);
        compare(n as u16, 3, &ends);
        let list = requests(&ends);
        assert_eq!(match_count(&list), largest_matching(&list), "{ends:?}");
    }
}

#[test]
fn refusals_in_their_order() {
    let number = |n, w, ends: &[u16], entries: usize| {
        let mut table = vec![7u16; entries];
        let refused = plan(n, w, ends, &mut table).err();
        assert!(
            refused.is_none() || table.iter().all(|&x| x == 7),
            "a refused call changes nothing"
        );
        refused.map(|r| (r.number, r.values))
    };
    assert_eq!(number(2, 0, &[9], 0).unwrap().0, 1);
    assert_eq!(number(257, 1, &[], 0).unwrap().0, 1);
    assert_eq!(number(3, 0, &[9], 0).unwrap().0, 2);
    assert_eq!(number(256, 129, &[], 0).unwrap().0, 2);
    assert_eq!(number(3, 1, &[9], 0).unwrap().0, 3);
    assert_eq!(number(3, 1, &[0, 1].repeat(513), 600).unwrap().0, 3);
    assert_eq!(number(3, 1, &[0, 1, 3, 3, 1, 1], 9), Some((4, [1, 0])));
    assert_eq!(
        number(3, 1, &[0, 1, 0, 2, 1, 1, 5, 0], 9),
        Some((5, [2, 0]))
    );
    assert_eq!(number(3, 1, &[0, 1, 0, 2], 1).unwrap().0, 6);
    assert_eq!(number(3, 1, &[], 0), None);
    assert_eq!(number(256, 128, &[0, 255].repeat(512), 512), None);
}
