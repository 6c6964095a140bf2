//! The match counts of the planner, on lists that are hard on a search for a maximum matching.
mod reference;

use reference::lists::{cycles, hard_lists};
use reference::matchings::{
    compatible_lists, fewest_first, first_come, largest_matching, match_count, pair_count,
    without_blossoms,
};
use reference::{requests, Random};
use ring_planner::plan;

/// The size of a maximum matching, as the planner reports it.
fn planned(ends: &[u16]) -> usize {
    let mut table = vec![0u16; ends.len() / 2];
    plan(256, 1, ends, &mut table).expect("a plan").matched as usize
}

#[test]
fn sizes_agree() {
    let lists = hard_lists();
    for list in &lists {
        let size = match_count(&requests(&list.ends));
        assert_eq!(planned(&list.ends), size, "{}", list.name);
    }
    println!("{} hard lists matched alike", lists.len());
}

/// The lists of cycles are hard: what comes first is short on all of them, and a search without blossoms on 13.
#[test]
fn cycles_are_hard() {
    let mut short = 0;
    for list in cycles() {
        let requests = requests(&list.ends);
        let adjacent = compatible_lists(&requests);
        let best = match_count(&requests);
        let first = first_come(&adjacent);
        assert!(pair_count(&first) < best, "{}", list.name);
        short += usize::from(pair_count(&without_blossoms(&adjacent, first)) < best);
    }
    assert_eq!(short, 13);
}

/// What `cases_run` shows of its two lists: the start falls short of both, as its own lines say, and a search without blossoms, whatever
/// the order in which it takes the compatible requests, enlarges the one and not the other.
#[test]
fn start_and_plain_search_fall_short() {
    let shown = include_str!("../../crates/cases_run/stdout");
    let cases: [(&str, &[u16], [usize; 3]); 2] = [
        ("start 4 2 4: 1\n", &[2, 1, 2, 1, 2, 0, 3, 1], [1, 2, 2]),
        (
            "start 12 3 6: 2\n",
            &[0, 4, 11, 8, 9, 5, 6, 2, 7, 3, 10, 1],
            [2, 2, 3],
        ),
    ];
    let mut random = Random::new(19);
    for (line, ends, [start, plain, largest]) in cases {
        assert!(shown.contains(line), "{line}");
        let mut adjacent = compatible_lists(&requests(ends));
        let first = fewest_first(&adjacent);
        assert_eq!(pair_count(&first), start);
        assert_eq!(planned(ends), largest);
        assert_eq!(largest_matching(&requests(ends)), largest);
        for _ in 0..500 {
            let mate = without_blossoms(&adjacent, first.clone());
            assert_eq!(pair_count(&mate), plain);
            for others in &mut adjacent {
                for i in (1..others.len()).rev() {
                    others.swap(i, random.below(i as u64 + 1) as usize);
                }
            }
        }
    }
}
