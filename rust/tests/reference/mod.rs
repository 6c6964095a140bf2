//! A second planner, checker and book by other algorithms, for comparison. Used by the other tests as a module.
#![allow(dead_code)]

pub mod blocks;
pub mod books;
pub mod charges;
pub mod draws;
pub mod lists;
pub mod matchings;
pub mod old;
pub mod pairs;
pub mod stored;
pub mod tallies;

/// A deterministic generator of test data.
pub struct Random(u64);

impl Random {
    pub fn new(seed: u64) -> Self {
        Random(seed.wrapping_mul(0x9E37_79B9_7F4A_7C15) | 1)
    }

    pub fn next(&mut self) -> u64 {
        self.0 ^= self.0 << 13;
        self.0 ^= self.0 >> 7;
        self.0 ^= self.0 << 17;
        self.0.wrapping_mul(0x2545_F491_4F6C_DD1D) >> 16
    }

    pub fn below(&mut self, n: u64) -> u64 {
        self.next() % n
    }
}

/// The requests of a list of ends, the smaller end first.
pub fn requests(ends: &[u16]) -> Vec<(u16, u16)> {
    ends.chunks(2)
        .map(|e| (e[0].min(e[1]), e[0].max(e[1])))
        .collect()
}

/// How many intervals w colours can serve: a sweep by the smaller end that drops the latest-ending interval when a point is too full.
pub fn chain_count(w: usize, requests: &[(u16, u16)]) -> usize {
    let mut sorted = requests.to_vec();
    sorted.sort();
    let mut active: Vec<u16> = Vec::new();
    let mut dropped = 0;
    for &(a, b) in &sorted {
        active.retain(|&end| end > a);
        active.push(b);
        if active.len() > w {
            let latest = (0..active.len()).max_by_key(|&i| active[i]).unwrap();
            active.swap_remove(latest);
            dropped += 1;
        }
    }
    requests.len() - dropped
}

/// The links of a way, as a list of flags.
pub fn links(n: usize, (a, b): (u16, u16), seam: bool) -> Vec<bool> {
    (0..n)
        .map(|l| ((a as usize) <= l && l < b as usize) != seam)
        .collect()
}

/// What the rules say of a table, by marking links: the number served, or the refusal's number and values.
pub fn check(
    n: usize,
    w: usize,
    requests: &[(u16, u16)],
    table: &[u16],
) -> Result<u16, (u16, [u16; 2])> {
    let m = requests.len();
    if let Some(i) = (0..m).find(|&i| table[i] as usize > 2 * w) {
        return Err((7, [i as u16, 0]));
    }
    let served: Vec<Option<(usize, Vec<bool>)>> = (0..m)
        .map(|i| match table[i] as usize {
            0 => None,
            k => Some(((k - 1) / 2, links(n, requests[i], k % 2 == 0))),
        })
        .collect();
    for i in 0..m {
        for j in i + 1..m {
            if let (Some((c, u)), Some((d, v))) = (&served[i], &served[j]) {
                if c == d && (0..n).any(|l| u[l] && v[l]) {
                    return Err((8, [i as u16, j as u16]));
                }
            }
        }
    }
    Ok(served.iter().flatten().count() as u16)
}

/// The most that any feasible plan serves, by trying every plan; kept off a link, if one is given.
pub fn best_plan(n: usize, w: usize, requests: &[(u16, u16)], off: Option<usize>) -> usize {
    fn go(
        requests: &[(u16, u16)],
        off: Option<usize>,
        used: &mut Vec<Vec<bool>>,
        n: usize,
    ) -> usize {
        let Some((&first, later)) = requests.split_first() else {
            return 0;
        };
        let mut best = go(later, off, used, n);
        for seam in [false, true] {
            let way = links(n, first, seam);
            if off.is_some_and(|link| way[link]) {
                continue;
            }
            for c in 0..used.len() {
                if (0..n).all(|l| !(way[l] && used[c][l])) {
                    (0..n).for_each(|l| used[c][l] |= way[l]);
                    best = best.max(1 + go(later, off, used, n));
                    (0..n).for_each(|l| used[c][l] &= !way[l]);
                }
            }
        }
        best
    }
    go(requests, off, &mut vec![vec![false; n]; w], n)
}
