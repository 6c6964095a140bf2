//! Lists of requests that are hard on a search for a maximum matching.

/// A list of ends, and how it is made.
pub struct List {
    pub name: String,
    pub ends: Vec<u16>,
}

/// m chords over `reach` of n nodes. Each begins `step` nodes behind the one before, modulo p.
fn regular(p: usize, n: usize, reach: usize, step: usize, m: usize) -> Vec<u16> {
    (0..m)
        .map(|j| j * step % p)
        .flat_map(|i| [i as u16, ((i + reach) % n) as u16])
        .collect()
}

/// A chain of triangles: the lower ends of each three chords are reversed, and the last of each three is swapped with the
/// first of the next.
fn triangles(count: usize, step: usize) -> Vec<u16> {
    let m = 3 * count;
    let mut lower: Vec<usize> = (0..m).map(|i| i / 3 * 3 + 2 - i % 3).collect();
    for i in (3..m).step_by(3) {
        lower.swap(i - 1, i);
    }
    (0..m)
        .map(|j| j * step % m)
        .flat_map(|i| [i as u16, (m + lower[i]) as u16])
        .collect()
}

/// m chords on n nodes, from any node to one that is at least `low` nodes behind it, and less than `low + range`.
fn drawn(n: usize, low: usize, range: usize, seed: usize, m: usize) -> Vec<u16> {
    let mut x = seed;
    let mut draw = |below: usize| {
        x = (x * 1103515245 + 12345) % (1 << 31);
        (x >> 16) % below
    };
    let mut ends = Vec::new();
    for _ in 0..m {
        let a = draw(n);
        let b = (a + low + draw(range)) % n;
        ends.extend([a as u16, b as u16]);
    }
    ends
}

/// The lists of which some first choice of mates has to be undone.
pub fn cycles() -> Vec<List> {
    let stars = [
        (5, 2, 1, 10),
        (7, 3, 1, 21),
        (22, 10, 1, 22),
        (101, 50, 7, 303),
        (104, 50, 7, 104),
        (122, 60, 11, 122),
        (202, 100, 7, 202),
        (205, 100, 7, 205),
        (244, 120, 13, 244),
        (255, 127, 7, 510),
        (210, 102, 1, 512),
        (215, 107, 111, 512),
        (246, 120, 197, 512),
    ];
    let chains = [
        (10, 11),
        (20, 7),
        (40, 7),
        (40, 13),
        (41, 17),
        (42, 5),
        (42, 13),
    ];
    let star = |&(n, reach, step, m): &(usize, usize, usize, usize)| List {
        name: format!("star of {n} reach {reach} step {step} requests {m}"),
        ends: regular(n, n, reach, step, m),
    };
    let chain = |&(count, step): &(usize, usize)| List {
        name: format!("triangles {count} step {step}"),
        ends: triangles(count, step),
    };
    stars
        .iter()
        .map(star)
        .chain(chains.iter().map(chain))
        .collect()
}

/// All lists.
pub fn hard_lists() -> Vec<List> {
    let mut all = Vec::new();
    for k in [1, 2, 3, 8, 17, 40, 73, 102, 128] {
        for size in [3, 5, 7].into_iter().filter(|size| k * size <= 512) {
            all.push(List {
                name: format!("bundles {k} of {size}"),
                ends: regular(k, 2 * k, k, 7, k * size),
            });
        }
    }
    all.extend(cycles());
    for m in [16, 64, 200, 512] {
        for n in [8, 16, 64, 256] {
            all.push(List {
                name: format!("random nodes {n} requests {m}"),
                ends: drawn(n, 1, n - 1, 1000 * m + n, m),
            });
        }
    }
    for m in [16, 64, 200, 512] {
        for (n, jitter) in [(8, 1), (16, 1), (64, 2), (256, 0), (256, 3)] {
            let name = format!("antipodal nodes {n} jitter {jitter} requests {m}");
            all.push(List {
                name,
                ends: drawn(n, n / 2 - jitter, 2 * jitter + 1, 1000 * m + n, m),
            });
        }
    }
    all
}
