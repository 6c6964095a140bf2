//! Matchings among compatible requests: a maximum one, the largest by trying all, and searches that fall short.

fn crossing(r: (u16, u16), s: (u16, u16)) -> bool {
    let strictly_inside = |x: u16| r.0 < x && x < r.1;
    let shares = r.0 == s.0 || r.0 == s.1 || r.1 == s.0 || r.1 == s.1;
    !shares && strictly_inside(s.0) != strictly_inside(s.1)
}

/// For each request the other requests that it is compatible with.
pub fn compatible_lists(requests: &[(u16, u16)]) -> Vec<Vec<usize>> {
    let compatible = |i: usize, j: usize| i != j && !crossing(requests[i], requests[j]);
    let others = |i| {
        (0..requests.len())
            .filter(move |&j| compatible(i, j))
            .collect()
    };
    (0..requests.len()).map(others).collect()
}

/// The pairs of a maximum matching, by Edmonds's algorithm with contracted blossoms: by rising lower number, which comes first.
pub fn maximum_pairs(requests: &[(u16, u16)]) -> Vec<(usize, usize)> {
    let m = requests.len();
    let edges = compatible_lists(requests);
    let mut mate = vec![usize::MAX; m];
    for root in 0..m {
        if mate[root] == usize::MAX {
            augment(root, &edges, &mut mate);
        }
    }
    (0..m)
        .filter(|&i| mate[i] != usize::MAX && i < mate[i])
        .map(|i| (i, mate[i]))
        .collect()
}

/// The size of a maximum matching.
pub fn match_count(requests: &[(u16, u16)]) -> usize {
    maximum_pairs(requests).len()
}

fn augment(root: usize, edges: &[Vec<usize>], mate: &mut [usize]) {
    const NONE: usize = usize::MAX;
    let m = edges.len();
    let mut parent = vec![NONE; m];
    let mut base: Vec<usize> = (0..m).collect();
    let mut queued = vec![false; m];
    let mut queue = vec![root];
    queued[root] = true;
    let mut head = 0;
    while head < queue.len() {
        let v = queue[head];
        head += 1;
        for &to in &edges[v] {
            if base[v] == base[to] || mate[v] == to {
                continue;
            }
            if to == root || (mate[to] != NONE && parent[mate[to]] != NONE) {
                let top = common_base(root, v, to, &base, &parent, mate);
                let mut in_blossom = vec![false; m];
                mark_path(v, top, to, &base, &mut parent, mate, &mut in_blossom);
                mark_path(to, top, v, &base, &mut parent, mate, &mut in_blossom);
                for i in 0..m {
                    if in_blossom[base[i]] {
                        base[i] = top;
                        if !queued[i] {
                            queued[i] = true;
                            queue.push(i);
                        }
                    }
                }
            } else if parent[to] == NONE {
                parent[to] = v;
                if mate[to] == NONE {
                    let mut u = to;
                    while u != NONE {
                        let p = parent[u];
                        let next = mate[p];
                        mate[u] = p;
                        mate[p] = u;
                        u = next;
                    }
                    return;
                }
                let next = mate[to];
                queued[next] = true;
                queue.push(next);
            }
        }
    }
}

fn common_base(
    root: usize,
    mut a: usize,
    mut b: usize,
    base: &[usize],
    parent: &[usize],
    mate: &[usize],
) -> usize {
    let mut on_path = vec![false; base.len()];
    loop {
        a = base[a];
        on_path[a] = true;
        if a == root || mate[a] == usize::MAX {
            break;
        }
        a = parent[mate[a]];
    }
    loop {
        b = base[b];
        if on_path[b] {
            return b;
        }
        b = parent[mate[b]];
    }
}

fn mark_path(
    mut v: usize,
    top: usize,
    mut child: usize,
    base: &[usize],
    parent: &mut [usize],
    mate: &[usize],
    in_blossom: &mut [bool],
) {
    while base[v] != top {
        in_blossom[base[v]] = true;
        in_blossom[base[mate[v]]] = true;
        parent[v] = child;
        child = mate[v];
        v = parent[mate[v]];
    }
}

/// The size of the largest matching, by trying every one.
pub fn largest_matching(requests: &[(u16, u16)]) -> usize {
    fn go(edges: &[Vec<usize>], taken: &mut Vec<bool>) -> usize {
        let Some(i) = taken.iter().position(|t| !t) else {
            return 0;
        };
        taken[i] = true;
        let mut best = go(edges, taken);
        for &j in &edges[i] {
            if !taken[j] {
                taken[j] = true;
                best = best.max(1 + go(edges, taken));
                taken[j] = false;
            }
        }
        taken[i] = false;
        best
    }
    go(
        &compatible_lists(requests),
        &mut vec![false; requests.len()],
    )
}

/// The mates that each request takes when it takes the first that is left.
pub fn first_come(adjacent: &[Vec<usize>]) -> Vec<usize> {
    let mut mate: Vec<usize> = (0..adjacent.len()).collect();
    for i in 0..mate.len() {
        if mate[i] == i {
            if let Some(&j) = adjacent[i].iter().find(|&&j| j > i && mate[j] == j) {
                (mate[i], mate[j]) = (j, i);
            }
        }
    }
    mate
}

/// The mates that the planner's searches start from on short lists: requests with few compatible ones take a mate first, by classes of
/// doubling size, and take one that has few.
pub fn fewest_first(adjacent: &[Vec<usize>]) -> Vec<usize> {
    let size = |i: usize| adjacent[i].len() + 1;
    let mut mate: Vec<usize> = (0..adjacent.len()).collect();
    let mut low = 1;
    while (0..mate.len()).any(|i| low < size(i)) {
        for i in 0..mate.len() {
            if mate[i] != i || size(i) <= low || 2 * low < size(i) {
                continue;
            }
            let exposed = |&&j: &&usize| mate[j] == j;
            let good = adjacent[i]
                .iter()
                .filter(exposed)
                .find(|&&j| size(j) <= 2 * low);
            if let Some(&j) = good.or(adjacent[i].iter().filter(exposed).min_by_key(|&&j| size(j)))
            {
                (mate[i], mate[j]) = (j, i);
            }
        }
        low *= 2;
    }
    mate
}

/// Enlarges a matching along alternating paths from root r, where each request gets one label only: without blossoms.
fn enlarge_plainly(adjacent: &[Vec<usize>], mate: &mut [usize], r: usize) -> bool {
    let mut parent = vec![None; mate.len()];
    let mut reached = vec![false; mate.len()];
    let mut queue = vec![r];
    reached[r] = true;
    let mut head = 0;
    while head < queue.len() {
        let x = queue[head];
        head += 1;
        for &y in &adjacent[x] {
            if reached[y] {
                continue;
            }
            reached[y] = true;
            parent[y] = Some(x);
            if mate[y] == y {
                let mut end = y;
                while let Some(x) = parent[end] {
                    let next = mate[x];
                    (mate[x], mate[end]) = (end, x);
                    end = next;
                    if x == r {
                        break;
                    }
                }
                return true;
            }
            reached[mate[y]] = true;
            queue.push(mate[y]);
        }
    }
    false
}

/// The matching that is reached by such searches alone.
pub fn without_blossoms(adjacent: &[Vec<usize>], mut mate: Vec<usize>) -> Vec<usize> {
    let m = mate.len();
    while (0..m).any(|r| mate[r] == r && enlarge_plainly(adjacent, &mut mate, r)) {}
    mate
}

pub fn pair_count(mate: &[usize]) -> usize {
    (0..mate.len()).filter(|&i| i < mate[i]).count()
}
