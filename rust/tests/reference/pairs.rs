//! The pair part by its rules, one at a time: the pairs, then the spare colours.

use super::links;

/// Whether the lower-numbered request of a pair goes by the seam: of twins, if it has fewer links that way.
fn first_by_seam(n: usize, first: (u16, u16), second: (u16, u16)) -> bool {
    if first == second {
        let count = |seam| links(n, first, seam).iter().filter(|&&l| l).count();
        return count(true) < count(false);
    }
    let inside = |x| first.0 < x && x < first.1;
    inside(second.0) || inside(second.1)
}

/// The fate numbers of the pair part that follows from pairs of requests, given by rising lower number, which comes first.
pub fn pair_part(
    n: usize,
    w: usize,
    requests: &[(u16, u16)],
    pairs: &[(usize, usize)],
) -> Vec<u16> {
    let mut table = vec![0; requests.len()];
    let number = |colour: usize, seam: bool| (1 + 2 * colour + usize::from(seam)) as u16;
    for (colour, &(i, j)) in pairs.iter().take(w).enumerate() {
        let by_seam = first_by_seam(n, requests[i], requests[j]);
        let first = links(n, requests[i], by_seam);
        let disjoint = |&seam: &bool| {
            let second = links(n, requests[j], seam);
            (0..n).all(|link| !(first[link] && second[link]))
        };
        let ways: Vec<bool> = [false, true].into_iter().filter(disjoint).collect();
        assert_eq!(ways.len(), 1, "one way is disjoint from the first");
        table[i] = number(colour, by_seam);
        table[j] = number(colour, ways[0]);
    }
    for colour in pairs.len()..w {
        if let Some(lowest) = table.iter().position(|&fate| fate == 0) {
            table[lowest] = number(colour, false);
        }
    }
    table
}

/// The pairs that a table shows, the two requests of each of the first k colours: by rising lower number, which comes first.
pub fn pairs_shown(k: usize, table: &[u16]) -> Vec<(usize, usize)> {
    let pair_in = |colour: usize| {
        let holds = |&i: &usize| table[i] != 0 && (table[i] as usize - 1) / 2 == colour;
        let both: Vec<usize> = (0..table.len()).filter(holds).collect();
        assert_eq!(both.len(), 2, "colour {colour} of {k} has a pair");
        (both[0], both[1])
    };
    let mut pairs: Vec<(usize, usize)> = (0..k).map(pair_in).collect();
    pairs.sort();
    pairs
}
