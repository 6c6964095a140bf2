//! Plan and check.

use crate::refusals::{answered, answered_with};
use crate::{raw, Refusal};

/// The part that a plan is.
#[derive(Clone, Copy, Debug, PartialEq, Eq)]
pub enum Part {
    Chain,
    Pair,
}

/// The counts that come with a plan, the part that it is, and the ceiling: no feasible plan serves more requests.
#[derive(Clone, Copy, Debug, PartialEq, Eq)]
pub struct Summary {
    pub chain: u16,
    pub matched: u16,
    pub paired: u16,
    pub used: Part,
    pub ceiling: u16,
}

/// Plans the requests, two ends each: the fate number of each goes into the first entries of the table. Where a pair of the pair part
/// joins the same two nodes, the request with the lower number goes by the way with fewer links, plain on a tie, and the other by the
/// opposite way.
pub fn plan(n: u16, w: u16, ends: &[u16], table: &mut [u16]) -> Result<Summary, Refusal> {
    let (list, given) = (ends.as_ptr(), ends.len());
    let (entries, room) = (table.as_mut_ptr(), table.len());
    // SAFETY: each pointer comes with the length of the slice that it points to, and the library stays within them.
    answered_with(|values, count| unsafe {
        raw::tarziloen_plan(n, w, list, given, entries, room, values, count)
    })
    .map(|[chain, matched, paired, used, ceiling]| Summary {
        chain,
        matched,
        paired,
        used: if used == 0 { Part::Chain } else { Part::Pair },
        ceiling,
    })
}

/// Checks a table of fate numbers for the requests; gives the number of requests that it serves.
pub fn check(n: u16, w: u16, ends: &[u16], table: &[u16]) -> Result<u16, Refusal> {
    let (list, given) = (ends.as_ptr(), ends.len());
    let (entries, room) = (table.as_ptr(), table.len());
    // SAFETY: as in `plan`.
    answered(|values, count| unsafe {
        raw::tarziloen_check(n, w, list, given, entries, room, values, count)
    })
    .map(|[served, ..]| served)
}
