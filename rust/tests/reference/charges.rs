//! A second charge: link by link, in wide numbers and fractions of a cent.
use ring_planner::Circuit;

use super::books::{uses, NaiveBook, DESK};
use super::Random;

/// Where a band ends, and the next one begins.
const EDGES: [u128; 3] = [50_000, 200_000, u128::MAX];

/// The ground in the lengths and the rates, if there is one.
pub fn tariff(n: u16, lengths: &[u32], rates: &[u32]) -> Result<(), u16> {
    if lengths.len() != n as usize || lengths.iter().any(|l| !(1..=1_000_000).contains(l)) {
        return Err(29);
    }
    if rates.len() != 3 || rates.iter().any(|&rate| rate > 100_000) {
        return Err(30);
    }
    Ok(())
}

/// What a circuit pays: the metres of its links are laid one behind the other, and each stretch of them within a band costs that
/// band's rate.
pub fn paid(circuit: &Circuit, lengths: &[u32], rates: &[u32]) -> u128 {
    let (mut at, mut thousandths) = (0u128, 0u128);
    for (link, &length) in lengths.iter().enumerate() {
        if !uses(circuit, link as u16) {
            continue;
        }
        let end = at + length as u128;
        let mut begin = at;
        for (edge, &rate) in EDGES.iter().zip(rates) {
            let stop = end.min(*edge);
            if begin < stop {
                thousandths += (stop - begin) * rate as u128;
                begin = stop;
            }
        }
        at = end;
    }
    let (whole, rest) = (thousandths / 1000, thousandths % 1000);
    whole + (rest > 0) as u128
}

/// The charge of an order, or the number of the refusal.
pub fn charge(book: &NaiveBook, serial: u16, lengths: &[u32], rates: &[u32]) -> Result<u128, u16> {
    let circuit = book.show(serial, DESK)?;
    tariff(book.n, lengths, rates)?;
    Ok(paid(&circuit, lengths, rates))
}

/// The charge of the live orders.
pub fn charge_all(book: &NaiveBook, lengths: &[u32], rates: &[u32]) -> Result<u128, u16> {
    tariff(book.n, lengths, rates)?;
    Ok(book.live.values().map(|c| paid(c, lengths, rates)).sum())
}

/// A length: of any size, at a limit, or one with which a few links come to the edge of a band.
fn draw_length(random: &mut Random) -> u32 {
    match random.below(8) {
        0 => [1, 1_000_000, 50_000, 200_000][random.below(4) as usize],
        1 => 24_999 + random.below(3) as u32,
        2 => 1 + random.below(1_000_000) as u32,
        3 => 1 + random.below(60) as u32,
        _ => 1 + random.below(60_000) as u32,
    }
}

/// The lengths of n links, now and then one that is out of its limits, or one too many or too few.
pub fn draw_lengths(random: &mut Random, n: u16) -> Vec<u32> {
    let mut lengths: Vec<u32> = (0..n).map(|_| draw_length(random)).collect();
    let at = random.below(n as u64) as usize;
    match random.below(24) {
        0 => lengths[at] = 0,
        1 => lengths[at] = 1_000_001,
        2 => lengths[at] = u32::MAX,
        3 => lengths.push(1),
        4 => drop(lengths.pop()),
        _ => {}
    }
    lengths
}

/// Three rates, now and then one above the limit, or another number of them.
pub fn draw_rates(random: &mut Random) -> Vec<u32> {
    let mut rates: Vec<u32> = (0..3)
        .map(|_| match random.below(8) {
            0 => 0,
            1 => 100_000,
            2 => 1,
            3 => random.below(100_001) as u32,
            _ => random.below(100) as u32,
        })
        .collect();
    let at = random.below(3) as usize;
    match random.below(24) {
        0 => rates[at] = 100_001,
        1 => rates[at] = u32::MAX,
        2 => rates.push(0),
        3 => rates.truncate(at),
        _ => {}
    }
    rates
}
