//! The checker against a naive one, on plans and on damaged plans.
mod reference;

use reference::{requests, Random};
use ring_planner::{check, plan};

#[test]
fn answers_agree_on_damaged_plans() {
    let mut random = Random::new(3);
    let (mut passed, mut refused) = (0, 0);
    for _ in 0..6000 {
        let n = 3 + random.below(20);
        let m = random.below(12);
        let w = 1 + random.below(4);
        let mut ends = Vec::new();
        for _ in 0..m {
            let a = random.below(n);
            ends.extend([a as u16, ((a + 1 + random.below(n - 1)) % n) as u16]);
        }
        let mut table = vec![0u16; m as usize];
        plan(n as u16, w as u16, &ends, &mut table).expect("a plan");
        for _ in 0..random.below(4) {
            if m > 0 {
                table[random.below(m) as usize] = random.below(2 * w + 2) as u16;
            }
        }
        let got = check(n as u16, w as u16, &ends, &table).map_err(|r| (r.number, r.values));
        let want = reference::check(n as usize, w as usize, &requests(&ends), &table);
        assert_eq!(got, want, "n {n} w {w} {ends:?} {table:?}");
        match got {
            Ok(_) => passed += 1,
            Err(_) => refused += 1,
        }
    }
    println!("{passed} tables passed alike, {refused} refused alike");
}
