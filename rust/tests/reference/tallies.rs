//! Answers counted, so that a test can say which ones it met.
use std::collections::BTreeMap;

use ring_planner::Refusal;

use super::books::DESK;

/// How often each answer to each call came: 0 for success, else the refusal's number.
#[derive(Default)]
pub struct Tally(BTreeMap<(&'static str, u16), usize>);

impl Tally {
    /// Counts an answer that both gave to a call of this name.
    pub fn agree<T: PartialEq + std::fmt::Debug>(
        &mut self,
        call: &'static str,
        got: Result<T, Refusal>,
        want: Result<T, u16>,
    ) {
        let got = got.map_err(|r| (r.number, r.values));
        assert_eq!(got, want.map_err(|number| (number, [0, 0])), "{call}");
        let number = got.err().map_or(0, |(number, _)| number);
        *self.0.entry((call, number)).or_default() += 1;
    }

    /// One line; every number that is named with a call must have come.
    pub fn report(&self, title: &str, expected: &[(&'static str, &[u16])]) {
        for &(call, numbers) in expected {
            for &number in numbers {
                let came = self.0.contains_key(&(call, number));
                assert!(came, "{title}: {call} never answered {number}");
            }
        }
        let mut calls: BTreeMap<&str, String> = BTreeMap::new();
        for ((call, number), count) in &self.0 {
            let counted = match number {
                0 => format!(" {count} done"),
                _ => format!(" {count} refused {number}"),
            };
            *calls.entry(call).or_default() += &counted;
        }
        let counts: Vec<String> = calls
            .iter()
            .map(|(call, all)| format!("{call}{all}"))
            .collect();
        println!("{title}: {}", counts.join(", "));
    }
}

/// The first name for a call of the desk, the second for one of another crew.
pub fn asked_by(crew: u16, [desk, other]: [&'static str; 2]) -> &'static str {
    if crew == DESK {
        desk
    } else {
        other
    }
}
