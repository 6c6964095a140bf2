//! Refusals.

use std::error::Error;
use std::fmt;

/// Why a call was turned down: the rules' number, and the request numbers that it carries.
#[derive(Clone, Copy, Debug, PartialEq, Eq)]
pub struct Refusal {
    pub number: u16,
    pub values: [u16; 2],
}

impl Refusal {
    /// The ground, in the words of the rules.
    pub fn ground(self) -> &'static str {
        match self.number {
            1 => "n not 3 to 256",
            2 => "w not 1 to 128",
            3 => "more than 512 requests, or an odd number of ends",
            4 => "an end is n or more",
            5 => "equal ends",
            6 => "the plan table has fewer than m entries",
            7 => "a number above 2w",
            8 => "two requests of one colour share a link",
            9 => "way not 0 (plain) or 1 (seam)",
            10 => "colour w or more",
            11 => "that colour is held on a link of the way",
            12 => "512 circuits are live or pending, and the book has no other place",
            13 => "serial 65,535 has been given",
            14 => "serial 0 or never given",
            15 => "removed",
            16 => "link n or more",
            17 => "buffer shorter than the length",
            18 => "length 0, not a multiple of 512, or above 7,168 (5,120 in the old form)",
            19 => "a wrong block number or check",
            20 => {
                "a record with fate number 0, or anything else that breaks the stored form, a limit, \
                the rising serials from 1 up to the grants so far, or feasibility"
            }
            21 => "more than 8,192 bytes, or a text not of the stated form",
            22 => "no line or more than 16",
            23 => "the circuit is live",
            24 => "already confirmed",
            25 => "a record that is pending or whose crew is not 0 has no old form",
            26 => "crew above 999",
            27 => "a record that is pending or whose crew is not 0 cannot be converted back",
            28 => "revision too low",
            29 => "not n lengths, or a length not 1 to 1,000,000",
            30 => "not three rates, or a rate above 100,000",
            _ => "unknown",
        }
    }
}

impl fmt::Display for Refusal {
    fn fmt(&self, f: &mut fmt::Formatter<'_>) -> fmt::Result {
        write!(f, "refused {}: {}", self.number, self.ground())
    }
}

impl Error for Refusal {}

/// What a call of the library gives, which writes its values to the place that it is handed: the values
/// after result 0, else the refusal. A ground that carries less than two numbers leaves zeros.
pub(crate) fn answered(call: impl FnOnce(*mut u16, usize) -> u16) -> Result<[u16; 4], Refusal> {
    answered_with::<4>(call)
}

/// The same of a call with so many values.
pub(crate) fn answered_with<const N: usize>(
    call: impl FnOnce(*mut u16, usize) -> u16,
) -> Result<[u16; N], Refusal> {
    let mut values = [0u16; N];
    match call(values.as_mut_ptr(), values.len()) {
        0 => Ok(values),
        number => Err(Refusal {
            number,
            values: [values[0], values[1]],
        }),
    }
}

/// What a charge gives, which writes its cents to the place that it is handed: the cents after result 0, else the refusal.
pub(crate) fn charged(call: impl FnOnce(*mut u64) -> u16) -> Result<u64, Refusal> {
    let mut cents = 0;
    match call(&mut cents) {
        0 => Ok(cents),
        number => Err(Refusal {
            number,
            values: [0, 0],
        }),
    }
}

#[cfg(test)]
mod tests {
    use super::Refusal;

    #[test]
    fn every_number_has_its_own_words() {
        let words = |number| {
            let values = [0, 0];
            Refusal { number, values }.ground()
        };
        let mut all: Vec<&str> = (1..=30).map(words).collect();
        all.sort();
        all.dedup();
        assert_eq!(all.len(), 30);
        assert!(!all.contains(&words(0)) && words(0) == words(31));
    }
}
