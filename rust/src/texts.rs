//! The planning program as a function.

use crate::raw;

/// No output of the planning program is longer.
const OUTPUT_LENGTH: usize = 8192;

/// What the planning program prints for a text.
pub fn answer(text: &[u8]) -> Vec<u8> {
    let mut out = vec![0u8; OUTPUT_LENGTH];
    // SAFETY: each pointer comes with the length of the slice that it points to, and the library stays within them.
    let length =
        unsafe { raw::tarziloen_answer(text.as_ptr(), text.len(), out.as_mut_ptr(), out.len()) };
    out.truncate(length);
    out
}
