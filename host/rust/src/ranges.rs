//! Restart range lists, as REST carries them: `0-29,60-89`, both ends counted.

use crate::raw;
use crate::written::{pairs, text, written};
use crate::Refusal;

/// Two numbers of 20 digits, a hyphen and a comma.
const RANGE: usize = 42;

/// Fills the ledger with the merged ranges of a text.
pub fn read(text: impl AsRef<[u8]>, ledger: &mut [u64]) -> Result<(), Refusal> {
    let text = text.as_ref();
    let refused = unsafe {
        raw::cob_ranges_read(text.as_ptr(), text.len(), ledger.as_mut_ptr(), ledger.len())
    };
    Refusal::unless(refused, ())
}

pub fn write(ledger: &[u64]) -> Result<String, Refusal> {
    let out = vec![0; RANGE * pairs(ledger)];
    written(out, |out| unsafe {
        raw::cob_ranges_write(ledger.as_ptr(), ledger.len(), out.as_mut_ptr(), out.len())
    })
    .map(text)
}
