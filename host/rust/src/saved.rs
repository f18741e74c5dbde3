//! Saved ledgers: kind 1, with start and end of each range, and kind 2, with the length of the file and start and length of
//! each range.
//!
//! ```
//! use cobnutter::saved;
//!
//! let ledger = [0, 90, 0, 0]; // bytes 0 to 89
//! let kept = saved::to_kind_2(100, &saved::write(&ledger)?)?;
//!
//! let mut again = [0; 4];
//! assert_eq!(saved::read_kind_2(&kept, &mut again)?, 100);
//! assert_eq!(again, ledger);
//! # Ok::<(), cobnutter::Refusal>(())
//! ```

use crate::raw;
use crate::written::{pairs, written};
use crate::Refusal;

/// The length and the kind of a record.
const FRAME: usize = 6;

/// Two numbers.
const PAIR: usize = 16;

/// What a record of kind 2 has and one of kind 1 has not.
const FILE_LENGTH: usize = 8;

/// Fills the ledger with a saved one of kind 1. Refused it changes nothing.
pub fn read(bytes: &[u8], ledger: &mut [u64]) -> Result<(), Refusal> {
    let refused = unsafe {
        raw::cob_saved_read(
            bytes.as_ptr(),
            bytes.len(),
            ledger.as_mut_ptr(),
            ledger.len(),
        )
    };
    Refusal::unless(refused, ())
}

/// Fills the ledger with a saved one of kind 2, and answers the length of the file that it is for. Refused it changes
/// nothing.
pub fn read_kind_2(bytes: &[u8], ledger: &mut [u64]) -> Result<u64, Refusal> {
    let loaded = unsafe {
        raw::cob_saved2_read(
            bytes.as_ptr(),
            bytes.len(),
            ledger.as_mut_ptr(),
            ledger.len(),
        )
    };
    Refusal::unless(loaded.refused, loaded.length)
}

/// A ledger as kind 1.
pub fn write(ledger: &[u64]) -> Result<Vec<u8>, Refusal> {
    let out = vec![0; FRAME + PAIR * pairs(ledger)];
    written(out, |out| unsafe {
        raw::cob_saved_write(ledger.as_ptr(), ledger.len(), out.as_mut_ptr(), out.len())
    })
}

/// Kind 1 as kind 2, for a file of this length.
pub fn to_kind_2(file_length: u64, bytes: &[u8]) -> Result<Vec<u8>, Refusal> {
    let out = vec![0; bytes.len() + FILE_LENGTH];
    written(out, |out| unsafe {
        raw::cob_saved_to_2(
            file_length,
            bytes.as_ptr(),
            bytes.len(),
            out.as_mut_ptr(),
            out.len(),
        )
    })
}

/// Kind 2 as kind 1.
pub fn to_kind_1(bytes: &[u8]) -> Result<Vec<u8>, Refusal> {
    let out = vec![0; bytes.len().saturating_sub(FILE_LENGTH)];
    written(out, |out| unsafe {
        raw::cob_saved_to_1(bytes.as_ptr(), bytes.len(), out.as_mut_ptr(), out.len())
    })
}
