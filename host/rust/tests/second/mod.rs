//! A second reading, in plain Rust, of document 01 with the items of document 02 that are built so far. It is written
//! apart from the proved library. An `Err` is a number of the table "Numbers the host sees", as those items leave it.

pub mod block;
pub mod console;
pub mod control;
mod fit;
pub mod ledger;
pub mod ranges;
pub mod receiver;
pub mod replay;
pub mod saved;
pub mod screen;
pub mod sender;

pub type Answer<T> = Result<T, u64>;

/// Writes all of `bytes` to the front of `out`, or nothing.
fn put(bytes: &[u8], out: &mut [u8]) -> Answer<usize> {
    out.get_mut(..bytes.len())
        .ok_or(55u64)?
        .copy_from_slice(bytes);
    Ok(bytes.len())
}
