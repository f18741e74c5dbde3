use crate::raw::Written;
use crate::{Refusal, LEDGER_LIMIT};

/// The first bytes of `out`, by a writer that is lent all of it.
pub(crate) fn written(
    mut out: Vec<u8>,
    write: impl FnOnce(&mut [u8]) -> Written,
) -> Result<Vec<u8>, Refusal> {
    let answer = write(&mut out);
    out.truncate(answer.length);
    Refusal::unless(answer.refused, out)
}

/// Every writer of text writes ASCII.
pub(crate) fn text(bytes: Vec<u8>) -> String {
    String::from_utf8(bytes).expect("ASCII")
}

/// The pairs of a ledger that is not refused for its length.
pub(crate) fn pairs(ledger: &[u64]) -> usize {
    ledger.len().min(LEDGER_LIMIT) / 2
}
