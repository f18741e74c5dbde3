//! "The screen line".

use super::receiver::{Transfer, Verdict};
use super::{ledger, put, Answer};

/// The line's numbers, those that its word leaves out included.
#[derive(Clone, Copy, Debug, PartialEq, Eq)]
pub struct Shown {
    pub verdict: Verdict,
    pub ended: u64,
    /// 0 while unknown.
    pub count: u64,
    /// 0 while there is none.
    pub fault: u64,
    /// The channel of the fault.
    pub on: u64,
    /// Stored bytes.
    pub bytes: u64,
    /// Bytes in the doubtful ranges, arrived or not.
    pub doubtful: u64,
}

pub fn shown(transfer: &Transfer, claimed: &[u64], doubtful: &[u64]) -> Answer<Shown> {
    if !transfer.fits(claimed, doubtful) {
        return Err(1);
    }
    Ok(Shown {
        verdict: transfer.verdict(doubtful),
        ended: transfer.ended(),
        count: transfer.count,
        fault: transfer.fault,
        on: transfer.on,
        bytes: transfer.stored(claimed),
        doubtful: ledger::total(doubtful),
    })
}

pub fn line(transfer: &Transfer, claimed: &[u64], doubtful: &[u64]) -> Answer<String> {
    let Shown {
        verdict,
        ended,
        count,
        fault,
        on,
        bytes,
        doubtful,
    } = shown(transfer, claimed, doubtful)?;
    let text = match verdict {
        Verdict::Broken => format!("BROKEN {fault} on {on} bytes {bytes}"),
        Verdict::Result => format!("RESULT ended {ended} of {count} bytes {bytes}"),
        Verdict::Suspect => {
            format!("SUSPECT ended {ended} of {count} bytes {bytes} doubtful {doubtful}")
        }
        Verdict::Guess if count == 0 => format!("GUESS ended {ended} of ? bytes {bytes}"),
        Verdict::Guess => format!("GUESS ended {ended} of {count} bytes {bytes}"),
    };
    Ok(text + "\n")
}

pub fn write(
    transfer: &Transfer,
    claimed: &[u64],
    doubtful: &[u64],
    out: &mut [u8],
) -> Answer<usize> {
    put(line(transfer, claimed, doubtful)?.as_bytes(), out)
}
