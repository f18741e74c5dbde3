use crate::raw;
use crate::written::{text, written};
use crate::{Ledgers, Refusal, Shown, Verdict};

/// More bytes than any screen line has.
const SCREEN_LINE: usize = 96;

/// One transfer: what the receiver remembers between calls. The file and the ledgers are lent to each call, and have to
/// be the same ones each time.
#[derive(Clone, Debug, PartialEq, Eq)]
pub struct Transfer {
    raw: raw::Transfer,
}

/// What a call did with a piece.
#[derive(Clone, Copy, Debug, PartialEq, Eq)]
pub struct Received {
    pub verdict: Verdict,
    /// The bytes of the piece that were taken: all of them, unless the channel ended or there was a fault.
    pub taken: usize,
}

impl Transfer {
    /// Begins a transfer into a file of `file_len` bytes, and zeroes the ledgers. They have the same number of entries, an
    /// even one, at most 8,192, else the refusal is 5.
    pub fn start(file_len: u64, ledgers: &mut Ledgers) -> Result<Transfer, Refusal> {
        let (claimed, doubtful) = ledgers.lent_mut();
        let answer = unsafe {
            raw::cob2_start(
                file_len,
                claimed.as_mut_ptr(),
                claimed.len(),
                doubtful.as_mut_ptr(),
                doubtful.len(),
            )
        };
        Refusal::unless(answer.refused, Transfer::from_raw(answer.transfer))
    }

    /// Takes a piece that arrived on a channel, and puts its payload bytes into the file. Refused with 1, 2, 3 or 4 it
    /// changes nothing.
    pub fn receive(
        &mut self,
        channel: u64,
        piece: &[u8],
        file: &mut [u8],
        ledgers: &mut Ledgers,
    ) -> Result<Received, Refusal> {
        let (claimed, doubtful) = ledgers.lent_mut();
        let answer = unsafe {
            raw::cob2_receive(
                self.raw,
                channel,
                piece.as_ptr(),
                piece.len(),
                file.as_mut_ptr(),
                file.len(),
                claimed.as_mut_ptr(),
                claimed.len(),
                doubtful.as_mut_ptr(),
                doubtful.len(),
            )
        };
        self.raw = answer.transfer;
        let received = Received {
            verdict: Verdict::of(answer.verdict),
            taken: answer.taken,
        };
        Refusal::unless(answer.refused, received)
    }

    /// What the screen line says, as numbers. Refused with 1 where transfer and ledgers do not fit.
    pub fn shown(&self, ledgers: &Ledgers) -> Result<Shown, Refusal> {
        let (claimed, doubtful) = (ledgers.claimed(), ledgers.doubtful());
        Shown::from_raw(unsafe {
            raw::cob_shown(
                self.raw,
                claimed.as_ptr(),
                claimed.len(),
                doubtful.as_ptr(),
                doubtful.len(),
            )
        })
    }

    /// The line for the screen, which ends with LF. Refused as [`Transfer::shown`] is.
    pub fn screen_line(&self, ledgers: &Ledgers) -> Result<String, Refusal> {
        let (claimed, doubtful) = (ledgers.claimed(), ledgers.doubtful());
        let out = vec![0; SCREEN_LINE];
        written(out, |out| unsafe {
            raw::cob2_screen_line(
                self.raw,
                claimed.as_ptr(),
                claimed.len(),
                doubtful.as_ptr(),
                doubtful.len(),
                out.as_mut_ptr(),
                out.len(),
            )
        })
        .map(text)
    }

    pub fn raw(&self) -> &raw::Transfer {
        &self.raw
    }

    /// Any numbers are allowed: each call refuses with 1 what does not fit.
    pub fn from_raw(raw: raw::Transfer) -> Transfer {
        Transfer { raw }
    }
}
