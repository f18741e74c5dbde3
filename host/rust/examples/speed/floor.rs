//! The floor: a receiver for x86-64 that is written for speed alone, so that the table has a column for how fast a call
//! can be that is lent a transfer by value and tests everything anew. It answers as the second reading does, and
//! `floor_check` holds the two against each other before anything is timed.
//!
//! Every call makes all tests of FIT; nothing is remembered between calls but the transfer and the two ledgers. Where a
//! test is made in another way than in the second reading, a comment says why it comes to the same.

use super::second::block::{Header, LENGTH};
use super::second::receiver::{ENDED, HEADER, HOLDS, LAST_PAYLOAD, PAYLOAD, UNUSED};
use cobnutter::raw::{self, Channel, Received};
use fit::fit;
use std::slice::{from_raw_parts, from_raw_parts_mut};

#[path = "floor_fit.rs"]
mod fit;

const CHANNELS: usize = 64;

pub const GUESS: u8 = 0;
pub const RESULT: u8 = 1;
pub const BROKEN: u8 = 2;
pub const SUSPECT: u8 = 3;

type Pair = [u64; 2];

/// As the library's package has it, over [`receive`].
pub struct Transfer {
    pub raw: raw::Transfer,
}

impl Transfer {
    /// Ledgers of one length, which is even and at most 8,192.
    pub fn start(len: u64, claimed: &mut [u64], doubtful: &mut [u64]) -> Transfer {
        claimed.fill(0);
        doubtful.fill(0);
        let raw = raw::Transfer {
            len,
            pairs: claimed.len() as u64 / 2,
            count: 0,
            fault: 0,
            on: 0,
            heads: [0; CHANNELS * HOLDS],
            channels: [Channel::default(); CHANNELS],
        };
        Transfer { raw }
    }

    /// Answers the verdict and the bytes taken, or the number of a refusal with the verdict.
    pub fn receive(
        &mut self,
        channel: u64,
        piece: &[u8],
        file: &mut [u8],
        claimed: &mut [u64],
        doubtful: &mut [u64],
    ) -> Result<(u8, usize), (u8, u8)> {
        let answer = unsafe {
            receive(
                self.raw,
                channel,
                piece.as_ptr(),
                piece.len(),
                file.as_mut_ptr(),
                file.len(),
                claimed.as_mut_ptr(),
                claimed.len(),
                doubtful.as_mut_ptr(),
                doubtful.len(),
            )
        };
        self.raw = answer.transfer;
        match answer.refused {
            0 => Ok((answer.verdict, answer.taken)),
            number => Err((number, answer.verdict)),
        }
    }
}

/// The same interface as `raw::cob2_receive`; it is exported, so that the compiler cannot fit it to its callers here. The
/// transfer is changed in the argument, which is the call's own, and copied once, from there to the answer.
///
/// # Safety
///
/// Each pointer and length is a slice, and no two of them overlap.
#[export_name = "floor_receive"]
#[inline(never)]
pub unsafe extern "C" fn receive(
    mut transfer: raw::Transfer,
    channel: u64,
    piece: *const u8,
    piece_len: usize,
    file: *mut u8,
    file_len: usize,
    claimed: *mut u64,
    claimed_len: usize,
    doubtful: *mut u64,
    doubtful_len: usize,
) -> Received {
    let piece = from_raw_parts(piece, piece_len);
    let file = from_raw_parts_mut(file, file_len);
    let claimed = from_raw_parts_mut(claimed, claimed_len);
    let doubtful = from_raw_parts_mut(doubtful, doubtful_len);
    let (refused, verdict, taken) = call(&mut transfer, channel, piece, file, claimed, doubtful);
    Received {
        transfer,
        taken,
        verdict,
        refused,
    }
}

/// Answers the refusal, the verdict and the bytes taken.
#[inline(always)]
fn call(
    transfer: &mut raw::Transfer,
    channel: u64,
    piece: &[u8],
    file: &mut [u8],
    claimed: &mut [u64],
    doubtful: &mut [u64],
) -> (u8, u8, usize) {
    let Some(tally) = fit(transfer, file.len(), claimed, doubtful) else {
        // A word is due where only the file's length is wrong; where more is, any will do.
        let ended = transfer.channels.iter().filter(|one| one.state == ENDED);
        let (ended, doubt) = (ended.count(), doubtful.get(1).is_some_and(|end| *end != 0));
        return (1, verdict(transfer, ended, doubt), 0);
    };
    let mut call = Call {
        used: tally.used,
        ended: tally.ended,
        claimed: Ledger::new(claimed, tally.claimed),
        doubtful: Ledger::new(doubtful, tally.doubtful),
        transfer,
        file,
    };
    let word = call.verdict();
    if channel >= CHANNELS as u64 {
        return (2, word, 0);
    }
    if word != GUESS {
        return (3, word, 0);
    }
    let at = channel as usize;
    if call.transfer.channels[at].state == ENDED && !piece.is_empty() {
        return (4, word, 0);
    }
    let mut rest = piece;
    if let Err(fault) = call.take(at, &mut rest) {
        call.transfer.fault = fault;
        call.transfer.on = channel;
    }
    (0, call.verdict(), piece.len() - rest.len())
}

fn verdict(transfer: &raw::Transfer, ended: usize, doubt: bool) -> u8 {
    if transfer.fault != 0 {
        BROKEN
    } else if transfer.count == 0 || transfer.count != ended as u64 {
        GUESS
    } else if doubt {
        SUSPECT
    } else {
        RESULT
    }
}

/// A ledger that obeys its rule, with how many of its pairs are used.
struct Ledger<'a> {
    pairs: &'a mut [Pair],
    used: usize,
}

impl<'a> Ledger<'a> {
    #[inline(always)]
    fn new(entries: &'a mut [u64], used: usize) -> Ledger<'a> {
        let (pairs, _) = entries.as_chunks_mut();
        Ledger { pairs, used }
    }

    /// How many pairs stand before a new range, and whether it touches the last of them and the pair after it.
    fn find(&self, start: u64, end: u64) -> Result<(usize, bool, bool), u64> {
        let used = &self.pairs[..self.used];
        let at = used.partition_point(|pair| pair[1] <= start);
        let after = used.get(at).map_or(u64::MAX, |pair| pair[0]);
        if after < end {
            return Err(17);
        }
        let joins_left = at > 0 && used[at - 1][1] == start;
        let joins_right = after == end;
        if !joins_left && !joins_right && self.used == self.pairs.len() {
            return Err(18);
        }
        Ok((at, joins_left, joins_right))
    }

    fn claim(&mut self, start: u64, end: u64) -> Result<(), u64> {
        let (at, joins_left, joins_right) = self.find(start, end)?;
        match (joins_left, joins_right) {
            (true, true) => {
                self.pairs[at - 1][1] = self.pairs[at][1];
                self.pairs.copy_within(at + 1..self.used, at);
                self.used -= 1;
                self.pairs[self.used] = [0, 0];
            }
            (true, false) => self.pairs[at - 1][1] = end,
            (false, true) => self.pairs[at][0] = start,
            (false, false) => {
                self.pairs.copy_within(at..self.used, at + 1);
                self.pairs[at] = [start, end];
                self.used += 1;
            }
        }
        Ok(())
    }
}

/// A call on what fits, with the counts kept up to date.
struct Call<'a> {
    used: usize,
    ended: usize,
    claimed: Ledger<'a>,
    doubtful: Ledger<'a>,
    transfer: &'a mut raw::Transfer,
    file: &'a mut [u8],
}

impl Call<'_> {
    #[inline(always)]
    fn verdict(&self) -> u8 {
        verdict(self.transfer, self.ended, self.doubtful.used > 0)
    }

    /// Takes bytes from the front of `rest` until it is empty or the channel has ended. An `Err` is a peer's fault.
    #[inline(always)]
    fn take(&mut self, at: usize, rest: &mut &[u8]) -> Result<(), u64> {
        while !rest.is_empty() {
            match self.transfer.channels[at].state {
                PAYLOAD | LAST_PAYLOAD => self.take_payload(at, rest),
                HEADER => self.take_header(at, rest)?,
                UNUSED if self.transfer.count == self.used as u64 && self.used > 0 => {
                    return Err(19)
                }
                UNUSED => {
                    self.transfer.channels[at].state = HEADER;
                    self.used += 1;
                }
                _ => break,
            }
        }
        Ok(())
    }

    #[inline(always)]
    fn take_payload(&mut self, at: usize, rest: &mut &[u8]) {
        let channel = &mut self.transfer.channels[at];
        let (now, later) = rest.split_at(rest.len().min(channel.left as usize));
        *rest = later;
        self.file[channel.next as usize..][..now.len()].copy_from_slice(now);
        channel.next += now.len() as u64;
        channel.left -= now.len() as u64;
        if channel.left == 0 {
            let last = channel.state == LAST_PAYLOAD;
            self.enter(at, if last { ENDED } else { HEADER });
        }
    }

    /// No payload is open from now on.
    fn enter(&mut self, at: usize, state: u8) {
        self.ended += usize::from(state == ENDED);
        self.transfer.channels[at] = Channel {
            state,
            ..Channel::default()
        };
    }

    #[inline(never)]
    fn take_header(&mut self, at: usize, rest: &mut &[u8]) -> Result<(), u64> {
        let channel = &mut self.transfer.channels[at];
        let (heads, _) = self.transfer.heads.as_chunks_mut::<HOLDS>();
        let head = &mut heads[at];
        let held = usize::from(channel.held);
        let (now, later) = rest.split_at(rest.len().min(LENGTH - held));
        *rest = later;
        let stop = held + now.len();
        if stop < LENGTH {
            head[held..stop].copy_from_slice(now);
            channel.held = stop as u8;
            return Ok(());
        }
        let mut header = [0; LENGTH];
        header[..held].copy_from_slice(&head[..held]);
        header[held..].copy_from_slice(now);
        *head = [0; HOLDS];
        channel.held = 0;
        self.accept(at, Header::from_bytes(&header))
    }

    fn accept(&mut self, at: usize, header: Header) -> Result<(), u64> {
        header.judge_descriptor()?;
        if header.is_eodc() {
            self.learn_count(header.place)?;
        } else if header.length > 0 {
            return self.open_payload(at, header);
        }
        if header.is_last() {
            self.enter(at, ENDED);
        }
        Ok(())
    }

    fn learn_count(&mut self, count: u64) -> Result<(), u64> {
        if self.transfer.count != 0 {
            return Err(14);
        }
        if count > CHANNELS as u64 || count < self.used as u64 {
            return Err(15);
        }
        self.transfer.count = count;
        Ok(())
    }

    fn open_payload(&mut self, at: usize, header: Header) -> Result<(), u64> {
        let (next, left) = (header.place, header.length);
        let end = next.checked_add(left).ok_or(16u64)?;
        if end > self.transfer.len {
            return Err(16);
        }
        if header.is_suspect() {
            // Neither ledger changes unless both can.
            self.claimed.find(next, end)?;
            self.doubtful.claim(next, end)?;
        }
        self.claimed.claim(next, end)?;
        let last = header.is_last();
        let (state, held) = (if last { LAST_PAYLOAD } else { PAYLOAD }, 0);
        self.transfer.channels[at] = Channel {
            state,
            held,
            next,
            left,
        };
        Ok(())
    }
}
