//! "One transfer": start, receive and the verdict.

use super::block::{self, Header};
use super::{ledger, Answer};

pub const CHANNELS: usize = 64;
pub const HOLDS: usize = block::LENGTH - 1;

pub const UNUSED: u8 = 0;
pub const HEADER: u8 = 1;
pub const PAYLOAD: u8 = 2;
/// A payload after which the channel ends.
pub const LAST_PAYLOAD: u8 = 3;
pub const ENDED: u8 = 4;

#[derive(Clone, Copy, Debug, PartialEq, Eq)]
pub enum Verdict {
    Guess,
    Result,
    Suspect,
    Broken,
}

#[derive(Clone, Copy, Debug, Default, PartialEq, Eq)]
pub struct Channel {
    pub state: u8,
    /// Header bytes held between calls.
    pub held: u8,
    /// Place of the next payload byte.
    pub next: u64,
    /// Payload bytes still to come.
    pub left: u64,
}

#[derive(Clone, Debug, PartialEq, Eq)]
pub struct Transfer {
    pub len: u64,
    pub pairs: u64,
    /// End markers expected; 0 while unknown.
    pub count: u64,
    /// 0 while there is none.
    pub fault: u64,
    /// The channel of the fault.
    pub on: u64,
    pub heads: [[u8; HOLDS]; CHANNELS],
    pub channels: [Channel; CHANNELS],
}

impl Transfer {
    pub fn fresh(len: u64, pairs: u64) -> Transfer {
        Transfer {
            len,
            pairs,
            count: 0,
            fault: 0,
            on: 0,
            heads: [[0; HOLDS]; CHANNELS],
            channels: [Channel::default(); CHANNELS],
        }
    }

    pub fn start(len: u64, claimed: &mut [u64], doubtful: &mut [u64]) -> Answer<Transfer> {
        if !ledger::is_sized(claimed) || doubtful.len() != claimed.len() {
            return Err(5);
        }
        claimed.fill(0);
        doubtful.fill(0);
        Ok(Transfer::fresh(len, claimed.len() as u64 / 2))
    }

    /// Answers the verdict and how many bytes of the piece were taken.
    pub fn receive(
        &mut self,
        channel: u64,
        piece: &[u8],
        file: &mut [u8],
        claimed: &mut [u64],
        doubtful: &mut [u64],
    ) -> Answer<(Verdict, usize)> {
        if file.len() as u64 != self.len || !self.fits(claimed, doubtful) {
            return Err(1);
        }
        if channel >= CHANNELS as u64 {
            return Err(2);
        }
        if self.verdict(doubtful) != Verdict::Guess {
            return Err(3);
        }
        let at = channel as usize;
        if self.channels[at].state == ENDED && !piece.is_empty() {
            return Err(4);
        }
        let mut rest = piece;
        if let Err(fault) = self.take(at, &mut rest, file, claimed, doubtful) {
            self.fault = fault;
            self.on = channel;
        }
        Ok((self.verdict(doubtful), piece.len() - rest.len()))
    }

    /// A complete transfer is suspect where any range is doubtful; the doubtful ledger obeys its rule.
    pub(super) fn verdict(&self, doubtful: &[u64]) -> Verdict {
        if self.fault != 0 {
            Verdict::Broken
        } else if self.count == 0 || self.ended() != self.count {
            Verdict::Guess
        } else if ledger::used(doubtful).is_empty() {
            Verdict::Result
        } else {
            Verdict::Suspect
        }
    }

    pub fn ended(&self) -> u64 {
        self.channels
            .iter()
            .filter(|channel| channel.state == ENDED)
            .count() as u64
    }

    pub fn used(&self) -> u64 {
        self.channels
            .iter()
            .filter(|channel| channel.state != UNUSED)
            .count() as u64
    }

    /// Stored bytes, where transfer and ledger fit: the rests then share no byte and are claimed.
    pub(super) fn stored(&self, claimed: &[u64]) -> u64 {
        let left: u64 = self.channels.iter().map(|channel| channel.left).sum();
        ledger::total(claimed) - left
    }

    /// Takes bytes from the front of `rest` until it is empty or the channel has ended. An `Err` is a peer's fault.
    fn take(
        &mut self,
        at: usize,
        rest: &mut &[u8],
        file: &mut [u8],
        claimed: &mut [u64],
        doubtful: &mut [u64],
    ) -> Answer<()> {
        while !rest.is_empty() {
            match self.channels[at].state {
                UNUSED if self.count != 0 && self.used() == self.count => return Err(19),
                UNUSED => self.channels[at].state = HEADER,
                HEADER => self.take_header(at, rest, claimed, doubtful)?,
                PAYLOAD | LAST_PAYLOAD => self.take_payload(at, rest, file),
                _ => break,
            }
        }
        Ok(())
    }

    fn take_header(
        &mut self,
        at: usize,
        rest: &mut &[u8],
        claimed: &mut [u64],
        doubtful: &mut [u64],
    ) -> Answer<()> {
        let held = usize::from(self.channels[at].held);
        let (now, later) = rest.split_at(rest.len().min(block::LENGTH - held));
        *rest = later;
        let stop = held + now.len();
        if stop < block::LENGTH {
            self.heads[at][held..stop].copy_from_slice(now);
            self.channels[at].held = stop as u8;
            return Ok(());
        }
        let mut header = [0; block::LENGTH];
        header[..held].copy_from_slice(&self.heads[at][..held]);
        header[held..].copy_from_slice(now);
        self.heads[at] = [0; HOLDS];
        self.channels[at].held = 0;
        self.accept(at, Header::from_bytes(&header), claimed, doubtful)
    }

    fn accept(
        &mut self,
        at: usize,
        header: Header,
        claimed: &mut [u64],
        doubtful: &mut [u64],
    ) -> Answer<()> {
        header.judge_descriptor()?;
        if header.is_eodc() {
            self.learn_count(header.place)?;
        } else if header.length > 0 {
            return self.open_payload(at, header, claimed, doubtful);
        }
        if header.is_last() {
            self.end(at);
        }
        Ok(())
    }

    fn learn_count(&mut self, count: u64) -> Answer<()> {
        if self.count != 0 {
            return Err(14);
        }
        if !(1..=CHANNELS as u64).contains(&count) || count < self.used() {
            return Err(15);
        }
        self.count = count;
        Ok(())
    }

    fn open_payload(
        &mut self,
        at: usize,
        header: Header,
        claimed: &mut [u64],
        doubtful: &mut [u64],
    ) -> Answer<()> {
        let end = header
            .place
            .checked_add(header.length)
            .filter(|end| *end <= self.len)
            .ok_or(16u64)?;
        if header.is_suspect() {
            // Judged first, so that neither changes unless both can. Past this the doubtful one can only lack pairs.
            ledger::judge(claimed, header.place, end)?;
            ledger::claim(doubtful, header.place, end)?;
        }
        ledger::claim(claimed, header.place, end)?;
        let state = if header.is_last() {
            LAST_PAYLOAD
        } else {
            PAYLOAD
        };
        self.channels[at] = Channel {
            state,
            held: 0,
            next: header.place,
            left: header.length,
        };
        Ok(())
    }

    fn take_payload(&mut self, at: usize, rest: &mut &[u8], file: &mut [u8]) {
        let Channel {
            state, next, left, ..
        } = self.channels[at];
        let (now, later) = rest.split_at(rest.len().min(left as usize));
        *rest = later;
        file[next as usize..][..now.len()].copy_from_slice(now);
        let taken = now.len() as u64;
        if taken < left {
            self.channels[at] = Channel {
                state,
                held: 0,
                next: next + taken,
                left: left - taken,
            };
        } else if state == PAYLOAD {
            self.channels[at] = Channel {
                state: HEADER,
                ..Channel::default()
            };
        } else {
            self.end(at);
        }
    }

    fn end(&mut self, at: usize) {
        self.channels[at] = Channel {
            state: ENDED,
            ..Channel::default()
        };
    }
}
