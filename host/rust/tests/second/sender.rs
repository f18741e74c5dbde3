//! "The sending side": a lent file cut into blocks, dealt out to the channels in turn.

use super::block::Header;
use super::receiver::CHANNELS;
use super::{put, Answer};

pub const MOST_SIZE: u64 = 65_536;

const DATA: u8 = 0;
const ENDING: u8 = 8;
const ENDING_WITH_COUNT: u8 = 72;

#[derive(Clone, Debug, PartialEq, Eq)]
pub struct Sender {
    /// The file's length.
    pub len: u64,
    /// Channels, each of which gets an ending.
    pub count: u64,
    /// Bytes of the file in each block; the last block may have fewer.
    pub size: u64,
    /// Blocks given so far on each channel, the ending counted as one.
    pub given: [u64; CHANNELS],
}

impl Sender {
    /// The sender and the number, 0 where it is not refused.
    pub fn begin(len: u64, count: u64, size: u64) -> (Sender, u64) {
        let given = [0; CHANNELS];
        let (len, count, size, number) = if in_range(count, size) {
            (len, count, size, 0)
        } else {
            (0, 0, 0, 71)
        };
        let sender = Sender {
            len,
            count,
            size,
            given,
        };
        (sender, number)
    }

    /// How many bytes were written to the front of `out`; an `Err` leaves the sender and `out` as they were.
    pub fn next(
        &mut self,
        channel: u64,
        count: u64,
        size: u64,
        file: &[u8],
        out: &mut [u8],
    ) -> Answer<usize> {
        let begun = (self.len, self.count, self.size);
        if !in_range(count, size)
            || (file.len() as u64, count, size) != begun
            || !self.can_be_given(file)
        {
            return Err(71);
        }
        if channel >= count {
            return Err(73);
        }
        let at = channel as usize;
        let mut blocks = blocks(file, at, count, size);
        if self.given[at] > blocks.len() as u64 {
            return Err(74);
        }
        let (descriptor, place, payload) = match blocks.nth(self.given[at] as usize) {
            Some((k, payload)) => (DATA, k as u64 * size, payload),
            None if at == 0 => (ENDING_WITH_COUNT, count, [].as_slice()),
            None => (ENDING, 0, [].as_slice()),
        };
        let header = Header {
            descriptor,
            length: payload.len() as u64,
            place,
        };
        let written = put(&[&header.to_bytes(), payload].concat(), out)?;
        self.given[at] += 1;
        Ok(written)
    }

    /// Whether some calls leave a sender of this count and size, both in range, with these numbers given.
    fn can_be_given(&self, file: &[u8]) -> bool {
        (0..CHANNELS).all(|at| {
            let most = if (at as u64) < self.count {
                blocks(file, at, self.count, self.size).len() as u64 + 1
            } else {
                0
            };
            self.given[at] <= most
        })
    }
}

fn in_range(count: u64, size: u64) -> bool {
    (1..=CHANNELS as u64).contains(&count) && (1..=MOST_SIZE).contains(&size)
}

/// The blocks k of channel `at`, those with k mod the count = `at`: from block `at` on, every count-th. Neither the
/// number of them nor finding one walks the file.
fn blocks(
    file: &[u8],
    at: usize,
    count: u64,
    size: u64,
) -> impl ExactSizeIterator<Item = (usize, &[u8])> {
    let all = file.chunks(size as usize).enumerate();
    all.skip(at).step_by(count as usize)
}
