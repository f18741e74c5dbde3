use crate::raw;
use crate::{header, Refusal};

/// The number of a channel whose ending is written.
const ENDED: u8 = 74;

/// One file being sent: what the sender remembers between calls. The file is lent to each call, and has to be the same
/// one each time.
#[derive(Clone, Debug, PartialEq, Eq)]
pub struct Sender {
    raw: raw::Sender,
}

impl Sender {
    /// Begins to send a file of `file_len` bytes over `count` channels, 1 to 64, in blocks of `size` bytes of the file,
    /// 1 to 65,536. Another count or size is refused with 71.
    pub fn begin(file_len: u64, count: u64, size: u64) -> Result<Sender, Refusal> {
        let answer = unsafe { raw::cob_sender_begin(file_len, count, size) };
        Refusal::unless(answer.refused, Sender::from_raw(answer.sender))
    }

    /// The next block of a channel, its header first; none where the channel's ending has been handed out.
    pub fn block(&mut self, channel: u64, file: &[u8]) -> Result<Option<Vec<u8>>, Refusal> {
        let payload = self.raw.size.min(file.len() as u64) as usize;
        let mut block = vec![0; header::LENGTH + payload];
        match self.next(channel, file, &mut block) {
            Ok(length) => {
                block.truncate(length);
                Ok(Some(block))
            }
            Err(refusal) if refusal.number() == ENDED => Ok(None),
            Err(refusal) => Err(refusal),
        }
    }

    /// Writes the next block of a channel to the front of `out`, and answers how many bytes it has: at most 17 and the
    /// block size. Refused with 71, 73, 74 or 55 it changes nothing; 74 says that the channel's ending is written already.
    pub fn next(&mut self, channel: u64, file: &[u8], out: &mut [u8]) -> Result<usize, Refusal> {
        self.next_with(channel, self.raw.count, self.raw.size, file, out)
    }

    /// The same with the channel count and the block size named again. Others than those that the sender was begun with
    /// are refused with 71.
    pub fn next_with(
        &mut self,
        channel: u64,
        count: u64,
        size: u64,
        file: &[u8],
        out: &mut [u8],
    ) -> Result<usize, Refusal> {
        let answer = unsafe {
            raw::cob_sender_next(
                self.raw,
                channel,
                count,
                size,
                file.as_ptr(),
                file.len(),
                out.as_mut_ptr(),
                out.len(),
            )
        };
        self.raw = answer.sender;
        Refusal::unless(answer.refused, answer.length)
    }

    pub fn raw(&self) -> &raw::Sender {
        &self.raw
    }

    /// Any numbers are allowed: each call refuses with 71 what no calls give.
    pub fn from_raw(raw: raw::Sender) -> Sender {
        Sender { raw }
    }
}
