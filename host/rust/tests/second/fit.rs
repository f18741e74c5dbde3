//! "One transfer": FIT, without the file's length, as the screen line is lent no file.

use super::ledger;
use super::receiver::{
    Channel, Transfer, CHANNELS, ENDED, HEADER, HOLDS, LAST_PAYLOAD, PAYLOAD, UNUSED,
};

impl Transfer {
    pub fn fits(&self, claimed: &[u64], doubtful: &[u64]) -> bool {
        self.claimed_fits(claimed)
            && doubtful_fits(claimed, doubtful)
            && self.channels_fit()
            && self.rests_fit(claimed)
            && self.count_fits()
            && self.fault_fits()
    }

    fn claimed_fits(&self, claimed: &[u64]) -> bool {
        ledger::is_sized(claimed)
            && claimed.len() as u64 / 2 == self.pairs
            && ledger::obeys(claimed)
            && ledger::used(claimed)
                .last()
                .is_none_or(|pair| pair[1] <= self.len)
    }

    fn channels_fit(&self) -> bool {
        let mut channels = self.channels.iter().zip(&self.heads);
        channels.all(|(channel, head)| channel_fits(channel, head))
    }

    /// Each payload's rest lies inside one claimed range, and no two share a byte.
    fn rests_fit(&self, claimed: &[u64]) -> bool {
        let mut rests = [(0, 0); CHANNELS];
        let payloads = self.channels.iter().filter(|channel| channel.left > 0);
        for (found, channel) in payloads.enumerate() {
            let start = channel.next;
            let Some(end) = start.checked_add(channel.left) else {
                return false;
            };
            let apart = rests[..found]
                .iter()
                .all(|&(from, to)| end <= from || to <= start);
            if !apart || !ledger::covers(claimed, start, end) {
                return false;
            }
            rests[found] = (start, end);
        }
        true
    }

    fn count_fits(&self) -> bool {
        self.count == 0 || self.count <= CHANNELS as u64 && self.used() <= self.count
    }

    fn fault_fits(&self) -> bool {
        match self.fault {
            0 => self.on == 0,
            11..=19 => self.on < CHANNELS as u64,
            _ => false,
        }
    }
}

/// Beside a claimed ledger that fits, so nothing doubtful lies behind the file's end.
fn doubtful_fits(claimed: &[u64], doubtful: &[u64]) -> bool {
    doubtful.len() == claimed.len()
        && ledger::obeys(doubtful)
        && ledger::used(doubtful)
            .iter()
            .all(|&[start, end]| ledger::covers(claimed, start, end))
}

fn channel_fits(channel: &Channel, head: &[u8; HOLDS]) -> bool {
    let idle = channel.next == 0 && channel.left == 0;
    let held = usize::from(channel.held);
    match channel.state {
        HEADER => idle && held <= HOLDS && head[held..].iter().all(|byte| *byte == 0),
        PAYLOAD | LAST_PAYLOAD => channel.left > 0 && held == 0 && *head == [0; HOLDS],
        UNUSED | ENDED => idle && held == 0 && *head == [0; HOLDS],
        _ => false,
    }
}
