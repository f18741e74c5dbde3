use crate::raw;
use crate::{Refusal, Verdict};

/// What the screen line says, as numbers.
#[derive(Clone, Copy, Debug, PartialEq, Eq)]
pub struct Shown {
    pub verdict: Verdict,
    /// How many channels have ended.
    pub ended: u64,
    /// How many channels the sender uses; none while it has not said so.
    pub count: Option<u64>,
    /// The number of the peer's fault and its channel; [`meaning`](crate::meaning) says it in words.
    pub fault: Option<(u64, u64)>,
    /// The payload bytes that were stored since the start.
    pub bytes: u64,
    /// How many bytes the doubtful ranges hold, whatever the verdict is.
    pub doubtful: u64,
}

impl Shown {
    pub(crate) fn from_raw(raw: raw::Shown) -> Result<Shown, Refusal> {
        let shown = Shown {
            verdict: Verdict::of(raw.verdict),
            ended: raw.ended,
            count: (raw.count != 0).then_some(raw.count),
            fault: (raw.fault != 0).then_some((raw.fault, raw.on)),
            bytes: raw.bytes,
            doubtful: raw.doubtful,
        };
        Refusal::unless(raw.refused, shown)
    }
}
