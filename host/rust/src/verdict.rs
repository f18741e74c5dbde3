use std::fmt;

/// What is known of a transfer.
#[derive(Clone, Copy, Debug, PartialEq, Eq, Hash)]
pub enum Verdict {
    /// More may come.
    Guess,
    /// Every channel that the sender counted has ended, with no fault and no doubt.
    Result,
    /// As final as [`Verdict::Result`], but the sender suspects some of the bytes of errors;
    /// [`Ledgers::doubtful`](crate::Ledgers::doubtful) has their ranges.
    Suspect,
    /// A peer's fault, or 18 where the ledgers were lent too small; see [`Transfer::shown`](crate::Transfer::shown).
    Broken,
}

impl Verdict {
    pub(crate) fn of(number: u8) -> Verdict {
        match number {
            0 => Verdict::Guess,
            1 => Verdict::Result,
            3 => Verdict::Suspect,
            _ => Verdict::Broken,
        }
    }

    pub(crate) fn number(self) -> u8 {
        match self {
            Verdict::Guess => 0,
            Verdict::Result => 1,
            Verdict::Broken => 2,
            Verdict::Suspect => 3,
        }
    }
}

impl fmt::Display for Verdict {
    fn fmt(&self, f: &mut fmt::Formatter) -> fmt::Result {
        f.pad(match self {
            Verdict::Guess => "GUESS",
            Verdict::Result => "RESULT",
            Verdict::Suspect => "SUSPECT",
            Verdict::Broken => "BROKEN",
        })
    }
}
