/// The two ledgers of a transfer, lent to each of its calls: the ranges that headers announced, and those of them that the
/// sender suspects of errors (bit 32).
///
/// A ledger holds pairs of start and end, end not counted, ascending, with zeros after them. [`ranges`](crate::ranges)
/// writes one as text, [`saved`](crate::saved) as bytes.
#[derive(Clone, Debug, PartialEq, Eq)]
pub struct Ledgers {
    claimed: Vec<u64>,
    doubtful: Vec<u64>,
}

impl Ledgers {
    /// Both empty, each with room for so many ranges, at most 4,096. Each may need as many as the sender has blocks, and
    /// never more; ranges that touch become one, so mostly fewer are enough.
    pub fn new(pairs: usize) -> Ledgers {
        Ledgers::from_entries(vec![0; 2 * pairs], vec![0; 2 * pairs])
    }

    /// Any entries are allowed, and any lengths: each call tests what it is lent.
    pub fn from_entries(claimed: Vec<u64>, doubtful: Vec<u64>) -> Ledgers {
        Ledgers { claimed, doubtful }
    }

    /// The ranges that headers announced, whether their bytes have arrived or not.
    pub fn claimed(&self) -> &[u64] {
        &self.claimed
    }

    /// Those of them that the sender suspects of errors.
    pub fn doubtful(&self) -> &[u64] {
        &self.doubtful
    }

    /// Any entries are allowed: each call tests what it is lent.
    pub fn claimed_mut(&mut self) -> &mut [u64] {
        &mut self.claimed
    }

    /// Any entries are allowed: each call tests what it is lent.
    pub fn doubtful_mut(&mut self) -> &mut [u64] {
        &mut self.doubtful
    }

    /// The claimed one, then the doubtful one.
    pub(crate) fn lent_mut(&mut self) -> (&mut [u64], &mut [u64]) {
        (&mut self.claimed, &mut self.doubtful)
    }
}
