use std::fmt;

/// A call that changed nothing but what its number says, or a text that is not well formed.
#[derive(Clone, Copy, Debug, PartialEq, Eq, Hash)]
pub struct Refusal(u8);

impl Refusal {
    pub fn number(self) -> u8 {
        self.0
    }

    /// `value` where the number is 0.
    pub(crate) fn unless<T>(number: u8, value: T) -> Result<T, Refusal> {
        match number {
            0 => Ok(value),
            k => Err(Refusal(k)),
        }
    }
}

impl fmt::Display for Refusal {
    fn fmt(&self, f: &mut fmt::Formatter) -> fmt::Result {
        write!(f, "refused with {}: {}", self.0, meaning(self.0.into()))
    }
}

impl std::error::Error for Refusal {}

/// What a number means, of a refusal or of a fault.
pub fn meaning(number: u64) -> &'static str {
    match number {
        1 => "transfer, file and ledgers do not fit each other, or a ledger breaks its rule",
        2 => "the channel is 64 or above",
        3 => "the transfer is over: its verdict is not GUESS",
        4 => "the channel has ended",
        5 => "ledgers of unequal lengths, of an odd number of entries, or of more than 8,192",
        11 => "a descriptor with an unknown bit",
        12 => "a descriptor that marks a record or a restart",
        13 => "a descriptor whose bits do not go together",
        14 => "a second count of end markers",
        15 => "a count of end markers that is 0, above 64 or below the channels in use",
        16 => "a payload that runs past the end of the file",
        17 => "a payload that shares a byte with another",
        18 => "a payload for which a ledger has no pair left",
        19 => "one channel more than the sender counted",
        21 => "a header that does not have 17 bytes",
        31 => "a line of more than 2,048 bytes",
        32 => "a line that does not end with CR LF",
        33 => "a line with a byte that is not printable",
        34 => "a verb that is not listed",
        35 => "an argument is missing, or the verb takes none",
        36 => "a reply code outside 100 to 599",
        41 => "a host-port that is malformed or empty",
        42 => "more than 64 host-ports",
        43 => "a list of fewer than 64 entries",
        51 => "a range that is malformed",
        52 => "the ranges so far, merged, need more pairs than the ledger has",
        53 => "a ledger of an odd number of entries, or of more than 8,192",
        54 => "an empty ledger has no text",
        55 => "too few bytes for the whole output",
        61 => "a saved ledger that is cut short or says a wrong length",
        62 => "a saved record of another kind than was asked for",
        63 => "a saved ledger whose file length or pairs are not whole, or whose pairs break the ledger's rule",
        64 => "a saved ledger of more pairs than the ledger has",
        65 => "a saved ledger with an end above the file length",
        71 => "a count or size out of range or not the sender's, another file length, or a sender that no calls give",
        73 => "the channel is not below the sender's channel count",
        74 => "the channel's ending is written already",
        _ => "unknown",
    }
}
