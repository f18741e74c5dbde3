//! "The ledger": claimed or doubtful ranges as pairs (start, end) in ascending order, zeros after them.

use super::Answer;

pub const MOST_ENTRIES: usize = 8_192;

pub fn is_sized(ledger: &[u64]) -> bool {
    ledger.len().is_multiple_of(2) && ledger.len() <= MOST_ENTRIES
}

/// The used pairs of a ledger that obeys its rule: an end is above a start, so it is never 0.
pub fn used(ledger: &[u64]) -> &[[u64; 2]] {
    let (pairs, _) = ledger.as_chunks();
    &pairs[..pairs.partition_point(|&[_, end]| end != 0)]
}

/// The ledger rule. Start before end and end before the next start make the used entries one rising run.
pub fn obeys(ledger: &[u64]) -> bool {
    let (pairs, zeros) = ledger.split_at(2 * used(ledger).len());
    let rising = pairs
        .windows(2)
        .fold(true, |ok, two| ok & (two[0] < two[1]));
    rising && zeros.iter().fold(0, |any, entry| any | entry) == 0
}

/// What the ledger writers write.
pub fn to_write(ledger: &[u64]) -> Answer<&[[u64; 2]]> {
    if !is_sized(ledger) {
        return Err(53);
    }
    if !obeys(ledger) {
        return Err(1);
    }
    Ok(used(ledger))
}

/// Bytes in all ranges of a ledger that obeys its rule, at most its last end.
pub(super) fn total(ledger: &[u64]) -> u64 {
    used(ledger).iter().map(|[start, end]| end - start).sum()
}

/// Whether the places from `start` up to `end` lie inside one range.
pub fn covers(ledger: &[u64], start: u64, end: u64) -> bool {
    let pairs = used(ledger);
    let at = pairs.partition_point(|pair| pair[1] <= start);
    pairs
        .get(at)
        .is_some_and(|pair| pair[0] <= start && end <= pair[1])
}

/// What `claim` would answer, by "One transfer": 17, then 18.
pub fn judge(ledger: &[u64], start: u64, end: u64) -> Answer<()> {
    find(ledger, start, end).map(|_| ())
}

/// Claims the places from `start` up to `end`; an `Err` leaves the ledger as it was.
pub fn claim(ledger: &mut [u64], start: u64, end: u64) -> Answer<()> {
    let (at, joins_left, joins_right) = find(ledger, start, end)?;
    let (here, stop) = (2 * at, 2 * used(ledger).len());
    match (joins_left, joins_right) {
        (true, true) => {
            ledger.copy_within(here + 1..stop, here - 1);
            ledger[stop - 2..stop].fill(0);
        }
        (true, false) => ledger[here - 1] = end,
        (false, true) => ledger[here] = start,
        (false, false) => {
            ledger.copy_within(here..stop, here + 2);
            ledger[here..here + 2].copy_from_slice(&[start, end]);
        }
    }
    Ok(())
}

/// How many pairs stand before a new range, and whether it touches the last of them and the pair after it.
fn find(ledger: &[u64], start: u64, end: u64) -> Answer<(usize, bool, bool)> {
    let pairs = used(ledger);
    let at = pairs.partition_point(|pair| pair[1] <= start);
    if at < pairs.len() && pairs[at][0] < end {
        return Err(17);
    }
    let joins_left = at > 0 && pairs[at - 1][1] == start;
    let joins_right = at < pairs.len() && pairs[at][0] == end;
    if !joins_left && !joins_right && 2 * pairs.len() == ledger.len() {
        return Err(18);
    }
    Ok((at, joins_left, joins_right))
}
