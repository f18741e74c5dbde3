//! The tests of FIT, all of them on every call, in the ways that are fast on x86-64 with SSE2.

use super::super::second::receiver::{ENDED, HEADER, HOLDS, LAST_PAYLOAD, PAYLOAD, UNUSED};
use super::{Pair, CHANNELS};
use cobnutter::raw::{self, Channel};
use std::arch::x86_64::*;
use std::mem::{offset_of, MaybeUninit};

/// Channels that are tested at once for being unused.
const GROUP: usize = 8;
const MOST_PAIRS: usize = 4_096;

/// What the tests count on their way: used channels, ended channels, and used pairs of each ledger.
pub struct Tally {
    pub used: usize,
    pub ended: usize,
    pub claimed: usize,
    pub doubtful: usize,
}

/// All of FIT, the file's length included.
#[inline(always)]
pub fn fit(
    transfer: &raw::Transfer,
    file_len: usize,
    claimed: &[u64],
    doubtful: &[u64],
) -> Option<Tally> {
    let pairs = claimed.len() / 2;
    let sized = claimed.len() % 2 == 0
        && pairs <= MOST_PAIRS
        && pairs as u64 == transfer.pairs
        && doubtful.len() == claimed.len();
    let fault_fits = match transfer.fault {
        0 => transfer.on == 0,
        11..=19 => transfer.on < CHANNELS as u64,
        _ => false,
    };
    if !sized || !fault_fits || file_len as u64 != transfer.len {
        return None;
    }
    let claimed = used_pairs(claimed)?;
    if claimed.last().is_some_and(|pair| pair[1] > transfer.len) {
        return None;
    }
    let doubtful = used_pairs(doubtful)?;
    if !doubtful.is_empty() && !inside(doubtful, claimed) {
        return None;
    }
    let (used, ended) = channels_fit(transfer, claimed)?;
    let count = transfer.count;
    let count_fits = count == 0 || count <= CHANNELS as u64 && used as u64 <= count;
    count_fits.then_some(Tally {
        used,
        ended,
        claimed: claimed.len(),
        doubtful: doubtful.len(),
    })
}

/// The used pairs of a ledger that obeys its rule. An entry of 2^63 or above is not allowed here, which the second
/// reading leaves to the file's length: no slice is so long.
#[inline(never)]
fn used_pairs(ledger: &[u64]) -> Option<&[Pair]> {
    let (pairs, _) = ledger.as_chunks();
    let used = gallop(pairs, |pair| pair[1] != 0);
    let (entries, zeros) = ledger.split_at(2 * used);
    (rises(entries) && blank(zeros)).then_some(&pairs[..used])
}

/// How many pairs in front hold, where none does after one that does not: in doubled steps, then by halves.
#[inline(always)]
fn gallop(pairs: &[Pair], holds: impl Fn(&Pair) -> bool) -> usize {
    if !pairs.first().is_some_and(&holds) {
        return 0;
    }
    let mut reach = 2;
    while reach <= pairs.len() && holds(&pairs[reach - 1]) {
        reach *= 2;
    }
    let (from, to) = (reach / 2, pairs.len().min(reach - 1));
    from + pairs[from..to].partition_point(holds)
}

/// Whether each entry is above the one before it, and all are below 2^63: then the difference has the top bit exactly
/// where it has to.
#[inline(always)]
fn rises(entries: &[u64]) -> bool {
    let (mut below, mut any) = (u64::MAX, *entries.first().unwrap_or(&0));
    for two in entries.windows(2) {
        below &= two[0].wrapping_sub(two[1]);
        any |= two[1];
    }
    (below & !any) >> 63 != 0
}

/// Whether all words are 0, in one pass of OR that skips none.
#[inline(never)]
fn blank(words: &[u64]) -> bool {
    let (front, middle, back) = unsafe { words.align_to::<__m128i>() };
    // At most one word each.
    let ends = front.first().unwrap_or(&0) | back.first().unwrap_or(&0);
    let mut any = unsafe { [_mm_setzero_si128(); 4] };
    let (turns, rest) = middle.as_chunks::<32>();
    turns.iter().for_each(|turn| or_turn(turn, &mut any));
    let (turns, rest) = rest.as_chunks::<8>();
    turns.iter().for_each(|turn| or_turn(turn, &mut any));
    match middle.last_chunk::<8>() {
        // Some of it for the second time.
        Some(last) => or_turn(last, &mut any),
        None => rest.iter().for_each(|one| or_turn(&[*one], &mut any)),
    }
    let [a, b, c, d] = any;
    ends == 0 && is_zero(unsafe { _mm_or_si128(_mm_or_si128(a, b), _mm_or_si128(c, d)) })
}

#[inline(always)]
fn or_turn<const N: usize>(turn: &[__m128i; N], any: &mut [__m128i; 4]) {
    for (at, vector) in turn.iter().enumerate() {
        any[at % 4] = unsafe { _mm_or_si128(any[at % 4], *vector) };
    }
}

#[inline(always)]
fn is_zero(vector: __m128i) -> bool {
    unsafe { _mm_movemask_epi8(_mm_cmpeq_epi8(vector, _mm_setzero_si128())) == 0xffff }
}

/// Whether each doubtful range lies inside one claimed range, where both ledgers obey the rule: in one pass over both.
#[inline(never)]
fn inside(mut doubtful: &[Pair], mut claimed: &[Pair]) -> bool {
    while let Some(&[_, end]) = doubtful.first() {
        let both = doubtful.iter().zip(claimed);
        let in_step = both.take_while(|(one, around)| around[0] <= one[0] && one[1] <= around[1]);
        let count = in_step.count();
        if count > 0 {
            // The last of these claimed ranges holds all others that end no later than itself.
            let [_, to] = claimed[count - 1];
            (doubtful, claimed) = (&doubtful[count..], &claimed[count..]);
            doubtful = &doubtful[gallop(doubtful, |one| one[1] <= to)..];
        } else {
            // The first claimed range that ends no earlier is the only one that can hold it, and it was tried.
            let before = gallop(claimed, |around| around[1] < end);
            if before == 0 {
                return false;
            }
            claimed = &claimed[before..];
        }
    }
    true
}

/// Tests each channel, the rests of the payloads and that no two of these share a byte. Answers how many channels are
/// used and how many have ended.
#[inline(never)]
fn channels_fit(transfer: &raw::Transfer, claimed: &[Pair]) -> Option<(usize, usize)> {
    let front = CHANNELS - blank_at_end(&transfer.channels);
    let (mut unused, mut ended) = (0, 0);
    let mut rests = Rests {
        starts: &mut [const { MaybeUninit::uninit() }; CHANNELS + 1],
        ends: &mut [const { MaybeUninit::uninit() }; CHANNELS + 1],
        count: 0,
        around: [0; 2],
        shared: unsafe { _mm_setzero_si128() },
    };
    for channel in &transfer.channels[..front] {
        let Channel { next, left, .. } = *channel;
        let (held, idle) = (usize::from(channel.held), (next | left) == 0);
        let fits = match channel.state {
            PAYLOAD | LAST_PAYLOAD => held == 0 && rests.add(next, left, claimed),
            HEADER => held <= HOLDS && idle,
            UNUSED => {
                unused += 1;
                held == 0 && idle
            }
            ENDED => {
                ended += 1;
                held == 0 && idle
            }
            _ => false,
        };
        if !fits {
            return None;
        }
    }
    (rests.apart() && heads_fit(transfer)).then_some((front - unused, ended))
}

/// Whether each channel's bytes after those held are 0, where none holds more than 16. Mostly all bytes are 0.
#[inline(always)]
fn heads_fit(transfer: &raw::Transfer) -> bool {
    const { assert!(offset_of!(raw::Transfer, heads) % align_of::<u64>() == 0) };
    let (_, words, _) = unsafe { transfer.heads.align_to() };
    let (heads, _) = transfer.heads.as_chunks::<HOLDS>();
    let mut both = transfer.channels.iter().zip(heads);
    blank(words)
        || both.all(|(channel, head)| head[channel.held.into()..].iter().all(|byte| *byte == 0))
}

/// How many channels at the end are as at the start, by groups.
#[inline(always)]
fn blank_at_end(channels: &[Channel; CHANNELS]) -> usize {
    let (groups, _) = channels.as_chunks();
    let mut count = 0;
    while count < groups.len() && is_blank(&groups[groups.len() - 1 - count]) {
        count += 1;
    }
    GROUP * count
}

#[inline(always)]
fn is_blank(group: &[Channel; GROUP]) -> bool {
    let (mut bytes, mut places) = (0, unsafe { _mm_setzero_si128() });
    for channel in group {
        bytes |= u16::from_ne_bytes([channel.state, channel.held]);
        // `next` and `left` lie side by side.
        let two = unsafe { _mm_loadu_si128((&raw const channel.next).cast()) };
        places = unsafe { _mm_or_si128(places, two) };
    }
    bytes == 0 && is_zero(places)
}

/// Room for the rests of payloads, and for an empty one after them.
type Room = [MaybeUninit<u64>; CHANNELS + 1];

/// The rests of payloads so far, with an empty one after them.
struct Rests<'a> {
    starts: &'a mut Room,
    ends: &'a mut Room,
    count: usize,
    /// A claimed range that the last one lies in.
    around: Pair,
    /// The top bit of a half is set where two shared a byte.
    shared: __m128i,
}

impl Rests<'_> {
    /// Adds the `left` bytes from `start` on, unless they lie in no claimed range or are none.
    #[inline(always)]
    fn add(&mut self, start: u64, left: u64, claimed: &[Pair]) -> bool {
        // The range that the last one lies in is tried first.
        if start < self.around[0] || start >= self.around[1] {
            let at = claimed.partition_point(|pair| pair[1] <= start);
            self.around = claimed.get(at).copied().unwrap_or_default();
        }
        let [from, to] = self.around;
        if left == 0 || start < from || start > to || left > to - start {
            return false;
        }
        self.compare(start, start + left);
        true
    }

    /// Two ranges share a byte where each starts before the other's end. All places are below 2^63, so the top bit of a
    /// difference says which is the smaller. An empty range at 0 starts before no end and ends after no start.
    #[inline(always)]
    fn compare(&mut self, start: u64, end: u64) {
        let starts: *mut u64 = self.starts.as_mut_ptr().cast();
        let ends: *mut u64 = self.ends.as_mut_ptr().cast();
        unsafe {
            let (here, there) = (_mm_set1_epi64x(start as i64), _mm_set1_epi64x(end as i64));
            let mut at = 0;
            while at < self.count {
                let before = _mm_sub_epi64(here, _mm_loadu_si128(ends.add(at).cast()));
                let after = _mm_sub_epi64(_mm_loadu_si128(starts.add(at).cast()), there);
                self.shared = _mm_or_si128(self.shared, _mm_and_si128(before, after));
                at += 2;
            }
            // At most 64 are added, and the empty one.
            starts.add(self.count).cast::<Pair>().write([start, 0]);
            ends.add(self.count).cast::<Pair>().write([end, 0]);
        }
        self.count += 1;
    }

    #[inline(always)]
    fn apart(&self) -> bool {
        unsafe { _mm_movemask_pd(_mm_castsi128_pd(self.shared)) == 0 }
    }
}
