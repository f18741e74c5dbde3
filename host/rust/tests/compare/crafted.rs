//! Transfers that fit or nearly fit, made at once instead of by a list of calls, and calls at the ledgers' edges.

use super::both::{Both, Lent};
use super::harm::harm;
use super::random::Random;
use super::second::block::{Header, LENGTH};
use super::second::ledger::{self, MOST_ENTRIES};
use super::second::receiver::{
    Channel, Transfer, CHANNELS, ENDED, HEADER, HOLDS, LAST_PAYLOAD, PAYLOAD,
};
use super::seen::Seen;
use super::sending::wire;

pub fn few_calls(random: &Random, seen: &mut Seen) {
    let lent = lent(random);
    let mut both = Both::of(lent, random, seen);
    for _ in 0..both.random.between(1, 6) {
        if both.random.one_in(4) {
            both.harm(harm);
        }
        let channel = both.random.below(CHANNELS);
        let piece = piece(both.lent(), channel, both.random);
        let _ = both.receive(channel as u64, &piece);
    }
}

/// A start over ledgers of any lengths; one that is refused leaves a transfer for an empty file and empty ledgers.
pub fn start(random: &Random, seen: &mut Seen) {
    let limit = random.between(MOST_ENTRIES - 2, MOST_ENTRIES + 2);
    let claimed = *random.pick(&[random.size(20), limit]);
    let near = random.near(claimed as u64).min(limit as u64) as usize;
    let doubtful = *random.pick(&[claimed, claimed, near, random.size(20)]);
    let len = random.size(100);
    let mut both = Both::start_apart(len, claimed, doubtful, random, seen);
    let _ = both.receive(0, &[0]);
    both.restart(random.wild());
    let _ = both.receive(0, &[0]);
    both.harm(|lent, _| {
        lent.file.clear();
        lent.claimed.clear();
        lent.doubtful.clear();
    });
    let _ = both.receive(0, &[0]);
}

/// A fault that a host makes up: the call is refused with 3 where the transfer fits, since it is BROKEN, else with 1.
#[test]
fn made_up_faults() {
    let (random, mut seen) = (Random::new(1), Seen::default());
    let mut both = Both::start(8, 2, &random, &mut seen);
    for fault in 1..=30 {
        both.harm(|lent, _| lent.transfer.fault = fault);
        let number = if (11..=19).contains(&fault) { 3 } else { 1 };
        assert_eq!(both.receive(0, &[0]), Err(number), "fault {fault}");
    }
}

fn lent(random: &Random) -> Lent {
    // Far from 0 no file can be lent: there the screen line and the stored bytes are left to compare.
    let far = random.one_in(4);
    let span = *random.pick(&[random.size(200), random.size(17_000), 17_000]) as u64;
    let (from, len) = if far {
        (u64::MAX - span, u64::MAX - random.below(2) as u64)
    } else {
        (0, span)
    };
    let mut claimed = rising(from, len, random);
    let mut doubtful = inside(&claimed, random);
    let used = claimed.len().max(doubtful.len());
    let room = *random.pick(&[0, 0, 0, 2, random.size(MOST_ENTRIES)]);
    let entries = (used + room / 2 * 2).min(MOST_ENTRIES);
    claimed.resize(entries, 0);
    doubtful.resize(entries, 0);
    let file = if far {
        Vec::new()
    } else {
        random.bytes(len as usize)
    };
    let mut transfer = Transfer::fresh(len, entries as u64 / 2);
    use_channels(&mut transfer, &claimed, random);
    know_numbers(&mut transfer, random);
    Lent {
        transfer,
        file,
        claimed,
        doubtful,
    }
}

/// Entries of a doubtful ledger: parts of all, some or none of the claimed ranges, or all of a range.
fn inside(claimed: &[u64], random: &Random) -> Vec<u64> {
    let doubt = *random.pick(&[1, 4, usize::MAX]);
    let mut entries = Vec::new();
    for &[start, end] in ledger::used(claimed) {
        if random.one_in(doubt) {
            match random.below(3) {
                0 => entries.extend([start, end]),
                _ => entries.extend(rising(start, end, random)),
            }
        }
    }
    entries.truncate(MOST_ENTRIES);
    entries
}

/// Entries of a ledger between two places.
pub fn rising(from: u64, to: u64, random: &Random) -> Vec<u64> {
    let most = *random.pick(&[random.size(40), random.size(MOST_ENTRIES), MOST_ENTRIES]);
    let step = *random.pick(&[0, 2, 30, 600, 6_000]);
    let mut entries = Vec::new();
    let mut place = from.checked_add(random.size(3) as u64);
    while let Some(entry) = place.filter(|entry| *entry <= to && entries.len() < most) {
        entries.push(entry);
        place = entry.checked_add(1 + random.size(step) as u64);
    }
    entries.truncate(entries.len() / 2 * 2);
    entries
}

fn use_channels(transfer: &mut Transfer, claimed: &[u64], random: &Random) {
    let mut free: Vec<[u64; 2]> = ledger::used(claimed).to_vec();
    random.shuffle(&mut free);
    let idle = *random.pick(&[1, 2, 12]);
    for at in 0..CHANNELS {
        let state = *random.pick(&[HEADER, HEADER, PAYLOAD, LAST_PAYLOAD, ENDED]);
        match (state, free.last_mut()) {
            _ if random.one_in(idle) => {}
            (HEADER, _) => {
                let held = random.size(HOLDS);
                let header = wire(header(claimed, transfer.len, random));
                transfer.heads[at][..held].copy_from_slice(&header[..held]);
                transfer.channels[at].state = state;
                transfer.channels[at].held = held as u8;
            }
            (ENDED, _) => transfer.channels[at].state = state,
            (_, None) => {}
            (_, Some(pair)) => {
                transfer.channels[at] = payload(state, pair, random);
                free.retain(|[start, end]| start < end);
            }
        }
    }
}

/// A payload whose rest is cut off the end of a claimed range.
fn payload(state: u8, pair: &mut [u64; 2], random: &Random) -> Channel {
    let [start, end] = pair;
    let left = 1 + random.size((*end - *start - 1) as usize) as u64;
    *end -= left;
    Channel {
        state,
        held: 0,
        next: *end,
        left,
    }
}

fn know_numbers(transfer: &mut Transfer, random: &Random) {
    let least = (transfer.used() as usize).max(1);
    if random.one_in(2) {
        transfer.count = *random.pick(&[least, random.between(least, CHANNELS)]) as u64;
    }
    if random.one_in(8) {
        transfer.fault = random.between(11, 19) as u64;
        transfer.on = random.below(CHANNELS) as u64;
    }
}

/// A header whose range begins and stops near ends of claimed ranges.
fn header(claimed: &[u64], len: u64, random: &Random) -> Header {
    let used = ledger::used(claimed).as_flattened();
    let edge = || match random.below(4) {
        0 => len,
        1 => random.size(len as usize) as u64,
        _ if used.is_empty() => 0,
        _ => *random.pick(used),
    };
    let (place, stop) = (edge(), edge());
    let place = *random.pick(&[place, random.near(place)]);
    let gap = stop.wrapping_sub(place);
    let small = random.size(60) as u64;
    let length = *random.pick(&[gap, gap, small, small, 0, random.wild()]);
    let (descriptor, length, place) = match random.below(8) {
        0 => (*random.pick(&[64, 72, 76]), length, random.size(70) as u64),
        1 => (random.byte(), length, place),
        _ => (*random.pick(&[0, 8, 12, 32, 40, 44]), length, place),
    };
    Header {
        descriptor,
        length,
        place,
    }
}

/// What the channel has under way, then a few blocks, cut anywhere.
fn piece(lent: &Lent, channel: usize, random: &Random) -> Vec<u8> {
    let Lent {
        transfer, claimed, ..
    } = lent;
    let Channel { held, left, .. } = transfer.channels[channel];
    let mut piece = random.bytes(left.min(20_000) as usize);
    let mut skip = usize::from(held).min(LENGTH);
    for _ in 0..random.between(1, 3) {
        let header = header(claimed, transfer.len, random);
        piece.extend(&wire(header)[skip..]);
        piece.extend(random.bytes(header.length.min(600) as usize));
        skip = 0;
    }
    if random.one_in(3) {
        piece.truncate(random.size(piece.len()));
    }
    piece
}
