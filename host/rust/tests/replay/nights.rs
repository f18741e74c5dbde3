//! Recordings of chance: some transfers one after the other, whole or not.

use super::random::Random;
use super::records::{piece, start, MOST_FILE, MOST_PAIRS, MOST_PIECE};
use super::second::block::Header;
use super::sending::{block, wire, Lane, Sending};

/// What is still to come on a channel.
struct Stream {
    channel: u8,
    bytes: Vec<u8>,
}

/// The records of up to so many transfers.
pub fn night(most: usize, random: &Random) -> Vec<Vec<u8>> {
    let mut records = Vec::new();
    for _ in 0..random.between(1, most) {
        let mut transfer = if random.one_in(12) {
            sent(random)
        } else {
            headers(random)
        };
        if random.one_in(6) {
            transfer.truncate(1 + random.size(transfer.len() - 1));
        }
        records.extend(transfer);
    }
    records
}

/// A sending, well-formed or damaged, in pieces.
fn sent(random: &Random) -> Vec<Vec<u8>> {
    let mut sending = match random.below(8) {
        0 => Sending::into_file(random.size(MOST_FILE as usize), random),
        1 | 2 => Sending::in_order(random),
        _ => Sending::well_formed(random),
    };
    if random.one_in(2) {
        sending.damage(random);
    }
    let longer = random.size(MOST_FILE as usize - sending.len) as u64;
    let len = sending.len as u64 + random.pick(&[0, 0, longer]);
    let pairs = MOST_PAIRS.min(sending.pairs as u64);
    let mut records = vec![start(len, pairs)];
    records.extend(mixed(streams(&sending, random), random));
    records
}

/// What the channels of a sending carry, in some sendings with bytes behind their ends.
fn streams(sending: &Sending, random: &Random) -> Vec<Stream> {
    let most = if random.one_in(3) { 40 } else { 0 };
    let stream = |lane: &Lane| {
        let more = random.bytes(random.size(most));
        Stream {
            channel: lane.channel as u8,
            bytes: [lane.bytes(), more].concat(),
        }
    };
    sending.lanes.iter().map(stream).collect()
}

/// Cuts streams into pieces, and mixes these with calls that change nothing.
fn mixed(mut streams: Vec<Stream>, random: &Random) -> Vec<Vec<u8>> {
    let mut records = Vec::new();
    let longest = *random.pick(&[20, 80, 600, MOST_PIECE]);
    while !streams.is_empty() {
        let at = random.below(streams.len());
        let Stream { channel, bytes } = &mut streams[at];
        let most = longest.min(bytes.len());
        let length = *random.pick(&[most, random.size(most)]);
        let now: Vec<u8> = bytes.drain(..length).collect();
        records.push(piece(*channel, &now));
        if bytes.is_empty() {
            streams.swap_remove(at);
        }
        if random.one_in(20) {
            records.push(idle(random));
        }
    }
    records
}

/// An empty piece, or one on a channel that is none.
fn idle(random: &Random) -> Vec<u8> {
    let channel = random.byte();
    let length = if channel < 64 { 0 } else { random.size(60) };
    piece(channel, &random.bytes(length))
}

/// Blocks of chance on few channels, into a small file.
fn headers(random: &Random) -> Vec<Vec<u8>> {
    let len = random.size(60) as u64;
    let pairs = *random.pick(&[random.size(4) as u64, 60]);
    let channels = random.between(1, 6);
    let mut records = vec![start(len, pairs)];
    if random.one_in(4) {
        // The count comes first, and may be less than the channels that follow.
        let count = random.between(1, channels) as u64;
        records.push(piece(0, &block(64, random.wild(), count, &[])));
    }
    for _ in 0..random.between(1, 8) {
        let channel = if random.one_in(12) {
            random.byte()
        } else {
            random.below(channels) as u8
        };
        let blocks = (0..random.size(3)).map(|_| any_block(len, channels as u64, random));
        records.extend(pieces(channel, blocks, random));
    }
    records
}

/// Some pieces end with a header, and some have more behind the blocks, up to the longest.
fn pieces(
    channel: u8,
    blocks: impl Iterator<Item = (Header, Vec<u8>)>,
    random: &Random,
) -> Vec<Vec<u8>> {
    let mut records = Vec::new();
    let mut bytes = Vec::new();
    for (header, payload) in blocks {
        bytes.extend(wire(header));
        if random.one_in(3) {
            records.push(piece(channel, &bytes));
            bytes.clear();
        }
        bytes.extend(payload);
    }
    if random.one_in(6) {
        bytes.extend(random.bytes(random.size(20)));
    }
    if random.one_in(60) {
        bytes.resize(MOST_PIECE, 0);
    }
    records.push(piece(channel, &bytes));
    records
}

/// Mostly one that can be accepted, with its payload.
fn any_block(len: u64, channels: u64, random: &Random) -> (Header, Vec<u8>) {
    let descriptor = any_descriptor(random);
    let (length, place) = if descriptor & 64 != 0 {
        let some = random.between(1, channels as usize) as u64;
        let count = *random.pick(&[channels, some, some, random.near(channels), random.near(64)]);
        (random.wild(), count)
    } else if random.one_in(24) {
        (random.wild(), random.wild())
    } else {
        let place = random.between(0, len as usize);
        let room = len - place as u64 + u64::from(random.one_in(12));
        let length = *random.pick(&[random.size(9), random.between(1, 20)]);
        (room.min(length as u64), place as u64)
    };
    let header = Header {
        descriptor,
        length,
        place,
    };
    let payload = if header.is_eodc() { 0 } else { length.min(len) };
    (header, random.bytes(payload as usize))
}

fn any_descriptor(random: &Random) -> u8 {
    let accepted = *random.pick(&[0, 0, 0, 32, 8, 12, 40, 44, 64, 72, 76]);
    let combined = *random.pick(&[4, 36, 68, 96, 100, 104, 108]);
    let refused = *random.pick(&[combined, random.byte(), random.byte() & 252]);
    if random.one_in(16) {
        refused
    } else {
        accepted
    }
}
