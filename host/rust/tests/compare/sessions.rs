//! Sendings that arrive in pieces of any size and order, alone or one after the other on cached connections.

use super::both::Both;
use super::harm::harm;
use super::random::Random;
use super::second::receiver::{Verdict, CHANNELS, ENDED};
use super::seen::Seen;
use super::sending::{Block, Lane, Sending};
use cobnutter::recording::{requests, Request};

/// What is still to come on a channel.
struct Stream {
    channel: u64,
    bytes: Vec<u8>,
    taken: usize,
}

impl Stream {
    fn of(lane: &Lane) -> Stream {
        Stream {
            channel: lane.channel,
            bytes: lane.bytes(),
            taken: 0,
        }
    }

    fn rest(&self) -> &[u8] {
        &self.bytes[self.taken..]
    }
}

/// One sending, whole or damaged.
pub fn one(random: &Random, seen: &mut Seen) {
    let mut sending = Sending::well_formed(random);
    let whole = random.one_in(2);
    if !whole {
        sending.damage(random);
    }
    let mut streams: Vec<Stream> = sending.lanes.iter().map(Stream::of).collect();
    if !whole && random.one_in(4) {
        flip(&mut streams, random);
    }
    if random.one_in(4) {
        follow_up(&mut streams, random);
    }
    let mut both = Both::start(sending.len, 2 * sending.pairs, random, seen);
    if whole {
        deliver(&mut both, &mut streams, &sending);
    } else {
        feed(&mut both, &mut streams);
    }
    call_after_the_end(&mut both, &streams);
}

/// A sending with few pairs, which may be too few.
pub fn few_pairs(random: &Random, seen: &mut Seen) {
    let sending = Sending::in_order(random);
    let mut streams: Vec<Stream> = sending.lanes.iter().map(Stream::of).collect();
    let mut both = Both::start(sending.len, 2 * sending.pairs, random, seen);
    feed(&mut both, &mut streams);
    call_after_the_end(&mut both, &streams);
}

/// Two sendings, the first one's channels carrying on with the second.
pub fn cached(random: &Random, seen: &mut Seen) {
    let (first, second) = (Sending::well_formed(random), Sending::well_formed(random));
    let mut streams: Vec<Stream> = first.lanes.iter().map(Stream::of).collect();
    let mut later = Vec::new();
    for lane in &second.lanes {
        match streams
            .iter_mut()
            .find(|stream| stream.channel == lane.channel)
        {
            Some(stream) => stream.bytes.extend(lane.bytes()),
            None => later.push(Stream::of(lane)),
        }
    }
    let mut both = Both::start(first.len, 2 * first.pairs, random, seen);
    deliver(&mut both, &mut streams, &first);
    streams.extend(later);
    both.start_next(second.len, 2 * second.pairs);
    deliver(&mut both, &mut streams, &second);
}

/// What real senders sent.
pub fn recorded(recording: &[u8], random: &Random, seen: &mut Seen) {
    let mut both = Both::start(0, 0, random, seen);
    for request in requests(recording).unwrap() {
        match request {
            Request::Start { len, pairs } => both.start_next(len as usize, 2 * pairs as usize),
            Request::Piece { channel, bytes } => drop(both.receive(channel, bytes)),
        }
    }
}

/// Feeds a well-formed sending: it ends with RESULT, or with SUSPECT where a payload that is not empty has bit 32, all
/// payloads in their places and nothing else changed.
fn deliver(both: &mut Both, streams: &mut [Stream], sending: &Sending) {
    let mut expected = both.lent().file.clone();
    let (mut stored, mut doubtful) = (0, 0);
    feed(both, streams);
    for Block { header, payload } in sending.blocks() {
        if !payload.is_empty() {
            expected[header.place as usize..][..payload.len()].copy_from_slice(payload);
        }
        let length = payload.len() as u64;
        stored += length;
        doubtful += if header.is_suspect() { length } else { 0 };
        both.seen.note_block(header.descriptor, payload);
    }
    let shown = both.shown().unwrap();
    let last = if doubtful == 0 {
        Verdict::Result
    } else {
        Verdict::Suspect
    };
    assert_eq!(shown.verdict, last);
    assert_eq!((shown.bytes, shown.doubtful), (stored, doubtful));
    assert!(
        both.lent().file == expected,
        "the file is not what was sent"
    );
}

fn flip(streams: &mut [Stream], random: &Random) {
    let stream = random.below(streams.len());
    let bytes = &mut streams[stream].bytes;
    let at = random.size(bytes.len() - 1);
    bytes[at] ^= 1 << random.below(8);
}

/// Bytes after the end of some channels.
fn follow_up(streams: &mut [Stream], random: &Random) {
    for stream in streams {
        let more = random.size(40);
        stream.bytes.extend(random.bytes(more));
    }
}

/// Feeds pieces until the verdict is final or no channel can take more.
fn feed(both: &mut Both, streams: &mut [Stream]) {
    let longest = *both.random.pick(&[2, 20, 80, 600, 10_000]);
    let disturbed = both.random.one_in(2);
    while both.verdict() == Verdict::Guess {
        let channels = &both.lent().transfer.channels;
        let open: Vec<usize> = (0..streams.len())
            .filter(|at| {
                !streams[*at].rest().is_empty()
                    && channels[streams[*at].channel as usize].state != ENDED
            })
            .collect();
        if open.is_empty() {
            break;
        }
        let stream = &mut streams[*both.random.pick(&open)];
        let length = both.random.size(longest.min(stream.rest().len()));
        stream.taken += both
            .receive(stream.channel, &stream.rest()[..length])
            .unwrap();
        if disturbed && both.random.one_in(6) {
            disturb(both);
        }
    }
}

/// Calls that leave everything as it was.
fn disturb(both: &mut Both) {
    let length = both.random.size(60);
    let piece = both.random.bytes(length);
    match both.random.below(4) {
        0 => {
            let channel = both.random.wild();
            let _ = both.receive(channel, if channel < 64 { &[] } else { &piece });
        }
        1 => {
            let channel = both.random.below(CHANNELS + 2) as u64;
            let _ = both.receive(channel, &[]);
        }
        2 => {
            let mut channels = both.lent().transfer.channels.iter();
            if let Some(ended) = channels.position(|channel| channel.state == ENDED) {
                let _ = both.receive(ended as u64, &piece);
            }
        }
        _ => {
            let before = both.lent().clone();
            both.harm(harm);
            let channel = both.random.below(CHANNELS + 2) as u64;
            let _ = both.receive(channel, &piece);
            both.lend(before);
        }
    }
}

fn call_after_the_end(both: &mut Both, streams: &[Stream]) {
    for stream in streams.iter().take(3) {
        let _ = both.receive(stream.channel, stream.rest());
        let _ = both.receive(both.random.below(70) as u64, &[]);
    }
}
