//! Whole sendings of the library's sender, however their bytes are cut and mixed, into the library's receiver.

use super::random::Random;
use super::second::receiver::CHANNELS;
use super::second::sender::MOST_SIZE;
use super::seen::Seen;
use super::senders::note_block;
use cobnutter::{Ledgers, Sender, Transfer, Verdict};

const LONGEST_FILE: usize = 3_000;
const MOST_PAIRS: usize = 4_096;

/// A file of chance, over any number of channels.
pub fn one(random: &Random, seen: &mut Seen) {
    let length = random.size(LONGEST_FILE);
    let file = random.bytes(length);
    let count = 1 + random.size(CHANNELS - 1) as u64;
    let least = if random.one_in(20) {
        1
    } else {
        1 + length / 300
    };
    let size = random.between(
        least,
        *random.pick(&[least + 40, 1_000, MOST_SIZE as usize]),
    );
    let blocks = length.div_ceil(size);
    let streams = send(&file, count, size as u64, random, seen);
    deliver(&file, streams, blocks + random.size(20), random);
}

/// As many blocks as the largest ledger has pairs.
#[test]
fn the_most_blocks() {
    let (random, mut seen) = (Random::new(1), Seen::default());
    let file = random.bytes(MOST_PAIRS);
    for count in [1, 3, 64] {
        let streams = send(&file, count, 1, &random, &mut seen);
        deliver(&file, streams, MOST_PAIRS, &random);
    }
}

/// What each channel sends, their calls in an order of chance, refused ones among them.
fn send(file: &[u8], count: u64, size: u64, random: &Random, seen: &mut Seen) -> Vec<Vec<u8>> {
    let mut sender = Sender::begin(file.len() as u64, count, size).unwrap();
    let mut streams = vec![Vec::new(); count as usize];
    let mut open: Vec<u64> = (0..count).collect();
    while !open.is_empty() {
        if random.one_in(8) {
            disturb(&mut sender, file, random);
        }
        let at = random.below(open.len());
        match sender.block(open[at], file).unwrap() {
            Some(block) => {
                note_block(&block, seen);
                streams[open[at] as usize].extend(block);
            }
            None => drop(open.swap_remove(at)),
        }
    }
    streams
}

/// A call that is refused, and leaves the sender as it was.
fn disturb(sender: &mut Sender, file: &[u8], random: &Random) {
    let before = sender.clone();
    let count = sender.raw().count;
    let channel = random.below(count as usize) as u64;
    let refused = match random.below(3) {
        0 => sender.next(channel, &[file, b"more"].concat(), &mut [0; 40]),
        1 => sender.next(count + channel, file, &mut [0; 40]),
        _ => sender.next(channel, file, &mut [0; 16]),
    };
    assert!(refused.is_err());
    assert_eq!(*sender, before);
}

/// GUESS up to the last byte, then RESULT, over a file of chance that ends as the sender's.
fn deliver(sent: &[u8], mut streams: Vec<Vec<u8>>, pairs: usize, random: &Random) {
    let longest = *random.pick(&[20, 80, 600, 10_000]);
    let mut file = random.bytes(sent.len());
    let entries = 2 * pairs.min(MOST_PAIRS);
    let mut ledgers = Ledgers::from_entries(vec![7; entries], vec![7; entries]);
    let mut transfer = Transfer::start(sent.len() as u64, &mut ledgers).unwrap();
    // The receiver numbers the connections as it likes.
    let mut channels: Vec<u64> = (0..CHANNELS as u64).collect();
    random.shuffle(&mut channels);
    let mut left: usize = streams.iter().map(Vec::len).sum();
    while left > 0 {
        let shown = transfer.shown(&ledgers).unwrap();
        assert_eq!(shown.verdict, Verdict::Guess);
        let at = random.below(streams.len());
        let stream = &mut streams[at];
        let length = random.size(longest.min(stream.len()));
        let piece: Vec<u8> = stream.drain(..length).collect();
        let received = transfer.receive(channels[at], &piece, &mut file, &mut ledgers);
        assert_eq!(received.unwrap().taken, length);
        left -= length;
    }
    let shown = transfer.shown(&ledgers).unwrap();
    assert_eq!(shown.verdict, Verdict::Result);
    assert_eq!((shown.bytes, shown.doubtful), (sent.len() as u64, 0));
    assert!(file == sent, "the file is not what was sent");
}
