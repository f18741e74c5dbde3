//! The two senders side by side: every call goes to both, and all that it leaves is compared.

use super::buffers;
use super::library;
use super::random::Random;
use super::second::receiver::CHANNELS;
use super::second::sender::{Sender, MOST_SIZE};
use super::seen::Seen;
use cobnutter::raw;

const LONGEST_FILE: usize = 3_000;

struct Both {
    second: Sender,
    library: raw::Sender,
}

/// What a call is handed beside the sender.
struct Call {
    channel: u64,
    count: u64,
    size: u64,
    file: Vec<u8>,
}

impl Both {
    fn begin(len: u64, count: u64, size: u64, seen: &mut Seen) -> Both {
        let (second, number) = Sender::begin(len, count, size);
        let (answer, library) = library::sender_begin(len, count, size);
        assert_eq!(answer.err().unwrap_or(0), number);
        seen.note("sender begin", &answer);
        let both = Both { second, library };
        both.compare();
        both
    }

    fn next(&mut self, call: &Call, random: &Random, seen: &mut Seen) {
        let Both { second, library } = self;
        let Call {
            channel,
            count,
            size,
            ref file,
        } = *call;
        let mut block = vec![0; 17 + file.len()];
        let needed = second.clone().next(channel, count, size, file, &mut block);
        let answer = buffers::write(
            needed.unwrap_or(17),
            random,
            |out| second.next(channel, count, size, file, out),
            |out| library::sender_next(library, channel, count, size, file, out),
        );
        seen.note("sender next", &answer);
        if answer.is_ok() {
            note_block(&block, seen);
        }
        self.compare();
    }

    fn hand_over(&mut self, sender: Sender) {
        self.library = library::sender_to_raw(&sender);
        self.second = sender;
    }

    fn compare(&self) {
        assert_eq!(self.library, library::sender_to_raw(&self.second));
    }
}

/// Counts a written block by its descriptor.
pub fn note_block(block: &[u8], seen: &mut Seen) {
    seen.note_number("sent block", block[0].into());
}

/// Calls of any kind on a sender, which may be made up.
pub fn calls(random: &Random, seen: &mut Seen) {
    let (count, size) = numbers(random);
    let length = random.size(LONGEST_FILE);
    let file = random.bytes(length);
    let len = if random.one_in(16) {
        random.wild()
    } else {
        length as u64
    };
    let mut both = Both::begin(len, count, size, seen);
    for _ in 0..random.between(1, 40) {
        let before = both.second.clone();
        let harmed = random.one_in(6);
        if harmed {
            both.hand_over(harm(before.clone(), random));
        }
        let call = call(&both.second, &file, random);
        both.next(&call, random, seen);
        if harmed && !random.one_in(8) {
            both.hand_over(before);
        }
    }
}

/// A count and a size, seldom out of range.
fn numbers(random: &Random) -> (u64, u64) {
    let limit = CHANNELS as u64;
    let count = 1 + random.size(CHANNELS - 1) as u64;
    let size = 1 + random.size(*random.pick(&[300, MOST_SIZE as usize - 1])) as u64;
    match random.below(16) {
        0 => (*random.pick(&[0, random.near(limit), random.wild()]), size),
        1 => (
            count,
            *random.pick(&[0, random.near(MOST_SIZE), random.wild()]),
        ),
        _ => (count, size),
    }
}

/// Mostly what the sender was begun with.
fn call(sender: &Sender, file: &[u8], random: &Random) -> Call {
    let Sender { count, size, .. } = *sender;
    let (other_count, other_size) = numbers(random);
    let one_in_use = random.below((count as usize).clamp(1, CHANNELS)) as u64;
    let outside = [count, CHANNELS as u64, u64::MAX, random.wild()];
    Call {
        channel: seldom(one_in_use, *random.pick(&outside), random),
        count: seldom(
            count,
            *random.pick(&[other_count, random.near(count)]),
            random,
        ),
        size: seldom(size, *random.pick(&[other_size, random.near(size)]), random),
        file: seldom(file.to_vec(), another(file, random), random),
    }
}

fn seldom<T>(mostly: T, other: T, random: &Random) -> T {
    if random.one_in(16) {
        other
    } else {
        mostly
    }
}

/// A file of other bytes, or of another length.
fn another(file: &[u8], random: &Random) -> Vec<u8> {
    let near = random.near(file.len() as u64).min(2 * LONGEST_FILE as u64) as usize;
    random.bytes(*random.pick(&[file.len(), near, random.size(LONGEST_FILE)]))
}

/// What a careless host could make of a sender: other numbers, or all of them new.
fn harm(mut sender: Sender, random: &Random) -> Sender {
    let Sender {
        len,
        count,
        size,
        given,
    } = &mut sender;
    let used = (*count as usize).clamp(1, CHANNELS);
    let number = &mut given[*random.pick(&[random.below(used), random.below(CHANNELS)])];
    match random.below(8) {
        0 => *len = *random.pick(&[random.near(*len), random.wild()]),
        1 => *count = *random.pick(&[random.near(*count), random.wild()]),
        2 => *size = *random.pick(&[random.near(*size), random.wild()]),
        3 => *number = random.wild(),
        4 => *number = random.near(*number),
        5 => *number = random.size(4) as u64,
        6 => given.fill_with(|| random.wild()),
        _ => given[..used].fill_with(|| random.size(3) as u64),
    }
    sender
}
