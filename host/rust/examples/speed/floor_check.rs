//! Holds the floor against the second reading, before anything is timed: calls of chance go to both, and all that a call
//! leaves has to be equal. Many of them are lent what a careless host has harmed.

use super::second::block::{Header, LENGTH};
use super::second::ledger::{self, MOST_ENTRIES};
use super::second::receiver::{
    Channel, Transfer, Verdict, CHANNELS, ENDED, HEADER, HOLDS, LAST_PAYLOAD, PAYLOAD, UNUSED,
};
use super::second::screen;
use super::{floor, library, random, second};
use both::Lent;
use random::Random;

#[path = "../../tests/compare/harm.rs"]
mod harm;

/// Where `harm` looks for what it changes.
mod both {
    use super::second::receiver::Transfer;

    /// A transfer with what is lent to its calls.
    #[derive(Clone)]
    pub struct Lent {
        pub transfer: Transfer,
        pub file: Vec<u8>,
        pub claimed: Vec<u64>,
        pub doubtful: Vec<u64>,
    }
}

const SESSIONS: usize = 1_500;
const MADE: usize = 5_000;

/// Panics where the two differ, or where the calls miss a refusal, a fault or a word.
pub fn agrees() {
    let (random, mut seen) = (Random::new(1), Seen::default());
    for _ in 0..SESSIONS {
        session(&random, &mut seen);
    }
    for _ in 0..MADE {
        let lent = made(&random);
        let channel = random.below(CHANNELS);
        let piece = piece(&lent, channel, &random);
        harmed_calls(&lent, channel as u64, &piece, &random, &mut seen);
        call(
            &mut lent.clone(),
            channel as u64,
            &piece,
            &random,
            &mut seen,
        );
    }
    assert_eq!(seen.refusals[1..], [true; 4]);
    assert_eq!(seen.faults[11..], [true; 9]);
    assert_eq!(seen.words, [true; 4]);
}

/// The numbers that calls came to.
#[derive(Default)]
struct Seen {
    refusals: [bool; 5],
    faults: [bool; 20],
    words: [bool; 4],
}

/// A transfer from its start on, over a few channels.
fn session(random: &Random, seen: &mut Seen) {
    let (len, pairs) = (random.size(300), random.size(20));
    let mut lent = Lent {
        transfer: Transfer::fresh(len as u64, pairs as u64),
        file: random.bytes(len),
        claimed: vec![0; 2 * pairs],
        doubtful: vec![0; 2 * pairs],
    };
    let mut streams = vec![Vec::new(); random.between(1, 5)];
    for _ in 0..random.between(5, 40) {
        let channel = random.below(streams.len());
        let stream = &mut streams[channel];
        if stream.is_empty() {
            *stream = block(&lent, random);
        }
        let piece = stream[..random.below(stream.len() + 1)].to_vec();
        harmed_calls(&lent, channel as u64, &piece, random, seen);
        let taken = call(&mut lent, channel as u64, &piece, random, seen);
        stream.drain(..taken);
    }
}

/// A call for which something was harmed, and one on a channel that there is not.
fn harmed_calls(lent: &Lent, channel: u64, piece: &[u8], random: &Random, seen: &mut Seen) {
    let mut harmed = lent.clone();
    for _ in 0..random.between(1, 2) {
        match random.below(5) {
            0 => stray_entry(&mut harmed, random),
            1 => reach_out(&mut harmed, random),
            _ => harm::harm(&mut harmed, random),
        }
    }
    call(&mut harmed, channel, piece, random, seen);
    if random.one_in(8) {
        let beyond = *random.pick(&[64, random.near(64), random.wild()]);
        call(&mut lent.clone(), beyond, piece, random, seen);
    }
}

/// Changes one bit of any entry.
fn stray_entry(lent: &mut Lent, random: &Random) {
    let ledger = match random.below(2) {
        0 => &mut lent.claimed,
        _ => &mut lent.doubtful,
    };
    if !ledger.is_empty() {
        let at = random.below(ledger.len());
        ledger[at] ^= 1 << random.below(64);
    }
}

/// Lets the first or last doubtful range inside a claimed one begin or end with it, or a byte outside it.
fn reach_out(lent: &mut Lent, random: &Random) {
    let around = ledger::used(&lent.claimed);
    if around.is_empty() {
        return;
    }
    let [start, end] = *random.pick(around);
    let doubtful = ledger::used(&lent.doubtful);
    let first = doubtful.partition_point(|pair| pair[0] < start);
    let beyond = doubtful.partition_point(|pair| pair[0] < end);
    if first < beyond {
        let out = random.below(2) as u64;
        match random.below(2) {
            0 => lent.doubtful[2 * first] = start.wrapping_sub(out),
            _ => lent.doubtful[2 * beyond - 1] = end.wrapping_add(out),
        }
    }
}

/// A block, mostly one that is well formed and has a place.
fn block(lent: &Lent, random: &Random) -> Vec<u8> {
    let Lent {
        transfer, claimed, ..
    } = lent;
    let usual = [0, 0, 0, 0, 0, 0, 32, 32, 32, 8, 8, 12, 40, 44, 64, 72, 76];
    let descriptor = if random.one_in(30) {
        random.byte()
    } else {
        *random.pick(&usual)
    };
    let used = transfer.used();
    let mut header = Header {
        descriptor,
        length: 0,
        place: *random.pick(&[used, used, used + 1, random.near(64), random.wild()]),
    };
    if !header.is_eodc() {
        // The last try counts, whether it is free or not.
        for _ in 0..random.between(1, 10) {
            header.place = random.near(random.size(transfer.len.min(20_000) as usize) as u64);
            header.length = random.size(30) as u64;
            let end = header.place.checked_add(header.length);
            let fits = end.is_some_and(|end| end <= transfer.len);
            if fits && ledger::judge(claimed, header.place, end.unwrap_or(0)).is_ok() {
                break;
            }
        }
        if random.one_in(60) {
            header.length = random.wild();
        }
    }
    let payload = random.bytes(header.length.min(40) as usize);
    [&header.to_bytes(), &payload[..]].concat()
}

/// A transfer that fits, made at once, with ledgers of up to all pairs, and seldom of one pair more.
fn made(random: &Random) -> Lent {
    let len = *random.pick(&[random.size(300), random.size(20_000)]);
    let mut claimed = rising(0, len as u64, random);
    let mut doubtful = Vec::new();
    let doubt = *random.pick(&[1, 4, usize::MAX]);
    for &[start, end] in ledger::used(&claimed) {
        if random.one_in(doubt) {
            match random.below(2) {
                0 => doubtful.extend([start, end]),
                _ => doubtful.extend(rising(start, end, random)),
            }
        }
    }
    doubtful.truncate(MOST_ENTRIES);
    let room = *random.pick(&[0, 0, 2, 20, 2 * random.size(MOST_ENTRIES / 2)]);
    let mut entries = (claimed.len().max(doubtful.len()) + room).min(MOST_ENTRIES);
    if random.one_in(100) {
        entries = MOST_ENTRIES + 2;
    }
    claimed.resize(entries, 0);
    doubtful.resize(entries, 0);
    let mut transfer = Transfer::fresh(len as u64, entries as u64 / 2);
    use_channels(&mut transfer, &claimed, random);
    let counts = [0, transfer.used(), CHANNELS as u64];
    transfer.count = *random.pick(&counts);
    if random.one_in(30) {
        (transfer.fault, transfer.on) = (random.between(11, 19) as u64, random.below(64) as u64);
    }
    Lent {
        transfer,
        file: random.bytes(len),
        claimed,
        doubtful,
    }
}

/// Entries of a ledger between two places.
fn rising(from: u64, to: u64, random: &Random) -> Vec<u64> {
    let most = *random.pick(&[random.size(40), random.size(MOST_ENTRIES)]) / 2 * 2;
    let step = *random.pick(&[0, 2, 30, 600]);
    let mut place = from + random.size(3) as u64;
    let mut entries = Vec::new();
    while place <= to && entries.len() < most {
        entries.push(place);
        place += 1 + random.size(step) as u64;
    }
    entries.truncate(entries.len() / 2 * 2);
    entries
}

/// Channels in any states, those in a payload with claimed bytes that no other one has.
fn use_channels(transfer: &mut Transfer, claimed: &[u64], random: &Random) {
    let reach = *random.pick(&[random.size(CHANNELS), CHANNELS]);
    let chance = *random.pick(&[1, 2, 8]);
    let mut free: Vec<[u64; 2]> = ledger::used(claimed).to_vec();
    for at in 0..reach {
        let state = *random.pick(&[UNUSED, HEADER, PAYLOAD, PAYLOAD, LAST_PAYLOAD, ENDED]);
        if state == UNUSED || !random.one_in(chance) {
            continue;
        }
        let channel = &mut transfer.channels[at];
        if state == HEADER {
            let held = *random.pick(&[0, 0, random.below(HOLDS + 1)]);
            transfer.heads[at][..held].copy_from_slice(&random.bytes(held));
            channel.held = held as u8;
        } else if state != ENDED {
            if free.is_empty() {
                continue;
            }
            let pair = free.swap_remove(random.below(free.len()));
            *channel = rest(pair, &mut free, random);
        }
        channel.state = state;
    }
}

/// A part of a free range, which leaves what is around it free.
fn rest([start, end]: [u64; 2], free: &mut Vec<[u64; 2]>, random: &Random) -> Channel {
    let next = start + random.size((end - start - 1) as usize) as u64;
    let left = 1 + random.size((end - next - 1) as usize) as u64;
    let around = [[start, next], [next + left, end]];
    free.extend(around.iter().filter(|[from, to]| from < to));
    Channel {
        next,
        left,
        ..Channel::default()
    }
}

/// What could come next on a channel: the rest of its payload or header, then a block, cut short anywhere.
fn piece(lent: &Lent, at: usize, random: &Random) -> Vec<u8> {
    let Channel { held, left, .. } = lent.transfer.channels[at];
    let left = left.min(20_000) as usize;
    let mut bytes = random.bytes(left);
    bytes.extend(&block(lent, random)[usize::from(held).min(LENGTH)..]);
    bytes.extend(block(lent, random));
    let near = random.near(left as u64) as usize;
    let cut = *random.pick(&[bytes.len(), random.below(bytes.len() + 1), near]);
    bytes.truncate(cut);
    bytes
}

/// Makes the call on both, and leaves what the second reading left. Answers how many bytes were taken.
fn call(lent: &mut Lent, channel: u64, piece: &[u8], random: &Random, seen: &mut Seen) -> usize {
    let mut transfer = floor::Transfer {
        raw: library::to_raw(&lent.transfer),
    };
    // Neither what lies between a channel's fields, nor beside a ledger, nor where a ledger lies may matter.
    for channel in &mut transfer.raw.channels {
        unsafe { (&raw mut *channel).cast::<u8>().add(2).write_bytes(0xff, 6) };
    }
    let mut file = lent.file.clone();
    let aside = random.below(2);
    let [mut claimed, mut doubtful] =
        [&lent.claimed, &lent.doubtful].map(|ledger| fenced(ledger, aside));
    let answer = transfer.receive(
        channel,
        piece,
        &mut file,
        within(&mut claimed, aside),
        within(&mut doubtful, aside),
    );
    let before = lent.transfer.fault;
    let mine = lent.transfer.receive(
        channel,
        piece,
        &mut lent.file,
        &mut lent.claimed,
        &mut lent.doubtful,
    );
    match (answer, mine) {
        (Ok((word, taken)), Ok((verdict, bytes))) => {
            assert_eq!((word, taken), (number(verdict), bytes));
            seen.words[usize::from(word)] = true;
        }
        (Err((refused, word)), Err(number_of_second)) => {
            assert_eq!(u64::from(refused), number_of_second);
            // Where more than the file's length does not fit there is no word.
            if let Ok(shown) = screen::shown(&lent.transfer, &lent.claimed, &lent.doubtful) {
                assert_eq!(word, number(shown.verdict));
            }
            seen.refusals[usize::from(refused)] = true;
        }
        _ => panic!("the floor answers {answer:?}, the second reading {mine:?}"),
    }
    assert_eq!(transfer.raw, library::to_raw(&lent.transfer));
    assert!(file == lent.file, "the files differ");
    assert!(claimed == fenced(&lent.claimed, aside), "claimed differs");
    assert!(
        doubtful == fenced(&lent.doubtful, aside),
        "doubtful differs"
    );
    if lent.transfer.fault != before {
        seen.faults[lent.transfer.fault as usize] = true;
    }
    mine.map_or(0, |(_, taken)| taken)
}

/// A ledger between entries that are not its own.
fn fenced(ledger: &[u64], aside: usize) -> Vec<u64> {
    [&vec![u64::MAX; 2 + aside], ledger, &[u64::MAX; 2]].concat()
}

fn within(fenced: &mut [u64], aside: usize) -> &mut [u64] {
    let end = fenced.len() - 2;
    &mut fenced[2 + aside..end]
}

fn number(verdict: Verdict) -> u8 {
    match verdict {
        Verdict::Guess => floor::GUESS,
        Verdict::Result => floor::RESULT,
        Verdict::Suspect => floor::SUSPECT,
        Verdict::Broken => floor::BROKEN,
    }
}
