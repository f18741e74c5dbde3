//! A ledger as a range list and as a saved record of either kind.

use super::buffers;
use super::crafted::rising;
use super::harm::harm_entry;
use super::library;
use super::random::Random;
use super::second::ledger::{self, MOST_ENTRIES};
use super::second::{ranges, saved, Answer};
use super::seen::Seen;
use super::texts::edit;

/// Bytes of the file length, which a saved record of kind 2 has and one of kind 1 has not.
pub const FILE_LENGTH: usize = 8;

/// An even length that is allowed, or one beside it.
fn entries(random: &Random) -> usize {
    *random.pick(&[
        2 * random.size(8),
        2 * random.size(8),
        random.size(20),
        MOST_ENTRIES + random.below(3),
    ])
}

pub fn range_texts(random: &Random, seen: &mut Seen) {
    let full = random.one_in(150);
    let words = if full {
        apart(random)
    } else {
        ranges_of_chance(random)
    };
    let mut text = words.join(",").into_bytes();
    for _ in 0..random.size(2) {
        edit(&mut text, random, b",,--0123456789 x+");
    }
    let answer = buffers::read(
        if full { MOST_ENTRIES } else { entries(random) },
        random,
        |ledger| ranges::read(&text, ledger),
        |ledger| library::ranges_read(&text, ledger),
    );
    seen.note("ranges read", &answer);
}

/// About as many ranges as the largest ledger has pairs, none touching another.
fn apart(random: &Random) -> Vec<String> {
    let count = MOST_ENTRIES / 2 - 2 + random.below(5);
    let mut words: Vec<String> = (0..count).map(|at| format!("{0}-{0}", 2 * at)).collect();
    random.shuffle(&mut words);
    words
}

fn ranges_of_chance(random: &Random) -> Vec<String> {
    let most = *random.pick(&[3, 12, 12, 400]);
    (0..=random.size(most)).map(|_| range(random)).collect()
}

fn range(random: &Random) -> String {
    let first = match random.below(8) {
        0 => u128::from(random.wild()),
        1 => u128::from(u64::MAX) - 3 + random.below(6) as u128,
        _ => random.below(40) as u128,
    };
    let last = if random.one_in(20) {
        first.saturating_sub(1)
    } else {
        first + random.size(6) as u128
    };
    let width = *random.pick(&[1, 1, 1, 20, 20, if random.one_in(10) { 21 } else { 3 }]);
    format!("{first:0width$}-{last:0width$}")
}

/// A ledger for the writers, seldom one that breaks its rule.
fn ledger(random: &Random) -> Vec<u64> {
    let from = *random.pick(&[0, u64::MAX - random.size(9_000) as u64, random.next() / 2]);
    let mut ledger = rising(from, u64::MAX, random);
    ledger.truncate(*random.pick(&[0, 2, 2 * random.size(6), MOST_ENTRIES]));
    ledger.resize(
        ledger.len() + *random.pick(&[0, 2 * random.size(6), random.size(9)]),
        0,
    );
    if random.one_in(30) {
        ledger.resize(MOST_ENTRIES + random.below(3), 0);
    }
    if random.one_in(4) {
        harm_entry(&mut ledger, random);
    }
    ledger
}

pub fn range_writing(random: &Random, seen: &mut Seen) {
    let ledger = ledger(random);
    let needed = ranges::write(&ledger, &mut vec![0; 42 * MOST_ENTRIES]).unwrap_or(8);
    let answer = buffers::write(
        needed,
        random,
        |out| ranges::write(&ledger, out),
        |out| library::ranges_write(&ledger, out),
    );
    seen.note("ranges write", &answer);
}

pub fn saving(random: &Random, seen: &mut Seen) {
    let ledger = ledger(random);
    let needed = saved::write(&ledger, &mut vec![0; 9 * MOST_ENTRIES]).unwrap_or(6);
    let answer = buffers::write(
        needed,
        random,
        |out| saved::write(&ledger, out),
        |out| library::saved_write(&ledger, out),
    );
    seen.note("saved write", &answer);
}

/// A record of either kind at both readers.
pub fn saved_records(random: &Random, seen: &mut Seen) {
    let record = Draft::of_chance(random).damaged(random);
    let (one, _) = read_one(&record, room(&record, random));
    seen.note("saved read", &one);
    let (two, _) = read_two(&record, room(&record, random));
    seen.note("saved 2 read", &two);
}

/// A record of either kind at both conversions.
pub fn conversions(random: &Random, seen: &mut Seen) {
    let draft = Draft::of_chance(random);
    let record = draft.damaged(random);
    let lent = buffers::bytes(record.len() + FILE_LENGTH, random);
    let two = to_two(draft.file_length, &record, lent, random);
    seen.note("saved to 2", &two);
    let lent = buffers::bytes(record.len().saturating_sub(FILE_LENGTH), random);
    let one = to_one(&record, lent, random);
    seen.note("saved to 1", &one);
}

/// What a record of either kind is made from, whether it obeys the ledger rule or not.
pub struct Draft {
    /// Starts and ends. In kind 2 an end below its start means one that is larger by 2^64.
    pub entries: Vec<u64>,
    /// Kind 1 does not have it; its conversion is given it.
    pub file_length: u64,
}

impl Draft {
    /// That many ranges by the ledger rule, none from 0, and no end above the file length.
    pub fn good(ranges: usize, random: &Random) -> Draft {
        let (count, longest_step) = (2 * ranges, 6);
        let span = count as u64 * longest_step;
        let mut place = *random.pick(&[0, random.next() / 2, u64::MAX - span]);
        let mut entries = Vec::new();
        for _ in 0..count {
            place += random.between(1, longest_step as usize) as u64;
            entries.push(place);
        }
        Draft {
            entries,
            file_length: place.saturating_add(random.size(9) as u64),
        }
    }

    fn of_chance(random: &Random) -> Draft {
        let mut entries = if random.one_in(2) {
            Draft::good(random.size(40), random).entries
        } else {
            ledger(random)
        };
        if !random.one_in(4) {
            entries.truncate(2 * ledger::used(&entries).len());
        }
        if random.one_in(6) {
            disorder(&mut entries, random);
        }
        let last = entries.last().copied().unwrap_or(0);
        let lengths = [last, last, random.near(last), 0, u64::MAX, random.wild()];
        Draft {
            entries,
            file_length: *random.pick(&lengths),
        }
    }

    pub fn record(&self, kind: u16) -> Vec<u8> {
        whole(kind, &self.body(kind))
    }

    fn body(&self, kind: u16) -> Vec<u8> {
        let mut numbers = self.entries.clone();
        if kind == 2 {
            for pair in numbers.chunks_exact_mut(2) {
                pair[1] = pair[1].wrapping_sub(pair[0]);
            }
            numbers.insert(0, self.file_length);
        }
        let bytes = numbers.iter().flat_map(|number| number.to_le_bytes());
        bytes.collect()
    }

    /// A record of either kind, often a whole one.
    fn damaged(&self, random: &Random) -> Vec<u8> {
        let kind = *random.pick(&[1, 2]);
        let mut body = self.body(kind);
        if random.one_in(16) {
            let few = random.between(0, FILE_LENGTH);
            body.truncate(*random.pick(&[few, random.size(body.len())]));
        }
        let mut record = whole(kind, &body);
        if random.one_in(12) {
            let length = random.near(body.len() as u64 + 2) as u32;
            record[..4].copy_from_slice(&length.to_le_bytes());
        }
        if random.one_in(12) {
            let kind = random.next() as u16 & 259;
            record[4..6].copy_from_slice(&kind.to_le_bytes());
        }
        if random.one_in(4) {
            edit(&mut record, random, &[0, 1, 2, 255]);
        }
        record
    }
}

/// A record with its right length.
pub fn whole(kind: u16, body: &[u8]) -> Vec<u8> {
    let length = body.len() as u32 + 2;
    [&length.to_le_bytes()[..], &kind.to_le_bytes(), body].concat()
}

/// Of one pair, the last as often as any: its length becomes 0; its end becomes small, which kind 2 reads as 2^64 or
/// little more; it comes to touch the pair before it; or it changes places with another.
fn disorder(entries: &mut [u64], random: &Random) {
    let pairs = entries.len() / 2;
    if pairs == 0 {
        return;
    }
    let other = 2 * random.below(pairs);
    let at = *random.pick(&[2 * (pairs - 1), 2 * random.below(pairs)]);
    match random.below(4) {
        0 => entries[at + 1] = entries[at],
        1 => entries[at + 1] = random.size(4) as u64,
        2 if at > 0 => entries[at] = entries[at - 1],
        _ => {
            entries.swap(at, other);
            entries.swap(at + 1, other + 1);
        }
    }
}

/// A ledger for a record, seldom one that lacks pairs or has a wrong length.
fn room(record: &[u8], random: &Random) -> Vec<u64> {
    let pairs = record.len() / 16;
    let entries = *random.pick(&[
        2 * pairs,
        2 * pairs + 2,
        (2 * pairs).saturating_sub(2),
        entries(random),
    ]);
    random.entries(entries)
}

pub fn read_one(record: &[u8], lent: Vec<u64>) -> (Answer<()>, Vec<u64>) {
    buffers::same(
        lent,
        |ledger| saved::read(record, ledger),
        |ledger| library::saved_read(record, ledger),
    )
}

pub fn read_two(record: &[u8], lent: Vec<u64>) -> (Answer<u64>, Vec<u64>) {
    buffers::same(
        lent,
        |ledger| saved::read_two(record, ledger),
        |ledger| library::saved2_read(record, ledger),
    )
}

/// From kind 1 to kind 2; where it is accepted, back too.
pub fn to_two(file_length: u64, record: &[u8], lent: Vec<u8>, random: &Random) -> Answer<usize> {
    let (answer, out) = write_two(file_length, record, lent);
    if let Ok(length) = answer {
        hold_the_same(file_length, record, &out[..length], random);
    }
    answer
}

/// From kind 2 to kind 1; where it is accepted, back too, with the record's own file length.
pub fn to_one(record: &[u8], lent: Vec<u8>, random: &Random) -> Answer<usize> {
    let (answer, out) = write_one(record, lent);
    if let Ok(length) = answer {
        let file_length = u64::from_le_bytes(record[6..14].try_into().unwrap());
        hold_the_same(file_length, &out[..length], record, random);
    }
    answer
}

fn write_two(file_length: u64, one: &[u8], lent: Vec<u8>) -> (Answer<usize>, Vec<u8>) {
    buffers::same(
        lent,
        |out| saved::to_two(file_length, one, out),
        |out| library::saved_to_2(file_length, one, out),
    )
}

fn write_one(two: &[u8], lent: Vec<u8>) -> (Answer<usize>, Vec<u8>) {
    buffers::same(
        lent,
        |out| saved::to_one(two, out),
        |out| library::saved_to_1(two, out),
    )
}

/// A record of kind 1 and one of kind 2, converted one from the other: each conversion makes the other record, byte for
/// byte, and both readers leave the same ledger.
fn hold_the_same(file_length: u64, one: &[u8], two: &[u8], random: &Random) {
    let to_two = write_two(file_length, one, vec![0; two.len()]);
    assert_eq!(to_two, (Ok(two.len()), two.to_vec()));
    let to_one = write_one(two, vec![0; one.len()]);
    assert_eq!(to_one, (Ok(one.len()), one.to_vec()));

    let lent = room(one, random);
    let (answer, ledger) = read_one(one, lent.clone());
    let answer = answer.map(|()| file_length);
    assert_eq!(read_two(two, lent), (answer, ledger));
}
