//! Saved records made for one case each of document 02's Item 7. The table of `Seen` has the number of each case.

use super::forms::{read_one, read_two, to_one, to_two, whole, Draft, FILE_LENGTH};
use super::random::Random;
use super::second::ledger::MOST_ENTRIES;
use super::second::Answer;
use super::seen::Seen;

pub fn each(random: &Random, seen: &mut Seen) {
    zero_pair(random, seen);
    short_body(random, seen);
    end_beyond(random, seen);
    end_and_length(random, seen);
    no_room_and_end_above(random, seen);
    other_kind(random, seen);
    if random.one_in(20) {
        most_pairs(random, seen);
    }
}

/// A pair of two zeros is no range, wherever it stands.
fn zero_pair(random: &Random, seen: &mut Seen) {
    let mut draft = few_ranges(random);
    let at = 2 * random.between(0, draft.entries.len() / 2);
    draft.entries.splice(at..at, [0, 0]);
    seen.note_case("zero pair in 1", &as_one(&draft, &draft.record(1), random));
    seen.note_case("zero pair in 2", &as_two(&draft.record(2), random));
}

/// A kind 2 body without a whole file length.
fn short_body(random: &Random, seen: &mut Seen) {
    let record = whole(2, &random.bytes(random.below(FILE_LENGTH)));
    seen.note_case("body under 8", &as_two(&record, random));
}

/// An end of 2^64 or more, above the longest file too.
fn end_beyond(random: &Random, seen: &mut Seen) {
    let mut draft = few_ranges(random);
    draft.file_length = *random.pick(&[draft.file_length, u64::MAX]);
    let at = 2 * random.below(draft.entries.len() / 2);
    draft.entries[at + 1] = *random.pick(&[0, below(draft.entries[at], random)]);
    let case = if at + 2 == draft.entries.len() {
        "2^64 last"
    } else {
        "2^64 not last"
    };
    seen.note_case(case, &as_two(&draft.record(2), random));
}

/// The last end at the file length, or above it.
fn end_and_length(random: &Random, seen: &mut Seen) {
    let mut draft = few_ranges(random);
    let end = draft.entries.last_mut().unwrap();
    *end = *random.pick(&[*end, u64::MAX]);
    let (case, file_length) = *random.pick(&[
        ("end at length", *end),
        ("end above it", below(*end, random)),
    ]);
    draft.file_length = file_length;
    seen.note_case(case, &as_two(&draft.record(2), random));
    // The reader of kind 1 knows no file length.
    let [_, converted] = as_one(&draft, &draft.record(1), random);
    seen.note_case(case, &[converted]);
}

/// Fewer pairs in the ledger than in the record, and an end above the file length.
fn no_room_and_end_above(random: &Random, seen: &mut Seen) {
    let mut draft = few_ranges(random);
    let end = draft.entries.last_mut().unwrap();
    if random.one_in(2) {
        draft.file_length = below(*end, random);
    } else {
        *end = 0;
    }
    let room = 2 * random.below(draft.entries.len() / 2);
    let (answer, _) = read_two(&draft.record(2), random.entries(room));
    seen.note_case("64 over 65", &[answer]);
}

/// Each kind where the other is expected.
fn other_kind(random: &Random, seen: &mut Seen) {
    let draft = few_ranges(random);
    seen.note_case("2 read as 1", &as_one(&draft, &draft.record(2), random));
    seen.note_case("1 read as 2", &as_two(&draft.record(1), random));
}

/// More pairs than any ledger has.
fn most_pairs(random: &Random, seen: &mut Seen) {
    let draft = Draft::good(MOST_ENTRIES / 2 + 1 + random.size(1_000), random);
    let [_, two] = as_one(&draft, &draft.record(1), random);
    let [_, one] = as_two(&draft.record(2), random);
    seen.note_case("over 4,096", &[two, one]);
}

fn few_ranges(random: &Random) -> Draft {
    Draft::good(random.between(1, 6), random)
}

/// Often the next smaller number.
fn below(number: u64, random: &Random) -> u64 {
    *random.pick(&[number - 1, random.size(number as usize - 1) as u64])
}

/// What the reader of kind 1 and the conversion to kind 2 answer, lent enough.
fn as_one(draft: &Draft, record: &[u8], random: &Random) -> [Answer<()>; 2] {
    let (loaded, _) = read_one(record, enough_entries(record, random));
    let converted = to_two(draft.file_length, record, enough_bytes(record), random);
    [loaded, converted.map(drop)]
}

/// What the reader of kind 2 and the conversion to kind 1 answer, lent enough.
fn as_two(record: &[u8], random: &Random) -> [Answer<()>; 2] {
    let (loaded, _) = read_two(record, enough_entries(record, random));
    let converted = to_one(record, enough_bytes(record), random);
    [loaded.map(drop), converted.map(drop)]
}

fn enough_entries(record: &[u8], random: &Random) -> Vec<u64> {
    random.entries(record.len() / 16 * 2)
}

fn enough_bytes(record: &[u8]) -> Vec<u8> {
    vec![0; record.len() + FILE_LENGTH]
}
