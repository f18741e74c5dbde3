//! How often each entry gave each number of the papers' tables, and how often each word and each kind of block came.

use super::second::receiver::Verdict;
use super::second::Answer;
use std::collections::BTreeMap;

/// Entries, each with numbers that it has to give.
type Table = [(&'static str, &'static [u64])];

/// 0 is an answer without refusal. Faults and descriptors are counted by their numbers, words by the header's.
pub const ENTRIES: [(&str, &[u64]); 43] = [
    ("start", &[0, 5]),
    ("unequal start", &[5]),
    ("receive", &[0, 1, 2, 3, 4]),
    ("word", &[0, 1, 2, 3]),
    ("fault", &[11, 12, 13, 14, 15, 16, 17, 18, 19]),
    // Where the doubtful ledger lacks a pair too.
    ("17 over 18", &[17]),
    ("18 lacks", &[CLAIMED, DOUBTFUL, CLAIMED + DOUBTFUL]),
    ("doubtful unfit", &[LENGTH, RULE, OUTSIDE]),
    ("payload", &[0, 8, 12, 32, 40, 44]),
    ("no payload", &[0, 8, 12, 32, 40, 44, 64, 72, 76]),
    ("shown", &[0, 1]),
    ("screen line", &[0, 1, 55]),
    ("header read", &[0, 11, 12, 13, 15, 21]),
    ("header write", &[0, 11, 12, 13, 15, 55]),
    ("line", &[0, 31, 32, 33, 34, 35]),
    ("reply", &[0, 36]),
    ("hosts", &[0, 41, 42, 43]),
    // How many, in accepted lists.
    ("hosts found", &[1, 2, 63, 64]),
    // In one host-port, where all the others are good.
    ("leading zero", &[41, 42]),
    ("port 0", &[41, 42]),
    ("above 255", &[41, 42]),
    // Which of the six numbers, in accepted lists.
    ("lone zero", &[0, 1, 2, 3, 4, 5]),
    ("ranges read", &[0, 51, 52, 53]),
    ("ranges write", &[0, 1, 53, 54, 55]),
    ("saved read", &[0, 53, 61, 62, 63, 64]),
    ("saved write", &[0, 1, 53, 55]),
    ("saved 2 read", &[0, 53, 61, 62, 63, 64, 65]),
    ("saved to 2", &[0, 55, 61, 62, 63, 65]),
    ("saved to 1", &[0, 55, 61, 62, 63, 65]),
    // Records made for one case, read and converted.
    ("zero pair in 1", &[63]),
    ("zero pair in 2", &[63]),
    ("body under 8", &[63]),
    ("2^64 last", &[65]),
    ("2^64 not last", &[63]),
    ("end at length", &[0]),
    ("end above it", &[65]),
    ("2 read as 1", &[62]),
    ("1 read as 2", &[62]),
    // Read, where 65 is due too.
    ("64 over 65", &[64]),
    // Pairs, converted.
    ("over 4,096", &[0]),
    ("sender begin", &[0, 71]),
    ("sender next", &[0, 55, 71, 73, 74]),
    ("sent block", &[0, 8, 72]),
];

/// Of an 18: which ledger lacks a pair.
pub const CLAIMED: u64 = 1;
pub const DOUBTFUL: u64 = 2;

/// Why a doubtful ledger does not fit where all else does.
pub const LENGTH: u64 = 1;
pub const RULE: u64 = 2;
pub const OUTSIDE: u64 = 3;

/// 0 where the answer is no refusal.
fn number<T>(answer: &Answer<T>) -> u64 {
    answer.as_ref().err().copied().unwrap_or(0)
}

#[derive(Default)]
pub struct Seen(BTreeMap<(&'static str, u64), u64>);

impl Seen {
    pub fn note<T>(&mut self, entry: &'static str, answer: &Answer<T>) {
        self.note_number(entry, number(answer));
    }

    /// Of a case that may give no other numbers than the table has for it.
    pub fn note_case<T>(&mut self, case: &'static str, answers: &[Answer<T>]) {
        let (_, numbers) = ENTRIES.iter().find(|(entry, _)| *entry == case).unwrap();
        for answer in answers {
            let number = number(answer);
            assert!(numbers.contains(&number), "{case}: {number}");
            self.note_number(case, number);
        }
    }

    pub fn note_number(&mut self, entry: &'static str, number: u64) {
        *self.0.entry((entry, number)).or_default() += 1;
    }

    pub fn note_word(&mut self, verdict: Verdict) {
        let number = match verdict {
            Verdict::Guess => 0,
            Verdict::Result => 1,
            Verdict::Broken => 2,
            Verdict::Suspect => 3,
        };
        self.note_number("word", number);
    }

    /// Of a sending that came to its end, so it was accepted.
    pub fn note_block(&mut self, descriptor: u8, payload: &[u8]) {
        let entry = if payload.is_empty() {
            "no payload"
        } else {
            "payload"
        };
        self.note_number(entry, descriptor.into());
    }

    fn count(&self, entry: &'static str, number: u64) -> u64 {
        self.0.get(&(entry, number)).copied().unwrap_or(0)
    }

    pub fn print(&self, table: &Table) {
        for (entry, numbers) in table {
            let counts: Vec<String> = numbers
                .iter()
                .map(|number| format!("{number}: {}", self.count(entry, *number)))
                .collect();
            println!("{entry:15}{}", counts.join(", "));
        }
    }

    /// The numbers that an entry can give and never gave.
    pub fn missing(&self, table: &Table) -> Vec<(&'static str, u64)> {
        let all = table
            .iter()
            .flat_map(|(entry, numbers)| numbers.iter().map(|number| (*entry, *number)));
        all.filter(|(entry, number)| self.count(entry, *number) == 0)
            .collect()
    }
}
