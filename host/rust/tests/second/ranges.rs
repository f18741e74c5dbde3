//! "Range lists": the ledger as text.

use super::{ledger, put, Answer};

pub fn read(text: &[u8], ledger: &mut [u64]) -> Answer<()> {
    if !ledger::is_sized(ledger) {
        return Err(53);
    }
    ledger.fill(0);
    let merged = merge(text, ledger.len() / 2)?;
    for (pair, (start, end)) in ledger.chunks_exact_mut(2).zip(merged) {
        pair.copy_from_slice(&[start, end]);
    }
    Ok(())
}

/// Ascending ranges (start, end), end not counted, none touching the next.
fn merge(text: &[u8], most: usize) -> Answer<Vec<(u64, u64)>> {
    let mut merged: Vec<(u64, u64)> = Vec::new();
    for word in text.split(|byte| *byte == b',') {
        let (mut start, mut end) = range(word)?;
        let from = merged.partition_point(|pair| pair.1 < start);
        let to = merged.partition_point(|pair| pair.0 <= end);
        for pair in merged.drain(from..to) {
            start = start.min(pair.0);
            end = end.max(pair.1);
        }
        merged.insert(from, (start, end));
        if merged.len() > most {
            return Err(52);
        }
    }
    Ok(merged)
}

fn range(word: &[u8]) -> Answer<(u64, u64)> {
    let dash = word.iter().position(|byte| *byte == b'-').ok_or(51u64)?;
    let (first, last) = (number(&word[..dash])?, number(&word[dash + 1..])?);
    if first > last {
        return Err(51);
    }
    // The end is not counted, so the last place is at most 2^64 - 2.
    let end = u64::try_from(last + 1).map_err(|_| 51u64)?;
    Ok((first as u64, end))
}

fn number(digits: &[u8]) -> Answer<u128> {
    if !(1..=20).contains(&digits.len()) || !digits.iter().all(u8::is_ascii_digit) {
        return Err(51);
    }
    Ok(digits
        .iter()
        .fold(0, |value, digit| value * 10 + u128::from(digit - b'0')))
}

pub fn write(ledger: &[u64], out: &mut [u8]) -> Answer<usize> {
    let pairs = ledger::to_write(ledger)?;
    if pairs.is_empty() {
        return Err(54);
    }
    let words: Vec<String> = pairs
        .iter()
        .map(|[start, end]| format!("{start}-{}", end - 1))
        .collect();
    put(words.join(",").as_bytes(), out)
}
