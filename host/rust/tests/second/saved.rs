//! "Saved ledger": kind 1 of document 01, kind 2 of document 02's Item 7. All numbers are little-endian. The comment on
//! a function ends with its refusals, in order.

use super::{ledger, put, Answer};

/// How a kind differs from the other; all else is the same. `BEFORE` is how many numbers stand before the pairs.
struct Kind<const BEFORE: usize> {
    number: u16,
    /// From a pair of the body to the range's start and end, which are whole numbers.
    to_range: fn([u128; 2]) -> [u128; 2],
    /// From a range's start and end to a pair of the body.
    to_pair: fn([u64; 2]) -> [u64; 2],
}

/// The numbers before the pairs, and start and end of each range.
type Held<const BEFORE: usize> = ([u64; BEFORE], Vec<[u128; 2]>);

/// The body has start and end of each range.
const ONE: Kind<0> = Kind {
    number: 1,
    to_range: |range| range,
    to_pair: |range| range,
};

/// The body has the file length, then start and length of each range.
const TWO: Kind<1> = Kind {
    number: 2,
    to_range: |[start, length]| [start, start + length],
    to_pair: |[start, end]| [start, end - start],
};

/// From kind 1 into the ledger: 53, 61, 62, 63, 64.
pub fn read(record: &[u8], ledger: &mut [u64]) -> Answer<()> {
    let ([], ranges) = ONE.read_for(ledger, record)?;
    // Kind 1 names no file, so every end that it can say will do.
    fill(ledger, &inside(u64::MAX, &ranges)?);
    Ok(())
}

/// From kind 2 into the ledger; answers the file length: 53, 61, 62, 63, 64, 65.
pub fn read_two(record: &[u8], ledger: &mut [u64]) -> Answer<u64> {
    let ([file_length], ranges) = TWO.read_for(ledger, record)?;
    fill(ledger, &inside(file_length, &ranges)?);
    Ok(file_length)
}

/// From the ledger to kind 1: 53, 1, 55.
pub fn write(ledger: &[u64], out: &mut [u8]) -> Answer<usize> {
    ONE.write([], ledger::to_write(ledger)?, out)
}

/// From kind 1 to kind 2, given the file length: 61, 62, 63, 65, 55.
pub fn to_two(file_length: u64, record: &[u8], out: &mut [u8]) -> Answer<usize> {
    let ([], ranges) = ONE.parse(record)?;
    TWO.write([file_length], &inside(file_length, &ranges)?, out)
}

/// From kind 2 to kind 1 by dropping the file length: 61, 62, 63, 65, 55.
pub fn to_one(record: &[u8], out: &mut [u8]) -> Answer<usize> {
    let ([file_length], ranges) = TWO.parse(record)?;
    ONE.write([], &inside(file_length, &ranges)?, out)
}

impl<const BEFORE: usize> Kind<BEFORE> {
    /// What a record holds, if the ledger has pairs for all of it: 53, 61, 62, 63, 64.
    fn read_for(&self, ledger: &[u64], record: &[u8]) -> Answer<Held<BEFORE>> {
        if !ledger::is_sized(ledger) {
            return Err(53);
        }
        let (before, ranges) = self.parse(record)?;
        if 2 * ranges.len() > ledger.len() {
            return Err(64);
        }
        Ok((before, ranges))
    }

    /// What a record holds: 61, 62, 63.
    fn parse(&self, record: &[u8]) -> Answer<Held<BEFORE>> {
        let numbers = numbers(self.body(record)?).ok_or(63u64)?;
        let (before, pairs) = numbers.split_first_chunk().ok_or(63u64)?;
        let (pairs, odd) = pairs.as_chunks();
        let ranges: Vec<[u128; 2]> = pairs
            .iter()
            .map(|pair| (self.to_range)(pair.map(u128::from)))
            .collect();
        // Rising entries are the ledger rule without unused pairs.
        let rising = ranges.as_flattened().is_sorted_by(|one, next| one < next);
        if !odd.is_empty() || !rising {
            return Err(63);
        }
        Ok((*before, ranges))
    }

    /// What follows length and kind: 61, 62.
    fn body<'a>(&self, record: &'a [u8]) -> Answer<&'a [u8]> {
        let (length, rest) = record.split_first_chunk().ok_or(61u64)?;
        let (kind, body) = rest.split_first_chunk().ok_or(61u64)?;
        if u32::from_le_bytes(*length) as usize != rest.len() {
            return Err(61);
        }
        if u16::from_le_bytes(*kind) != self.number {
            return Err(62);
        }
        Ok(body)
    }

    /// A record of these ranges: 55.
    fn write(&self, before: [u64; BEFORE], ranges: &[[u64; 2]], out: &mut [u8]) -> Answer<usize> {
        let pairs = ranges.iter().flat_map(|range| (self.to_pair)(*range));
        let numbers: Vec<u64> = before.into_iter().chain(pairs).collect();
        let mut record = Vec::new();
        record.extend((2 + 8 * numbers.len() as u32).to_le_bytes());
        record.extend(self.number.to_le_bytes());
        record.extend(numbers.iter().flat_map(|number| number.to_le_bytes()));
        put(&record, out)
    }
}

/// The numbers of a body, unless the last one is cut.
fn numbers(body: &[u8]) -> Option<Vec<u64>> {
    let (numbers, cut) = body.as_chunks();
    let numbers = numbers.iter().map(|bytes| u64::from_le_bytes(*bytes));
    cut.is_empty().then(|| numbers.collect())
}

/// The ranges, unless an end exceeds the file length: 65.
fn inside(file_length: u64, ranges: &[[u128; 2]]) -> Answer<Vec<[u64; 2]>> {
    if ranges.iter().any(|[_, end]| *end > file_length.into()) {
        return Err(65);
    }
    let fitting = ranges.iter().map(|range| range.map(|number| number as u64));
    Ok(fitting.collect())
}

/// The entries after the ranges become 0.
fn fill(ledger: &mut [u64], ranges: &[[u64; 2]]) {
    let (loaded, free) = ledger.split_at_mut(2 * ranges.len());
    loaded.copy_from_slice(ranges.as_flattened());
    free.fill(0);
}
