//! Lends both sides the same, and compares the answers and all that is left in what was lent.

use super::random::Random;
use super::second::Answer;
use std::fmt::Debug;

/// What a lent byte holds before a call.
const FILL: u8 = 0xee;

/// As many bytes as a writer needs, or a few more or less.
pub fn bytes(needed: usize, random: &Random) -> Vec<u8> {
    let less = [needed.saturating_sub(1), random.size(needed)];
    let size = *random.pick(&[needed + 4, needed + 1, needed, *random.pick(&less)]);
    vec![FILL; size]
}

/// Bytes for a writer that needs that many.
pub fn write(
    needed: usize,
    random: &Random,
    mine: impl FnOnce(&mut [u8]) -> Answer<usize>,
    theirs: impl FnOnce(&mut [u8]) -> Answer<usize>,
) -> Answer<usize> {
    let (answer, _) = same(bytes(needed, random), mine, theirs);
    answer
}

/// A ledger or list of that many entries of chance.
pub fn read<T: Debug + PartialEq>(
    entries: usize,
    random: &Random,
    mine: impl FnOnce(&mut [u64]) -> Answer<T>,
    theirs: impl FnOnce(&mut [u64]) -> Answer<T>,
) -> Answer<T> {
    let (answer, _) = same(random.entries(entries), mine, theirs);
    answer
}

/// The answer, and what the call leaves in what was lent.
pub fn same<E: Clone + Debug + PartialEq, T: Debug + PartialEq>(
    mut one: Vec<E>,
    mine: impl FnOnce(&mut [E]) -> Answer<T>,
    theirs: impl FnOnce(&mut [E]) -> Answer<T>,
) -> (Answer<T>, Vec<E>) {
    let mut two = one.clone();
    let answer = mine(&mut one);
    assert_eq!(theirs(&mut two), answer);
    assert_eq!(two, one);
    (answer, one)
}
