//! What a careless host could do to what it lends.

use super::both::Lent;
use super::random::Random;
use super::second::ledger;
use super::second::receiver::{Channel, Transfer, CHANNELS, UNUSED};

pub fn harm(lent: &mut Lent, random: &Random) {
    match random.below(11) {
        0 | 1 => harm_entry(&mut lent.claimed, random),
        2 => harm_entry(&mut lent.doubtful, random),
        3 => lent.doubtful.fill(0),
        4 => doubt_all(lent, random),
        5 => harm_lengths(lent, random),
        6 => harm_numbers(&mut lent.transfer, random),
        7 => {
            lent.transfer.heads[any_channel(&lent.transfer, random)][random.below(16)] ^=
                1 << random.below(8)
        }
        8 => copy_channel(&mut lent.transfer, random),
        _ => harm_channel(&mut lent.transfer, random),
    }
}

/// Every claimed range becomes doubtful, and one of them may reach out of itself by a byte.
fn doubt_all(lent: &mut Lent, random: &Random) {
    let Lent {
        claimed, doubtful, ..
    } = lent;
    doubtful.clone_from(claimed);
    let used = 2 * ledger::used(doubtful).len();
    if used > 0 && !random.one_in(3) {
        let at = random.below(used);
        let outward = if at % 2 == 0 { u64::MAX } else { 1 };
        doubtful[at] = doubtful[at].wrapping_add(outward);
    }
}

/// Changes an entry of the used pairs or soon after them.
pub fn harm_entry(ledger: &mut [u64], random: &Random) {
    let reach = (2 * ledger::used(ledger).len() + 4).min(ledger.len());
    if reach > 0 {
        let entry = &mut ledger[random.below(reach)];
        *entry = *random.pick(&[0, random.near(*entry), random.wild()]);
    }
}

fn harm_lengths(lent: &mut Lent, random: &Random) {
    let Lent {
        file,
        claimed,
        doubtful,
        ..
    } = lent;
    match random.below(5) {
        0 => file.resize(random.near(file.len() as u64).min(70_000) as usize, 0),
        1 => file.truncate(random.size(file.len())),
        2 => harm_length(claimed, random),
        3 => harm_length(doubtful, random),
        _ => {
            harm_length(claimed, random);
            doubtful.resize(claimed.len(), 0);
        }
    }
}

fn harm_length(ledger: &mut Vec<u64>, random: &Random) {
    let near = random.near(ledger.len() as u64).min(9_000) as usize;
    ledger.resize(*random.pick(&[near, random.size(ledger.len())]), 0);
}

fn harm_numbers(transfer: &mut Transfer, random: &Random) {
    let Transfer {
        len,
        pairs,
        count,
        fault,
        on,
        ..
    } = transfer;
    let channel = *random.pick(&[0, random.below(CHANNELS) as u64, random.near(64)]);
    match random.below(5) {
        0 => *len = *random.pick(&[random.near(*len), random.wild()]),
        1 => *pairs = *random.pick(&[random.near(*pairs), random.wild()]),
        2 => *count = *random.pick(&[random.near(*count), random.near(64), random.wild()]),
        3 => (*fault, *on) = (random.between(9, 22) as u64, channel),
        _ => *on = *random.pick(&[channel, random.wild()]),
    }
}

/// Two channels that are in the same payload.
fn copy_channel(transfer: &mut Transfer, random: &Random) {
    let from = any_channel(transfer, random);
    transfer.channels[any_channel(transfer, random)] = transfer.channels[from];
}

/// Half of the time a used one, if there is any.
fn any_channel(transfer: &Transfer, random: &Random) -> usize {
    let used: Vec<usize> = (0..CHANNELS)
        .filter(|at| transfer.channels[*at].state != UNUSED)
        .collect();
    if used.is_empty() || random.one_in(2) {
        random.below(CHANNELS)
    } else {
        *random.pick(&used)
    }
}

fn harm_channel(transfer: &mut Transfer, random: &Random) {
    let Channel {
        state,
        held,
        next,
        left,
    } = &mut transfer.channels[any_channel(transfer, random)];
    match random.below(6) {
        0 | 1 => *state = random.below(7) as u8,
        2 => *held = *random.pick(&[random.below(20) as u8, random.byte()]),
        3 => *next = *random.pick(&[random.near(*next), random.wild()]),
        4 => *left = *random.pick(&[0, random.near(*left), random.wild()]),
        _ => (*next, *left) = (random.wild(), random.wild()),
    }
}
