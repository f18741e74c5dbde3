//! Recordings that are damaged at one place.

use super::random::Random;
use super::records::{
    piece, record, start, start_body, MOST_FILE, MOST_PAIRS, MOST_PIECE, PIECE, START,
};

/// Does one thing that makes the recording malformed, or that comes close to it.
pub fn damaged(mut records: Vec<Vec<u8>>, random: &Random) -> Vec<u8> {
    match random.below(4) {
        0 => return cut(&records, random),
        1 => change(&mut records, random),
        2 if random.one_in(4) => drop(records.remove(0)),
        _ => records.insert(random.between(0, records.len()), strange(random)),
    }
    records.concat()
}

/// Cut anywhere, or soon after a record's first byte.
fn cut(records: &[Vec<u8>], random: &Random) -> Vec<u8> {
    let mut bytes = records.concat();
    let whole = records[..random.between(0, records.len())].concat().len();
    let at = *random.pick(&[random.between(0, bytes.len()), whole + random.below(8)]);
    bytes.truncate(at);
    bytes
}

/// Changes a byte of a record, in its frame as often as in its body.
fn change(records: &mut [Vec<u8>], random: &Random) {
    let record = &mut records[random.below(records.len())];
    let (frame, any) = (random.below(6), random.below(record.len()));
    let byte = &mut record[*random.pick(&[frame, any])];
    *byte = *random.pick(&[
        byte.wrapping_add(1),
        *byte ^ 1 << random.below(8),
        random.byte(),
    ]);
}

/// A record that is malformed, or the last one of its kind that is not.
fn strange(random: &Random) -> Vec<u8> {
    let (len, pairs) = (random.size(60) as u64, random.size(5) as u64);
    let channel = random.byte();
    match random.below(8) {
        0 => vec![0; 4],
        1 => vec![1, 0, 0, 0, random.byte()],
        2 => piece(channel, &random.bytes(MOST_PIECE + random.below(2))),
        3 => record(
            *random.pick(&[0, 1, 15, 18, 272, 273, random.next() as u16]),
            &start_body(len, pairs),
        ),
        4 => {
            let mut body = start_body(len, pairs);
            body.resize(*random.pick(&[0, 15, 17, random.size(40)]), 0);
            record(START, &body)
        }
        5 => start(
            *random.pick(&[MOST_FILE, MOST_FILE + 1, random.wild()]),
            pairs,
        ),
        6 => start(
            len,
            *random.pick(&[MOST_PAIRS, MOST_PAIRS + 1, random.wild()]),
        ),
        _ => record(PIECE, &[]),
    }
}
