//! Recordings that come in parts: each line is printed as soon as its record is there.

use super::cases::plaid;
use super::compare;
use super::records::{piece, record, start, start_body, MOST_FILE, MOST_PAIRS, PIECE, START};
use super::second::replay::replay;
use super::sending::block;

/// Malformed records; two have bytes behind the length that decides.
fn tails() -> Vec<Vec<u8>> {
    vec![
        vec![24, 0, 0],
        piece(1, b"abc")[..9].to_vec(),
        vec![0; 4],
        vec![1, 0, 0, 0, 17],
        // A length of 16,388, and the front of what it counts.
        vec![4, 64, 0, 0, 17, 0, 0, 0],
        vec![255; 6],
        record(18, b"abc"),
        record(START, &start_body(8, 1)[..15]),
        start(MOST_FILE + 1, 1),
        start(8, MOST_PAIRS + 1),
        record(PIECE, b""),
    ]
}

/// Pieces of which bytes are left, and a refused one.
fn left_and_refused() -> Vec<u8> {
    let ended = [&block(8, 2, 0, b"ab")[..], b"c"].concat();
    let broken = [&block(16, 0, 0, b"")[..], b"de"].concat();
    [
        start(8, 1),
        piece(0, &ended),
        piece(0, b"c"),
        piece(1, &broken),
    ]
    .concat()
}

/// Cut at each place from `from` on.
fn cut_everywhere(recording: &[u8], from: usize) {
    let text = replay(recording);
    for cut in from..=recording.len() {
        compare(recording, &[cut], &text);
    }
}

#[test]
fn document_one() {
    for (at, tail) in tails().iter().enumerate() {
        let good = plaid().concat();
        let from = if at == 0 { 0 } else { good.len() };
        cut_everywhere(&[good, tail.clone()].concat(), from);
    }
}

#[test]
fn before_any_start() {
    cut_everywhere(&piece(0, &block(8, 2, 0, b"ab")), 0);
}

#[test]
fn two_lines_and_a_refusal() {
    cut_everywhere(&left_and_refused(), 0);
}

#[test]
fn byte_by_byte() {
    let recording = [left_and_refused(), plaid().concat(), record(18, b"abc")].concat();
    let cuts: Vec<usize> = (0..recording.len()).collect();
    compare(&recording, &cuts, &replay(&recording));
}
