//! Worked cases, on both sides. What is malformed is in the repository's `recordings/malformed`.

use super::compare;
use super::records::{piece, record, start, MOST_FILE, MOST_PAIRS, MOST_PIECE};
use super::sending::block;

/// A piece that is one block.
fn send(channel: u8, descriptor: u8, length: u64, place: u64, payload: &str) -> Vec<u8> {
    piece(
        channel,
        &block(descriptor, length, place, payload.as_bytes()),
    )
}

/// Document 01's example, started with one pair.
pub fn plaid() -> Vec<Vec<u8>> {
    vec![
        start(8, 1),
        send(0, 0, 4, 0, "plai"),
        send(1, 8, 4, 4, "d123"),
        send(0, 72, 0, 2, ""),
    ]
}

const PLAID: [&str; 4] = [
    "GUESS ended 0 of ? bytes 0",
    "GUESS ended 0 of ? bytes 4",
    "GUESS ended 1 of ? bytes 8",
    "RESULT ended 2 of 2 bytes 8",
];

fn prints(records: &[Vec<u8>], lines: &[&str]) {
    let text: String = lines.iter().map(|line| format!("{line}\n")).collect();
    compare(&records.concat(), &[], text.as_bytes());
}

#[test]
fn nothing_at_all() {
    prints(&[], &[]);
}

#[test]
fn document_one() {
    prints(&plaid(), &PLAID);
}

/// Item 3's line.
#[test]
fn suspect() {
    let records = [
        start(90, 2),
        send(0, 0, 40, 0, &"a".repeat(40)),
        send(1, 40, 5, 40, "bbbbb"),
        send(2, 8, 45, 45, &"c".repeat(45)),
        send(0, 72, 0, 3, ""),
    ];
    let lines = [
        "GUESS ended 0 of ? bytes 0",
        "GUESS ended 0 of ? bytes 40",
        "GUESS ended 1 of ? bytes 45",
        "GUESS ended 2 of ? bytes 90",
        "SUSPECT ended 3 of 3 bytes 90 doubtful 5",
    ];
    prints(&records, &lines);
}

/// The last that is good of each limit.
#[test]
fn limits() {
    let payload = "x".repeat(MOST_PIECE - 17);
    let longest = send(63, 8, payload.len() as u64, MOST_FILE - 16_367, &payload);
    assert_eq!(longest[..4], 16_387u32.to_le_bytes());
    let records = [
        start(MOST_FILE, MOST_PAIRS),
        longest,
        start(0, 0),
        send(7, 76, 0, 1, ""),
    ];
    let lines = [
        "GUESS ended 0 of ? bytes 0",
        "GUESS ended 1 of ? bytes 16367",
        "GUESS ended 0 of ? bytes 0",
        "RESULT ended 1 of 1 bytes 0",
    ];
    prints(&records, &lines);
}

#[test]
fn refusals() {
    let records = [
        start(8, 1),
        send(5, 8, 0, 0, ""),
        piece(5, b"a"),
        piece(5, b""),
        piece(64, b""),
        piece(255, b"a"),
        send(6, 72, 0, 2, ""),
        piece(5, b"a"),
        piece(6, b""),
        piece(64, b"a"),
    ];
    let lines = [
        "GUESS ended 0 of ? bytes 0",
        "GUESS ended 1 of ? bytes 0",
        "REFUSED 4",
        "GUESS ended 1 of ? bytes 0",
        "REFUSED 2",
        "REFUSED 2",
        "RESULT ended 2 of 2 bytes 0",
        "REFUSED 3",
        "REFUSED 3",
        "REFUSED 2",
    ];
    prints(&records, &lines);
}

/// After an end, and after a fault with bytes behind it, but not after one at the last byte.
#[test]
fn left() {
    let records = [
        start(8, 1),
        send(0, 8, 2, 0, "ab"),
        send(1, 8, 2, 2, "cde"),
        send(2, 8, 0, 0, "abcd"),
        send(3, 0, 1, 3, "a"),
        start(8, 1),
        send(3, 0, 9, 0, ""),
        start(8, 1),
        send(3, 1, 0, 0, "0123456789"),
    ];
    let lines = [
        "GUESS ended 0 of ? bytes 0",
        "GUESS ended 1 of ? bytes 2",
        "LEFT 1",
        "GUESS ended 2 of ? bytes 4",
        "LEFT 4",
        "GUESS ended 3 of ? bytes 4",
        "LEFT 1",
        "BROKEN 17 on 3 bytes 4",
        "GUESS ended 0 of ? bytes 0",
        "BROKEN 16 on 3 bytes 0",
        "GUESS ended 0 of ? bytes 0",
        "LEFT 10",
        "BROKEN 11 on 3 bytes 0",
    ];
    prints(&records, &lines);
}

/// 19 takes nothing of the piece.
#[test]
fn left_whole() {
    let records = [
        start(8, 1),
        send(0, 64, 0, 1, ""),
        piece(1, b""),
        send(1, 0, 4, 0, "plai"),
    ];
    let lines = [
        "GUESS ended 0 of ? bytes 0",
        "GUESS ended 0 of 1 bytes 0",
        "GUESS ended 0 of 1 bytes 0",
        "LEFT 21",
        "BROKEN 19 on 1 bytes 0",
    ];
    prints(&records, &lines);
}

/// A start takes the place of what ran, with its claims, its count and its fault.
#[test]
fn starts() {
    let broken = [start(8, 1), send(0, 0, 4, 0, "pl"), send(9, 4, 0, 0, "")];
    let records = [&broken[..], &plaid(), &plaid()].concat();
    let lines = [
        "GUESS ended 0 of ? bytes 0",
        "GUESS ended 0 of ? bytes 2",
        "BROKEN 13 on 9 bytes 2",
    ];
    prints(&records, &[&lines[..], &PLAID, &PLAID].concat());
}

/// Nothing is said of what is behind a malformed record, and refused ones are counted.
#[test]
fn stops() {
    let front = [start(8, 1), piece(64, b"a"), record(18, b"")];
    let records = [&front[..], &plaid()].concat();
    let lines = ["GUESS ended 0 of ? bytes 0", "REFUSED 2", "RECORD 2"];
    prints(&records, &lines);
}
