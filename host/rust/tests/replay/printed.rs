//! How often each line came, and each kind of malformed record.

use super::second::replay::Malformed;
use super::seen::Seen;
use std::str;

const FAULTS: &[u64] = &[11, 12, 13, 14, 15, 16, 17, 18, 19];

/// A fault by its number. LEFT by the fault that left the bytes, 0 where a channel ended. RECORD by 0 for the first
/// record and 1 for a later one.
pub const ENTRIES: [(&str, &[u64]); 9] = [
    ("GUESS", &[0]),
    ("RESULT", &[0]),
    ("SUSPECT", &[0]),
    ("BROKEN", FAULTS),
    ("LEFT", &[0, 11, 12, 13, 14, 15, 16, 17, 18, 19]),
    // A fault at the piece's last byte; 19 takes none.
    ("nothing left", &[11, 12, 13, 14, 15, 16, 17, 18]),
    ("REFUSED", &[2, 3, 4]),
    ("RECORD", &[0, 1]),
    (
        "malformed",
        &[
            Malformed::CutLength as u64,
            Malformed::CutBody as u64,
            Malformed::TooShort as u64,
            Malformed::TooLong as u64,
            Malformed::OtherKind as u64,
            Malformed::StartBody as u64,
            Malformed::LongFile as u64,
            Malformed::ManyPairs as u64,
            Malformed::NoChannel as u64,
            Malformed::NoTransfer as u64,
        ],
    ),
];

pub fn note(printed: &[u8], malformed: Option<Malformed>, seen: &mut Seen) {
    let text = str::from_utf8(printed).unwrap();
    let mut left = false;
    for line in text.lines() {
        left = note_line(line, left, seen);
    }
    if let Some(why) = malformed {
        seen.note_number("malformed", why as u64);
    }
}

/// Is told, and answers, whether the line before was a LEFT.
fn note_line(line: &str, left: bool, seen: &mut Seen) -> bool {
    let (word, rest) = line.split_once(' ').unwrap();
    let number = || rest.split(' ').next().unwrap().parse().unwrap();
    let (entry, number) = match word {
        "LEFT" => return true,
        "GUESS" => ("GUESS", 0),
        "RESULT" => ("RESULT", 0),
        "SUSPECT" => ("SUSPECT", 0),
        "BROKEN" => ("BROKEN", number()),
        "REFUSED" => ("REFUSED", number()),
        "RECORD" => ("RECORD", number().min(1)),
        _ => panic!("{line}"),
    };
    seen.note_number(entry, number);
    if left {
        seen.note_number("LEFT", number);
    } else if entry == "BROKEN" {
        seen.note_number("nothing left", number);
    }
    false
}
