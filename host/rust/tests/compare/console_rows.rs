//! Which rows of the console's table came: from the state before, the line or ending, and the code.

use super::second::console::{Console, Endpoint, Reply};
use super::second::control::{self, VERBS};
use super::second::receiver::Verdict;
use super::seen::Seen;

const PASV: u64 = 2;
const PORT: u64 = 3;
const RETR: u64 = 5;
const STOR: u64 = 6;
const SPAS: u64 = 7;
const SPOR: u64 = 8;
const ERET: u64 = 9;
const ESTO: u64 = 10;

const ALL: &[u64] = &[1, 2, 3, 4, RETR, STOR, SPAS, SPOR, ERET, ESTO, 11, 12];
const ENDPOINTS: &[u64] = &[PASV, PORT, SPAS, SPOR];
const TRANSFERS: &[u64] = &[RETR, STOR, ERET, ESTO];

/// All but the cases of lines. Verbs, refusals and words are counted by their numbers.
pub const ROWS: [(&str, &[u64]); 32] = [
    // Codes, while none runs.
    ("MODE", &[200, 504]),
    ("PASV", &[227]),
    ("PORT", &[200, 501]),
    ("REST", &[350, 501]),
    ("RETR", &[150, 503]),
    ("STOR", &[150, 503]),
    ("SPAS", &[229, 503]),
    ("SPOR", &[200, 501, 503]),
    ("ERET", &[150, 503]),
    ("ESTO", &[150, 503]),
    ("SBUF", &[200]),
    ("OPTS", &[200]),
    // While one runs.
    ("verb, running", ALL),
    ("upper case", ALL),
    ("lower case", ALL),
    ("mixed case", ALL),
    ("has all it needs", TRANSFERS),
    ("lacks mode E", TRANSFERS),
    ("no endpoint", TRANSFERS),
    ("other endpoint", TRANSFERS),
    ("lacks both", TRANSFERS),
    ("MODE in mode E", &[200, 504]),
    // Asked for anew, where there is the same one, or the other one.
    ("same before", ENDPOINTS),
    ("other before", ENDPOINTS),
    ("refused", &[31, 32, 33, 34, 35]),
    ("refused, running", &[31, 32, 33, 34, 35]),
    ("end", &[0, 1, 2, 3]),
    ("end, running", &[0, 1, 2, 3]),
    // Codes.
    ("end of one", &[0, 226, 426]),
    ("end of none", &[0]),
    ("with the word", &[226]),
    ("without it", &[226]),
];

/// States, by a digit for each part. Lines and endings lead to these.
pub const REACHED: (&str, &[u64]) = ("state", &[0, 10, 20, 100, 110, 111, 120, 121]);
/// A host can hand these over too.
pub const MADE_UP: (&str, &[u64]) = ("state", &[1, 11, 21, 101]);

pub fn note_state(console: Console, seen: &mut Seen) {
    let Console {
        mode_e,
        endpoint,
        running,
    } = console;
    let number = 100 * u64::from(mode_e) + 10 * endpoint as u64 + u64::from(running);
    seen.note_number("state", number);
}

pub fn note_end(before: Console, verdict: Verdict, reply: Reply, seen: &mut Seen) {
    let (word, code) = if before.running {
        ("end, running", "end of one")
    } else {
        ("end", "end of none")
    };
    seen.note_number(word, verdict as u64);
    seen.note_number(code, reply.code);
    let with = if reply.suspect {
        "with the word"
    } else {
        "without it"
    };
    seen.note_number(with, reply.code);
}

pub fn note_line(before: Console, line: &[u8], code: u64, seen: &mut Seen) {
    match (control::line(line), before.running) {
        (Err(number), true) => seen.note_number("refused, running", number),
        (Err(number), false) => seen.note_number("refused", number),
        (Ok((verb, _)), true) => {
            seen.note_number(spelling(line), verb);
            seen.note_number("verb, running", verb);
        }
        (Ok((verb, _)), false) => {
            seen.note_number(spelling(line), verb);
            note_command(before, verb, code, seen);
        }
    }
}

fn spelling(line: &[u8]) -> &'static str {
    let letters = &line[..4];
    if letters.iter().all(u8::is_ascii_uppercase) {
        "upper case"
    } else if letters.iter().all(u8::is_ascii_lowercase) {
        "lower case"
    } else {
        "mixed case"
    }
}

fn note_command(before: Console, verb: u64, code: u64, seen: &mut Seen) {
    seen.note_number(VERBS[verb as usize - 1], code);
    let Console {
        mode_e, endpoint, ..
    } = before;
    let wanted = match verb {
        PASV | SPAS | STOR | ESTO => Endpoint::Listening,
        _ => Endpoint::Connecting,
    };
    if TRANSFERS.contains(&verb) {
        let row = match (mode_e, endpoint) {
            (true, found) if found == wanted => "has all it needs",
            (true, Endpoint::None) => "no endpoint",
            (true, _) => "other endpoint",
            (false, found) if found == wanted => "lacks mode E",
            (false, _) => "lacks both",
        };
        seen.note_number(row, verb);
    } else if VERBS[verb as usize - 1] == "MODE" && mode_e {
        seen.note_number("MODE in mode E", code);
    } else if ENDPOINTS.contains(&verb) && code < 300 && endpoint != Endpoint::None {
        let row = if endpoint == wanted {
            "same before"
        } else {
            "other before"
        };
        seen.note_number(row, verb);
    }
}
