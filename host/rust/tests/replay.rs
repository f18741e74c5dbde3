//! Holds the program `replay` against the second reading of the papers: on recordings of chance, whole and damaged, on
//! those that the repository keeps, and on worked cases. COBNUTTER_SEED and COBNUTTER_ROUNDS choose others and more.

#[allow(dead_code)]
mod second;
mod stored;

#[path = "replay/cases.rs"]
mod cases;
#[path = "replay/damage.rs"]
mod damage;
#[path = "replay/nights.rs"]
mod nights;
#[path = "replay/parts.rs"]
mod parts;
#[path = "replay/printed.rs"]
mod printed;
#[path = "replay/program.rs"]
mod program;
#[allow(dead_code)]
#[path = "compare/random.rs"]
mod random;
#[path = "replay/records.rs"]
mod records;
#[path = "compare/rounds.rs"]
mod rounds;
#[allow(dead_code)]
#[path = "compare/seen.rs"]
mod seen;
#[allow(dead_code)]
#[path = "compare/sending.rs"]
mod sending;

use printed::ENTRIES;
use program::{assert_same, Program};
use random::Random;
use second::replay::{malformed, replay, so_far};
use seen::Seen;
use std::fs;
use std::thread;
use std::time::Duration;

/// Each has one long recording and two short, damaged ones.
const ROUNDS: u64 = 200;

/// Between two parts, so that the program mostly reads the first of them alone, and a line that comes early is mostly
/// seen. A right program passes whatever its length.
const PAUSE: Duration = Duration::from_millis(2);

/// Holds both sides to what is expected of a recording. The program gets it cut at the places named, each part when all
/// that the parts before call for is printed.
fn compare(recording: &[u8], cuts: &[usize], expected: &[u8]) {
    assert_same(&replay(recording), expected);
    let mut program = Program::start();
    let mut fed = 0;
    for &cut in cuts {
        program.feed(&recording[fed..cut]);
        let text = so_far(&recording[..cut]);
        program.has_printed(&text);
        thread::sleep(PAUSE);
        program.has_printed_no_more(&text);
        fed = cut;
    }
    program.feed(&recording[fed..]);
    assert_same(&program.end(), expected);
}

/// A recording in up to three parts.
fn of_chance(recording: &[u8], random: &Random, seen: &mut Seen) {
    let mut cuts: Vec<usize> = (0..random.below(3))
        .map(|_| random.between(0, recording.len()))
        .collect();
    cuts.sort();
    let text = replay(recording);
    compare(recording, &cuts, &text);
    printed::note(&text, malformed(recording), seen);
}

#[test]
fn the_two_agree() {
    let mut seen = Seen::default();
    let rounds = rounds::run(ROUNDS, |random| {
        let whole = nights::night(40, random).concat();
        assert_eq!(malformed(&whole), None);
        of_chance(&whole, random, &mut seen);
        for _ in 0..2 {
            let damaged = damage::damaged(nights::night(5, random), random);
            of_chance(&damaged, random, &mut seen);
        }
    });
    seen.print(&ENTRIES);
    if rounds >= ROUNDS {
        assert_eq!(seen.missing(&ENTRIES), []);
    }
}

#[test]
fn stored_recordings_have_their_lines() {
    for folder in ["recordings", "recordings/malformed"] {
        for path in stored::recordings(folder) {
            println!("{}", path.display());
            let recording = fs::read(&path).unwrap();
            let expected = fs::read(path.with_extension("lines")).unwrap();
            assert_eq!(
                malformed(&recording).is_some(),
                folder.ends_with("malformed")
            );
            compare(&recording, &[], &expected);
        }
    }
}
