//! Holds the library against the second reading of the papers, on inputs of chance: after each call the answers and all
//! that the calls leave have to be equal. COBNUTTER_SEED and COBNUTTER_ROUNDS choose others and more.

mod second;
mod stored;

#[path = "compare/both.rs"]
mod both;
#[path = "compare/buffers.rs"]
mod buffers;
#[path = "compare/console_arguments.rs"]
mod console_arguments;
#[path = "compare/console_examples.rs"]
mod console_examples;
#[path = "compare/console_lines.rs"]
mod console_lines;
#[path = "compare/console_rows.rs"]
mod console_rows;
#[path = "compare/consoles.rs"]
mod consoles;
#[path = "compare/crafted.rs"]
mod crafted;
#[path = "compare/deliveries.rs"]
mod deliveries;
#[path = "compare/doubtful.rs"]
mod doubtful;
#[path = "compare/examples.rs"]
mod examples;
#[path = "compare/forms.rs"]
mod forms;
#[path = "compare/harm.rs"]
mod harm;
#[path = "compare/library.rs"]
mod library;
#[path = "compare/random.rs"]
mod random;
#[path = "compare/rounds.rs"]
mod rounds;
#[path = "compare/saved_cases.rs"]
mod saved_cases;
#[path = "compare/seen.rs"]
mod seen;
#[path = "compare/senders.rs"]
mod senders;
#[path = "compare/sending.rs"]
mod sending;
#[path = "compare/sessions.rs"]
mod sessions;
#[path = "compare/texts.rs"]
mod texts;

use random::Random;
use seen::{Seen, ENTRIES};
use std::fs;

const ROUNDS: u64 = 400;

type Kind = fn(&Random, &mut Seen);

/// Each with how often a round does it.
const KINDS: [(Kind, usize); 17] = [
    (sessions::one, 2),
    (sessions::few_pairs, 2),
    (sessions::cached, 1),
    (crafted::few_calls, 150),
    (crafted::start, 2),
    (texts::headers, 20),
    (texts::lines, 20),
    (texts::replies, 5),
    (texts::hosts, 20),
    (forms::range_texts, 20),
    (forms::range_writing, 10),
    (forms::saving, 10),
    (forms::saved_records, 40),
    (forms::conversions, 20),
    (saved_cases::each, 1),
    (senders::calls, 10),
    (deliveries::one, 2),
];

#[test]
fn the_two_agree() {
    let mut seen = Seen::default();
    let rounds = rounds::run(ROUNDS, |random| {
        for (kind, times) in KINDS {
            for _ in 0..times {
                kind(random, &mut seen);
            }
        }
    });
    seen.print(&ENTRIES);
    if rounds >= ROUNDS {
        assert_eq!(seen.missing(&ENTRIES), []);
    }
}

#[test]
fn the_two_agree_on_recordings() {
    let (random, mut seen) = (Random::new(rounds::SEED), Seen::default());
    for path in stored::recordings("recordings") {
        let recording = fs::read(path).unwrap();
        sessions::recorded(&recording, &random, &mut seen);
    }
}
