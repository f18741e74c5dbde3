//! The two consoles side by side: every line and every ending goes to both, and the answers and all parts of the states
//! have to be equal. A line's code is held to the table of cases too.

use super::console_lines::{Case, CASES, MAIN};
use super::console_rows::{note_end, note_line, note_state, MADE_UP, REACHED, ROWS};
use super::random::Random;
use super::rounds;
use super::second::console::{Console, Endpoint, Reply};
use super::second::control;
use super::second::receiver::Verdict;
use super::seen::Seen;

const ROUNDS: u64 = 40;
/// In a round.
const WALKS: usize = 9;

const VERDICTS: [Verdict; 4] = [
    Verdict::Guess,
    Verdict::Result,
    Verdict::Suspect,
    Verdict::Broken,
];

struct Both<'a> {
    second: Console,
    library: cobnutter::Console,
    seen: &'a mut Seen,
}

impl<'a> Both<'a> {
    fn begin(seen: &'a mut Seen) -> Both<'a> {
        let library = cobnutter::Console::new();
        assert_eq!(of_library(library), Console::BEGINNING);
        assert_eq!(library, cobnutter::Console::default());
        Both {
            second: Console::BEGINNING,
            library,
            seen,
        }
    }

    /// Made up by a host.
    fn hand_over(state: Console, seen: &'a mut Seen) -> Both<'a> {
        Both {
            second: state,
            library: to_library(state),
            seen,
        }
    }

    fn line(&mut self, case: &Case, random: &Random) {
        let (name, codes, make) = *case;
        let (before, line) = (self.second, make(random));
        let mine = self.second.line(&line);
        let theirs = self.library.line(&line);
        let what = format!("{name}: {:?} in {before:?}", String::from_utf8_lossy(&line));
        self.compare(theirs, mine, &what);
        note_line(before, &line, mine.code, self.seen);
        if before.running && control::line(&line).is_ok() {
            assert_eq!(mine.code, 503, "{what}");
        } else {
            assert!(codes.is_empty() || codes.contains(&mine.code), "{what}");
            self.seen.note_number(name, mine.code);
        }
    }

    fn end(&mut self, verdict: Verdict) {
        let before = self.second;
        let mine = self.second.end(verdict);
        let theirs = self.library.end(verdict_to_library(verdict));
        self.compare(theirs, mine, &format!("{verdict:?} in {before:?}"));
        note_end(before, verdict, mine, self.seen);
    }

    fn compare(&mut self, theirs: cobnutter::Reply, mine: Reply, what: &str) {
        let cobnutter::Reply { code, suspect } = theirs;
        assert_eq!(
            (u64::from(code), suspect),
            (mine.code, mine.suspect),
            "{what}"
        );
        assert_eq!(of_library(self.library), self.second, "{what}");
        note_state(self.second, self.seen);
    }
}

fn to_library(console: Console) -> cobnutter::Console {
    cobnutter::Console {
        mode_e: console.mode_e,
        endpoint: match console.endpoint {
            Endpoint::None => cobnutter::Endpoint::None,
            Endpoint::Listening => cobnutter::Endpoint::Listening,
            Endpoint::Connecting => cobnutter::Endpoint::Connecting,
        },
        running: console.running,
    }
}

fn of_library(console: cobnutter::Console) -> Console {
    let cobnutter::Console {
        mode_e,
        endpoint,
        running,
    } = console;
    Console {
        mode_e,
        endpoint: match endpoint {
            cobnutter::Endpoint::None => Endpoint::None,
            cobnutter::Endpoint::Listening => Endpoint::Listening,
            cobnutter::Endpoint::Connecting => Endpoint::Connecting,
        },
        running,
    }
}

fn verdict_to_library(verdict: Verdict) -> cobnutter::Verdict {
    match verdict {
        Verdict::Guess => cobnutter::Verdict::Guess,
        Verdict::Result => cobnutter::Verdict::Result,
        Verdict::Suspect => cobnutter::Verdict::Suspect,
        Verdict::Broken => cobnutter::Verdict::Broken,
    }
}

/// All that a host can hand over.
fn states() -> Vec<Console> {
    let mut states = Vec::new();
    for mode_e in [false, true] {
        for endpoint in [Endpoint::None, Endpoint::Listening, Endpoint::Connecting] {
            for running in [false, true] {
                states.push(Console {
                    mode_e,
                    endpoint,
                    running,
                });
            }
        }
    }
    states
}

/// Mostly what leads on to a transfer and to its end.
fn any_event(both: &mut Both, random: &Random) {
    match random.below(6) {
        0 => both.end(*random.pick(&VERDICTS)),
        1 | 2 => both.line(random.pick(&CASES[..MAIN]), random),
        _ => both.line(random.pick(&CASES), random),
    }
}

/// Fails where a row or a case never came.
fn assert_all(seen: &Seen, states: &[(&'static str, &'static [u64])]) {
    let mut rows = ROWS.to_vec();
    rows.extend(CASES.iter().map(|(name, codes, _)| (*name, *codes)));
    rows.extend(states);
    seen.print(&rows);
    assert_eq!(seen.missing(&rows), []);
}

#[test]
fn the_consoles_agree_from_the_beginning() {
    let mut seen = Seen::default();
    let rounds = rounds::run(ROUNDS, |random| {
        for _ in 0..WALKS {
            let mut both = Both::begin(&mut seen);
            for _ in 0..random.between(1, 80) {
                any_event(&mut both, random);
            }
        }
    });
    if rounds >= ROUNDS {
        assert_all(&seen, &[REACHED]);
    }
}

/// Each kind of event in each of the 12 states, and some more behind it.
#[test]
fn the_consoles_agree_in_every_state() {
    let mut seen = Seen::default();
    let rounds = rounds::run(ROUNDS, |random| {
        for state in states() {
            for verdict in VERDICTS {
                let mut both = Both::hand_over(state, &mut seen);
                both.end(verdict);
                any_event(&mut both, random);
            }
            for case in &CASES {
                let mut both = Both::hand_over(state, &mut seen);
                both.line(case, random);
                any_event(&mut both, random);
            }
        }
    });
    if rounds >= ROUNDS {
        assert_all(&seen, &[REACHED, MADE_UP]);
    }
}
