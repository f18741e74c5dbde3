//! Rounds of chance. COBNUTTER_SEED and COBNUTTER_ROUNDS choose others and more.

use super::random::Random;

pub const SEED: u64 = 1;

/// Says on failure how to run the round again.
struct Round {
    seed: u64,
    round: u64,
}

impl Drop for Round {
    fn drop(&mut self) {
        if std::thread::panicking() {
            let Round { seed, round } = self;
            let alone = seed.wrapping_add(*round);
            println!(
                "seed {seed}, round {round}: again by COBNUTTER_SEED={alone} COBNUTTER_ROUNDS=1"
            );
        }
    }
}

fn setting(name: &str, or: u64) -> u64 {
    std::env::var(name).map_or(or, |text| text.parse().expect(name))
}

/// Answers how many rounds were done: `usual`, unless others are asked for.
pub fn run(usual: u64, mut one: impl FnMut(&Random)) -> u64 {
    let (seed, rounds) = (
        setting("COBNUTTER_SEED", SEED),
        setting("COBNUTTER_ROUNDS", usual),
    );
    for round in 0..rounds {
        let _named = Round { seed, round };
        one(&Random::new(seed.wrapping_add(round)));
    }
    rounds
}
