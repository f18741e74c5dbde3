//! Host-port lists and range lists for the console's lines, good ones and malformed ones.

use super::random::Random;
use super::second::control::MOST_HOSTS;
use super::texts::{host_port, padded};

/// More ranges than these need more pairs than a small ledger has.
pub const MANY: usize = 64;
/// A line has room for these, none touching another, and a malformed one.
const MOST_APART: usize = 266;
/// The most ranges that a line holds, each of three bytes.
const MOST_RANGES: usize = 510;

pub fn few(random: &Random) -> usize {
    random.between(1, 4)
}

/// Up to as many host-ports as a list may have.
pub fn many(random: &Random) -> usize {
    *random.pick(&[1, few(random), random.between(1, MOST_HOSTS), MOST_HOSTS])
}

pub fn hosts(count: usize, random: &Random) -> String {
    flawed(count, |numbers, _| numbers.join(","), random)
}

/// A list in which one host-port, wherever it stands, comes from `flaw`, which is given a good one's numbers.
pub fn flawed(count: usize, flaw: fn([String; 6], &Random) -> String, random: &Random) -> String {
    let mut words: Vec<String> = (0..count).map(|_| host_port(random).join(",")).collect();
    let at = *random.pick(&[0, random.below(count), count - 1]);
    words[at] = flaw(host_port(random), random);
    words.join(" ")
}

pub fn leading_zero(mut numbers: [String; 6], random: &Random) -> String {
    numbers[random.below(6)] = padded(random);
    numbers.join(",")
}

pub fn port_0(mut numbers: [String; 6], _: &Random) -> String {
    numbers[4..].fill("0".to_string());
    numbers.join(",")
}

pub fn malformed(numbers: [String; 6], random: &Random) -> String {
    let (good, five) = (numbers.join(","), numbers[1..].join(","));
    match random.below(6) {
        0 => five,
        1 => format!("{five},{}", random.between(256, 1_256)),
        2 => numbers.join(*random.pick(&[".", ", ", ",,", ""])),
        3 => random.pick(&[",", "x", "-", "+"]).to_string() + &good,
        4 => good + *random.pick(&[",", ",1", " ", "x"]),
        _ => random.pick(&["x", "-", ",", "1,2,3,4,5,"]).to_string(),
    }
}

pub fn good_ranges(count: usize, random: &Random) -> Vec<String> {
    let range = |_| {
        let first = *random.pick(&[random.size(40) as u64, random.next() / 2, u64::MAX - 9]);
        let last = first + random.size(8) as u64;
        let width = *random.pick(&[1, 1, 3, 20]);
        format!("{first:0width$}-{last:0width$}")
    };
    (0..count).map(range).collect()
}

/// Many, none touching another.
pub fn apart(random: &Random) -> Vec<String> {
    let count = *random.pick(&[random.between(MANY + 1, MOST_APART), MOST_APART]);
    let mut words: Vec<String> = (0..count).map(|at| format!("{0}-{0}", 2 * at)).collect();
    if random.one_in(2) {
        random.shuffle(&mut words);
    }
    words
}

/// As many as there can be.
pub fn short_ranges(random: &Random) -> Vec<String> {
    let range = |_| {
        let first = random.below(10);
        format!("{first}-{}", random.between(first, 9))
    };
    (0..MOST_RANGES).map(range).collect()
}

/// Makes one of them malformed, as long as it was.
pub fn spoil_one(mut ranges: Vec<String>, random: &Random) -> Vec<String> {
    let last = ranges.len() - 1;
    let at = *random.pick(&[random.between(0, last), last]);
    let bad = ["9-8", "1-x", "--1", "1 1", "1--", "123"];
    ranges[at] = random.pick(&bad).to_string();
    ranges
}

/// With a malformed one behind at least so many others.
pub fn with_bad(mut ranges: Vec<String>, behind: usize, random: &Random) -> Vec<String> {
    let bad = [
        "",
        "5",
        "-",
        "5-",
        "-5",
        "9-8",
        "1-2-3",
        "x-y",
        "1 -2",
        "1-2 ",
        "+1-2",
        "1-0x2",
        "0-18446744073709551615",
        "0-99999999999999999999",
        "000000000000000000001-1",
    ];
    let last = ranges.len();
    let at = *random.pick(&[behind, random.between(behind, last), last]);
    ranges.insert(at, random.pick(&bad).to_string());
    ranges
}
