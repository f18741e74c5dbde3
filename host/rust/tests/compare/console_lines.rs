//! Control lines for the console, each made for one case.

use super::console_arguments::{apart, few, flawed, good_ranges, hosts, leading_zero, malformed};
use super::console_arguments::{many, port_0, short_ranges, spoil_one, with_bad, MANY};
use super::random::Random;
use super::second::control::VERBS;
use super::texts::edit;

/// A name; the codes that the line gets while no transfer runs, over all states; and what makes the line. While one
/// runs, a line that is not refused gets 503.
pub type Case = (&'static str, &'static [u64], fn(&Random) -> Vec<u8>);

/// The bytes of a line that is just not too long.
const LONGEST: usize = 2_048;

/// The first cases: lines that lead to a transfer.
pub const MAIN: usize = 10;

pub const CASES: [Case; 47] = [
    ("MODE E", &[200], |r| line("MODE", "E", r)),
    ("MODE e", &[200], |r| line("MODE", "e", r)),
    ("PASV alone", &[227], |r| bare("PASV", "", r)),
    ("SPAS alone", &[229, 503], |r| bare("SPAS", "", r)),
    ("PORT of one", &[200], |r| line("PORT", &hosts(1, r), r)),
    ("SPOR of few", &[200, 503], |r| {
        line("SPOR", &hosts(few(r), r), r)
    }),
    ("STOR any", &[150, 503], |r| line("STOR", &any_text(r), r)),
    ("ESTO any", &[150, 503], |r| line("ESTO", &any_text(r), r)),
    ("RETR any", &[150, 503], |r| line("RETR", &any_text(r), r)),
    ("ERET any", &[150, 503], |r| line("ERET", &any_text(r), r)),
    ("MODE, 2 spaces", &[200], |r| bare("MODE", "  E", r)),
    ("MODE E, space", &[504], |r| bare("MODE", " E ", r)),
    ("MODE of others", &[504], |r| line("MODE", other_mode(r), r)),
    ("PORT of two", &[501], |r| line("PORT", &hosts(2, r), r)),
    ("PORT of more", &[501], |r| {
        line("PORT", &hosts(1 + many(r), r), r)
    }),
    ("PORT of 65", &[501], |r| line("PORT", &hosts(65, r), r)),
    ("PORT malformed", &[501], |r| {
        line("PORT", &flawed(1, malformed, r), r)
    }),
    ("PORT zero first", &[501], |r| {
        line("PORT", &flawed(1, leading_zero, r), r)
    }),
    ("PORT port 0", &[501], |r| {
        line("PORT", &flawed(1, port_0, r), r)
    }),
    ("SPOR of 64", &[200, 503], |r| {
        line("SPOR", &hosts(64, r), r)
    }),
    ("SPOR of 65", &[501, 503], |r| {
        line("SPOR", &hosts(65, r), r)
    }),
    ("SPOR malformed", &[501, 503], |r| {
        line("SPOR", &flawed(many(r), malformed, r), r)
    }),
    ("SPOR zero first", &[501, 503], |r| {
        line("SPOR", &flawed(many(r), leading_zero, r), r)
    }),
    ("SPOR port 0", &[501, 503], |r| {
        line("SPOR", &flawed(many(r), port_0, r), r)
    }),
    ("REST of few", &[350], |r| {
        bare("REST", &listed(good_ranges(few(r), r)), r)
    }),
    ("REST of many", &[350], |r| {
        bare("REST", &listed(apart(r)), r)
    }),
    ("REST of 510", &[350], |r| {
        bare("REST", &listed(short_ranges(r)), r)
    }),
    ("REST malformed", &[501], |r| {
        let good = good_ranges(r.size(4), r);
        bare("REST", &listed(with_bad(good, 0, r)), r)
    }),
    ("51 behind 64", &[501], |r| {
        bare("REST", &listed(with_bad(apart(r), MANY + 1, r)), r)
    }),
    ("51 among 510", &[501], |r| {
        bare("REST", &listed(spoil_one(short_ranges(r), r)), r)
    }),
    ("SBUF any", &[200], |r| line("SBUF", &any_text(r), r)),
    ("OPTS any", &[200], |r| line("OPTS", &any_text(r), r)),
    ("2,048 bytes", &[200], |r| {
        sized(one(&["SBUF", "OPTS"], r), LONGEST, r)
    }),
    ("2,048 of STOR", &[150, 503], |r| sized("STOR", LONGEST, r)),
    ("2,048 of RETR", &[150, 503], |r| sized("RETR", LONGEST, r)),
    ("2,049 bytes", &[500], |r| {
        sized(argument_verb(r), LONGEST + 1, r)
    }),
    ("too long", &[500], |r| {
        sized(argument_verb(r), LONGEST + r.between(1, 3_000), r)
    }),
    ("no CR LF", &[500], |r| {
        let mut line = good(r);
        line.truncate(line.len() - 2);
        line.extend(one(&["", "\r", "\n", "\n\r", "\r\n "], r).bytes());
        line
    }),
    ("under 2 bytes", &[500], |r| b"\n"[r.below(2)..].to_vec()),
    ("other byte", &[500], |r| {
        let mut line = good(r);
        let at = r.between(0, line.len() - 2);
        line.insert(at, *r.pick(&[0, 9, 10, 13, 31, 127, 128, 255]));
        line
    }),
    ("other verb", &[500], |r| bare("", other_verb(r), r)),
    ("no argument", &[501], |r| {
        bare(argument_verb(r), &" ".repeat(r.size(3)), r)
    }),
    ("argument", &[501], |r| {
        bare(no_argument_verb(r), one(&[" ", "  ", " x"], r), r)
    }),
    // Where 35 is due too.
    ("31 over 35", &[500], |r| {
        bare(one(&VERBS, r), &" ".repeat(LONGEST - 5 + r.size(9)), r)
    }),
    ("32 over 35", &[500], |r| {
        let mut line = bare(one(&VERBS, r), " ", r);
        line.truncate(line.len() - r.between(1, 2));
        line
    }),
    ("33 over 35", &[500], |r| {
        bare(no_argument_verb(r), one(&[" \t", " \x7f", " \r"], r), r)
    }),
    // It may get any code.
    ("edited", &[], |r| {
        let mut line = good(r);
        for _ in 0..r.between(1, 2) {
            edit(&mut line, r, b"\r\n \x1f\x7f\x80,-0123456789Ee");
        }
        line
    }),
];

/// A short line without a flaw.
fn good(random: &Random) -> Vec<u8> {
    let (_, _, make) = random.pick(&CASES[..MAIN]);
    make(random)
}

/// With nothing but `rest` between the verb and the line's end.
fn bare(verb: &str, rest: &str, random: &Random) -> Vec<u8> {
    format!("{}{rest}\r\n", spelled(verb, random)).into_bytes()
}

fn line(verb: &str, argument: &str, random: &Random) -> Vec<u8> {
    let spaces = " ".repeat(*random.pick(&[1, 1, 1, 1 + random.size(3)]));
    bare(verb, &(spaces + argument), random)
}

/// A line of that many bytes.
fn sized(verb: &str, bytes: usize, random: &Random) -> Vec<u8> {
    let argument = printable(bytes - verb.len() - 3, random);
    bare(verb, &format!(" {argument}"), random)
}

/// In upper case, in lower case or in any mixture.
fn spelled(verb: &str, random: &Random) -> String {
    let any_case = |letter| char::from(letter ^ (32 * random.below(2) as u8));
    match random.below(3) {
        0 => verb.to_string(),
        1 => verb.to_ascii_lowercase(),
        _ => verb.bytes().map(any_case).collect(),
    }
}

fn one(words: &[&'static str], random: &Random) -> &'static str {
    words[random.below(words.len())]
}

/// A verb that may have no argument.
fn no_argument_verb(random: &Random) -> &'static str {
    one(&["PASV", "SPAS"], random)
}

/// A verb that must have one.
fn argument_verb(random: &Random) -> &'static str {
    let mut verbs = VERBS.to_vec();
    verbs.retain(|verb| !["PASV", "SPAS"].contains(verb));
    one(&verbs, random)
}

fn other_verb(random: &Random) -> &'static str {
    let texts = [
        "USER x",
        "QUIT",
        "MODE1",
        "MODES E",
        "MOD E",
        " MODE E",
        "",
        " ",
        "1",
        "PASVX",
        "SPAS-",
        "STOR_a",
        "RE ST 0-1",
        "OPTS\"x",
    ];
    one(&texts, random)
}

fn other_mode(random: &Random) -> &'static str {
    let modes = [
        "S", "B", "C", "D", "F", "EE", "eE", "e ", "E E", "E,", "MODE E",
    ];
    one(&modes, random)
}

/// An argument that is not read.
fn any_text(random: &Random) -> String {
    printable(1 + random.size(20), random)
}

/// The first of them is no space.
fn printable(count: usize, random: &Random) -> String {
    let least = |at| if at == 0 { 33 } else { 32 };
    let bytes = (0..count).map(|at| random.between(least(at), 126) as u8);
    bytes.map(char::from).collect()
}

/// After one space.
fn listed(ranges: Vec<String>) -> String {
    format!(" {}", ranges.join(","))
}
