//! Headers and the texts of the control channel.

use super::buffers;
use super::library;
use super::random::Random;
use super::second::block::{self, Header};
use super::second::control::{self, MOST_HOSTS, VERBS};
use super::seen::Seen;
use std::ptr;

pub fn headers(random: &Random, seen: &mut Seen) {
    let length = *random.pick(&[17, 17, 17, 16, 18, random.size(40)]);
    let mut bytes = random.bytes(length);
    if length > 9 && random.one_in(2) {
        bytes[0] = descriptor(random);
        bytes[9..].fill(0);
        bytes[length - 1] = random.size(70) as u8;
    }
    let answer = block::read(&bytes);
    assert_eq!(library::header_read(&bytes), answer, "{bytes:?}");
    seen.note("header read", &answer);

    let descriptor = descriptor(random);
    let place = *random.pick(&[random.size(70) as u64, random.wild()]);
    let header = Header {
        descriptor,
        length: random.wild(),
        place,
    };
    let written = buffers::write(
        17,
        random,
        |out| block::write(header, out),
        |out| library::header_write(header, out),
    );
    seen.note("header write", &written);
}

fn descriptor(random: &Random) -> u8 {
    *random.pick(&[random.byte(), random.byte() & 108, 44, 64, 76])
}

/// One edit, at the end as often as anywhere else.
pub fn edit(text: &mut Vec<u8>, random: &Random, bytes: &[u8]) {
    let end = text.len() - random.size(text.len().min(3));
    let at = *random.pick(&[random.between(0, text.len()), end]);
    let byte = *random.pick(bytes);
    match random.below(4) {
        0 => text.insert(at, byte),
        1 => text.truncate(at),
        2 if at < text.len() => text[at] = byte,
        _ if at < text.len() => drop(text.remove(at)),
        _ => text.push(byte),
    }
}

pub fn lines(random: &Random, seen: &mut Seen) {
    let mut line = random.pick(&VERBS).as_bytes().to_vec();
    for letter in &mut line {
        *letter ^= 32 * random.below(2) as u8;
    }
    line.resize(line.len() + random.size(3), b' ');
    let long = random.one_in(8);
    let argument = if long {
        random.between(2_036, 2_046)
    } else {
        random.size(20)
    };
    line.extend((0..argument).map(|_| random.between(32, 126) as u8));
    line.extend(b"\r\n");
    for _ in 0..random.size(2) {
        edit(&mut line, random, b"\r\n \x1f\x7f\x80~aZ@[`{1");
    }
    let answer = control::line(&line);
    let theirs = library::line(&line);
    assert_eq!(theirs.map(located), answer.map(located), "{line:?}");
    seen.note("line", &answer);
}

/// With the place in the line where the argument begins.
fn located((verb, argument): (u64, &[u8])) -> (u64, &[u8], Option<*const u8>) {
    (verb, argument, argument.first().map(ptr::from_ref))
}

pub fn replies(random: &Random, seen: &mut Seen) {
    let code = *random.pick(&[random.between(90, 610) as u16, random.next() as u16]);
    let answer = control::reply_class(code.into());
    assert_eq!(library::reply_class(code), answer, "{code}");
    seen.note("reply", &answer);
}

pub fn hosts(random: &Random, seen: &mut Seen) {
    let mut list: Vec<[String; 6]> = (0..how_many(random)).map(|_| host_port(random)).collect();
    let flaw = random.one_in(4).then(|| spoil(&mut list, random));
    let words: Vec<String> = list.iter().map(|numbers| numbers.join(",")).collect();
    let mut text = words.join(" ").into_bytes();
    let edited = random.one_in(6);
    if edited {
        edit_list(&mut text, random);
    }
    let lent = room(random);
    let answer = buffers::read(
        lent,
        random,
        |list| control::hosts(&text, list),
        |list| library::hosts(&text, list),
    );
    seen.note("hosts", &answer);
    if let Ok(found) = answer {
        seen.note_number("hosts found", found as u64);
    }
    if let Some(flaw) = flaw.filter(|_| !edited && lent >= MOST_HOSTS) {
        assert!(matches!(answer, Err(41 | 42)), "{flaw}: {text:?}");
        seen.note(flaw, &answer);
    }

    host_at(&text, random.size(text.len() + 2));
    host_at(&text, random.wild() as usize);
    if random.one_in(4) {
        each_host_at(&text, answer.is_ok(), seen);
    }
}

fn how_many(random: &Random) -> usize {
    let few = random.between(1, 4);
    let more = random.between(MOST_HOSTS + 1, MOST_HOSTS + 2);
    *random.pick(&[1, 2, few, MOST_HOSTS - 1, MOST_HOSTS, MOST_HOSTS, more])
}

/// How many entries are lent.
fn room(random: &Random) -> usize {
    if random.one_in(8) {
        *random.pick(&[MOST_HOSTS - 1, random.size(MOST_HOSTS - 1)])
    } else {
        MOST_HOSTS + random.size(136)
    }
}

/// The numbers of a good one, with many a 0.
pub fn host_port(random: &Random) -> [String; 6] {
    let most = *random.pick(&[0, 255, 255, 255]);
    let [a, b, c, d] = [most; 4].map(|most| *random.pick(&[0, most, random.size(most)]));
    let half = 1 + random.size(254);
    let port = *random.pick(&[half, half * 256, 1 + random.size(65_534), 65_535]);
    [a, b, c, d, port / 256, port % 256].map(|number| number.to_string())
}

/// Makes one of them malformed, and answers how.
fn spoil(list: &mut [[String; 6]], random: &Random) -> &'static str {
    let last = list.len() - 1;
    let at = *random.pick(&[
        0,
        random.between(0, last),
        last.min(MOST_HOSTS - 1),
        last.min(MOST_HOSTS),
        last.min(MOST_HOSTS),
    ]);
    let place = random.below(6);
    match random.below(4) {
        0 => {
            list[at][4..].fill("0".to_string());
            "port 0"
        }
        1 => {
            list[at][place] = random.pick(&[256, random.between(257, 999)]).to_string();
            "above 255"
        }
        _ => {
            list[at][place] = padded(random);
            "leading zero"
        }
    }
}

/// From 00 to 09, or from 000 to 099.
pub fn padded(random: &Random) -> String {
    let digits = random.between(1, 2);
    let most = 10usize.pow(digits as u32) - 1;
    let number = *random.pick(&[random.size(most), random.between(0, most)]);
    format!("0{number:0digits$}")
}

fn edit_list(text: &mut Vec<u8>, random: &Random) {
    if random.one_in(3) {
        text.push(b' ');
        return;
    }
    for _ in 0..random.between(1, 2) {
        edit(text, random, b"  ,,00123456789x.-");
    }
}

/// Compares what is found at a place.
fn host_at(text: &[u8], at: usize) -> Option<(u64, usize)> {
    let found = control::host_at(text, at);
    assert_eq!(library::host_at(text, at), found, "{text:?} at {at}");
    found
}

/// Where the text begins and after each space.
fn each_host_at(text: &[u8], accepted: bool, seen: &mut Seen) {
    for at in (0..=text.len()).filter(|at| *at == 0 || text[at - 1] == b' ') {
        match host_at(text, at) {
            Some((value, _)) if accepted => note_zeros(value, seen),
            _ => {}
        }
    }
}

fn note_zeros(value: u64, seen: &mut Seen) {
    for (place, number) in (0..).zip(&value.to_be_bytes()[2..]) {
        if *number == 0 {
            seen.note_number("lone zero", place);
        }
    }
}
