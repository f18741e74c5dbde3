//! "Control lines": command lines, reply codes and host-port lists.

use super::Answer;

pub const VERBS: [&str; 12] = [
    "MODE", "PASV", "PORT", "REST", "RETR", "STOR", "SPAS", "SPOR", "ERET", "ESTO", "SBUF", "OPTS",
];
const LONGEST_LINE: usize = 2_048;
pub const MOST_HOSTS: usize = 64;

/// The verb's number, from 1, and the argument.
pub fn line(line: &[u8]) -> Answer<(u64, &[u8])> {
    if line.len() > LONGEST_LINE {
        return Err(31);
    }
    let text = line.strip_suffix(b"\r\n").ok_or(32u64)?;
    if !text.iter().all(|byte| (32..=126).contains(byte)) {
        return Err(33);
    }
    let letters = text
        .iter()
        .take_while(|byte| byte.is_ascii_alphabetic())
        .count();
    let (verb, rest) = text.split_at(letters);
    let number = VERBS
        .iter()
        .position(|known| verb.eq_ignore_ascii_case(known.as_bytes()))
        .ok_or(34u64)?;
    if rest.first().is_some_and(|byte| *byte != b' ') {
        return Err(34);
    }
    let alone = matches!(VERBS[number], "PASV" | "SPAS");
    let argument = &rest[rest.iter().take_while(|byte| **byte == b' ').count()..];
    let wrong = if alone {
        !rest.is_empty()
    } else {
        argument.is_empty()
    };
    if wrong {
        return Err(35);
    }
    Ok((number as u64 + 1, argument))
}

/// 1 is preliminary, 5 permanent.
pub fn reply_class(code: u64) -> Answer<u64> {
    match code {
        100..=599 => Ok(code / 100),
        _ => Err(36),
    }
}

/// Fills `list` with address × 65,536 + port and answers how many there are.
pub fn hosts(argument: &[u8], list: &mut [u64]) -> Answer<usize> {
    if list.len() < MOST_HOSTS {
        return Err(43);
    }
    list.fill(0);
    let found = walk(argument, list);
    if found.is_err() {
        list.fill(0);
    }
    found
}

fn walk(argument: &[u8], list: &mut [u64]) -> Answer<usize> {
    let mut at = 0;
    for (entry, found) in list.iter_mut().zip(1..=MOST_HOSTS) {
        let (value, next) = host_at(argument, at).ok_or(41u64)?;
        *entry = value;
        match argument[next..] {
            [] => return Ok(found),
            [b' ', ..] => at = next + 1,
            _ => return Err(41),
        }
    }
    Err(if at == argument.len() { 41 } else { 42 })
}

/// The host-port that begins at a place, and the place after it.
pub fn host_at(text: &[u8], at: usize) -> Option<(u64, usize)> {
    let mut place = at;
    let mut value = 0;
    for index in 0..6 {
        if index > 0 {
            text.get(place).filter(|byte| **byte == b',')?;
            place += 1;
        }
        let rest = text.get(place..)?;
        let digits = rest.iter().take_while(|byte| byte.is_ascii_digit()).count();
        value = value * 256 + number(&rest[..digits])?;
        place += digits;
    }
    let port = value % 65_536;
    (port != 0).then_some((value, place))
}

/// At most 255. Only 0 itself may begin with a zero.
fn number(digits: &[u8]) -> Option<u64> {
    let padded = digits.len() > 1 && digits[0] == b'0';
    if padded || !(1..=3).contains(&digits.len()) {
        return None;
    }
    let value = digits
        .iter()
        .fold(0, |value, digit| value * 10 + u64::from(digit - b'0'));
    Some(value).filter(|value| *value <= 255)
}
