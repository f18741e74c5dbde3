//! "Replay of a night" (document 02, Item 4): from a recording's bytes to the printed text. All numbers little-endian.

use super::receiver::Transfer;
use super::screen;

const START: u16 = 16;
const PIECE: u16 = 17;

const MOST_FILE: u64 = 32_768;
const MOST_PAIRS: u64 = 256;
/// A kind, a channel byte and the longest piece. A record that says more is malformed, whatever it holds.
const MOST_LENGTH: usize = 2 + 1 + 16_384;

/// What is wrong with a record. The printed line does not tell.
#[derive(Clone, Copy, Debug, PartialEq, Eq)]
pub enum Malformed {
    /// The input ends in the length field.
    CutLength,
    /// The input ends before all that the length field counts.
    CutBody,
    /// No room for a kind.
    TooShort,
    TooLong,
    OtherKind,
    /// A start of other than two numbers.
    StartBody,
    LongFile,
    ManyPairs,
    NoChannel,
    /// A piece before any start.
    NoTransfer,
}

/// All that is printed for a recording.
pub fn replay(recording: &[u8]) -> Vec<u8> {
    let (lines, stop) = answered(recording);
    with_stop(lines, stop)
}

/// What has to be printed once these bytes have come, while more may follow: a cut record may still become whole.
pub fn so_far(bytes: &[u8]) -> Vec<u8> {
    let (lines, stop) = answered(bytes);
    let known = stop.filter(|(_, why)| !matches!(why, Malformed::CutLength | Malformed::CutBody));
    with_stop(lines, known)
}

/// What is wrong with the record at which a recording stops.
pub fn malformed(recording: &[u8]) -> Option<Malformed> {
    let (_, stop) = answered(recording);
    stop.map(|(_, why)| why)
}

fn with_stop(mut lines: String, stop: Option<(u64, Malformed)>) -> Vec<u8> {
    if let Some((number, _)) = stop {
        lines += &format!("RECORD {number}\n");
    }
    lines.into_bytes()
}

/// The lines of the records before the first malformed one, and the number of that one.
fn answered(mut bytes: &[u8]) -> (String, Option<(u64, Malformed)>) {
    let mut lines = String::new();
    let mut running = None;
    let mut number = 0;
    while !bytes.is_empty() {
        let answer = first(bytes).and_then(|(record, rest)| {
            bytes = rest;
            answer(record, &mut running)
        });
        match answer {
            Ok(answer) => lines += &answer,
            Err(why) => return (lines, Some((number, why))),
        }
        number += 1;
    }
    (lines, None)
}

/// The first record, without its length field, and the bytes behind it.
fn first(bytes: &[u8]) -> Result<(&[u8], &[u8]), Malformed> {
    let (length, rest) = bytes.split_first_chunk().ok_or(Malformed::CutLength)?;
    let length = u32::from_le_bytes(*length) as usize;
    if length > MOST_LENGTH {
        return Err(Malformed::TooLong);
    }
    rest.split_at_checked(length).ok_or(Malformed::CutBody)
}

/// Carries out one record, and answers its lines.
fn answer(record: &[u8], running: &mut Option<Running>) -> Result<String, Malformed> {
    let (kind, body) = record.split_first_chunk().ok_or(Malformed::TooShort)?;
    match u16::from_le_bytes(*kind) {
        START => Ok(running.insert(Running::start(body)?).screen_line()),
        PIECE => {
            let (channel, piece) = body.split_first().ok_or(Malformed::NoChannel)?;
            let running = running.as_mut().ok_or(Malformed::NoTransfer)?;
            Ok(running.piece(*channel, piece))
        }
        _ => Err(Malformed::OtherKind),
    }
}

/// The transfer since the last start, with what is lent to its calls.
struct Running {
    transfer: Transfer,
    file: Vec<u8>,
    claimed: Vec<u64>,
    doubtful: Vec<u64>,
}

impl Running {
    fn start(body: &[u8]) -> Result<Running, Malformed> {
        let body: &[u8; 16] = body.try_into().map_err(|_| Malformed::StartBody)?;
        let number = |at: usize| u64::from_le_bytes(body[at..at + 8].try_into().unwrap());
        let (len, pairs) = (number(0), number(8));
        if len > MOST_FILE {
            return Err(Malformed::LongFile);
        }
        if pairs > MOST_PAIRS {
            return Err(Malformed::ManyPairs);
        }
        let mut claimed = vec![0; 2 * pairs as usize];
        let mut doubtful = claimed.clone();
        Ok(Running {
            transfer: Transfer::start(len, &mut claimed, &mut doubtful).unwrap(),
            file: vec![0; len as usize],
            claimed,
            doubtful,
        })
    }

    fn piece(&mut self, channel: u8, piece: &[u8]) -> String {
        let received = self.transfer.receive(
            channel.into(),
            piece,
            &mut self.file,
            &mut self.claimed,
            &mut self.doubtful,
        );
        match received {
            Ok((_, taken)) => left(piece.len() - taken) + &self.screen_line(),
            Err(number) => format!("REFUSED {number}\n"),
        }
    }

    fn screen_line(&self) -> String {
        screen::line(&self.transfer, &self.claimed, &self.doubtful).unwrap()
    }
}

/// Nothing where nothing remains.
fn left(remaining: usize) -> String {
    match remaining {
        0 => String::new(),
        _ => format!("LEFT {remaining}\n"),
    }
}
