//! Recorded transfers: what arrived on the data channels, piece by piece, in the order of arrival.
//!
//! A request is a four-byte length of all that follows it, a two-byte kind and a body; all numbers are little-endian.
//! Kind 16 starts a transfer (the file's length, at most 32,768, then the number of pairs that each ledger has, at most
//! 256; 8 bytes each), kind 17 is a piece (the channel in one byte, then at most 16,384 bytes). The first is a start.

const FILE_LIMIT: u64 = 32_768;
const PAIR_LIMIT: u64 = 256;
const PIECE_LIMIT: usize = 16_384;

#[derive(Clone, Copy, Debug, PartialEq, Eq)]
pub enum Request<'a> {
    Start { len: u64, pairs: u64 },
    Piece { channel: u64, bytes: &'a [u8] },
}

/// The requests of a recording; none where one of them is cut short, has another kind or a wrong body length, or exceeds
/// a limit, or where the first is a piece.
pub fn requests(mut bytes: &[u8]) -> Option<Vec<Request<'_>>> {
    let mut requests = Vec::new();
    while !bytes.is_empty() {
        let (length, rest) = bytes.split_first_chunk()?;
        let length = usize::try_from(u32::from_le_bytes(*length)).ok()?;
        let (record, rest) = rest.split_at_checked(length)?;
        requests.push(request(record)?);
        bytes = rest;
    }
    let begins = !matches!(requests.first(), Some(Request::Piece { .. }));
    begins.then_some(requests)
}

fn request(record: &[u8]) -> Option<Request<'_>> {
    let (kind, body) = record.split_first_chunk()?;
    match u16::from_le_bytes(*kind) {
        16 => start(body),
        17 => piece(body),
        _ => None,
    }
}

fn start(body: &[u8]) -> Option<Request<'_>> {
    let (len, rest) = body.split_first_chunk()?;
    let pairs = rest.try_into().ok()?;
    let (len, pairs) = (u64::from_le_bytes(*len), u64::from_le_bytes(pairs));
    (len <= FILE_LIMIT && pairs <= PAIR_LIMIT).then_some(Request::Start { len, pairs })
}

fn piece(body: &[u8]) -> Option<Request<'_>> {
    let (channel, bytes) = body.split_first()?;
    let channel = u64::from(*channel);
    (bytes.len() <= PIECE_LIMIT).then_some(Request::Piece { channel, bytes })
}
