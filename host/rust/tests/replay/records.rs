//! Records of a recording, as bytes.

pub const MOST_FILE: u64 = 32_768;
pub const MOST_PAIRS: u64 = 256;
pub const MOST_PIECE: usize = 16_384;

pub const START: u16 = 16;
pub const PIECE: u16 = 17;

pub fn record(kind: u16, body: &[u8]) -> Vec<u8> {
    let length = 2 + body.len() as u32;
    [&length.to_le_bytes()[..], &kind.to_le_bytes(), body].concat()
}

pub fn start(len: u64, pairs: u64) -> Vec<u8> {
    record(START, &start_body(len, pairs))
}

pub fn start_body(len: u64, pairs: u64) -> Vec<u8> {
    [len.to_le_bytes(), pairs.to_le_bytes()].concat()
}

pub fn piece(channel: u8, bytes: &[u8]) -> Vec<u8> {
    record(PIECE, &[&[channel], bytes].concat())
}
