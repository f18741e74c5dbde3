//! The 17-byte header of an extended block.

use crate::raw;
use crate::Refusal;

pub const LENGTH: usize = 17;

#[derive(Clone, Copy, Debug, PartialEq, Eq)]
pub enum Header {
    /// `length` payload bytes follow, for the file's bytes from `offset` on.
    Data {
        descriptor: u8,
        length: u64,
        offset: u64,
    },
    /// The sender uses `count` channels. No payload follows.
    Eodc { descriptor: u8, count: u64 },
}

pub fn read(bytes: &[u8]) -> Result<Header, Refusal> {
    let fields = unsafe { raw::cob_header_read(bytes.as_ptr(), bytes.len()) };
    let descriptor = fields.descriptor;
    let header = if fields.is_eodc == 1 {
        Header::Eodc {
            descriptor,
            count: fields.third,
        }
    } else {
        Header::Data {
            descriptor,
            length: fields.length,
            offset: fields.third,
        }
    };
    Refusal::unless(fields.refused, header)
}

/// The descriptor decides which header is written: one with bit 64 has a count, and no length.
pub fn write(header: Header) -> Result<[u8; LENGTH], Refusal> {
    let (descriptor, length, third) = match header {
        Header::Data {
            descriptor,
            length,
            offset,
        } => (descriptor, length, offset),
        Header::Eodc { descriptor, count } => (descriptor, 0, count),
    };
    let mut out = [0; LENGTH];
    let answer =
        unsafe { raw::cob_header_write(descriptor, length, third, out.as_mut_ptr(), out.len()) };
    Refusal::unless(answer.refused, out)
}
