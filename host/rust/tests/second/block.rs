//! "The block": the header of 17 bytes in extended block mode.

use super::{put, Answer};

pub const LENGTH: usize = 17;

const EODC: u8 = 64;
const SUSPECT: u8 = 32;
const EOD: u8 = 8;

#[derive(Clone, Copy, Debug, PartialEq, Eq)]
pub struct Header {
    pub descriptor: u8,
    /// Bytes of payload; an EODC block's field is ignored in reading and in writing.
    pub length: u64,
    /// Where the payload goes; in an EODC block the number of end markers expected.
    pub place: u64,
}

impl Header {
    pub fn from_bytes(bytes: &[u8; LENGTH]) -> Header {
        let number = |at: usize| u64::from_be_bytes(bytes[at..at + 8].try_into().unwrap());
        let descriptor = bytes[0];
        let length = if descriptor & EODC != 0 { 0 } else { number(1) };
        Header {
            descriptor,
            length,
            place: number(9),
        }
    }

    pub fn to_bytes(self) -> [u8; LENGTH] {
        let mut bytes = [0; LENGTH];
        bytes[0] = self.descriptor;
        if !self.is_eodc() {
            bytes[1..9].copy_from_slice(&self.length.to_be_bytes());
        }
        bytes[9..].copy_from_slice(&self.place.to_be_bytes());
        bytes
    }

    pub fn is_eodc(&self) -> bool {
        self.descriptor & EODC != 0
    }

    /// Whether the sender suspects errors in the payload.
    pub fn is_suspect(&self) -> bool {
        self.descriptor & SUSPECT != 0
    }

    /// Whether the channel ends with this block.
    pub fn is_last(&self) -> bool {
        self.descriptor & EOD != 0
    }

    pub fn judge_descriptor(&self) -> Answer<()> {
        match self.descriptor {
            d if d & (1 | 2) != 0 => Err(11),
            d if d & (128 | 16) != 0 => Err(12),
            0 | 8 | 12 | 32 | 40 | 44 | 64 | 72 | 76 => Ok(()),
            _ => Err(13),
        }
    }

    fn judge(&self) -> Answer<()> {
        self.judge_descriptor()?;
        if self.is_eodc() && !(1..=64).contains(&self.place) {
            return Err(15);
        }
        Ok(())
    }
}

pub fn read(bytes: &[u8]) -> Answer<Header> {
    let header = Header::from_bytes(bytes.try_into().map_err(|_| 21u64)?);
    header.judge()?;
    Ok(header)
}

pub fn write(header: Header, out: &mut [u8]) -> Answer<usize> {
    header.judge()?;
    put(&header.to_bytes(), out)
}
