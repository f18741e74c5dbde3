//! Host-port lists, the arguments of PORT and SPOR.

use crate::raw;
use crate::Refusal;
use std::net::SocketAddrV4;

/// The most host-ports of a list.
pub const LIMIT: usize = 64;

fn socket(value: u64) -> SocketAddrV4 {
    let address = (value >> 16) as u32;
    SocketAddrV4::new(address.into(), value as u16)
}

/// Reads 1 to 64 host-ports with one space between. Malformed (41) are a number with a leading zero, which a lone 0 is not, and port 0:
/// two texts that are read as the same addresses are the same text.
pub fn read(text: impl AsRef<[u8]>) -> Result<Vec<SocketAddrV4>, Refusal> {
    let text = text.as_ref();
    let mut list = [0; LIMIT];
    let answer =
        unsafe { raw::cob_hosts_read(text.as_ptr(), text.len(), list.as_mut_ptr(), list.len()) };
    let found = list[..answer.count].iter().map(|v| socket(*v));
    Refusal::unless(answer.refused, found.collect())
}

/// The host-port at a place of a text, and the place after it. What stands before the place is not looked at.
pub fn at(text: impl AsRef<[u8]>, at: usize) -> Option<(SocketAddrV4, usize)> {
    let text = text.as_ref();
    let step = unsafe { raw::cob_host_at(text.as_ptr(), text.len(), at) };
    (step.found == 1).then(|| (socket(step.value), step.next))
}
