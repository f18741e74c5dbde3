//! Reply codes of the control channel.

use crate::raw;
use crate::Refusal;

/// Numbered by the first digit of its codes.
#[derive(Clone, Copy, Debug, PartialEq, Eq, Hash)]
pub enum Class {
    Preliminary = 1,
    Completion,
    Intermediate,
    Transient,
    Permanent,
}

pub fn class(code: u16) -> Result<Class, Refusal> {
    let reply = unsafe { raw::cob_reply_class(code) };
    let class = match reply.digit {
        1 => Class::Preliminary,
        2 => Class::Completion,
        3 => Class::Intermediate,
        4 => Class::Transient,
        _ => Class::Permanent,
    };
    Refusal::unless(reply.refused, class)
}
