//! The library's raw entries, answering as the second reading does.

use super::second::block::Header;
use super::second::receiver::{Channel, Transfer, Verdict};
use super::second::screen::Shown;
use super::second::sender::Sender;
use super::second::Answer;
use cobnutter::raw;

/// Of a refused call every other field is 0.
fn unless<T: Default + PartialEq>(refused: u8, value: T) -> Answer<T> {
    if refused == 0 {
        return Ok(value);
    }
    assert!(value == T::default());
    Err(refused.into())
}

fn written(answer: raw::Written) -> Answer<usize> {
    unless(answer.refused, answer.length)
}

pub fn to_raw(transfer: &Transfer) -> raw::Transfer {
    let Transfer {
        len,
        pairs,
        count,
        fault,
        on,
        heads,
        channels,
    } = *transfer;
    raw::Transfer {
        len,
        pairs,
        count,
        fault,
        on,
        heads: heads.as_flattened().try_into().unwrap(),
        channels: channels.map(
            |Channel {
                 state,
                 held,
                 next,
                 left,
             }| raw::Channel {
                state,
                held,
                next,
                left,
            },
        ),
    }
}

fn to_verdict(number: u8) -> Verdict {
    let words = [
        Verdict::Guess,
        Verdict::Result,
        Verdict::Broken,
        Verdict::Suspect,
    ];
    words[usize::from(number)]
}

/// The transfer is fresh, of F = 0 and R = 0, where the start is refused.
pub fn start(len: u64, claimed: &mut [u64], doubtful: &mut [u64]) -> (Answer<()>, raw::Transfer) {
    let started = unsafe {
        raw::cob2_start(
            len,
            claimed.as_mut_ptr(),
            claimed.len(),
            doubtful.as_mut_ptr(),
            doubtful.len(),
        )
    };
    (unless(started.refused, ()), started.transfer)
}

/// The bytes taken, and the word, which a refused call names too.
pub fn receive(
    transfer: &mut raw::Transfer,
    channel: u64,
    piece: &[u8],
    file: &mut [u8],
    claimed: &mut [u64],
    doubtful: &mut [u64],
) -> (Answer<usize>, Verdict) {
    let received = unsafe {
        raw::cob2_receive(
            *transfer,
            channel,
            piece.as_ptr(),
            piece.len(),
            file.as_mut_ptr(),
            file.len(),
            claimed.as_mut_ptr(),
            claimed.len(),
            doubtful.as_mut_ptr(),
            doubtful.len(),
        )
    };
    *transfer = received.transfer;
    let taken = unless(received.refused, received.taken);
    (taken, to_verdict(received.verdict))
}

pub fn shown(transfer: &raw::Transfer, claimed: &[u64], doubtful: &[u64]) -> Answer<Shown> {
    let raw::Shown {
        ended,
        count,
        fault,
        on,
        bytes,
        doubtful,
        verdict,
        refused,
    } = unsafe {
        raw::cob_shown(
            *transfer,
            claimed.as_ptr(),
            claimed.len(),
            doubtful.as_ptr(),
            doubtful.len(),
        )
    };
    let numbers = [ended, count, fault, on, bytes, doubtful, verdict.into()];
    unless(refused, numbers).map(|_| Shown {
        verdict: to_verdict(verdict),
        ended,
        count,
        fault,
        on,
        bytes,
        doubtful,
    })
}

pub fn screen_line(
    transfer: &raw::Transfer,
    claimed: &[u64],
    doubtful: &[u64],
    out: &mut [u8],
) -> Answer<usize> {
    written(unsafe {
        raw::cob2_screen_line(
            *transfer,
            claimed.as_ptr(),
            claimed.len(),
            doubtful.as_ptr(),
            doubtful.len(),
            out.as_mut_ptr(),
            out.len(),
        )
    })
}

pub fn sender_to_raw(sender: &Sender) -> raw::Sender {
    let Sender {
        len,
        count,
        size,
        given,
    } = *sender;
    raw::Sender {
        len,
        count,
        size,
        given,
    }
}

/// The sender is all 0 where the beginning is refused.
pub fn sender_begin(len: u64, count: u64, size: u64) -> (Answer<()>, raw::Sender) {
    let begun = unsafe { raw::cob_sender_begin(len, count, size) };
    (unless(begun.refused, ()), begun.sender)
}

pub fn sender_next(
    sender: &mut raw::Sender,
    channel: u64,
    count: u64,
    size: u64,
    file: &[u8],
    out: &mut [u8],
) -> Answer<usize> {
    let sent = unsafe {
        raw::cob_sender_next(
            *sender,
            channel,
            count,
            size,
            file.as_ptr(),
            file.len(),
            out.as_mut_ptr(),
            out.len(),
        )
    };
    *sender = sent.sender;
    unless(sent.refused, sent.length)
}

pub fn header_read(bytes: &[u8]) -> Answer<Header> {
    let fields = unsafe { raw::cob_header_read(bytes.as_ptr(), bytes.len()) };
    let raw::Fields {
        length,
        third,
        descriptor,
        is_eodc,
        refused,
    } = fields;
    assert_eq!(is_eodc, descriptor >> 6 & 1);
    let fields = unless(refused, (descriptor, length, third));
    fields.map(|(descriptor, length, place)| Header {
        descriptor,
        length,
        place,
    })
}

pub fn header_write(header: Header, out: &mut [u8]) -> Answer<usize> {
    let Header {
        descriptor,
        length,
        place,
    } = header;
    written(unsafe {
        raw::cob_header_write(descriptor, length, place, out.as_mut_ptr(), out.len())
    })
}

pub fn line(line: &[u8]) -> Answer<(u64, &[u8])> {
    let raw::Command {
        from,
        to,
        verb,
        refused,
    } = unsafe { raw::cob_line_read(line.as_ptr(), line.len()) };
    unless(refused, (verb.into(), &line[from..to]))
}

pub fn reply_class(code: u16) -> Answer<u64> {
    let reply = unsafe { raw::cob_reply_class(code) };
    unless(reply.refused, reply.digit.into())
}

pub fn hosts(argument: &[u8], list: &mut [u64]) -> Answer<usize> {
    let hosts = unsafe {
        raw::cob_hosts_read(
            argument.as_ptr(),
            argument.len(),
            list.as_mut_ptr(),
            list.len(),
        )
    };
    unless(hosts.refused, hosts.count)
}

pub fn host_at(text: &[u8], at: usize) -> Option<(u64, usize)> {
    let raw::Found { value, next, found } =
        unsafe { raw::cob_host_at(text.as_ptr(), text.len(), at) };
    assert!(found == 1 || (value, next) == (0, 0));
    (found == 1).then_some((value, next))
}

pub fn ranges_read(text: &[u8], ledger: &mut [u64]) -> Answer<()> {
    let refused = unsafe {
        raw::cob_ranges_read(text.as_ptr(), text.len(), ledger.as_mut_ptr(), ledger.len())
    };
    unless(refused, ())
}

pub fn ranges_write(ledger: &[u64], out: &mut [u8]) -> Answer<usize> {
    written(unsafe {
        raw::cob_ranges_write(ledger.as_ptr(), ledger.len(), out.as_mut_ptr(), out.len())
    })
}

pub fn saved_read(record: &[u8], ledger: &mut [u64]) -> Answer<()> {
    let refused = unsafe {
        raw::cob_saved_read(
            record.as_ptr(),
            record.len(),
            ledger.as_mut_ptr(),
            ledger.len(),
        )
    };
    unless(refused, ())
}

pub fn saved_write(ledger: &[u64], out: &mut [u8]) -> Answer<usize> {
    written(unsafe {
        raw::cob_saved_write(ledger.as_ptr(), ledger.len(), out.as_mut_ptr(), out.len())
    })
}

pub fn saved2_read(record: &[u8], ledger: &mut [u64]) -> Answer<u64> {
    let loaded = unsafe {
        raw::cob_saved2_read(
            record.as_ptr(),
            record.len(),
            ledger.as_mut_ptr(),
            ledger.len(),
        )
    };
    unless(loaded.refused, loaded.length)
}

pub fn saved_to_2(file_length: u64, record: &[u8], out: &mut [u8]) -> Answer<usize> {
    written(unsafe {
        raw::cob_saved_to_2(
            file_length,
            record.as_ptr(),
            record.len(),
            out.as_mut_ptr(),
            out.len(),
        )
    })
}

pub fn saved_to_1(record: &[u8], out: &mut [u8]) -> Answer<usize> {
    written(unsafe {
        raw::cob_saved_to_1(record.as_ptr(), record.len(), out.as_mut_ptr(), out.len())
    })
}
