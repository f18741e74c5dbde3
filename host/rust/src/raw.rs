//! The proved functions as they are linked, and the structs that they take and answer.
//!
//! In every answer `refused` is the number of the refusal, 0 where there is none, and a field that means nothing in a case
//! is 0. A slice is a pointer and a length. No two slices of one call may overlap, and a pointer is never null, not even
//! with the length 0; [`slice::as_ptr`] of a Rust slice is never null. A function named `cob2_` took one
//! ledger in the first version of the library, and takes two now: a program that was built for that version does not link.

/// One of a transfer's 64 channels. Its fields are the library's own, as those of [`Transfer`] are.
#[repr(C)]
#[derive(Clone, Copy, Debug, Default, PartialEq, Eq)]
pub struct Channel {
    /// 0 unused, 1 in a header, 2 in a payload, 3 in a payload after which the channel ends, 4 ended.
    pub state: u8,
    /// How many bytes of a header are held; 0 unless in a header.
    pub held: u8,
    /// The next place of the payload; 0 unless in one.
    pub next: u64,
    /// The payload's bytes that are still to come; 0 unless in one.
    pub left: u64,
}

/// What a receiver remembers between calls. The fields are the library's own: a host holds a transfer and hands it on. They
/// are listed because it goes by value. What they say is asked with [`cob_shown`].
#[repr(C)]
#[derive(Clone, Copy, Debug, PartialEq, Eq)]
pub struct Transfer {
    /// The file's length, F.
    pub len: u64,
    /// The pairs of each ledger, R.
    pub pairs: u64,
    /// The number of end markers that the sender announced; 0 while it is unknown.
    pub count: u64,
    /// The fault's number; 0 where there is none.
    pub fault: u64,
    /// The fault's channel; 0 where there is none.
    pub on: u64,
    /// The held header bytes, 16 for each channel.
    pub heads: [u8; 1024],
    pub channels: [Channel; 64],
}

#[repr(C)]
#[derive(Clone, Copy, Debug, PartialEq, Eq)]
pub struct Started {
    pub transfer: Transfer,
    pub refused: u8,
}

#[repr(C)]
#[derive(Clone, Copy, Debug, PartialEq, Eq)]
pub struct Received {
    pub transfer: Transfer,
    /// The bytes of the piece that were taken.
    pub taken: usize,
    /// 0 GUESS, 1 RESULT, 2 BROKEN, 3 SUSPECT, also where the call is refused.
    pub verdict: u8,
    pub refused: u8,
}

/// What the screen line says.
#[repr(C)]
#[derive(Clone, Copy, Debug, PartialEq, Eq)]
pub struct Shown {
    /// The channels that have ended.
    pub ended: u64,
    /// The number of end markers that the sender announced; 0 while it is unknown.
    pub count: u64,
    /// The fault's number; 0 where there is none.
    pub fault: u64,
    /// The fault's channel; 0 where there is none.
    pub on: u64,
    /// The payload bytes stored since the start.
    pub bytes: u64,
    /// How many bytes the doubtful ranges hold, whatever the verdict is.
    pub doubtful: u64,
    /// 0 GUESS, 1 RESULT, 2 BROKEN, 3 SUSPECT.
    pub verdict: u8,
    pub refused: u8,
}

/// What every writer answers.
#[repr(C)]
#[derive(Clone, Copy, Debug, PartialEq, Eq)]
pub struct Written {
    /// The bytes written at the front of those lent.
    pub length: usize,
    pub refused: u8,
}

/// What a sender remembers between calls.
#[repr(C)]
#[derive(Clone, Copy, Debug, PartialEq, Eq)]
pub struct Sender {
    /// The file's length.
    pub len: u64,
    /// The number of channels.
    pub count: u64,
    /// The most bytes of the file in a block.
    pub size: u64,
    /// How many blocks each channel was given, its ending counted as one.
    pub given: [u64; 64],
}

#[repr(C)]
#[derive(Clone, Copy, Debug, PartialEq, Eq)]
pub struct Begun {
    /// All 0 where the beginning is refused.
    pub sender: Sender,
    pub refused: u8,
}

#[repr(C)]
#[derive(Clone, Copy, Debug, PartialEq, Eq)]
pub struct Sent {
    pub sender: Sender,
    /// The bytes written at the front of those lent.
    pub length: usize,
    pub refused: u8,
}

#[repr(C)]
#[derive(Clone, Copy, Debug, PartialEq, Eq)]
pub struct Fields {
    /// The payload's length; 0 with EODC.
    pub length: u64,
    /// The offset, or the number of end markers with EODC.
    pub third: u64,
    pub descriptor: u8,
    /// 1 with EODC, else 0.
    pub is_eodc: u8,
    pub refused: u8,
}

#[repr(C)]
#[derive(Clone, Copy, Debug, PartialEq, Eq)]
pub struct Command {
    /// The argument is `line[from..to]`.
    pub from: usize,
    pub to: usize,
    /// 1 to 12: MODE, PASV, PORT, REST, RETR, STOR, SPAS, SPOR, ERET, ESTO, SBUF, OPTS.
    pub verb: u8,
    pub refused: u8,
}

#[repr(C)]
#[derive(Clone, Copy, Debug, PartialEq, Eq)]
pub struct Reply {
    /// 1 preliminary, 2 completion, 3 intermediate, 4 transient, 5 permanent.
    pub digit: u8,
    pub refused: u8,
}

#[repr(C)]
#[derive(Clone, Copy, Debug, PartialEq, Eq)]
pub struct List {
    /// How many host-ports the text has.
    pub count: usize,
    pub refused: u8,
}

#[repr(C)]
#[derive(Clone, Copy, Debug, PartialEq, Eq)]
pub struct Found {
    /// address * 65,536 + port.
    pub value: u64,
    /// The place after it.
    pub next: usize,
    /// 1 where a host-port is at the place, else 0.
    pub found: u8,
}

#[repr(C)]
#[derive(Clone, Copy, Debug, PartialEq, Eq)]
pub struct LoadedFor {
    /// The length of the file that the ledger is for.
    pub length: u64,
    pub refused: u8,
}

/// A console's state, which begins as all 0. Every number means something.
#[repr(C)]
#[derive(Clone, Copy, Debug, Default, PartialEq, Eq)]
pub struct Console {
    /// 0 where MODE E was not asked for; any other number where it was.
    pub mode_e: u8,
    /// 1 listening, 2 connecting; any other number says no endpoint.
    pub endpoint: u8,
    /// 0 where no transfer runs; any other number where one does.
    pub running: u8,
}

/// What a console answers.
#[repr(C)]
#[derive(Clone, Copy, Debug, PartialEq, Eq)]
pub struct ConsoleAnswer {
    /// The console from now on.
    pub console: Console,
    /// The reply code; 0 where there is none to send.
    pub code: u16,
    /// 1 where the word SUSPECT goes with the code, else 0.
    pub suspect: u8,
}

extern "C" {
    /// A fresh transfer for a file of `len` bytes; zeroes both ledgers.
    pub fn cob2_start(
        len: u64,
        claimed: *mut u64,
        claimed_len: usize,
        doubtful: *mut u64,
        doubtful_len: usize,
    ) -> Started;
    /// Takes a piece that arrived on a channel.
    pub fn cob2_receive(
        transfer: Transfer,
        channel: u64,
        piece: *const u8,
        piece_len: usize,
        file: *mut u8,
        file_len: usize,
        claimed: *mut u64,
        claimed_len: usize,
        doubtful: *mut u64,
        doubtful_len: usize,
    ) -> Received;
    /// The screen line as numbers.
    pub fn cob_shown(
        transfer: Transfer,
        claimed: *const u64,
        claimed_len: usize,
        doubtful: *const u64,
        doubtful_len: usize,
    ) -> Shown;
    pub fn cob2_screen_line(
        transfer: Transfer,
        claimed: *const u64,
        claimed_len: usize,
        doubtful: *const u64,
        doubtful_len: usize,
        out: *mut u8,
        out_len: usize,
    ) -> Written;

    /// A sender for a file of `len` bytes.
    pub fn cob_sender_begin(len: u64, count: u64, size: u64) -> Begun;
    /// Writes the next block of a channel. `count` and `size` are those that the sender was begun with.
    pub fn cob_sender_next(
        sender: Sender,
        channel: u64,
        count: u64,
        size: u64,
        file: *const u8,
        file_len: usize,
        out: *mut u8,
        out_len: usize,
    ) -> Sent;

    pub fn cob_header_read(bytes: *const u8, bytes_len: usize) -> Fields;
    /// `third` is the offset, or the number of end markers with EODC.
    pub fn cob_header_write(
        descriptor: u8,
        length: u64,
        third: u64,
        out: *mut u8,
        out_len: usize,
    ) -> Written;

    pub fn cob_line_read(line: *const u8, line_len: usize) -> Command;
    pub fn cob_reply_class(code: u16) -> Reply;
    /// Fills a list of at least 64 entries with the host-ports of a text.
    pub fn cob_hosts_read(
        text: *const u8,
        text_len: usize,
        list: *mut u64,
        list_len: usize,
    ) -> List;
    /// The host-port at a place of a text.
    pub fn cob_host_at(text: *const u8, text_len: usize, at: usize) -> Found;

    /// Answers the number of the refusal, 0 where there is none.
    pub fn cob_ranges_read(
        text: *const u8,
        text_len: usize,
        ledger: *mut u64,
        ledger_len: usize,
    ) -> u8;
    pub fn cob_ranges_write(
        ledger: *const u64,
        ledger_len: usize,
        out: *mut u8,
        out_len: usize,
    ) -> Written;
    /// Answers the number of the refusal, 0 where there is none.
    pub fn cob_saved_read(
        bytes: *const u8,
        bytes_len: usize,
        ledger: *mut u64,
        ledger_len: usize,
    ) -> u8;
    pub fn cob_saved_write(
        ledger: *const u64,
        ledger_len: usize,
        out: *mut u8,
        out_len: usize,
    ) -> Written;
    /// Reads a saved ledger of kind 2, which says how long the file is.
    pub fn cob_saved2_read(
        bytes: *const u8,
        bytes_len: usize,
        ledger: *mut u64,
        ledger_len: usize,
    ) -> LoadedFor;
    /// From kind 1 to kind 2, for a file of this length.
    pub fn cob_saved_to_2(
        file_length: u64,
        bytes: *const u8,
        bytes_len: usize,
        out: *mut u8,
        out_len: usize,
    ) -> Written;
    /// From kind 2 to kind 1.
    pub fn cob_saved_to_1(
        bytes: *const u8,
        bytes_len: usize,
        out: *mut u8,
        out_len: usize,
    ) -> Written;

    /// Answers a line of the control channel, CR LF included.
    pub fn cob_console_line(console: Console, line: *const u8, line_len: usize) -> ConsoleAnswer;
    /// Answers the end of a transfer: 0 GUESS, 1 RESULT, 2 BROKEN, 3 SUSPECT; any other number says GUESS.
    pub fn cob_console_end(console: Console, verdict: u8) -> ConsoleAnswer;
}
