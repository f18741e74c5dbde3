//! Both sides of GridFTP's extended block mode (MODE E), receiving and sending, over functions that are proved to
//! answer as defined.
//!
//! A host opens the sockets and owns all memory: the file, two *ledgers* of ranges ([`Ledgers`]), and the pieces of bytes as
//! they arrive. [`Transfer`] says where each byte of a piece goes, puts it there, and shows one of four words ([`Verdict`]).
//!
//! ```
//! # fn arriving() -> Vec<(u64, Vec<u8>)> { Vec::new() }
//! use cobnutter::{Ledgers, Transfer, Verdict};
//!
//! let mut file = vec![0; 100];
//! let mut ledgers = Ledgers::new(16); // up to 16 ranges at a time, in each
//! let mut transfer = Transfer::start(file.len() as u64, &mut ledgers)?;
//! for (channel, piece) in arriving() {
//!     let received = transfer.receive(channel, &piece, &mut file, &mut ledgers)?;
//!     print!("{}", transfer.screen_line(&ledgers)?);
//!     if received.verdict != Verdict::Guess {
//!         break;
//!     }
//! }
//! # Ok::<(), cobnutter::Refusal>(())
//! ```
//!
//! [`Sender`] cuts a file into blocks and says which bytes go out next on a channel:
//!
//! ```
//! use cobnutter::Sender;
//! use std::io::Write;
//!
//! fn send(file: &[u8], connections: &mut [impl Write]) -> Result<(), Box<dyn std::error::Error>> {
//!     let mut sender = Sender::begin(file.len() as u64, connections.len() as u64, 4096)?;
//!     for (channel, connection) in (0..).zip(connections) {
//!         while let Some(block) = sender.block(channel, file)? {
//!             connection.write_all(&block)?;
//!         }
//!     }
//!     Ok(())
//! }
//! # let mut connections = [Vec::new(), Vec::new()];
//! # send(&[7; 5000], &mut connections).unwrap();
//! # assert_eq!(connections.map(|sent| sent.len()), [17 + 4096 + 17, 17 + 904 + 17]);
//! ```
//!
//! What a host that receives has to know:
//!
//! - A channel is a number below 64 that the host gives to a data connection. The pieces of one channel come in order.
//! - Where a channel ends, `taken` may be less than the piece: the rest belongs to the next transfer on that connection.
//! - A peer's fault is no [`Refusal`]: the call succeeds, and the verdict is [`Verdict::Broken`] from then on.
//! - [`Transfer::receive`] tests that transfer, file and ledgers belong together, and refuses with 1 where they do not;
//!   [`Transfer::screen_line`] and [`Transfer::shown`] test the same without the file.
//! - A sender counts the connections of each listener apart, so a host keeps one transfer for each listener.
//! - A cached connection that the sender closes (a first byte of 4) is not fed into the next transfer.
//! - [`Verdict::Result`] and [`Verdict::Suspect`] say that all the sender counted is here. Whether that fills the file, the
//!   host sees by [`Shown::bytes`].
//! - [`Verdict::Suspect`] says besides that the sender suspects some of it of errors; [`Ledgers::doubtful`] says which
//!   bytes.
//!
//! What a host that sends has to know:
//!
//! - The file is the same at each call, and does not change until all is sent.
//! - Block k of the file goes on channel k mod the count. The blocks of one channel go out on one connection in their
//!   order; between channels any order is good.
//! - After its last block each channel gets its ending. The receiver is done when it has them all, and not before.
//! - What a channel is given depends on no other channel, so each connection can have a thread and a clone of the
//!   sender.
//!
//! [`Console`] says which code each command of a session gets, and the end of a transfer.
//!
//! The other modules read and write what the control channel carries and what a host saves. [`raw`] has the linked
//! functions themselves.

mod console;
pub mod header;
pub mod hosts;
mod ledgers;
pub mod line;
pub mod ranges;
pub mod raw;
pub mod recording;
mod refusal;
pub mod reply;
pub mod saved;
mod sender;
mod shown;
mod transfer;
mod verdict;
mod written;

pub use console::{Console, Endpoint, Reply};
pub use ledgers::Ledgers;
pub use refusal::{meaning, Refusal};
pub use sender::Sender;
pub use shown::Shown;
pub use transfer::{Received, Transfer};
pub use verdict::Verdict;

/// A channel's number is below this.
pub const CHANNELS: u64 = 64;

/// The most bytes of the file in a block that is sent.
pub const BLOCK_LIMIT: u64 = 65_536;

/// The most entries of a ledger, two for each range.
pub const LEDGER_LIMIT: usize = 8192;
