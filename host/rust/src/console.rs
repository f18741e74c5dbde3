use crate::raw;
use crate::Verdict;

/// How the data connections of the next transfer will be made.
#[derive(Clone, Copy, Debug, Default, PartialEq, Eq, Hash)]
pub enum Endpoint {
    /// It is not settled.
    #[default]
    None = 0,
    /// The peer opens them: PASV or SPAS.
    Listening = 1,
    /// They are opened to the peer: PORT or SPOR.
    Connecting = 2,
}

/// The order of a session's commands: which code each line of the control channel gets, and the end of a transfer.
///
/// It says what is answered. The host listens, connects, receives and sends, and reads the arguments with
/// [`hosts`](crate::hosts) and [`ranges`](crate::ranges): after a 350 the ranges of the line, for which 510 pairs are always
/// enough. All of the console's state is these three fields, and every value of them is answered, also those that no
/// session comes to.
///
/// ```
/// use cobnutter::{Console, Verdict};
///
/// let mut console = Console::new();
/// assert_eq!(console.line(b"MODE E\r\n").code, 200);
/// assert_eq!(console.line(b"PASV\r\n").code, 227); // the host adds its address and its port
/// assert_eq!(console.line(b"STOR volume.raw\r\n").code, 150);
/// // the data comes in; while it does, every command gets 503
/// assert_eq!(console.line(b"PASV\r\n").code, 503);
/// // what `Transfer::receive` answers is handed on
/// assert_eq!(console.end(Verdict::Guess).code, 0);
/// assert_eq!(console.end(Verdict::Result).code, 226);
/// // a STOR needs an endpoint of its own
/// assert_eq!(console.line(b"STOR volume.raw\r\n").code, 503);
/// ```
#[derive(Clone, Copy, Debug, Default, PartialEq, Eq, Hash)]
pub struct Console {
    /// MODE E was asked for. It stays so.
    pub mode_e: bool,
    pub endpoint: Endpoint,
    /// A transfer is running.
    pub running: bool,
}

/// What a console answers.
#[derive(Clone, Copy, Debug, PartialEq, Eq, Hash)]
pub struct Reply {
    /// The reply code; 0 where there is none to send.
    pub code: u16,
    /// The word SUSPECT goes with it.
    pub suspect: bool,
}

impl Console {
    /// Mode E not asked for, no endpoint, no transfer running.
    pub fn new() -> Console {
        Console::default()
    }

    /// Answers a line, CR LF included. From 500 on the code is a refusal, by which nothing changes.
    #[must_use = "the code is sent to the peer"]
    pub fn line(&mut self, line: &[u8]) -> Reply {
        let answered = unsafe { raw::cob_console_line(self.to_raw(), line.as_ptr(), line.len()) };
        self.update(answered)
    }

    /// Answers the end of the transfer with its verdict. With none running, and under GUESS, nothing changes and the code is
    /// 0. A host that gives up on a transfer hands over [`Verdict::Broken`]. Of one that it sent it hands over
    /// [`Verdict::Result`] where every channel was given its ending, and else [`Verdict::Broken`].
    #[must_use = "the code is sent to the peer"]
    pub fn end(&mut self, verdict: Verdict) -> Reply {
        let answered = unsafe { raw::cob_console_end(self.to_raw(), verdict.number()) };
        self.update(answered)
    }

    fn to_raw(self) -> raw::Console {
        raw::Console {
            mode_e: self.mode_e.into(),
            endpoint: self.endpoint as u8,
            running: self.running.into(),
        }
    }

    fn update(&mut self, answered: raw::ConsoleAnswer) -> Reply {
        let raw::Console {
            mode_e,
            endpoint,
            running,
        } = answered.console;
        *self = Console {
            mode_e: mode_e != 0,
            endpoint: match endpoint {
                1 => Endpoint::Listening,
                2 => Endpoint::Connecting,
                _ => Endpoint::None,
            },
            running: running != 0,
        };
        Reply {
            code: answered.code,
            suspect: answered.suspect != 0,
        }
    }
}
