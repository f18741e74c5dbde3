//! "The console" (document 02, Item 9): the order in which a session's commands may come. Lines and endings go in,
//! codes come out.

use super::control::{self, MOST_HOSTS, VERBS};
use super::ranges;
use super::receiver::Verdict;

/// How the data channels will be connected.
#[derive(Clone, Copy, Debug, PartialEq, Eq)]
pub enum Endpoint {
    None,
    Listening,
    Connecting,
}

#[derive(Clone, Copy, Debug, PartialEq, Eq)]
pub struct Console {
    pub mode_e: bool,
    pub endpoint: Endpoint,
    pub running: bool,
}

#[derive(Clone, Copy, Debug, PartialEq, Eq)]
pub struct Reply {
    /// 0 where there is no answer.
    pub code: u64,
    /// Whether the word SUSPECT goes with the code.
    pub suspect: bool,
}

impl Console {
    pub const BEGINNING: Console = Console {
        mode_e: false,
        endpoint: Endpoint::None,
        running: false,
    };

    pub fn line(&mut self, line: &[u8]) -> Reply {
        let code = match control::line(line) {
            Err(35) => 501,
            Err(_) => 500,
            Ok(_) if self.running => 503,
            Ok((verb, argument)) => match self.command(VERBS[verb as usize - 1], argument) {
                Ok((code, after)) => {
                    *self = after;
                    code
                }
                Err(code) => code,
            },
        };
        Reply {
            code,
            suspect: false,
        }
    }

    /// While none runs: the code with the state after it, or the code of a refusal, which leaves the state as it is.
    fn command(self, verb: &str, argument: &[u8]) -> Result<(u64, Console), u64> {
        let at = |endpoint| Console { endpoint, ..self };
        let started = Console {
            running: true,
            ..self
        };
        match verb {
            "MODE" if matches!(argument, b"E" | b"e") => {
                let mode_e = true;
                Ok((200, Console { mode_e, ..self }))
            }
            "MODE" => Err(504),
            "SPAS" | "SPOR" if !self.mode_e => Err(503),
            "PASV" => Ok((227, at(Endpoint::Listening))),
            "SPAS" => Ok((229, at(Endpoint::Listening))),
            "PORT" if hosts(argument) == Some(1) => Ok((200, at(Endpoint::Connecting))),
            "SPOR" if hosts(argument).is_some() => Ok((200, at(Endpoint::Connecting))),
            "PORT" | "SPOR" => Err(501),
            "STOR" | "ESTO" if self == MODE_E_LISTENING => Ok((150, started)),
            "RETR" | "ERET" if self == MODE_E_CONNECTING => Ok((150, started)),
            "STOR" | "ESTO" | "RETR" | "ERET" => Err(503),
            "REST" if malformed(argument) => Err(501),
            "REST" => Ok((350, self)),
            // SBUF and OPTS.
            _ => Ok((200, self)),
        }
    }

    /// The host says that the transfer came to an end, and how.
    pub fn end(&mut self, verdict: Verdict) -> Reply {
        let code = match verdict {
            _ if !self.running => 0,
            Verdict::Guess => 0,
            Verdict::Result | Verdict::Suspect => 226,
            Verdict::Broken => 426,
        };
        if code != 0 {
            self.endpoint = Endpoint::None;
            self.running = false;
        }
        Reply {
            code,
            suspect: code != 0 && verdict == Verdict::Suspect,
        }
    }
}

const MODE_E_LISTENING: Console = Console {
    mode_e: true,
    endpoint: Endpoint::Listening,
    running: false,
};

const MODE_E_CONNECTING: Console = Console {
    endpoint: Endpoint::Connecting,
    ..MODE_E_LISTENING
};

/// How many host-ports a list has that is not refused.
fn hosts(list: &[u8]) -> Option<usize> {
    control::hosts(list, &mut [0; MOST_HOSTS]).ok()
}

/// Each range is read by itself, into a ledger of one pair, which is always enough.
fn malformed(ranges: &[u8]) -> bool {
    ranges
        .split(|byte| *byte == b',')
        .any(|range| ranges::read(range, &mut [0; 2]).is_err())
}
