//! Command lines of the control channel.

use crate::raw;
use crate::Refusal;

/// Numbered from 1 in the order that the library answers.
#[derive(Clone, Copy, Debug, PartialEq, Eq, Hash)]
pub enum Verb {
    Mode = 1,
    Pasv,
    Port,
    Rest,
    Retr,
    Stor,
    Spas,
    Spor,
    Eret,
    Esto,
    Sbuf,
    Opts,
}

impl Verb {
    pub const ALL: [Verb; 12] = [
        Verb::Mode,
        Verb::Pasv,
        Verb::Port,
        Verb::Rest,
        Verb::Retr,
        Verb::Stor,
        Verb::Spas,
        Verb::Spor,
        Verb::Eret,
        Verb::Esto,
        Verb::Sbuf,
        Verb::Opts,
    ];

    pub fn number(self) -> u8 {
        self as u8
    }
}

#[derive(Clone, Copy, Debug, PartialEq, Eq)]
pub struct Line<'a> {
    pub verb: Verb,
    /// Empty with PASV and SPAS, and with no other verb.
    pub argument: &'a [u8],
}

/// Reads a line, CR LF included.
pub fn read(line: &[u8]) -> Result<Line<'_>, Refusal> {
    let command = unsafe { raw::cob_line_read(line.as_ptr(), line.len()) };
    Refusal::unless(command.refused, ())?;
    Ok(Line {
        verb: Verb::ALL[usize::from(command.verb) - 1],
        argument: &line[command.from..command.to],
    })
}
