//! The two receivers side by side: every call goes to both, and all that it leaves is compared.

use super::buffers;
use super::library;
use super::random::Random;
use super::second::block::{Header, LENGTH};
use super::second::ledger;
use super::second::receiver::{Transfer, Verdict};
use super::second::screen::{self, Shown};
use super::second::Answer;
use super::seen::{self, Seen};
use cobnutter::raw;

/// More bytes than any screen line has.
const SCREEN_LINE: usize = 96;

/// A transfer with what is lent to its calls.
#[derive(Clone)]
pub struct Lent<T = Transfer> {
    pub transfer: T,
    pub file: Vec<u8>,
    pub claimed: Vec<u64>,
    pub doubtful: Vec<u64>,
}

impl Lent {
    /// Of a file and ledgers that hold numbers of chance, with a transfer of none of them.
    fn of_chance(len: usize, claimed: usize, doubtful: usize, random: &Random) -> Lent {
        Lent {
            transfer: Transfer::fresh(0, 0),
            file: random.bytes(len),
            claimed: random.entries(claimed),
            doubtful: random.entries(doubtful),
        }
    }

    fn for_library(&self) -> Lent<raw::Transfer> {
        Lent {
            transfer: library::to_raw(&self.transfer),
            file: self.file.clone(),
            claimed: self.claimed.clone(),
            doubtful: self.doubtful.clone(),
        }
    }
}

pub struct Both<'a> {
    pub random: &'a Random,
    pub seen: &'a mut Seen,
    second: Lent,
    library: Lent<raw::Transfer>,
}

impl<'a> Both<'a> {
    pub fn of(lent: Lent, random: &'a Random, seen: &'a mut Seen) -> Both<'a> {
        let mut both = Both {
            random,
            seen,
            library: lent.for_library(),
            second: lent,
        };
        both.compare();
        both
    }

    /// Two ledgers of that many entries each.
    pub fn start(len: usize, entries: usize, random: &'a Random, seen: &'a mut Seen) -> Both<'a> {
        Both::start_apart(len, entries, entries, random, seen)
    }

    /// Ledgers of any lengths.
    pub fn start_apart(
        len: usize,
        claimed: usize,
        doubtful: usize,
        random: &'a Random,
        seen: &'a mut Seen,
    ) -> Both<'a> {
        let lent = Lent::of_chance(len, claimed, doubtful, random);
        let mut both = Both::of(lent, random, seen);
        both.restart(len as u64);
        both
    }

    /// A start over a file and ledgers of other lengths.
    pub fn start_next(&mut self, len: usize, entries: usize) {
        self.harm(|lent, _| {
            lent.file.resize(len, 0);
            lent.claimed.resize(entries, 0);
            lent.doubtful.resize(entries, 0);
        });
        self.restart(len as u64);
    }

    /// A start over what is lent at present.
    pub fn restart(&mut self, len: u64) {
        let Lent {
            claimed, doubtful, ..
        } = &mut self.second;
        let unequal = ledger::is_sized(claimed) && doubtful.len() != claimed.len();
        let mine = Transfer::start(len, claimed, doubtful);
        let Lent {
            claimed, doubtful, ..
        } = &mut self.library;
        let (theirs, transfer) = library::start(len, claimed, doubtful);
        assert_eq!(theirs, mine.as_ref().map(|_| ()).map_err(|number| *number));
        self.seen.note("start", &theirs);
        if unequal {
            self.seen.note("unequal start", &theirs);
        }
        self.second.transfer = mine.unwrap_or(Transfer::fresh(0, 0));
        self.library.transfer = transfer;
        self.compare();
    }

    pub fn receive(&mut self, channel: u64, piece: &[u8]) -> Answer<usize> {
        let before = self.second.transfer.clone();
        let Lent {
            transfer,
            file,
            claimed,
            doubtful,
        } = &mut self.second;
        let mine = transfer.receive(channel, piece, file, claimed, doubtful);
        let Lent {
            transfer,
            file,
            claimed,
            doubtful,
        } = &mut self.library;
        let (theirs, word) = library::receive(transfer, channel, piece, file, claimed, doubtful);
        let taken = mine.map(|(_, taken)| taken);
        assert_eq!(theirs, taken, "channel {channel}, piece {piece:?}");
        // A refused call names the word too. Document 01 has none for what does not fit.
        match (mine, self.shown()) {
            (Ok((verdict, _)), _) => assert_eq!(word, verdict),
            (Err(_), Ok(shown)) => assert_eq!(word, shown.verdict),
            (Err(_), Err(_)) => {}
        }
        self.seen.note("receive", &taken);
        if let Ok((verdict, taken)) = mine {
            self.seen.note_word(verdict);
            self.note_fault(&before, channel, &piece[..taken]);
        }
        self.compare();
        taken
    }

    /// Changes what is lent, the transfer included, between two calls.
    pub fn harm(&mut self, harm: impl FnOnce(&mut Lent, &Random)) {
        harm(&mut self.second, self.random);
        self.lend(self.second.clone());
    }

    pub fn lend(&mut self, lent: Lent) {
        self.library = lent.for_library();
        self.second = lent;
        self.compare();
    }

    pub fn lent(&self) -> &Lent {
        &self.second
    }

    /// What the second reading shows.
    pub fn shown(&self) -> Answer<Shown> {
        let Lent {
            transfer,
            claimed,
            doubtful,
            ..
        } = &self.second;
        screen::shown(transfer, claimed, doubtful).map_err(u64::from)
    }

    /// Of a transfer that fits.
    pub fn verdict(&self) -> Verdict {
        self.shown().unwrap().verdict
    }

    /// What the library writes.
    pub fn screen_line(&self) -> String {
        let Lent {
            transfer,
            claimed,
            doubtful,
            ..
        } = &self.library;
        let mut out = vec![0; SCREEN_LINE];
        let length = library::screen_line(transfer, claimed, doubtful, &mut out).unwrap();
        out.truncate(length);
        String::from_utf8(out).unwrap()
    }

    fn compare(&mut self) {
        let (second, library) = (&self.second, &self.library);
        assert_eq!(library.transfer, library::to_raw(&second.transfer));
        assert!(library.file == second.file, "the files differ");
        assert!(
            library.claimed == second.claimed,
            "the claimed ledgers differ"
        );
        assert!(
            library.doubtful == second.doubtful,
            "the doubtful ledgers differ"
        );
        self.compare_shown();
        self.compare_screen_lines();
    }

    fn compare_shown(&mut self) {
        let mine = self.shown();
        let Lent {
            transfer,
            claimed,
            doubtful,
            ..
        } = &self.library;
        assert_eq!(library::shown(transfer, claimed, doubtful), mine);
        self.seen.note("shown", &mine);
        if mine.is_err() {
            self.note_unfit();
        }
    }

    fn compare_screen_lines(&mut self) {
        let (second, library) = (&self.second, &self.library);
        let line = screen::line(&second.transfer, &second.claimed, &second.doubtful);
        let answer = buffers::write(
            line.map_or(0, |line| line.len()),
            self.random,
            |out| screen::write(&second.transfer, &second.claimed, &second.doubtful, out),
            |out| library::screen_line(&library.transfer, &library.claimed, &library.doubtful, out),
        );
        self.seen.note("screen line", &answer);
    }

    /// Counts why the doubtful ledger does not fit, where it alone does not.
    fn note_unfit(&mut self) {
        let Lent {
            transfer,
            claimed,
            doubtful,
            ..
        } = &self.second;
        if transfer.fits(claimed, &vec![0; claimed.len()]) {
            let why = if doubtful.len() != claimed.len() {
                seen::LENGTH
            } else if !ledger::obeys(doubtful) {
                seen::RULE
            } else {
                seen::OUTSIDE
            };
            self.seen.note_number("doubtful unfit", why);
        }
    }

    /// Counts a fault that a call came to, and which ledgers lack a pair for its header.
    fn note_fault(&mut self, before: &Transfer, channel: u64, taken: &[u8]) {
        let Lent {
            transfer,
            claimed,
            doubtful,
            ..
        } = &self.second;
        let fault = transfer.fault;
        if fault == before.fault {
            return;
        }
        self.seen.note_number("fault", fault);
        if fault == 17 || fault == 18 {
            let at = channel as usize;
            let held = &before.heads[at][..before.channels[at].held.into()];
            let header = last_header(held, taken);
            let lacks = |ledger| {
                let end = header.place + header.length;
                ledger::judge(ledger, header.place, end) == Err(18)
            };
            let (claimed, doubtful) = (lacks(claimed), header.is_suspect() && lacks(doubtful));
            if fault == 18 {
                let ledgers =
                    seen::CLAIMED * u64::from(claimed) + seen::DOUBTFUL * u64::from(doubtful);
                self.seen.note_number("18 lacks", ledgers);
            } else if doubtful {
                self.seen.note_number("17 over 18", fault);
            }
        }
    }
}

/// The header that the last of the taken bytes completes.
fn last_header(held: &[u8], taken: &[u8]) -> Header {
    let bytes = [held, taken].concat();
    let (_, header) = bytes.split_last_chunk::<LENGTH>().unwrap();
    Header::from_bytes(header)
}
