//! Every recording of the repository, received through the safe API: the lines that are expected of it are beside it.

mod stored;

use cobnutter::recording::{requests, Request};
use cobnutter::{Ledgers, Transfer};
use std::fs;

struct Session {
    file: Vec<u8>,
    ledgers: Ledgers,
    transfer: Transfer,
}

impl Session {
    fn start(len: u64, pairs: u64) -> Session {
        let sevens = vec![7; 2 * pairs as usize];
        let mut ledgers = Ledgers::from_entries(sevens.clone(), sevens);
        let transfer = Transfer::start(len, &mut ledgers).unwrap();
        Session {
            file: vec![0; len as usize],
            ledgers,
            transfer,
        }
    }

    fn piece(&mut self, channel: u64, bytes: &[u8]) -> String {
        let received = self
            .transfer
            .receive(channel, bytes, &mut self.file, &mut self.ledgers);
        match received {
            Ok(r) => {
                let shown = self.transfer.shown(&self.ledgers).unwrap();
                assert_eq!(r.verdict, shown.verdict);
                left(bytes.len() - r.taken) + &self.screen()
            }
            Err(refusal) => format!("REFUSED {}\n", refusal.number()),
        }
    }

    fn screen(&self) -> String {
        self.transfer.screen_line(&self.ledgers).unwrap()
    }
}

fn left(remaining: usize) -> String {
    if remaining == 0 {
        String::new()
    } else {
        format!("LEFT {remaining}\n")
    }
}

fn lines(recording: &[u8]) -> String {
    let mut session = Session::start(0, 0);
    let mut lines = String::new();
    for request in requests(recording).unwrap() {
        lines += &match request {
            Request::Start { len, pairs } => {
                session = Session::start(len, pairs);
                session.screen()
            }
            Request::Piece { channel, bytes } => session.piece(channel, bytes),
        };
    }
    lines
}

#[test]
fn each_has_its_lines() {
    for path in stored::recordings("recordings") {
        let expected = fs::read_to_string(path.with_extension("lines")).unwrap();
        assert_eq!(
            lines(&fs::read(&path).unwrap()),
            expected,
            "{}",
            path.display()
        );
    }
}

#[test]
fn what_is_no_recording_is_refused() {
    let start: &[u8] = b"\x12\0\0\0\x10\0\x08\0\0\0\0\0\0\0\x02\0\0\0\0\0\0\0";
    let read = requests(start).unwrap();
    assert_eq!(read, [Request::Start { len: 8, pairs: 2 }]);
    for path in stored::recordings("recordings/malformed") {
        let recording = fs::read(&path).unwrap();
        assert_eq!(requests(&recording), None, "{}", path.display());
    }
}
