//! The program `replay`, whose input comes in parts.

use std::io::{ErrorKind, Read, Write};
use std::mem;
use std::path::Path;
use std::process::{Child, ChildStdin, ChildStdout, Command, Stdio};
use std::sync::mpsc::{self, Receiver, RecvTimeoutError, Sender};
use std::thread;
use std::time::Duration;

const PROGRAM: &str = concat!(env!("CARGO_MANIFEST_DIR"), "/../../target/bin/replay");

/// Far longer than any line takes. One that is held back ends the test.
const PATIENCE: Duration = Duration::from_secs(10);

pub struct Program {
    child: Child,
    /// Until the input ends.
    input: Option<Sender<Vec<u8>>>,
    output: Receiver<Vec<u8>>,
    printed: Vec<u8>,
}

impl Program {
    pub fn start() -> Program {
        assert!(
            Path::new(PROGRAM).is_file(),
            "there is no {PROGRAM}: run `host/build` in the repository"
        );
        let mut command = Command::new(PROGRAM);
        command.stdin(Stdio::piped()).stdout(Stdio::piped());
        let mut child = command.spawn().unwrap();
        Program {
            input: Some(feeding(child.stdin.take().unwrap())),
            output: listening(child.stdout.take().unwrap()),
            child,
            printed: Vec::new(),
        }
    }

    pub fn feed(&self, part: &[u8]) {
        let input = self.input.as_ref().unwrap();
        // Nothing takes it where the program has stopped.
        let _ = input.send(part.to_vec());
    }

    /// Waits until as much is printed as `text` has, and compares it.
    pub fn has_printed(&mut self, text: &[u8]) {
        while self.printed.len() < text.len() && self.hear() {}
        let length = text.len().min(self.printed.len());
        assert_same(&self.printed[..length], text);
    }

    /// Compares all that has come by now: nothing may be printed early.
    pub fn has_printed_no_more(&mut self, text: &[u8]) {
        while let Ok(bytes) = self.output.try_recv() {
            self.printed.extend(bytes);
        }
        assert_same(&self.printed, text);
    }

    /// Ends the input. Answers all that was printed.
    pub fn end(mut self) -> Vec<u8> {
        self.input = None;
        while self.hear() {}
        let status = self.child.wait().unwrap();
        assert!(status.success(), "the program broke off: {status}");
        mem::take(&mut self.printed)
    }

    /// Whether there was more to hear.
    fn hear(&mut self) -> bool {
        match self.output.recv_timeout(PATIENCE) {
            Ok(bytes) => self.printed.extend(bytes),
            Err(RecvTimeoutError::Disconnected) => return false,
            Err(RecvTimeoutError::Timeout) => {
                panic!("nothing comes after {:?}", lines(&self.printed).last())
            }
        }
        true
    }
}

impl Drop for Program {
    fn drop(&mut self) {
        let _ = self.child.kill();
        let _ = self.child.wait();
    }
}

/// Writes each part as it comes, so that no test waits for a program that does not read.
fn feeding(mut input: ChildStdin) -> Sender<Vec<u8>> {
    let (sender, parts) = mpsc::channel::<Vec<u8>>();
    thread::spawn(move || {
        for part in parts {
            match input.write_all(&part) {
                Ok(()) => {}
                Err(error) if error.kind() == ErrorKind::BrokenPipe => return,
                Err(error) => panic!("{error}"),
            }
        }
    });
    sender
}

fn listening(mut output: ChildStdout) -> Receiver<Vec<u8>> {
    let (sender, parts) = mpsc::channel();
    thread::spawn(move || {
        let mut bytes = vec![0; 65_536];
        while let Ok(count @ 1..) = output.read(&mut bytes) {
            if sender.send(bytes[..count].to_vec()).is_err() {
                return;
            }
        }
    });
    parts
}

/// Says where two texts begin to differ.
pub fn assert_same(printed: &[u8], expected: &[u8]) {
    if printed != expected {
        let (printed, expected) = (lines(printed), lines(expected));
        let mut both = printed.iter().zip(&expected);
        let shorter = printed.len().min(expected.len());
        let at = both
            .position(|(one, other)| one != other)
            .unwrap_or(shorter);
        let (one, other) = (printed.get(at), expected.get(at));
        panic!("line {at}: printed {one:?}, expected {other:?}");
    }
}

/// With their line feeds.
fn lines(text: &[u8]) -> Vec<String> {
    let text = String::from_utf8_lossy(text);
    text.split_inclusive('\n').map(str::to_string).collect()
}
