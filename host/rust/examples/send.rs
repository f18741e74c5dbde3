//! Sends this repository's README over three TCP connections of this machine to the receiver, which reads them in pieces
//! of any size, and prints each screen line that is new:
//!
//!     cargo run --example send

use cobnutter::{Ledgers, Sender, Transfer, Verdict};
use std::error::Error;
use std::io::{Read, Write};
use std::net::{SocketAddr, TcpListener, TcpStream};
use std::thread::{self, JoinHandle};

const FILE: &[u8] = include_bytes!("../../../README.md");
const CHANNELS: u64 = 3;
const SIZE: u64 = 512;
const LONGEST_PIECE: usize = 1_500;

type Outcome<T> = Result<T, Box<dyn Error + Send + Sync>>;

/// Numbers of chance (xorshift), the same ones in each run.
struct Random(u64);

impl Random {
    fn below(&mut self, bound: usize) -> usize {
        self.0 ^= self.0 << 13;
        self.0 ^= self.0 >> 7;
        self.0 ^= self.0 << 17;
        (self.0 % bound as u64) as usize
    }
}

/// One channel's blocks, over a connection of its own.
fn send(mut sender: Sender, channel: u64, to: SocketAddr) -> Outcome<()> {
    let mut connection = TcpStream::connect(to)?;
    while let Some(block) = sender.block(channel, FILE)? {
        connection.write_all(&block)?;
    }
    Ok(())
}

/// A thread for each channel, with a clone of the sender: what a channel is given depends on no other.
fn send_all(to: SocketAddr) -> Outcome<Vec<JoinHandle<Outcome<()>>>> {
    let sender = Sender::begin(FILE.len() as u64, CHANNELS, SIZE)?;
    let channels = 0..CHANNELS;
    Ok(channels
        .map(|channel| {
            let sender = sender.clone();
            thread::spawn(move || send(sender, channel, to))
        })
        .collect())
}

/// The connections in the order in which they came. The receiver gives them numbers of its own.
fn accept_all(listener: &TcpListener) -> Outcome<Vec<(u64, TcpStream)>> {
    let channels = 0..CHANNELS;
    channels
        .map(|channel| Ok((channel, listener.accept()?.0)))
        .collect()
}

/// Takes pieces of chance until the word is final, or no connection is left and it is still a guess.
fn receive(mut connections: Vec<(u64, TcpStream)>) -> Outcome<(Verdict, Vec<u8>)> {
    let mut random = Random(1);
    let mut file = vec![0; FILE.len()];
    let mut ledgers = Ledgers::new(FILE.len().div_ceil(SIZE as usize));
    let mut transfer = Transfer::start(file.len() as u64, &mut ledgers)?;
    let mut word = Verdict::Guess;
    let mut shown = String::new();
    while word == Verdict::Guess && !connections.is_empty() {
        let at = random.below(connections.len());
        let (channel, connection) = &mut connections[at];
        let mut piece = vec![0; 1 + random.below(LONGEST_PIECE)];
        let length = connection.read(&mut piece)?;
        let received = transfer.receive(*channel, &piece[..length], &mut file, &mut ledgers)?;
        word = received.verdict;
        if length == 0 {
            connections.swap_remove(at);
        }
        let line = transfer.screen_line(&ledgers)?;
        if line != shown {
            print!("{line}");
            shown = line;
        }
    }
    Ok((word, file))
}

fn main() -> Outcome<()> {
    let listener = TcpListener::bind("127.0.0.1:0")?;
    let threads = send_all(listener.local_addr()?)?;
    let (word, file) = receive(accept_all(&listener)?)?;
    for thread in threads {
        thread.join().expect("a thread that sends")?;
    }
    assert_eq!(word, Verdict::Result);
    assert!(file == FILE, "the files differ");
    println!("received: the file of {} bytes that was sent", file.len());
    Ok(())
}
