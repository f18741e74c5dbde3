//! Bytes per second of receiving and of sending, beside a plain copy of the same payload bytes to their places, beside
//! the second reading of the tests and, for receiving, beside a floor that is written for speed alone:
//! `cargo run --release --example speed`. A row of receiving has R and how many doubtful ranges there are at the end.

#[path = "speed/floor.rs"]
mod floor;
#[path = "speed/floor_check.rs"]
mod floor_check;
#[path = "../tests/compare/library.rs"]
#[allow(dead_code)]
mod library;
#[path = "../tests/compare/random.rs"]
#[allow(dead_code)]
mod random;
#[path = "../tests/second/mod.rs"]
#[allow(dead_code)]
mod second;

use cobnutter::{Ledgers, Sender, Transfer, Verdict};
use random::Random;
use second::block::{Header, LENGTH};
use std::hint::black_box;
use std::ops::Range;
use std::time::{Duration, Instant};

const CHANNELS: usize = 8;
/// For the runs of one row, the copies included.
const BUDGET: Duration = Duration::from_secs(1);
const LEAST_RUNS: usize = 5;

/// A payload's range in the file.
type Payload = Range<usize>;

/// What one channel sends; each payload with its place in these bytes.
#[derive(Default)]
struct Stream {
    bytes: Vec<u8>,
    payloads: Vec<(usize, Payload)>,
}

/// Of a block with a payload that the sender suspects.
const SUSPECTED: u8 = 32;

impl Stream {
    fn push(&mut self, descriptor: u8, payload: Payload, file: &[u8]) {
        let (length, place) = (payload.len() as u64, payload.start as u64);
        let header = Header {
            descriptor,
            length,
            place,
        };
        self.bytes.extend(header.to_bytes());
        self.payloads.push((self.bytes.len(), payload.clone()));
        self.bytes.extend(&file[payload]);
    }
}

/// Pieces in the order of arrival, their bytes one after the other in memory.
struct Arrival {
    file: Vec<u8>,
    wire: Vec<u8>,
    pieces: Vec<(u64, Range<usize>)>,
    /// The payload parts of the pieces, each with its place in the file.
    copies: Vec<(Range<usize>, usize)>,
    /// How many payloads the sender suspects.
    doubtful: usize,
}

impl Arrival {
    /// Payloads dealt out to the channels, each channel cut into pieces of `size` bytes, channels taking turns. The sender
    /// suspects every `doubt`th payload, where it is named.
    fn new(len: usize, payloads: &[Payload], size: usize, doubt: Option<usize>) -> Arrival {
        let mut file = vec![0; len];
        for payload in payloads {
            for place in payload.clone() {
                file[place] = (place ^ place >> 9) as u8;
            }
        }
        let streams = deal(payloads, &file, doubt);
        let mut arrival = Arrival {
            file,
            wire: Vec::new(),
            pieces: Vec::new(),
            copies: Vec::new(),
            doubtful: doubt.map_or(0, |every| payloads.len().div_ceil(every)),
        };
        let longest = streams.iter().map(|stream| stream.bytes.len()).max();
        for from in (0..longest.unwrap_or(0)).step_by(size) {
            for (channel, stream) in streams.iter().enumerate() {
                let to = stream.bytes.len().min(from + size);
                if from < to {
                    arrival.push(channel as u64, stream, from..to);
                }
            }
        }
        arrival
    }

    fn push(&mut self, channel: u64, stream: &Stream, part: Range<usize>) {
        let here = self.wire.len();
        let first = stream
            .payloads
            .partition_point(|(at, payload)| at + payload.len() <= part.start);
        for (at, payload) in &stream.payloads[first..] {
            let (from, to) = (part.start.max(*at), part.end.min(at + payload.len()));
            if from >= to {
                break;
            }
            let source = here + from - part.start..here + to - part.start;
            self.copies.push((source, payload.start + from - at));
        }
        self.wire.extend(&stream.bytes[part]);
        self.pieces.push((channel, here..self.wire.len()));
    }

    fn each(&self, mut take: impl FnMut(u64, &[u8])) {
        for (channel, piece) in &self.pieces {
            take(*channel, &self.wire[piece.clone()]);
        }
    }

    fn payload_bytes(&self) -> usize {
        self.copies.iter().map(|(source, _)| source.len()).sum()
    }

    /// What it ends with.
    fn word(&self) -> Verdict {
        if self.doubtful == 0 {
            Verdict::Result
        } else {
            Verdict::Suspect
        }
    }
}

/// A well-formed sending over all channels.
fn deal(payloads: &[Payload], file: &[u8], doubt: Option<usize>) -> [Stream; CHANNELS] {
    let mut streams: [Stream; CHANNELS] = Default::default();
    for (index, payload) in payloads.iter().enumerate() {
        let suspected = doubt.is_some_and(|every| index % every == 0);
        let descriptor = if suspected { SUSPECTED } else { 0 };
        streams[index % CHANNELS].push(descriptor, payload.clone(), file);
    }
    let (first, others) = streams.split_first_mut().unwrap();
    // EODC: the third field is the number of channels, and no payload follows.
    first.push(72, CHANNELS..CHANNELS, file);
    for stream in others {
        stream.push(8, 0..0, file);
    }
    streams
}

/// What the pieces are brought into, with the ledgers of the library and those of the second reading and the floor.
struct Lent {
    file: Vec<u8>,
    ledgers: Ledgers,
    claimed: Vec<u64>,
    doubtful: Vec<u64>,
}

impl Lent {
    fn new(len: usize, pairs: usize) -> Lent {
        Lent {
            file: vec![0; len],
            ledgers: Ledgers::new(pairs),
            claimed: vec![0; 2 * pairs],
            doubtful: vec![0; 2 * pairs],
        }
    }
}

fn copy(arrival: &Arrival, lent: &mut Lent) {
    for (source, place) in &arrival.copies {
        lent.file[*place..][..source.len()].copy_from_slice(&arrival.wire[source.clone()]);
    }
}

fn library_receiver(arrival: &Arrival, lent: &mut Lent) {
    let Lent { file, ledgers, .. } = lent;
    let mut transfer = Transfer::start(file.len() as u64, ledgers).unwrap();
    arrival.each(|channel, piece| {
        transfer.receive(channel, piece, file, ledgers).unwrap();
    });
    let shown = transfer.shown(ledgers).unwrap();
    assert_eq!(shown.verdict, arrival.word());
}

fn second_receiver(arrival: &Arrival, lent: &mut Lent) {
    let Lent {
        file,
        claimed,
        doubtful,
        ..
    } = lent;
    let len = file.len() as u64;
    let mut transfer = second::receiver::Transfer::start(len, claimed, doubtful).unwrap();
    arrival.each(|channel, piece| {
        transfer
            .receive(channel, piece, file, claimed, doubtful)
            .unwrap();
    });
    let shown = second::screen::shown(&transfer, claimed, doubtful).unwrap();
    assert_eq!(shown.ended, CHANNELS as u64);
}

fn floor_receiver(arrival: &Arrival, lent: &mut Lent) {
    let Lent {
        file,
        claimed,
        doubtful,
        ..
    } = lent;
    let mut transfer = floor::Transfer::start(file.len() as u64, claimed, doubtful);
    let mut word = floor::GUESS;
    arrival.each(|channel, piece| {
        (word, _) = transfer
            .receive(channel, piece, file, claimed, doubtful)
            .unwrap();
    });
    let suspect = arrival.word() == Verdict::Suspect;
    assert_eq!(
        word,
        if suspect {
            floor::SUSPECT
        } else {
            floor::RESULT
        }
    );
}

type Receiving = fn(&Arrival, &mut Lent);

fn receiving(arrival: &Arrival, pairs: usize) -> [Duration; 4] {
    let works: [Receiving; 4] = [copy, library_receiver, second_receiver, floor_receiver];
    let mut lent = Lent::new(arrival.file.len(), pairs);
    best_times(|work, run| {
        lent.file.fill(0);
        let start = Instant::now();
        works[work](arrival, &mut lent);
        let time = start.elapsed();
        assert!(run > 0 || lent.file == arrival.file);
        time
    })
}

fn copy_blocks(file: &[u8], size: usize, out: &mut [u8]) {
    for block in file.chunks(size) {
        out[LENGTH..][..block.len()].copy_from_slice(block);
        black_box(&mut *out);
    }
}

fn library_sender(file: &[u8], size: usize, out: &mut [u8]) {
    let (count, size) = (CHANNELS as u64, size as u64);
    let mut sender = Sender::begin(file.len() as u64, count, size).unwrap();
    for k in 0..file.len() as u64 / size {
        sender.next(k % count, file, out).unwrap();
    }
}

fn second_sender(file: &[u8], size: usize, out: &mut [u8]) {
    let (count, size) = (CHANNELS as u64, size as u64);
    let (mut sender, _) = second::sender::Sender::begin(file.len() as u64, count, size);
    for k in 0..file.len() as u64 / size {
        sender.next(k % count, count, size, file, out).unwrap();
    }
}

/// Writes the blocks of a file that have bytes into one buffer, each over the last.
type Sending = fn(&[u8], usize, &mut [u8]);

fn sending(file: &[u8], size: usize) -> [Duration; 3] {
    let works: [Sending; 3] = [copy_blocks, library_sender, second_sender];
    let mut out = vec![0; LENGTH + size];
    best_times(|work, _| {
        out.fill(0);
        let start = Instant::now();
        works[work](file, size, &mut out);
        let time = start.elapsed();
        assert!(out[LENGTH..] == file[file.len() - size..]);
        time
    })
}

/// The best time of each of N works, which take turns so that a busy machine disturbs them alike. A work is told which
/// run it is, from 0 on.
fn best_times<const N: usize>(mut time_of: impl FnMut(usize, usize) -> Duration) -> [Duration; N] {
    let mut best = [Duration::MAX; N];
    let begin = Instant::now();
    let mut run = 0;
    while run < LEAST_RUNS || begin.elapsed() < BUDGET {
        for (work, best) in best.iter_mut().enumerate() {
            *best = time_of(work, run).min(*best);
        }
        run += 1;
    }
    best
}

/// The times are of copy, library and second reading, and for receiving of the floor.
fn row(name: &str, pairs: &str, doubtful: &str, bytes: usize, times: &[Duration]) {
    let speed = |time: &Duration| bytes as f64 / 1e6 / time.as_secs_f64();
    let speeds: Vec<f64> = times.iter().map(speed).collect();
    let beside = |at: usize| Some(speeds[1] / speeds.get(at)?);
    print!("{name:28} {pairs:>5} {doubtful:>8}");
    for at in 0..4 {
        print!(" {:>9}", shown(speeds.get(at).copied(), 0));
    }
    for at in [0, 2, 3] {
        print!(" {:>9}", shown(beside(at), 3));
    }
    println!();
}

fn shown(number: Option<f64>, digits: usize) -> String {
    number.map_or("-".to_owned(), |number| format!("{number:.digits$}"))
}

fn receiving_row(name: &str, arrival: &Arrival, pairs: usize) {
    let times = receiving(arrival, pairs);
    let (pairs, doubtful) = (pairs.to_string(), arrival.doubtful.to_string());
    row(name, &pairs, &doubtful, arrival.payload_bytes(), &times);
}

/// A file of blocks side by side: with no doubt, and with as many doubtful ranges as R and blocks apart allow.
fn block_rows(len: usize, block: usize) {
    let blocks: Vec<Payload> = (0..len).step_by(block).map(|at| at..at + block).collect();
    for size in [64 << 10, 16 << 10, 4 << 10, 512] {
        let name = format!("64 MiB, pieces of {size}");
        let sure = Arrival::new(len, &blocks, size, None);
        for pairs in [64, 4_096] {
            receiving_row(&name, &sure, pairs);
            let every = blocks.len().div_ceil(pairs).max(2);
            let doubted = Arrival::new(len, &blocks, size, Some(every));
            receiving_row(&name, &doubted, pairs);
        }
    }
}

/// Ranges apart from each other that come in any order: with no doubt, and all of them doubtful.
fn scattered_rows() {
    let mut ranges: Vec<Payload> = (0..4_000).map(|at| 1_024 * at..1_024 * at + 512).collect();
    Random::new(1).shuffle(&mut ranges);
    for doubt in [None, Some(1)] {
        let arrival = Arrival::new(4_000 * 1_024, &ranges, LENGTH + 512, doubt);
        receiving_row("4,000 ranges of 512", &arrival, 4_096);
    }
}

fn sending_rows(len: usize) {
    let file = Random::new(1).bytes(len);
    for size in [64 << 10, 4 << 10, 512] {
        let name = format!("64 MiB sent, blocks of {size}");
        row(&name, "-", "-", len, &sending(&file, size));
    }
}

fn main() {
    floor_check::agrees();
    print!("{:28} {:>5} {:>8}", "MB/s", "R", "doubtful");
    for name in [
        "copy",
        "library",
        "second",
        "floor",
        "lib/copy",
        "lib/2nd",
        "lib/floor",
    ] {
        print!(" {name:>9}");
    }
    println!();
    let len = 64 << 20;
    block_rows(len, 64 << 10);
    scattered_rows();
    sending_rows(len);
}
