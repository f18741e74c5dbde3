//! Receives a recording of a real sender, and prints the screen line after each piece:
//!
//!     cargo run --example receive -- ../../recordings/gs-p8-100-b1.rec

use cobnutter::recording::{requests, Request};
use cobnutter::{ranges, Ledgers, Refusal, Transfer, Verdict};
use std::error::Error;

/// One transfer, into a file in memory, which is the sender's only where the word is RESULT or SUSPECT.
fn receive(
    len: u64,
    pairs: u64,
    arriving: &[(u64, &[u8])],
) -> Result<(Verdict, Vec<u8>, Ledgers), Refusal> {
    let mut file = vec![0; len as usize];
    let mut ledgers = Ledgers::new(pairs as usize);
    let mut transfer = Transfer::start(len, &mut ledgers)?;
    let mut word = Verdict::Guess;
    for (channel, piece) in arriving {
        let received = transfer.receive(*channel, piece, &mut file, &mut ledgers)?;
        print!("{}", transfer.screen_line(&ledgers)?);
        word = received.verdict;
        if word != Verdict::Guess {
            break;
        }
    }
    Ok((word, file, ledgers))
}

fn pieces<'a>(requests: &[Request<'a>]) -> Vec<(u64, &'a [u8])> {
    let piece = |request: &Request<'a>| match *request {
        Request::Piece { channel, bytes } => Some((channel, bytes)),
        Request::Start { .. } => None,
    };
    requests.iter().filter_map(piece).collect()
}

fn main() -> Result<(), Box<dyn Error>> {
    let path = std::env::args().nth(1).ok_or("name a recording")?;
    let recording = std::fs::read(path)?;
    let requests = requests(&recording).ok_or("that is no recording")?;
    let is_piece = |request: &Request| matches!(request, Request::Piece { .. });
    for transfer in requests.chunk_by(|_, next| is_piece(next)) {
        if let Request::Start { len, pairs } = transfer[0] {
            let (word, file, ledgers) = receive(len, pairs, &pieces(transfer))?;
            match word {
                Verdict::Result => println!("received: a file of {} bytes", file.len()),
                Verdict::Suspect => println!(
                    "received: a file of {} bytes, of which the sender suspects {}",
                    file.len(),
                    ranges::write(ledgers.doubtful())?
                ),
                Verdict::Guess | Verdict::Broken => println!("not received: {word}"),
            }
        }
    }
    Ok(())
}
