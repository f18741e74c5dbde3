//! The examples of document 01, and cases of document 02's Items 4 and 7, held by the second reading alone.

use super::forms::whole;
use super::second::block::{self, Header};
use super::second::receiver::{Transfer, Verdict};
use super::second::replay::{malformed, replay, so_far, Malformed};
use super::second::{control, ranges, saved, screen, Answer};

/// A block's header and what follows it.
fn piece(header: [u64; 3], payload: &str) -> Vec<u8> {
    let [descriptor, length, place] = header;
    let header = Header {
        descriptor: descriptor as u8,
        length,
        place,
    };
    [&header.to_bytes(), payload.as_bytes()].concat()
}

/// A transfer with what is lent to it.
struct World {
    transfer: Transfer,
    file: Vec<u8>,
    claimed: Vec<u64>,
    doubtful: Vec<u64>,
}

impl World {
    fn start(len: usize) -> World {
        let (mut claimed, mut doubtful) = (vec![7; 8], vec![7; 8]);
        World {
            transfer: Transfer::start(len as u64, &mut claimed, &mut doubtful).unwrap(),
            file: vec![0; len],
            claimed,
            doubtful,
        }
    }

    fn send(&mut self, channel: u64, header: [u64; 3], payload: &str) -> Answer<(Verdict, usize)> {
        self.transfer.receive(
            channel,
            &piece(header, payload),
            &mut self.file,
            &mut self.claimed,
            &mut self.doubtful,
        )
    }

    fn screen_line(&self) -> String {
        screen::line(&self.transfer, &self.claimed, &self.doubtful).unwrap()
    }
}

/// The fault of a transfer of F = 8 after one header.
fn fault_of(header: [u64; 3]) -> u64 {
    let mut world = World::start(8);
    assert_eq!(world.send(0, header, "").unwrap().1, 17);
    world.transfer.fault
}

#[test]
fn headers() {
    let data = Header {
        descriptor: 8,
        length: 5,
        place: 256,
    };
    assert_eq!(
        data.to_bytes(),
        [8, 0, 0, 0, 0, 0, 0, 0, 5, 0, 0, 0, 0, 0, 0, 1, 0]
    );
    assert_eq!(block::read(&data.to_bytes()), Ok(data));
    let eodc = Header {
        descriptor: 72,
        length: 9,
        place: 3,
    };
    assert_eq!(
        eodc.to_bytes(),
        [72, 0, 0, 0, 0, 0, 0, 0, 0, 0, 0, 0, 0, 0, 0, 0, 3]
    );
    for (descriptor, fault) in [(17, 11), (144, 12), (4, 13), (96, 13), (76, 0)] {
        assert_eq!(fault_of([descriptor, 0, 1]), fault);
        let header = Header {
            descriptor: descriptor as u8,
            length: 0,
            place: 1,
        };
        assert_eq!(block::read(&header.to_bytes()).err().unwrap_or(0), fault);
        assert_eq!(block::write(header, &mut [0; 17]).err().unwrap_or(0), fault);
    }
}

#[test]
fn accepted_descriptors() {
    let accepts = |descriptor: &u8| {
        Header {
            descriptor: *descriptor,
            length: 0,
            place: 1,
        }
        .judge_descriptor()
    };
    let accepted: Vec<u8> = (0..=255)
        .filter(|descriptor| accepts(descriptor).is_ok())
        .collect();
    assert_eq!(accepted, [0, 8, 12, 32, 40, 44, 64, 72, 76]);
    let combined: Vec<u8> = (0..=255)
        .filter(|descriptor| accepts(descriptor) == Err(13))
        .collect();
    assert_eq!(combined, [4, 36, 68, 96, 100, 104, 108]);
}

#[test]
fn places() {
    assert_eq!(fault_of([0, 4, 4]), 0);
    assert_eq!(fault_of([0, 4, 5]), 16);
    assert_eq!(fault_of([0, u64::MAX, 5]), 16);
    assert_eq!(fault_of([0, 0, 100]), 0);
}

#[test]
fn claims() {
    let mut world = World::start(8);
    world.send(0, [0, 4, 0], "").unwrap();
    world.send(1, [0, 2, 3], "").unwrap();
    assert_eq!(world.transfer.fault, 17);
    let mut world = World::start(8);
    world.send(0, [0, 4, 0], "").unwrap();
    world.send(1, [0, 2, 4], "").unwrap();
    assert_eq!(world.claimed, [0, 6, 0, 0, 0, 0, 0, 0]);
}

#[test]
fn counts() {
    assert_eq!(fault_of([64, 0, 0]), 15);
    assert_eq!(fault_of([64, 0, 65]), 15);
    assert_eq!(fault_of([64, 0, 64]), 0);
    let mut world = World::start(8);
    world.send(0, [0, 0, 0], "").unwrap();
    world.send(1, [64, 0, 1], "").unwrap();
    assert_eq!(world.transfer.fault, 15);
    let mut world = World::start(8);
    world.send(0, [0, 0, 0], "").unwrap();
    world.send(1, [64, 0, 2], "").unwrap();
    assert_eq!(world.send(2, [0, 0, 0], ""), Ok((Verdict::Broken, 0)));
    assert_eq!((world.transfer.fault, world.transfer.on), (19, 2));
}

#[test]
fn range_lists() {
    for text in ["0-29,30-89", "60-89,0-59,5-5"] {
        let mut ledger = [7; 6];
        assert_eq!(ranges::read(text.as_bytes(), &mut ledger), Ok(()));
        assert_eq!(ledger, [0, 90, 0, 0, 0, 0]);
    }
    for text in ["9-8", ""] {
        let mut ledger = [7; 6];
        assert_eq!(ranges::read(text.as_bytes(), &mut ledger), Err(51));
        assert_eq!(ledger, [0; 6]);
    }
}

#[test]
fn lines() {
    assert_eq!(control::line(b"retr a b \r\n"), Ok((5, &b"a b "[..])));
    assert_eq!(control::line(b"PASV \r\n"), Err(35));
    assert_eq!(control::line(b"MODE1\r\n"), Err(34));
    assert_eq!(control::line(b"MODE1"), Err(32));
}

#[test]
fn saved_ledgers() {
    let cases: [(&[u64], &[u8]); 2] = [
        (&[0, 0], &[2, 0, 0, 0, 1, 0]),
        (
            &[0, 90],
            &[
                18, 0, 0, 0, 1, 0, 0, 0, 0, 0, 0, 0, 0, 0, 90, 0, 0, 0, 0, 0, 0, 0,
            ],
        ),
    ];
    for (ledger, record) in cases {
        let mut out = vec![0; record.len()];
        assert_eq!(saved::write(ledger, &mut out), Ok(record.len()));
        assert_eq!(out, record);
        let mut loaded = [7; 2];
        assert_eq!(saved::read(record, &mut loaded), Ok(()));
        assert_eq!(loaded, ledger);
    }
}

/// No pair and a file without bytes; bytes 0 to 89 of a file of 100.
#[test]
fn saved_ledgers_of_kind_2() {
    let cases: [(u64, &[u64], &[u8]); 2] = [
        (0, &[0, 0], &[10, 0, 0, 0, 2, 0, 0, 0, 0, 0, 0, 0, 0, 0]),
        (
            100,
            &[0, 90],
            &[
                26, 0, 0, 0, 2, 0, 100, 0, 0, 0, 0, 0, 0, 0, 0, 0, 0, 0, 0, 0, 0, 0, 90, 0, 0, 0,
                0, 0, 0, 0,
            ],
        ),
    ];
    for (file_length, ledger, record) in cases {
        let mut loaded = [7; 2];
        assert_eq!(saved::read_two(record, &mut loaded), Ok(file_length));
        assert_eq!(loaded, ledger);
        let mut one = vec![0; record.len() - 8];
        assert_eq!(saved::write(ledger, &mut one), Ok(one.len()));
        let mut two = vec![0; record.len()];
        assert_eq!(saved::to_two(file_length, &one, &mut two), Ok(two.len()));
        assert_eq!(two, record);
        let mut back = vec![0; one.len()];
        assert_eq!(saved::to_one(record, &mut back), Ok(back.len()));
        assert_eq!(back, one);
    }
}

/// Bodies of kind 2, the file length and then starts and lengths, read into a ledger of two pairs. 0 is accepted.
#[test]
fn refusals_of_kind_2() {
    let cases: [(&[u64], u64); 10] = [
        (&[100, 0, 40, 50, 50], 0),
        (&[100, 0, 40, 50, 51], 65),
        (&[u64::MAX, 1, u64::MAX - 1], 0),
        (&[u64::MAX, 1, u64::MAX], 65),
        (&[u64::MAX, 1, u64::MAX, 5, 1], 63),
        (&[100, 0, 40, 40, 10], 63),
        (&[100, 0, 40, 50, 0], 63),
        (&[100, 0, 0], 63),
        (&[], 63),
        (&[4, 0, 1, 2, 1, 4, 1], 64),
    ];
    for (numbers, refused) in cases {
        let body = numbers.iter().flat_map(|number| number.to_le_bytes());
        let record = whole(2, &body.collect::<Vec<u8>>());
        let mut ledger = [7; 4];
        let answer = saved::read_two(&record, &mut ledger);
        assert_eq!(answer.err().unwrap_or(0), refused, "{numbers:?}");
        assert_eq!(answer.is_err(), ledger == [7; 4]);
    }
}

#[test]
fn screen_lines() {
    let mut world = World::start(8);
    world.send(0, [0, 4, 0], "plai").unwrap();
    assert_eq!(world.screen_line(), "GUESS ended 0 of ? bytes 4\n");
    world.send(1, [8, 4, 4], "d123").unwrap();
    assert_eq!(world.screen_line(), "GUESS ended 1 of ? bytes 8\n");
    world.send(0, [72, 0, 2], "").unwrap();
    assert_eq!(world.screen_line(), "RESULT ended 2 of 2 bytes 8\n");
    assert_eq!(world.file, b"plaid123");

    let mut broken = World::start(8);
    broken.send(0, [0, 4, 0], "plai").unwrap();
    broken.send(1, [8, 4, 3], "d123").unwrap();
    assert_eq!(broken.screen_line(), "BROKEN 17 on 1 bytes 4\n");
}

/// Started with one pair; then with a record that may still become whole.
#[test]
fn replays() {
    let mut recording = b"\x12\0\0\0\x10\0\x08\0\0\0\0\0\0\0\x01\0\0\0\0\0\0\0".to_vec();
    for (frame, header, payload) in [
        (b"\x18\0\0\0\x11\0\0", [0, 4, 0], "plai"),
        (b"\x18\0\0\0\x11\0\x01", [8, 4, 4], "d123"),
        (b"\x14\0\0\0\x11\0\0", [72, 0, 2], ""),
    ] {
        recording.extend(frame);
        recording.extend(piece(header, payload));
    }
    let text = b"GUESS ended 0 of ? bytes 0\nGUESS ended 0 of ? bytes 4\n\
        GUESS ended 1 of ? bytes 8\nRESULT ended 2 of 2 bytes 8\n";
    assert_eq!(replay(&recording), text);
    assert_eq!(malformed(&recording), None);
    recording.extend([18, 0, 0]);
    assert_eq!(so_far(&recording), text);
    assert_eq!(replay(&recording), [&text[..], b"RECORD 4\n"].concat());
    assert_eq!(malformed(&recording), Some(Malformed::CutLength));
}
