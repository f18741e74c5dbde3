//! Examples of what is read and written beside a transfer.

use cobnutter::header::{self, Header};
use cobnutter::line::{self, Verb};
use cobnutter::reply::{self, Class};
use cobnutter::{hosts, ranges, saved};
use cobnutter::{meaning, Ledgers, Refusal, Sender, Shown, Transfer, Verdict};
use cobnutter::{BLOCK_LIMIT, CHANNELS, LEDGER_LIMIT};
use std::net::{Ipv4Addr, SocketAddrV4};

fn number<T>(answer: Result<T, Refusal>) -> u8 {
    answer.err().map_or(0, Refusal::number)
}

#[test]
fn headers() {
    let data = Header::Data {
        descriptor: 8,
        length: 5,
        offset: 256,
    };
    let bytes = *b"\x08\0\0\0\0\0\0\0\x05\0\0\0\0\0\0\x01\0";
    assert_eq!(header::write(data), Ok(bytes));
    assert_eq!(header::read(&bytes), Ok(data));

    let eodc = Header::Eodc {
        descriptor: 72,
        count: 3,
    };
    let bytes = *b"\x48\0\0\0\0\0\0\0\0\0\0\0\0\0\0\0\x03";
    assert_eq!(header::write(eodc), Ok(bytes));
    assert_eq!(header::read(&bytes), Ok(eodc));

    assert_eq!(number(header::read(&bytes[1..])), 21);
    for (descriptor, refused) in [(17, 11), (144, 12), (4, 13), (96, 13), (76, 0), (64, 0)] {
        let count = 64;
        assert_eq!(
            number(header::write(Header::Eodc { descriptor, count })),
            refused
        );
    }
    let none = Header::Eodc {
        descriptor: 64,
        count: 0,
    };
    assert_eq!(number(header::write(none)), 15);
}

#[test]
fn lines() {
    let words = [
        "MODE", "PASV", "PORT", "REST", "RETR", "STOR", "SPAS", "SPOR", "ERET", "ESTO", "SBUF",
        "OPTS",
    ];
    for (verb, word) in Verb::ALL.into_iter().zip(words) {
        let bare = verb == Verb::Pasv || verb == Verb::Spas;
        let line = format!("{word}{}\r\n", if bare { "" } else { "  a b " });
        let read = line::read(line.as_bytes()).unwrap();
        assert_eq!(read.verb, verb);
        assert_eq!(read.argument, if bare { &b""[..] } else { b"a b " });
        assert_eq!(format!("{verb:?}").to_uppercase(), word);
    }
    assert_eq!(line::read(b"retr a b \r\n").unwrap().verb.number(), 5);
    assert_eq!(number(line::read(&[b'A'; 2049])), 31);
    assert_eq!(number(line::read(b"MODE1")), 32);
    assert_eq!(number(line::read(b"MODE\tE\r\n")), 33);
    assert_eq!(number(line::read(b"MODE1\r\n")), 34);
    assert_eq!(number(line::read(b"PASV \r\n")), 35);
}

#[test]
fn replies() {
    let classes = [
        (100, Class::Preliminary),
        (299, Class::Completion),
        (350, Class::Intermediate),
        (400, Class::Transient),
        (599, Class::Permanent),
    ];
    for (code, class) in classes {
        assert_eq!(reply::class(code), Ok(class));
    }
    assert_eq!(number(reply::class(99)), 36);
    assert_eq!(number(reply::class(600)), 36);
}

#[test]
fn host_ports() {
    let first = SocketAddrV4::new(Ipv4Addr::new(192, 0, 2, 1), 19 * 256 + 137);
    let second = SocketAddrV4::new(Ipv4Addr::new(10, 0, 0, 255), 2811);
    let text = "192,0,2,1,19,137 10,0,0,255,10,251";
    assert_eq!(hosts::read(text), Ok(vec![first, second]));
    assert_eq!(hosts::at(text, 0), Some((first, 16)));
    assert_eq!(hosts::at(text, 17), Some((second, text.len())));
    assert_eq!(hosts::at(text, 16), None);
    assert_eq!(number(hosts::read("192,0,2,256,19,137")), 41);
    let many = vec!["1,2,3,4,5,6"; 65].join(" ");
    assert_eq!(number(hosts::read(&many)), 42);
    let most = &many[..many.len() - 12];
    assert_eq!(hosts::read(most).unwrap().len(), hosts::LIMIT);

    for bad in ["01,2,3,4,5,6", "1,2,3,4,5,06", "1,2,3,4,0,0"] {
        assert_eq!(number(hosts::read(format!("{most} {bad}"))), 42);
        assert_eq!(number(hosts::read(format!("1,2,3,4,5,6 {bad} {many}"))), 41);
        let last = format!("{} {bad}", &most[12..]);
        assert_eq!(number(hosts::read(&last)), 41);
        assert_eq!(number(hosts::read(format!("{last} 1,2,3,4,5,6"))), 41);
    }
}

/// Refused as a list, and not found in a text.
fn malformed(host_port: &str) {
    assert_eq!(number(hosts::read(host_port)), 41, "{host_port}");
    assert_eq!(hosts::at(host_port, 0), None, "{host_port}");
}

#[test]
fn host_ports_with_leading_zeros() {
    for place in 0..6 {
        for padded in ["00", "01", "07", "000", "001", "010", "099"] {
            let mut numbers = ["10", "20", "30", "40", "4", "21"];
            numbers[place] = padded;
            malformed(&numbers.join(","));
        }
    }
    malformed("10,0,0,1,00,0");
    // Neither 8,0,0,1 nor 10,0,0,1.
    let text = "010,0,0,1,0,21";
    malformed(text);
    // What stands before a place is not looked at.
    let socket = SocketAddrV4::new([10, 0, 0, 1].into(), 21);
    assert_eq!(hosts::at(text, 1), Some((socket, text.len())));
}

#[test]
fn host_ports_with_lone_zeros_and_port_0() {
    for (text, address, port) in [
        ("10,0,0,1,4,0", [10, 0, 0, 1], 1_024),
        ("10,0,0,1,0,21", [10, 0, 0, 1], 21),
        ("0,10,20,30,1,0", [0, 10, 20, 30], 256),
        ("10,20,30,0,0,255", [10, 20, 30, 0], 255),
        ("0,0,0,0,0,1", [0, 0, 0, 0], 1),
    ] {
        let socket = SocketAddrV4::new(address.into(), port);
        assert_eq!(hosts::read(text), Ok(vec![socket]));
        assert_eq!(hosts::at(text, 0), Some((socket, text.len())));
    }
    malformed("10,0,0,1,0,0");
    malformed("0,0,0,0,0,0");
}

#[test]
fn ledgers() {
    let mut ledger = [7; 4];
    for text in ["0-29,30-89", "60-89,0-59,5-5"] {
        ranges::read(text, &mut ledger).unwrap();
        assert_eq!(ledger, [0, 90, 0, 0]);
    }
    assert_eq!(ranges::write(&ledger).unwrap(), "0-89");
    let bytes = saved::write(&ledger).unwrap();
    assert_eq!(bytes, b"\x12\0\0\0\x01\0\0\0\0\0\0\0\0\0\x5a\0\0\0\0\0\0\0");
    assert_eq!(saved::write(&[]).unwrap(), b"\x02\0\0\0\x01\0");

    let mut other = [7; 2];
    saved::read(&bytes, &mut other).unwrap();
    assert_eq!(other, [0, 90]);

    assert_eq!(number(ranges::read("9-8", &mut other)), 51);
    assert_eq!(other, [0; 2]);
    assert_eq!(number(ranges::read("0-0,2-2", &mut other)), 52);
    assert_eq!(number(ranges::read("0-0", &mut [0; 3])), 53);
    assert_eq!(number(ranges::write(&[0; 2])), 54);
    assert_eq!(number(ranges::write(&[5, 5])), 1);
    assert_eq!(number(saved::read(&bytes[..5], &mut other)), 61);
    assert_eq!(number(saved::read(b"\x02\0\0\0\x02\0", &mut other)), 62);
    assert_eq!(number(saved::read(b"\x03\0\0\0\x01\0\0", &mut other)), 63);
    assert_eq!(number(saved::read(&bytes, &mut [])), 64);
}

/// Bytes 0 to 89 of a file of 100, as both kinds.
#[test]
fn saved_kinds() {
    let one = saved::write(&[0, 90]).unwrap();
    let two = saved::to_kind_2(100, &one).unwrap();
    assert_eq!(
        two,
        b"\x1a\0\0\0\x02\0\x64\0\0\0\0\0\0\0\0\0\0\0\0\0\0\0\x5a\0\0\0\0\0\0\0"
    );
    assert_eq!(saved::to_kind_1(&two).unwrap(), one);

    let mut ledger = [7; 4];
    assert_eq!(number(saved::read(&two, &mut ledger)), 62);
    assert_eq!(ledger, [7; 4]);
    assert_eq!(saved::read_kind_2(&two, &mut ledger).unwrap(), 100);
    assert_eq!(ledger, [0, 90, 0, 0]);

    assert_eq!(number(saved::read_kind_2(&two, &mut [0; 3])), 53);
    assert_eq!(number(saved::read_kind_2(&two[..5], &mut ledger)), 61);
    assert_eq!(number(saved::read_kind_2(&one, &mut ledger)), 62);
    assert_eq!(
        number(saved::read_kind_2(b"\x02\0\0\0\x02\0", &mut ledger)),
        63
    );
    assert_eq!(number(saved::read_kind_2(&two, &mut [])), 64);
    let mut short = two.clone();
    short[6] = 89;
    assert_eq!(number(saved::read_kind_2(&short, &mut ledger)), 65);
    assert_eq!(number(saved::to_kind_1(&short)), 65);
    assert_eq!(number(saved::to_kind_2(89, &one)), 65);
    assert_eq!(number(saved::to_kind_2(100, &two)), 62);
    assert_eq!(number(saved::to_kind_1(&one)), 62);
    assert_eq!(number(saved::to_kind_1(&[])), 61);
    assert_eq!(ledger, [0, 90, 0, 0]);
}

/// The longest text and the longest saved bytes that a ledger can have.
#[test]
fn full_ledgers() {
    let entries = LEDGER_LIMIT as u64;
    let ledger: Vec<u64> = (u64::MAX - entries..u64::MAX).collect();
    let mut back = vec![0; LEDGER_LIMIT];
    ranges::read(ranges::write(&ledger).unwrap(), &mut back).unwrap();
    assert_eq!(back, ledger);
    back.fill(0);
    saved::read(&saved::write(&ledger).unwrap(), &mut back).unwrap();
    assert_eq!(back, ledger);
    assert_eq!(number(ranges::write(&[0; LEDGER_LIMIT + 2])), 53);
    assert_eq!(number(saved::write(&[0; LEDGER_LIMIT + 2])), 53);
}

fn block(descriptor: u8, offset: u64, payload: &[u8]) -> Vec<u8> {
    let header = Header::Data {
        descriptor,
        length: payload.len() as u64,
        offset,
    };
    [&header::write(header).unwrap(), payload].concat()
}

#[test]
fn a_fault_and_refusals() {
    let (mut file, mut ledgers) = ([0; 8], Ledgers::new(1));
    for (claimed, doubtful) in [(3, 3), (2, 4)] {
        let mut wrong = Ledgers::from_entries(vec![0; claimed], vec![0; doubtful]);
        assert_eq!(number(Transfer::start(8, &mut wrong)), 5);
    }
    let mut transfer = Transfer::start(8, &mut ledgers).unwrap();
    let shown = Shown {
        verdict: Verdict::Guess,
        ended: 0,
        count: None,
        fault: None,
        bytes: 0,
        doubtful: 0,
    };
    assert_eq!(transfer.shown(&ledgers), Ok(shown));
    let first = block(0, 0, b"plai");
    let before = transfer.clone();
    assert_eq!(
        number(transfer.receive(0, &first, &mut file[1..], &mut ledgers)),
        1
    );
    assert_eq!(
        number(transfer.receive(CHANNELS, &first, &mut file, &mut ledgers)),
        2
    );
    assert_eq!(transfer, before);

    let received = transfer.receive(0, &first, &mut file, &mut ledgers);
    assert_eq!(received.unwrap().taken, 21);
    assert_eq!(file, *b"plai\0\0\0\0");
    let received = transfer.receive(1, &block(0, 3, b"id"), &mut file, &mut ledgers);
    assert_eq!(received.unwrap().verdict, Verdict::Broken);
    let shown = Shown {
        verdict: Verdict::Broken,
        fault: Some((17, 1)),
        bytes: 4,
        ..shown
    };
    assert_eq!(transfer.shown(&ledgers), Ok(shown));
    assert_eq!(
        transfer.screen_line(&ledgers).unwrap(),
        "BROKEN 17 on 1 bytes 4\n"
    );
    assert_eq!(number(transfer.receive(0, b"", &mut file, &mut ledgers)), 3);
    ledgers.claimed_mut()[0] = 4;
    assert_eq!(number(transfer.screen_line(&ledgers)), 1);
    assert_eq!(number(transfer.shown(&ledgers)), 1);
}

#[test]
fn suspected_bytes() {
    let (mut file, mut ledgers) = ([0; 8], Ledgers::new(2));
    assert_eq!(
        (ledgers.claimed(), ledgers.doubtful()),
        (&[0; 4][..], &[0; 4][..])
    );
    let mut transfer = Transfer::start(8, &mut ledgers).unwrap();
    let eodc = header::write(Header::Eodc {
        descriptor: 72,
        count: 2,
    });
    for (channel, piece, word, line) in [
        (
            0,
            block(32, 0, b"pl"),
            "GUESS",
            "GUESS ended 0 of ? bytes 2\n",
        ),
        (
            1,
            block(8, 2, b"aid123"),
            "GUESS",
            "GUESS ended 1 of ? bytes 8\n",
        ),
        (
            0,
            eodc.unwrap().to_vec(),
            "SUSPECT",
            "SUSPECT ended 2 of 2 bytes 8 doubtful 2\n",
        ),
    ] {
        let received = transfer.receive(channel, &piece, &mut file, &mut ledgers);
        assert_eq!(received.unwrap().verdict.to_string(), word);
        assert_eq!(transfer.screen_line(&ledgers).unwrap(), line);
    }
    assert_eq!(file, *b"plaid123");
    assert_eq!(ranges::write(ledgers.claimed()).unwrap(), "0-7");
    assert_eq!(ranges::write(ledgers.doubtful()).unwrap(), "0-1");
    let shown = Shown {
        verdict: Verdict::Suspect,
        ended: 2,
        count: Some(2),
        fault: None,
        bytes: 8,
        doubtful: 2,
    };
    assert_eq!(transfer.shown(&ledgers), Ok(shown));
    assert_eq!(number(transfer.receive(0, b"", &mut file, &mut ledgers)), 3);

    ledgers.doubtful_mut()[1] = 9;
    assert_eq!(number(transfer.shown(&ledgers)), 1);
    assert_eq!(number(transfer.receive(0, b"", &mut file, &mut ledgers)), 1);
    ledgers.doubtful_mut().fill(0);
    assert_eq!(transfer.shown(&ledgers).unwrap().verdict, Verdict::Result);
}

#[test]
fn senders() {
    let file = b"plaid123";
    let mut sender = Sender::begin(8, 2, 3).unwrap();
    let before = sender.clone();
    assert_eq!(number(sender.next(0, file, &mut [0; 19])), 55);
    assert_eq!(number(sender.next(2, file, &mut [0; 20])), 73);
    assert_eq!(number(sender.next(0, &file[1..], &mut [0; 20])), 71);
    assert_eq!(number(sender.next_with(0, 2, 4, file, &mut [0; 20])), 71);
    assert_eq!(number(sender.block(2, file)), 73);
    assert_eq!(sender, before);

    let blocks: [(u64, &[u8]); 5] = [
        (0, b"\0\0\0\0\0\0\0\0\x03\0\0\0\0\0\0\0\0pla"),
        (1, b"\0\0\0\0\0\0\0\0\x03\0\0\0\0\0\0\0\x03id1"),
        (0, b"\0\0\0\0\0\0\0\0\x02\0\0\0\0\0\0\0\x0623"),
        (0, b"\x48\0\0\0\0\0\0\0\0\0\0\0\0\0\0\0\x02"),
        (1, b"\x08\0\0\0\0\0\0\0\0\0\0\0\0\0\0\0\0"),
    ];
    for (channel, bytes) in blocks {
        assert_eq!(sender.block(channel, file), Ok(Some(bytes.to_vec())));
    }
    for channel in [0, 1] {
        assert_eq!(sender.block(channel, file), Ok(None));
        assert_eq!(number(sender.next(channel, file, &mut [])), 74);
    }
    assert_eq!(sender.raw().given[..3], [3, 2, 0]);
}

/// The numbers that a sender can be begun with, and senders that a host makes up.
#[test]
fn sender_limits() {
    for (count, size, refused) in [
        (1, 1, 0),
        (CHANNELS, BLOCK_LIMIT, 0),
        (0, 1, 71),
        (CHANNELS + 1, 1, 71),
        (1, 0, 71),
        (1, BLOCK_LIMIT + 1, 71),
    ] {
        assert_eq!(number(Sender::begin(u64::MAX, count, size)), refused);
    }
    let begun = Sender::begin(1, 1, 1).unwrap();
    for (size, given) in [(u64::MAX, 0), (0, 0), (1, 3), (1, u64::MAX)] {
        let mut raw = *begun.raw();
        raw.size = size;
        raw.given[0] = given;
        assert_eq!(number(Sender::from_raw(raw).block(0, b"a")), 71);
    }
}

#[test]
fn every_number_has_words() {
    let known = [
        1..=5,
        11..=19,
        21..=21,
        31..=36,
        41..=43,
        51..=55,
        61..=65,
        71..=71,
        73..=74,
    ];
    for number in 0..256 {
        let listed = known.iter().any(|numbers| numbers.contains(&number));
        assert_eq!(meaning(number) != "unknown", listed, "{number}");
    }
    let refusal = ranges::write(&[0; 2]).unwrap_err();
    assert_eq!(
        refusal.to_string(),
        "refused with 54: an empty ledger has no text"
    );
}
