//! Worked cases of bit 32 (document 02, Item 3), on both sides.

use super::both::{Both, Lent};
use super::random::Random;
use super::second::receiver::{Transfer, Verdict};
use super::second::screen::Shown;
use super::seen::Seen;
use super::sending::block;

/// On a transfer that has just started.
fn started(len: usize, pairs: usize, test: impl FnOnce(&mut Both)) {
    let (random, mut seen) = (Random::new(1), Seen::default());
    test(&mut Both::start(len, 2 * pairs, &random, &mut seen));
}

fn lend_ledgers(both: &mut Both, claimed: &[u64], doubtful: &[u64]) {
    both.harm(|lent, _| {
        lent.claimed = claimed.to_vec();
        lent.doubtful = doubtful.to_vec();
    });
}

fn ledgers<'a>(both: &'a Both) -> (&'a [u64], &'a [u64]) {
    (&both.lent().claimed, &both.lent().doubtful)
}

/// The fault and its channel.
fn fault(both: &Both) -> (u64, u64) {
    let shown = both.shown().unwrap();
    (shown.fault, shown.on)
}

#[test]
fn suspect_line() {
    started(90, 2, |both| {
        let blocks = [
            (
                0,
                block(0, 40, 0, &[1; 40]),
                "GUESS ended 0 of ? bytes 40\n",
            ),
            (
                1,
                block(40, 5, 40, &[2; 5]),
                "GUESS ended 1 of ? bytes 45\n",
            ),
            (
                2,
                block(8, 45, 45, &[3; 45]),
                "GUESS ended 2 of ? bytes 90\n",
            ),
            (
                0,
                block(72, 0, 3, &[]),
                "SUSPECT ended 3 of 3 bytes 90 doubtful 5\n",
            ),
        ];
        for (channel, piece, line) in blocks {
            assert_eq!(both.receive(channel, &piece), Ok(piece.len()));
            assert_eq!(both.screen_line(), line);
        }
        let numbers = Shown {
            verdict: Verdict::Suspect,
            ended: 3,
            count: 3,
            fault: 0,
            on: 0,
            bytes: 90,
            doubtful: 5,
        };
        assert_eq!(both.shown(), Ok(numbers));
        assert_eq!(ledgers(both), (&[0, 90, 0, 0][..], &[40, 45, 0, 0][..]));
    });
}

/// As final as RESULT. The doubtful ledger decides between the two, as it is lent.
#[test]
fn suspect_is_final() {
    started(1, 1, |both| {
        both.receive(0, &block(32, 1, 0, b"a")).unwrap();
        both.receive(0, &block(72, 0, 1, &[])).unwrap();
        assert_eq!(both.verdict(), Verdict::Suspect);
        for piece in [&b"b"[..], b""] {
            assert_eq!(both.receive(0, piece), Err(3));
            assert_eq!(both.receive(1, piece), Err(3));
            assert_eq!(both.receive(64, piece), Err(2));
        }
        lend_ledgers(both, &[0, 1], &[0, 0]);
        assert_eq!(both.screen_line(), "RESULT ended 1 of 1 bytes 1\n");
        assert_eq!(both.receive(0, b"b"), Err(3));
    });
}

/// Doubt is a header's: it is there before the payload is.
#[test]
fn doubt_before_the_payload() {
    started(8, 1, |both| {
        both.receive(0, &block(40, 4, 2, b"")).unwrap();
        assert_eq!(ledgers(both), (&[2, 6][..], &[2, 6][..]));
        let shown = both.shown().unwrap();
        assert_eq!((shown.bytes, shown.doubtful), (0, 4));
        assert_eq!(both.screen_line(), "GUESS ended 0 of ? bytes 0\n");
    });
}

/// Each descriptor with bit 32: it claims in both ledgers, and without a payload in neither.
#[test]
fn suspected_descriptors() {
    for (descriptor, ends) in [(32, false), (40, true), (44, true)] {
        started(3, 1, |both| {
            both.receive(0, &block(descriptor, 2, 1, b"ab")).unwrap();
            assert_eq!(ledgers(both), (&[1, 3][..], &[1, 3][..]));
            let (channel, count) = if ends { (1, 2) } else { (0, 1) };
            both.receive(channel, &block(76, 0, count, b"")).unwrap();
            let line = format!("SUSPECT ended {count} of {count} bytes 2 doubtful 2\n");
            assert_eq!(both.screen_line(), line);
        });
        started(0, 0, |both| {
            both.receive(0, &block(64, 0, 1, b"")).unwrap();
            both.receive(0, &block(descriptor, 0, 100, b"")).unwrap();
            if !ends {
                both.receive(0, &block(8, 0, 0, b"")).unwrap();
            }
            assert_eq!(both.screen_line(), "RESULT ended 1 of 1 bytes 0\n");
        });
    }
    for descriptor in [96, 100, 104, 108] {
        started(0, 0, |both| {
            both.receive(3, &block(descriptor, 0, 1, b"")).unwrap();
            assert_eq!(fault(both), (13, 3));
        });
    }
}

/// Both faults are due, and 16 before either. Neither ledger changes.
#[test]
fn seventeen_before_eighteen() {
    let (claimed, doubtful) = (&[0, 10][..], &[0, 1][..]);
    for (length, place, number) in [(1, 5, 17), (20, 5, 16)] {
        started(20, 1, |both| {
            lend_ledgers(both, claimed, doubtful);
            assert_eq!(both.receive(0, &block(32, length, place, b"a")), Ok(17));
            assert_eq!(fault(both), (number, 0));
            assert_eq!(ledgers(both), (claimed, doubtful));
        });
    }
}

/// One pair and three bytes in a row: the first is suspected and the second is not; the third one is tried both ways.
#[test]
fn eighteen_by_the_doubtful_ledger() {
    for third in [32, 0] {
        started(8, 1, |both| {
            for (descriptor, place) in [(32, 0), (0, 1)] {
                assert_eq!(both.receive(5, &block(descriptor, 1, place, b"a")), Ok(18));
            }
            let taken = both.receive(5, &block(third, 1, 2, b"c"));
            if third == 32 {
                assert_eq!((taken, fault(both)), (Ok(17), (18, 5)));
                assert_eq!(ledgers(both), (&[0, 2][..], &[0, 1][..]));
                assert_eq!(both.screen_line(), "BROKEN 18 on 5 bytes 2\n");
            } else {
                assert_eq!((taken, fault(both)), (Ok(18), (0, 0)));
                assert_eq!(ledgers(both), (&[0, 3][..], &[0, 1][..]));
            }
        });
    }
}

/// The doubtful ledger has room, and gains nothing.
#[test]
fn eighteen_by_the_claimed_ledger() {
    started(8, 1, |both| {
        both.receive(0, &block(0, 1, 0, b"a")).unwrap();
        assert_eq!(both.receive(0, &block(32, 1, 2, b"c")), Ok(17));
        assert_eq!(fault(both), (18, 0));
        assert_eq!(ledgers(both), (&[0, 1][..], &[0, 0][..]));
    });
}

#[test]
fn starts() {
    let (random, mut seen) = (Random::new(1), Seen::default());
    for (claimed, doubtful, refused) in [
        (0, 0, false),
        (2, 2, false),
        (8192, 8192, false),
        (0, 2, true),
        (2, 0, true),
        (2, 4, true),
        (4, 2, true),
        (2, 3, true),
        (1, 1, true),
        (8194, 8194, true),
        (8192, 8194, true),
    ] {
        let lent = Lent {
            transfer: Transfer::fresh(9, 9),
            file: vec![0; 8],
            claimed: vec![7; claimed],
            doubtful: vec![8; doubtful],
        };
        let mut both = Both::of(lent, &random, &mut seen);
        both.restart(8);
        let Lent {
            transfer,
            claimed,
            doubtful,
            ..
        } = both.lent();
        if refused {
            assert_eq!(*transfer, Transfer::fresh(0, 0));
            assert!(filled_by(7, claimed) && filled_by(8, doubtful));
        } else {
            assert_eq!(*transfer, Transfer::fresh(8, claimed.len() as u64 / 2));
            assert!(filled_by(0, claimed) && filled_by(0, doubtful));
        }
    }
}

fn filled_by(number: u64, ledger: &[u64]) -> bool {
    ledger.iter().all(|entry| *entry == number)
}

/// Doubtful ledgers beside the claimed ranges 2 to 6 and 8 to 9 of a file of 10 bytes, with three pairs.
#[test]
fn fit() {
    let claimed = [2, 6, 8, 9, 0, 0];
    let cases: [(&[u64], bool); 15] = [
        (&[0, 0, 0, 0, 0, 0], true),
        (&[2, 6, 8, 9, 0, 0], true),
        (&[2, 3, 4, 5, 8, 9], true),
        (&[5, 6, 0, 0, 0, 0], true),
        // not inside one claimed range
        (&[1, 3, 0, 0, 0, 0], false),
        (&[5, 7, 0, 0, 0, 0], false),
        (&[0, 1, 0, 0, 0, 0], false),
        (&[2, 9, 0, 0, 0, 0], false),
        (&[2, 6, 8, 10, 0, 0], false),
        // against the rule
        (&[2, 3, 3, 4, 0, 0], false),
        (&[4, 5, 2, 3, 0, 0], false),
        (&[3, 3, 0, 0, 0, 0], false),
        (&[0, 0, 2, 3, 0, 0], false),
        // of another length
        (&[2, 6, 8, 9], false),
        (&[2, 6, 8, 9, 0, 0, 0, 0], false),
    ];
    for (doubtful, fits) in cases {
        started(10, 3, |both| {
            lend_ledgers(both, &claimed, doubtful);
            let number = if fits { Ok(0) } else { Err(1) };
            assert_eq!(both.receive(0, b""), number, "{doubtful:?}");
            assert_eq!(both.shown().is_ok(), fits, "{doubtful:?}");
        });
    }
}
