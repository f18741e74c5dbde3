//! Worked cases of the console (document 02, Item 9), held by the second reading alone.

use super::second::console::{Console, Endpoint, Reply};
use super::second::receiver::Verdict;

/// The code for a line without its CR LF.
fn ask(console: &mut Console, text: &str) -> u64 {
    let reply = console.line(format!("{text}\r\n").as_bytes());
    assert!(!reply.suspect);
    reply.code
}

fn end(console: &mut Console, verdict: Verdict) -> (u64, bool) {
    let Reply { code, suspect } = console.end(verdict);
    (code, suspect)
}

/// A console after these lines, all of them accepted.
fn after(lines: &[&str]) -> Console {
    let mut console = Console::BEGINNING;
    for line in lines {
        assert!(ask(&mut console, line) < 400, "{line}");
    }
    console
}

/// The code and whether anything changed.
fn judge(console: Console, text: &str) -> (u64, bool) {
    let mut changed = console;
    let code = ask(&mut changed, text);
    (code, changed != console)
}

#[test]
fn a_whole_storing() {
    let mut console = Console::BEGINNING;
    assert_eq!(ask(&mut console, "MODE E"), 200);
    assert_eq!(ask(&mut console, "PASV"), 227);
    assert_eq!(ask(&mut console, "STOR casting"), 150);
    assert_eq!(end(&mut console, Verdict::Result), (226, false));
    assert_eq!(ask(&mut console, "STOR casting"), 503);
    assert_eq!(ask(&mut console, "SPAS"), 229);
    assert_eq!(ask(&mut console, "STOR casting"), 150);
}

#[test]
fn a_whole_retrieval() {
    let mut console = Console::BEGINNING;
    let steps = [
        ("spor 10,0,0,1,4,0", 503),
        ("PORT 10,0,0,1,4,0", 200),
        ("RETR a", 503),
        ("mode e", 200),
        ("STOR a", 503),
        ("ERET P 0 9 a", 150),
        ("ERET P 0 9 a", 503),
        ("MODE S", 503),
        ("REST 0-1", 503),
        ("PASV x", 501),
        ("PASX", 500),
    ];
    for (text, code) in steps {
        assert_eq!(ask(&mut console, text), code, "{text}");
    }
    assert_eq!(end(&mut console, Verdict::Guess), (0, false));
    assert_eq!(ask(&mut console, "OPTS RETR x"), 503);
    assert_eq!(end(&mut console, Verdict::Suspect), (226, true));
    assert_eq!(console, after(&["MODE E"]));
}

#[test]
fn endings() {
    let running = after(&["MODE E", "PASV", "ESTO A 0 a"]);
    let cases = [
        (Verdict::Guess, (0, false), running),
        (Verdict::Result, (226, false), after(&["MODE E"])),
        (Verdict::Suspect, (226, true), after(&["MODE E"])),
        (Verdict::Broken, (426, false), after(&["MODE E"])),
    ];
    for (verdict, reply, left) in cases {
        let mut console = running;
        assert_eq!(end(&mut console, verdict), reply);
        assert_eq!(console, left);
        let none_running = after(&["MODE E", "PASV"]);
        let mut console = none_running;
        assert_eq!(end(&mut console, verdict), (0, false));
        assert_eq!(console, none_running);
    }
    let mut made_up = Console {
        running: true,
        ..Console::BEGINNING
    };
    assert_eq!(end(&mut made_up, Verdict::Broken), (426, false));
    assert_eq!(made_up, Console::BEGINNING);
}

#[test]
fn before_mode_e() {
    let cases = [
        ("MODE E", (200, true)),
        ("MODE  e", (200, true)),
        ("MODE E ", (504, false)),
        ("MODE EE", (504, false)),
        ("MODE", (501, false)),
        ("SPAS", (503, false)),
        ("SPAS x", (501, false)),
        ("SPOR x", (503, false)),
        ("PASV", (227, true)),
        ("PORT 1,2,3,4,5,6", (200, true)),
        ("PORT x", (501, false)),
        ("STOR a", (503, false)),
        ("RETR a", (503, false)),
        ("REST 0-1", (350, false)),
        ("SBUF x", (200, false)),
        ("OPTS x", (200, false)),
    ];
    for (text, due) in cases {
        assert_eq!(judge(Console::BEGINNING, text), due, "{text}");
    }
    assert_eq!(judge(after(&["PASV"]), "STOR a"), (503, false));
    let port = after(&["PORT 1,2,3,4,5,6"]);
    assert_eq!(judge(port, "RETR a"), (503, false));
}

#[test]
fn in_mode_e() {
    let console = after(&["MODE E", "PASV"]);
    assert_eq!(console.endpoint, Endpoint::Listening);
    let list = |count| format!("SPOR {}", vec!["1,2,3,4,5,6"; count].join(" "));
    let cases = [
        ("MODE E", (200, false)),
        ("MODE S", (504, false)),
        ("SPAS", (229, false)),
        ("PORT 1,2,3,4,5,6", (200, true)),
        ("PORT 1,2,3,4,5,6 1,2,3,4,5,6", (501, false)),
        ("PORT 1,2,3,4,05,6", (501, false)),
        ("PORT 1,2,3,4,0,0", (501, false)),
        ("PORT 0,0,0,0,0,21", (200, true)),
        ("SPOR x", (501, false)),
        (&list(64), (200, true)),
        (&list(65), (501, false)),
        ("RETR a", (503, false)),
        ("ERET a", (503, false)),
        ("STOR a", (150, true)),
        ("ESTO a", (150, true)),
    ];
    for (text, due) in cases {
        assert_eq!(judge(console, text), due, "{text}");
    }
}

/// Many ranges that need many pairs, and a malformed one behind them.
#[test]
fn restarts() {
    let apart: Vec<String> = (0..266).map(|at| format!("{0}-{0}", 2 * at)).collect();
    let (good, bad) = (apart.join(","), apart.join(",") + ",9-8");
    let most = vec!["5-5"; 510].join(",");
    let cases = [
        ("60-89,0-59,5-5", 350),
        ("0-18446744073709551614", 350),
        ("0-18446744073709551615", 501),
        ("0-1 ", 501),
        ("0-1,", 501),
        ("1000", 501),
        (&good, 350),
        (&bad, 501),
        (&most, 350),
    ];
    for (text, code) in cases {
        let line = format!("REST {text}");
        assert_eq!(judge(Console::BEGINNING, &line), (code, false), "{line}");
    }
}

/// Before anything else, in any state.
#[test]
fn refused_lines() {
    let long = format!("STOR {}\r\n", "a".repeat(2_042));
    let cases = [
        (&long[..], 500),
        ("PASV", 500),
        ("OPTS \t\r\n", 500),
        ("QUIT\r\n", 500),
        ("PASV \r\n", 501),
        ("OPTS\r\n", 501),
    ];
    let running = after(&["MODE E", "PASV", "STOR a"]);
    for state in [Console::BEGINNING, running] {
        for (line, code) in cases {
            let mut console = state;
            assert_eq!(console.line(line.as_bytes()).code, code, "{line:?}");
            assert_eq!(console, state);
        }
    }
    // One byte less.
    let fits = format!("OPTS {}", "a".repeat(2_041));
    assert_eq!(judge(Console::BEGINNING, &fits), (200, false));
}
