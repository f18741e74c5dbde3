//! Every number of a console's state and of a verdict means something, also those that the library never hands out.

use cobnutter::raw::{cob_console_end, cob_console_line, Console, ConsoleAnswer};

fn line(console: Console, line: &[u8]) -> ConsoleAnswer {
    unsafe { cob_console_line(console, line.as_ptr(), line.len()) }
}

fn end(console: Console, verdict: u8) -> ConsoleAnswer {
    unsafe { cob_console_end(console, verdict) }
}

/// The numbers that the library would hand out for the same state.
fn as_handed_out(console: Console) -> Console {
    Console {
        mode_e: console.mode_e.min(1),
        endpoint: if console.endpoint > 2 {
            0
        } else {
            console.endpoint
        },
        running: console.running.min(1),
    }
}

#[test]
fn every_number_of_the_state_means_something() {
    for endpoint in 0..=u8::MAX {
        for mode_e in [0, 1, 2, u8::MAX] {
            for running in [0, 1, 2, u8::MAX] {
                let console = Console {
                    mode_e,
                    endpoint,
                    running,
                };
                let handed_out = as_handed_out(console);
                for command in ["STOR x\r\n", "RETR x\r\n", "SPAS\r\n", "MODE E\r\n", "x"] {
                    let answered = line(console, command.as_bytes());
                    assert_eq!(answered, line(handed_out, command.as_bytes()));
                    // A refusal hands out the state that it was handed.
                    if answered.code >= 500 {
                        assert_eq!(answered.console, handed_out);
                    }
                }
                for verdict in 0..=u8::MAX {
                    let meant = if verdict > 3 { 0 } else { verdict };
                    assert_eq!(end(console, verdict), end(handed_out, meant));
                }
            }
        }
    }
}

#[test]
fn stor_needs_mode_e_and_a_listening_endpoint() {
    for endpoint in 0..=u8::MAX {
        for mode_e in 0..=u8::MAX {
            let console = Console {
                mode_e,
                endpoint,
                running: 0,
            };
            let accepted = mode_e != 0 && endpoint == 1;
            let code = line(console, b"STOR x\r\n").code;
            assert_eq!(code, if accepted { 150 } else { 503 });
        }
    }
}

#[test]
fn a_verdict_ends_by_its_own_code() {
    let console = Console {
        mode_e: 1,
        endpoint: 2,
        running: 1,
    };
    for verdict in 0..=u8::MAX {
        let answered = end(console, verdict);
        let (code, suspect) = match verdict {
            1 => (226, 0),
            2 => (426, 0),
            3 => (226, 1),
            _ => (0, 0),
        };
        assert_eq!((answered.code, answered.suspect), (code, suspect));
        assert_eq!(answered.console.running, u8::from(code == 0));
        assert_eq!(answered.console.endpoint, if code == 0 { 2 } else { 0 });
        assert_eq!(answered.console.mode_e, 1);
    }
}
