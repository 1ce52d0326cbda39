//! What is said agrees with the run program, and a difference is noticed.

mod common;

use common::{example, EXAMPLES};
use explain::{difference, in_words};

/// The examples with every byte taken out, doubled and replaced in turn.
#[test]
fn damaged_examples() {
    for name in EXAMPLES {
        let script = example(&format!("{name}.txt"));
        for at in 0..script.len() {
            let (before, after) = (&script[..at], &script[at + 1..]);
            for middle in [&b""[..], &[script[at]; 2], b"\r", b" ", b"\n", b"0", b"9", b"x", b"\0", b"\xff"] {
                let damaged = [before, middle, after].concat();
                let explained = in_words(name, &damaged);
                assert_eq!(explained.complaint, None, "{}", String::from_utf8_lossy(&damaged));
            }
        }
    }
}

#[test]
fn differences_are_noticed() {
    assert_eq!(difference(b"0\nserver 1\n", b"0\nserver 1\n"), None);
    let text = difference(b"0\n9\nserver 1\n", b"0\n0\nserver 1\n").unwrap();
    assert!(text.ends_with("Line 2 of what the run program prints is \"0\", here it is \"9\"."), "{text}");
    let text = difference(b"0\n", b"0\nserver\n").unwrap();
    assert!(text.ends_with("Line 2 of what the run program prints is \"server\", here it is nothing."), "{text}");
    assert!(difference(b"0", b"0\n").is_some());
}
