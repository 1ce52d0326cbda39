//! The scripts of examples/ in words.

mod common;

use common::{example, has, EXAMPLES};
use explain::in_words;

fn explained(name: &str) -> (String, u8) {
    let explained = in_words(name, &example(&format!("{name}.txt")));
    (explained.output, explained.status)
}

/// The answers of the explanation, in order: `NUMBER:` or `?:` under each command.
fn answers(text: &str) -> Vec<String> {
    let answer = |line: &str| {
        let (answer, _) = line.strip_prefix("       ")?.split_once(": ")?;
        (answer == "?" || answer.bytes().all(|byte| byte.is_ascii_digit())).then(|| answer.to_string())
    };
    text.lines().filter_map(answer).collect()
}

#[test]
fn answers_are_those_printed() {
    for name in EXAMPLES {
        let printed = String::from_utf8(example(&format!("{name}.out"))).unwrap();
        let expected: Vec<&str> = printed.lines().take_while(|line| !line.starts_with("server")).collect();
        assert_eq!(answers(&explained(name).0), expected, "{name}");
    }
}

#[test]
fn bench() {
    let (text, status) = explained("bench");
    assert_eq!(status, 0);
    let applied = "the server takes bay 2's edit 1, insert 501 at 4: arrived at 4, applied at 6, past 2 edits that bay 2 had not seen";
    has(&text, &["bench: 23 lines", "    1  lines 3 items 101 201 301\n       0: the server and 3 bays are open\n"]);
    has(&text, &["    8  2 up 1\n", applied, "the server: 101 201 202 401 301 [501]"]);
    has(&text, &["bay 2 acknowledges 3 edits; the server drops 3 pending edits, 0 left"]);
    has(&text, &["23 done, 0 refused, 0 not understood.", "All 4 lists are alike, 5 steps:\n    1  101         the opening list\n"]);
    has(&text, &["    3  401         bay 3's edit 1\n", "Bay 3 has the server's list; it lacks nothing.\n"]);
}

#[test]
fn offline() {
    let (text, status) = explained("offline");
    assert_eq!(status, 0);
    has(&text, &["bay 2 deletes 301 at position 4; this is its edit 2\n       bay 2: 101 102 201 901\n"]);
    has(&text, &["bay 2's edit 1, insert 102 at 2: arrived at 2, applied at 4, past 3 edits that bay 2 had not seen"]);
    has(&text, &["bay 1 takes bay 2's edit 3, insert 302 at 6: arrived at 6, applied at 6\n"]);
    has(&text, &["24 done, 0 refused, 0 not understood.", "All 3 lists are alike, 6 steps:"]);
}

#[test]
fn refused() {
    let (text, status) = explained("refused");
    assert_eq!(status, 1);
    has(&text, &["    2  1 del 2\n       9: refused, nothing changed: position 2 is outside bay 1's list, which has 1 step\n       to do: write position 1\n"]);
    has(&text, &["       to do: write a position from 1 to 2\n"]);
    has(&text, &["13: refused, nothing changed: there is no number 2: bay 1 has made 1 edit\n"]);
    has(
        &text,
        &["5: refused, nothing changed: the server has taken bay 1's edit 1 before\n       to do: nothing: a repeat changes nothing\n"],
    );
    has(&text, &["there is no number 1: the server has 0 edits for bay 1\n       to do: let another bay send an edit up first\n"]);
    has(&text, &["    9  \"3 ack\"\n       ?: not understood, nothing done: there is no bay 3\n"]);
    has(&text, &["unknown word `insert`\n       to do: write `ins`\n"]);
    has(&text, &["number too wide: 4294967296 as an item\n       to do: write at most 4294967295, which is 32 bits\n"]);
    has(&text, &["arrived at 2, applied at 3, past 1 edit of its own that the server had not seen\n       bay 2: 301 101 [201]\n"]);
    has(&text, &["7 done, 6 refused (1 with 5, 2 with 9, 3 with 13), 3 not understood.", "All 3 lists are alike, 3 steps:"]);
}
