//! Faulty scripts: each line that is not understood has its reason, and each has status 1.

use explain::in_words;

/// The explanation of a script that the run program does not take as it is.
fn faulty(script: &[u8]) -> String {
    let explained = in_words("script", script);
    assert_eq!(explained.complaint, None, "{}", explained.output);
    assert_eq!(explained.status, 1, "{}", explained.output);
    explained.output
}

/// A second line, after an opening of two bays, with what is said of it.
fn second(line: &[u8], expected: &str) {
    let text = faulty(&[b"lines 2 items 10 20\n", line, b"\n1 ack\n"].concat());
    let wanted = format!("       ?: not understood, nothing done: {expected}\n");
    assert!(text.contains(&wanted), "{wanted}is not in\n{text}");
    assert!(text.contains("    3  1 ack\n       0: "), "the next line is done:\n{text}");
}

/// A first line that ends the program, with what is said of it.
fn first(script: &[u8], answer: &str, expected: &str) {
    let text = faulty(script);
    let wanted = format!("       {answer}: {expected}\n");
    assert!(text.contains(&wanted), "{wanted}is not in\n{text}");
    assert!(text.contains("The first line failed, so the program ends here"), "{text}");
}

#[test]
fn carriage_return() {
    second(b"1 ins 1 5\r", "carriage return at the end of the line");
    second(b"1 ins\r1 5", "carriage return at column 6");
    second(b"\r", "blank line, with a carriage return");
    let text = faulty(b"lines 2 items 10\r\n1 ack\r\n");
    assert!(text.contains("    1  \"lines 2 items 10\\r\"\n"), "{text}");
    assert!(text.contains("to do: save the file with Unix line ends (dos2unix), not those of Windows\n"), "{text}");
    assert!(text.contains("1 line behind it was not read."), "{text}");
}

#[test]
fn spaces() {
    second(b"1 ins  1 5", "double space at column 6");
    second(b"1 ins 1 5 ", "trailing space");
    second(b"1 ins 1 5  ", "trailing spaces");
    second(b" 1 ins 1 5", "leading space");
    second(b"1\tins 1 5", "tab at column 2");
    second(b"   ", "line of spaces alone");
}

#[test]
fn blank_lines_and_comments() {
    second(b"", "blank line");
    second(b"# the second bay", "comment line");
    second(b"// the second bay", "comment line");
    second(b"1 ack # that is all", "comment behind a command");
}

#[test]
fn unknown_words() {
    second(b"1 insert 1 5", "unknown word `insert`");
    second(b"1 INS 1 5", "unknown word `INS`");
    second(b"1 frobnicate", "unknown word `frobnicate`");
    second(b"ack", "no bay before `ack`");
    second(b"lines 2 items 10", "`lines` a second time");
    assert!(faulty(b"lines 1 items\n1 INS 1 5\n").contains("to do: write `ins`\n"));
    assert!(faulty(b"lines 1 items\n1 frobnicate\n").contains("to do: the commands are ins, del, up, down, ack, told\n"));
}

#[test]
fn numbers() {
    second(b"1 ins 65536 5", "number too wide: 65536 as a position");
    second(b"1 ins 1 4294967296", "number too wide: 4294967296 as an item");
    second(b"1 up 99999999999999999999999999999", "number too wide: 9999999999999999999999.. as an edit's number");
    second(b"1 del -1", "`-1` is no number, but a position has to stand there");
    second(b"1 del 0x1", "`0x1` is no number, but a position has to stand there");
    second(b"1 del 1,", "`1,` is no number, but a position has to stand there");
    second(b"one ack", "`one` is no number, but the bay has to stand there");
    second(b"0 ack", "there is no bay 0");
    second(b"18446744073709551617 ack", "there is no bay 18446744073709551617");
}

#[test]
fn words_too_few_or_too_many() {
    second(b"1", "no command after bay 1");
    second(b"1 ins 1", "missing item after `ins`");
    second(b"1 ins", "missing position and item after `ins`");
    second(b"1 up", "missing number after `up`");
    second(b"1 ack 3", "too many words: `3` is one too many");
    second(b"1 ins 1 5 6", "too many words: `6` is one too many");
}

#[test]
fn strange_bytes() {
    second(b"1 ack\0", "byte 0x00 at column 6 is no printable ASCII");
    second("1 del \u{663}".as_bytes(), "byte 0xd9 at column 7 is no printable ASCII");
    second(b"1 \xff\xfe", "byte 0xff at column 3 is no printable ASCII");
    let what = "not understood, nothing done: byte order mark before the first word";
    first(b"\xEF\xBB\xBFlines 2 items\n", "?", what);
    first(b"\xFF\xFEl\0i\0n\0e\0s\0", "?", "not understood, nothing done: the file is UTF-16");
}

#[test]
fn failed_first_line() {
    first(b"1 ins 1 5\n", "?", "not understood, nothing done: the first word is `1`, not `lines`");
    first(b"lines\n1 ack\n2 ack\n", "?", "not understood, nothing done: the number of bays is missing after `lines`");
    first(b"lines 2\n", "?", "not understood, nothing done: the word `items` is missing");
    first(b"lines 2 item 10\n", "?", "not understood, nothing done: the third word is `item`, not `items`");
    first(b"lines 256 items\n", "?", "not understood, nothing done: number too wide: 256 as the number of bays");
    first(b"lines 2 items x\n", "?", "not understood, nothing done: `x` is no number, but an item has to stand there");
    first(b"\nlines 2 items\n", "?", "not understood, nothing done: blank line");
    first(b"lines 9 items 10\n", "1", "refused, nothing changed: a sheet has 1 to 8 bays, not 9");
    first(b"lines 0 items\n", "1", "refused, nothing changed: a sheet has 1 to 8 bays, not 0");
    let many = format!("lines 2 items{}\n1 ack\n2 ack", " 7".repeat(130));
    first(many.as_bytes(), "1", "refused, nothing changed: a sheet opens with at most 128 steps, not 130");
    assert!(faulty(many.as_bytes()).contains("2 lines behind it were not read."));
}

#[test]
fn too_long_and_empty() {
    let mut script = b"lines 1 items 5\n".to_vec();
    script.resize(65_537, b'\n');
    let text = faulty(&script);
    assert!(text.contains("prints `long` and does nothing: a script has at most 65536 bytes"), "{text}");
    script.truncate(65_536);
    assert!(faulty(&script).contains("1 done, 0 refused, 65520 not understood."));
    assert!(faulty(b"").contains("prints `?`: the first line is missing"));
}
