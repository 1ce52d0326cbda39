//! Why the run program answers `?` to a line, and what to do about it.

/// A reason, and advice.
#[derive(Clone, Debug)]
pub struct Why {
    pub reason: String,
    pub advice: String,
}

pub fn why<T>(reason: impl Into<String>, advice: impl Into<String>) -> Result<T, Why> {
    Err(Why { reason: reason.into(), advice: advice.into() })
}

/// What makes a line wrong whatever its words are: blank lines, comments, and bytes that the eye does not see.
pub fn unseen(line: &[u8]) -> Result<(), Why> {
    if line.is_empty() {
        return why("blank line", "remove it: a script has no blank lines");
    }
    strange_bytes(line)?;
    comment(line)?;
    spaces(line)
}

fn strange_bytes(line: &[u8]) -> Result<(), Why> {
    if line.starts_with(&[0xEF, 0xBB, 0xBF]) {
        return why("byte order mark before the first word", "save the file as plain ASCII, or as UTF-8 without a byte order mark");
    }
    if line.starts_with(&[0xFF, 0xFE]) || line.starts_with(&[0xFE, 0xFF]) {
        return why("the file is UTF-16", "save the file as plain ASCII");
    }
    if line == b"\r" {
        return why("blank line, with a carriage return", "save the file with Unix line ends (dos2unix), and remove the line");
    }
    let Some(at) = line.iter().position(|&byte| !(b' '..=b'~').contains(&byte)) else {
        return Ok(());
    };
    match line[at] {
        b'\r' if at + 1 == line.len() => {
            why("carriage return at the end of the line", "save the file with Unix line ends (dos2unix), not those of Windows")
        }
        b'\r' => why(format!("carriage return at column {}", at + 1), "end lines with byte 10 alone"),
        b'\t' => why(format!("tab at column {}", at + 1), "put one space between words"),
        byte => why(format!("byte {byte:#04x} at column {} is no printable ASCII", at + 1), "type the line again in plain ASCII"),
    }
}

fn comment(line: &[u8]) -> Result<(), Why> {
    let begins = |word: &[u8]| word.starts_with(b"#") || word.starts_with(b"//") || word.starts_with(b";");
    match line.split(|&byte| byte == b' ').position(begins) {
        Some(0) => why("comment line", "remove it: a script has no comments"),
        Some(_) => why("comment behind a command", "remove it: a script has no comments"),
        None => Ok(()),
    }
}

fn spaces(line: &[u8]) -> Result<(), Why> {
    let one = "put single spaces between words and none at the ends";
    if line.iter().all(|&byte| byte == b' ') {
        return why("line of spaces alone", "remove it: a script has no blank lines");
    }
    if line.starts_with(b" ") {
        return why("leading space", one);
    }
    if let Some(at) = line.windows(2).position(|two| two == b"  ") {
        let double = line[at..].iter().any(|&byte| byte != b' ');
        let reason = if double { format!("double space at column {}", at + 1) } else { "trailing spaces".to_string() };
        return why(reason, one);
    }
    if line.ends_with(b" ") {
        return why("trailing space", one);
    }
    Ok(())
}
