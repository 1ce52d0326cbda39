//! A script as the run program reads it, with the reason for each line that it does not understand.

use crate::edit::Edit;
use crate::view::cut;
use crate::why::{unseen, why, Why};

/// Bytes of the longest script.
pub const LONGEST: usize = 65_536;

/// The first line.
#[derive(Clone, Debug)]
pub struct Opening {
    pub n: u8,
    pub items: Vec<u32>,
}

/// What a bay does.
#[derive(Clone, Copy, Debug)]
pub enum Verb {
    Edit(Edit),
    Up(u16),
    Down(u16),
    Ack,
    Told,
}

const VERBS: [&str; 6] = ["ins", "del", "up", "down", "ack", "told"];

/// The lines without their byte 10. A last line without one counts.
pub fn lines(script: &[u8]) -> Vec<&[u8]> {
    let mut lines: Vec<&[u8]> = script.split(|&byte| byte == b'\n').collect();
    if lines.last().is_some_and(|line| line.is_empty()) {
        lines.pop();
    }
    lines
}

/// `lines N items X Y ..`
pub fn opening(line: &[u8]) -> Result<Opening, Why> {
    let words = words(line)?;
    let form = "the first line has to be `lines N items X Y ..`";
    if words[0] != "lines" {
        return why(format!("the first word is {}, not `lines`", quoted(words[0])), form);
    }
    let Some(n) = words.get(1) else {
        return why("the number of bays is missing after `lines`", form);
    };
    let n = number(n, "the number of bays", 8)? as u8;
    match words.get(2) {
        Some(&"items") => {}
        Some(word) => return why(format!("the third word is {}, not `items`", quoted(word)), form),
        None => return why("the word `items` is missing", format!("{form}; `items` stands there for an empty list too")),
    }
    let items: Result<Vec<u32>, Why> = words[3..].iter().map(|word| Ok(number(word, "an item", 32)? as u32)).collect();
    Ok(Opening { n, items: items? })
}

/// A line after the first, of a sheet with n bays: the bay and what it does.
pub fn order(line: &[u8], n: u8) -> Result<(u8, Verb), Why> {
    let words = words(line)?;
    let bay = bay(words[0], n)?;
    let Some(&verb) = words.get(1) else {
        return why(format!("no command after bay {bay}"), "write one of ins, del, up, down, ack, told");
    };
    let names: &[&str] = match verb {
        "ins" => &["position", "item"],
        "del" => &["position"],
        "up" | "down" => &["number"],
        "ack" | "told" => &[],
        _ => return unknown(verb),
    };
    counted(verb, names, &words[2..])?;
    let small = |word: &str, what: &str| number(word, what, 16).map(|value| value as u16);
    let verb = match (verb, &words[2..]) {
        ("ins", [position, item]) => Verb::Edit(Edit::Insert(small(position, "a position")?, number(item, "an item", 32)? as u32, bay)),
        ("del", [position]) => Verb::Edit(Edit::Delete(small(position, "a position")?)),
        ("up", [k]) => Verb::Up(small(k, "an edit's number")?),
        ("down", [k]) => Verb::Down(small(k, "an edit's number")?),
        ("ack", _) => Verb::Ack,
        _ => Verb::Told,
    };
    Ok((bay, verb))
}

fn words(line: &[u8]) -> Result<Vec<&str>, Why> {
    unseen(line)?;
    match std::str::from_utf8(line) {
        Ok(text) => Ok(text.split(' ').collect()),
        Err(_) => why("bytes that are no text", "type the line again in plain ASCII"),
    }
}

fn bay(word: &str, n: u8) -> Result<u8, Why> {
    if word == "lines" {
        return why("`lines` a second time", "open a sheet once, in the first line");
    }
    if VERBS.contains(&word) {
        return why(format!("no bay before {}", quoted(word)), format!("begin with the bay, as in `1 {word}`"));
    }
    match number(word, "the bay", 64)? {
        bay if 1 <= bay && bay <= n as u64 => Ok(bay as u8),
        _ => why(format!("there is no bay {}", shortened(word)), format!("write a bay from 1 to {n}, as the first line opened them")),
    }
}

fn counted(verb: &str, names: &[&str], given: &[&str]) -> Result<(), Why> {
    let form = names.iter().fold(format!("BAY {verb}"), |form, name| format!("{form} {}", name.to_uppercase()));
    if given.len() < names.len() {
        return why(format!("missing {} after `{verb}`", names[given.len()..].join(" and ")), format!("write `{form}`"));
    }
    match given.get(names.len()) {
        Some(word) => why(format!("too many words: {} is one too many", quoted(word)), format!("write `{form}`")),
        None => Ok(()),
    }
}

fn unknown<T>(word: &str) -> Result<T, Why> {
    let small = word.to_lowercase();
    let meant = match small.as_str() {
        "insert" | "add" | "in" => Some("ins"),
        "delete" | "remove" | "rm" => Some("del"),
        "send" => Some("up"),
        "take" | "receive" => Some("down"),
        "acknowledge" => Some("ack"),
        "tell" => Some("told"),
        other => VERBS.into_iter().find(|&verb| verb == other || other.strip_prefix(verb).is_some_and(|rest| rest.len() < 2)),
    };
    let advice = match meant {
        Some(verb) => format!("write `{verb}`"),
        None => "the commands are ins, del, up, down, ack, told".to_string(),
    };
    why(format!("unknown word {}", quoted(word)), advice)
}

/// A number of so many bits.
fn number(word: &str, what: &str, bits: u32) -> Result<u64, Why> {
    if word.is_empty() || !word.bytes().all(|byte| byte.is_ascii_digit()) {
        let advice = match word.as_bytes() {
            [b'-' | b'+', ..] => "numbers have no sign",
            [b'0', b'x' | b'X', ..] => "numbers are decimal",
            _ => "numbers are digits alone: no letters, commas or points",
        };
        return why(format!("{} is no number, but {what} has to stand there", quoted(word)), advice);
    }
    let value = word.bytes().fold(0u64, |value, digit| value.saturating_mul(10).saturating_add((digit - b'0') as u64));
    if bits < 64 && value >> bits != 0 {
        let most = (1u64 << bits) - 1;
        return why(format!("number too wide: {} as {what}", shortened(word)), format!("write at most {most}, which is {bits} bits"));
    }
    Ok(value)
}

fn quoted(word: &str) -> String {
    format!("`{}`", shortened(word))
}

fn shortened(word: &str) -> String {
    cut(word, 24)
}
