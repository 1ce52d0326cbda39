//! Calls and answers in words, for a failure's report.

use crate::layout;
use crate::list::*;

impl Call {
    /// The call in words.
    pub fn words(&self) -> String {
        let end = |end: u8| if end == 0 { "server".to_string() } else { format!("client {end}") };
        let who = end(self.end);
        let tail = || if self.number == 0 { String::new() } else { format!(" and {} bytes after it", TAIL * self.number as usize) };
        let text = match self.op {
            OPEN => {
                let ranks = self.ranks();
                let ranks = if ranks.len() <= 16 { format!("ranks {ranks:?}") } else { format!("{} ranks", ranks.len()) };
                let cut = if self.slot == 0 { String::new() } else { format!(" and {} bytes of one", self.slot) };
                format!("{who} opens with n {}, line {}, {ranks}, {} items{cut}", self.size, self.line, self.number)
            }
            INSERT => format!("{who} inserts {} at {}", self.value, self.position),
            DELETE => format!("{who} deletes at {}", self.position),
            TAKE_BACK => format!("{who} takes its latest edit back"),
            SEND => format!("{who} sends number {} of line {} into {} bytes of slot {}", self.number, self.line, self.size, self.slot),
            ACKNOWLEDGE => format!("{who} acknowledges line {} into {} bytes of slot {}", self.line, self.size, self.slot),
            TAKE => format!("{who} takes slot {}{}", self.slot, tail()),
            PACK => {
                let (room, packet, offset) = (self.position, self.slot, self.offset());
                format!("{who} packs line {} into {room} bytes of packet {packet} from {offset} on", self.line)
            }
            TAKE_PACKET => format!("{who} takes packet {}{}", self.slot, tail()),
            TAKE_AT => format!("{who} takes the message at {} of packet {}{}", self.offset(), self.slot, tail()),
            ADD => format!("slot {} goes behind packet {}, {} times", self.slot, self.size, self.number),
            POKE_PACKET => format!("packet {} byte {} becomes {}, length {}", self.slot, self.number, self.value & 255, self.position),
            SHOW_PACKET => format!("packet {} is shown", self.slot),
            POKE => format!("slot {} byte {} becomes {}, length {}", self.slot, self.number, self.value & 255, self.size),
            SET => format!("{who}'s {} (word {}) becomes {}", layout::name(self.end, self.number), self.number, self.value),
            DUMP => format!("{who} is dumped"),
            SHOW => format!("slot {} is shown", self.slot),
            FILL => format!("{who}'s bytes all become {}", self.value & 255),
            COPY => format!("{who} becomes a copy of {}", end(self.line)),
            op => format!("op {op}"),
        };
        match self.lent {
            lent if lent < 0 && self.exported() => format!("{text}, {} bytes too few lent", -(lent as i32)),
            lent if lent > 0 && self.exported() => format!("{text}, {lent} bytes more lent"),
            _ => text,
        }
    }
}

/// What stands where two answers differ, for a failure's report: the name, and what each has there.
pub fn difference(call: &Call, one: &[u8], other: &[u8]) -> Option<(String, [String; 2])> {
    let byte = one.iter().zip(other).position(|(a, b)| a != b)?;
    let both = |value: &dyn Fn(&[u8]) -> String| [value(one), value(other)];
    if byte < ANSWER - 1 {
        return Some(("answer".to_string(), both(&|bytes| in_words(bytes))));
    }
    if byte < ANSWER {
        return Some(("broken".to_string(), both(&|bytes| broken(bytes[ANSWER - 1]))));
    }
    let at = byte - ANSWER;
    if call.op == SHOW {
        let name = if at == 0 { "the slot's length".to_string() } else { format!("the slot's byte {}", at - 1) };
        return Some((name, both(&|bytes| bytes[byte].to_string())));
    }
    if call.op == SHOW_PACKET {
        let name = if at < 2 { "the packet's length".to_string() } else { format!("the packet's byte {}", at - 2) };
        return Some((name, both(&|bytes| bytes[byte].to_string())));
    }
    let word = (at / 4) as u16;
    let value = |bytes: &[u8]| layout::read(&bytes[ANSWER..], word).to_string();
    Some((format!("{} (word {word})", layout::name(call.end, word)), both(&value)))
}

/// What did not hold, in words.
pub fn broken(bits: u8) -> String {
    let names = [
        (END, "bytes of the end changed"),
        (AROUND, "bytes around the end changed"),
        (OUT, "bytes of the buffer changed"),
        (LAW, "message by message it is otherwise"),
    ];
    let there: Vec<&str> = names.iter().filter(|(bit, _)| bits & bit != 0).map(|(_, name)| *name).collect();
    if there.is_empty() {
        "nothing".to_string()
    } else {
        there.join(" and ")
    }
}

fn in_words(bytes: &[u8]) -> String {
    let Answer { refusal, count, arrived, applied, read } = Answer::of(bytes);
    let positions = if arrived == 0 && applied == 0 { String::new() } else { format!(", arrived {arrived}, applied {applied}") };
    let read = if read == 0 { String::new() } else { format!(", {read} bytes read") };
    format!("refusal {refusal}, count {count}{positions}{read}")
}
