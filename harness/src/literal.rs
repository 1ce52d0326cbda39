//! Messages from the rule book's two tables, field by field: the second opinion on `plain::codec`.

use crate::edit::{Edit, Origin};

#[derive(Clone, Copy, PartialEq, Eq, Debug)]
pub struct Message {
    pub line: u8,
    pub direction: u8,
    /// None for an acknowledgement.
    pub numbered: Option<Numbered>,
    pub seen: u16,
}

/// What an edit message has more.
#[derive(Clone, Copy, PartialEq, Eq, Debug)]
pub struct Numbered {
    pub number: u16,
    pub edit: Edit,
    pub origin: Origin,
}

pub fn write(message: &Message) -> Vec<u8> {
    let Some(Numbered { number, edit, origin: (maker, made) }) = message.numbered else {
        return [&[4, message.line, message.direction][..], &message.seen.to_be_bytes()].concat();
    };
    let (kind, body): (u8, Vec<u8>) = match edit {
        Edit::Insert(p, x, r) => (5, [&p.to_be_bytes()[..], &x.to_be_bytes()[..], &[r]].concat()),
        Edit::Delete(p) => (7, p.to_be_bytes().to_vec()),
        Edit::Nothing => (8, vec![]),
    };
    let head = [&[kind, message.line, message.direction][..], &number.to_be_bytes(), &message.seen.to_be_bytes()].concat();
    [&head[..], &body, &[maker], &made.to_be_bytes()].concat()
}

/// The fields that a kind's message has, in order: name and width.
fn layout(kind: u8) -> Option<&'static [(&'static str, usize)]> {
    const LINE: (&str, usize) = ("line", 1);
    const DIRECTION: (&str, usize) = ("direction", 1);
    const NUMBER: (&str, usize) = ("number", 2);
    const SEEN: (&str, usize) = ("seen", 2);
    const POSITION: (&str, usize) = ("position", 2);
    const MAKER: (&str, usize) = ("maker", 1);
    const MADE: (&str, usize) = ("maker's number", 2);
    match kind {
        4 => Some(&[LINE, DIRECTION, SEEN]),
        5 => Some(&[LINE, DIRECTION, NUMBER, SEEN, POSITION, ("item", 4), ("priority", 1), MAKER, MADE]),
        7 => Some(&[LINE, DIRECTION, NUMBER, SEEN, POSITION, MAKER, MADE]),
        8 => Some(&[LINE, DIRECTION, NUMBER, SEEN, MAKER, MADE]),
        _ => None,
    }
}

/// How many bytes a message of that kind has, the kind's byte included.
fn length(kind: u8) -> Option<usize> {
    Some(1 + layout(kind)?.iter().map(|field| field.1).sum::<usize>())
}

/// The message at the front of a packet's bytes. A byte that is no kind, and a message that is cut off, take the rest.
pub fn first(bytes: &[u8]) -> &[u8] {
    let length = bytes.first().and_then(|&kind| length(kind));
    &bytes[..length.unwrap_or(bytes.len()).min(bytes.len())]
}

/// The messages of a packet, one behind the other.
pub fn messages(packet: &[u8]) -> Vec<&[u8]> {
    let (mut all, mut rest) = (Vec::new(), packet);
    while !rest.is_empty() {
        all.push(first(rest));
        rest = &rest[first(rest).len()..];
    }
    all
}

fn in_range(name: &str, value: u64, up: bool) -> bool {
    match name {
        "line" | "priority" | "maker" => (1..=8).contains(&value),
        "direction" => value <= 1,
        "position" => (1..=512).contains(&value),
        "number" => (1..=if up { 400 } else { 2800 }).contains(&value),
        "maker's number" => (1..=400).contains(&value),
        "seen" => value <= if up { 2800 } else { 400 },
        _ => true,
    }
}

/// Exactly one message with its fields in range, or none.
pub fn read(bytes: &[u8]) -> Option<Message> {
    let fields = layout(*bytes.first()?)?;
    let value = |name: &str| -> Option<u64> {
        let mut at_field = 1;
        for &(field, width) in fields {
            if field == name {
                let part = bytes.get(at_field..at_field + width)?;
                return Some(part.iter().fold(0, |all, &byte| all << 8 | byte as u64));
            }
            at_field += width;
        }
        None
    };
    if Some(bytes.len()) != length(bytes[0]) {
        return None;
    }
    let up = value("direction")? == 0;
    if !fields.iter().all(|&(name, _)| in_range(name, value(name).unwrap(), up)) {
        return None;
    }
    let edit = match bytes[0] {
        5 => Edit::Insert(value("position")? as u16, value("item")? as u32, value("priority")? as u8),
        7 => Edit::Delete(value("position")? as u16),
        _ => Edit::Nothing,
    };
    let (line, direction, seen) = (value("line")? as u8, value("direction")? as u8, value("seen")? as u16);
    let origin = value("maker").zip(value("maker's number"));
    let numbered = value("number").zip(origin).map(|(number, (maker, made))| Numbered {
        number: number as u16,
        edit,
        origin: (maker as u8, made as u16),
    });
    Some(Message { line, direction, numbered, seen })
}

#[cfg(test)]
mod tests {
    use super::*;
    use crate::plain::{codec, packets, slip::Plain};
    use crate::rng::Rng;

    #[test]
    fn marked_cases() {
        let insert = Numbered { number: 1, edit: Edit::Insert(1, 30, 1), origin: (1, 1) };
        let nine = Message { line: 1, direction: 0, numbered: Some(insert), seen: 0 };
        let bytes = [5, 1, 0, 0, 1, 0, 0, 0, 1, 0, 0, 0, 0x1E, 1, 1, 0, 1];
        assert_eq!(write(&nine), bytes);
        assert_eq!(read(&bytes), Some(nine));
        let ten = Message { line: 2, direction: 1, numbered: None, seen: 3 };
        assert_eq!(write(&ten), [4, 2, 1, 0, 3]);
        assert_eq!(read(&[4, 2, 1, 0, 3]), Some(ten));
        let delete = Numbered { number: 300, edit: Edit::Delete(258), origin: (3, 257) };
        let bytes = [7, 2, 1, 1, 44, 0, 5, 1, 2, 3, 1, 1];
        assert_eq!(write(&Message { line: 2, direction: 1, numbered: Some(delete), seen: 5 }), bytes);
        let nothing = Numbered { edit: Edit::Nothing, ..delete };
        let bytes = [8, 2, 1, 1, 44, 0, 5, 3, 1, 1];
        assert_eq!(write(&Message { line: 2, direction: 1, numbered: Some(nothing), seen: 5 }), bytes);
    }

    #[test]
    fn packets() {
        let ack = [4, 2, 1, 0, 3];
        let nothing = [8, 2, 1, 1, 44, 0, 5, 3, 1, 1];
        let both = [&nothing[..], &ack].concat();
        assert_eq!(messages(&both), [&nothing[..], &ack]);
        assert_eq!(messages(&both[..14]), [&nothing[..], &ack[..4]]);
        assert_eq!(messages(&[&ack[..], &[6], &ack].concat()), [&ack[..], &[6, 4, 2, 1, 0, 3]]);
        assert_eq!(messages(&[]), Vec::<&[u8]>::new());
        assert_eq!(first(&[]), []);
        for (kind, length) in [(4, 5), (5, 17), (7, 12), (8, 10)] {
            assert_eq!(first(&[kind; 40]).len(), length);
            assert_eq!(packets::next_size(&[kind; 40]), length);
        }
    }

    /// Kinds 1 to 3 are no longer messages, nor are 6 and those above 8.
    #[test]
    fn kinds() {
        for kind in (0..=255).filter(|kind| ![4, 5, 7, 8].contains(kind)) {
            for length in 1..=21 {
                let mut bytes = vec![1; length];
                bytes[0] = kind;
                assert_eq!(read(&bytes), None);
                assert_eq!(codec::read::<Plain>(&bytes), None);
            }
        }
    }

    /// Random bytes near the edges: both readers agree, and what is read writes back to the same bytes.
    #[test]
    fn readers_agree() {
        let mut rng = Rng::new(7);
        // 1 and 144 are 400
        let edges: [u8; 12] = [0, 1, 2, 3, 4, 5, 8, 9, 10, 144, 145, 255];
        let mut readable = 0;
        for _ in 0..2_000_000 {
            let kind = rng.between(0, 9) as u8;
            let length = if rng.once_in(8) { rng.between(0, 20) } else { [0, 14, 9, 7, 5, 17, 5, 12, 10, 8][kind as usize] };
            let mut bytes: Vec<u8> = (0..length).map(|_| if rng.once_in(3) { 0 } else { rng.pick(&edges) }).collect();
            if let Some(first) = bytes.first_mut() {
                *first = kind;
            }
            let ours = read(&bytes);
            let plain = codec::read::<Plain>(&bytes);
            assert_eq!(ours.is_some(), plain.is_some(), "{bytes:?}");
            if let (Some(ours), Some(plain)) = (ours, plain) {
                readable += 1;
                assert_eq!(write(&ours), bytes);
                let (written, length) = codec::write::<Plain>(&plain);
                assert_eq!(&written[..length], bytes);
            }
        }
        assert!(readable > 10_000, "{readable}");
    }
}
