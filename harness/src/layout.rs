//! The layout of an end in lent bytes: words of 4 bytes, low byte first, no padding. End 0 is the server, end l (1 to 8) a client.
//! `plain` has its own reading of it.

use crate::edit::Origin;
use crate::limits::*;

/// Words before the counts: n, the line or the count of opening items, the length, and eight ranks in two words.
const HEAD: u16 = 5;
pub const CLIENT_WORDS: usize = HEAD as usize + 4 + 1 + 2 + ITEMS + 2 * PENDING + ITEMS;
pub const SERVER_WORDS: usize = HEAD as usize + 4 * LINES + 1 + ITEMS + 2 * LINES * PENDING + ITEMS + LINES * PENDING;

/// Words of an end.
pub fn words(end: u8) -> usize {
    if end == 0 {
        SERVER_WORDS
    } else {
        CLIENT_WORDS
    }
}

/// Bytes of an end.
pub fn bytes(end: u8) -> usize {
    4 * words(end)
}

/// What stands in a word.
#[derive(Clone, Copy, PartialEq, Eq, Debug)]
pub enum Field {
    N,
    /// A client has one.
    Line,
    Length,
    /// The count of opening items, which the server has.
    Initial,
    /// The ranks of four lines, the first one's in the lowest byte: 0 those of lines 1 to 4, 1 those of lines 5 to 8.
    Ranks(u16),
    Made,
    Taken,
    Acked,
    Inserts,
    /// The seconds of the list's items together.
    Total,
    /// The inverse of the latest edit, which a client has: position * 256 + priority, and its item.
    InversePlace,
    InverseItem,
    Item(u16),
    /// Position * 256 + priority of a pending edit.
    Place(u16),
    /// Its item.
    Brought(u16),
    /// The origin of a list's place: maker * 65536 + number.
    Origin(u16),
    /// That of a pending edit, which the server has.
    PendingOrigin(u16),
}

/// The numbers of an end, without its ranks and arrays.
pub const NUMBERS: [Field; 9] =
    [Field::N, Field::Line, Field::Length, Field::Initial, Field::Made, Field::Taken, Field::Acked, Field::Inserts, Field::Total];

/// Where the list's items begin, behind the total and a client's inverse.
fn first_item(end: u8, total: u16) -> u16 {
    total + 1 + if end == 0 { 0 } else { 2 }
}

/// The word of a field, of line `line` where the server has one for each; none if the end has no such field.
pub fn word(end: u8, line: u8, field: Field) -> Option<u16> {
    let lines = if end == 0 { LINES as u16 } else { 1 };
    let at = if end == 0 { (line as u16).wrapping_sub(1) } else { 0 };
    let total = HEAD + 4 * lines;
    let items = first_item(end, total);
    let places = items + ITEMS as u16;
    let pending = PENDING as u16;
    let origins = places + 2 * pending * lines;
    match field {
        Field::N => Some(0),
        Field::Line => (end != 0).then_some(1),
        Field::Initial => (end == 0).then_some(1),
        Field::Length => Some(2),
        Field::Ranks(half) => (half < 2).then_some(3 + half),
        Field::Total => Some(total),
        Field::InversePlace => (end != 0).then_some(total + 1),
        Field::InverseItem => (end != 0).then_some(total + 2),
        Field::Item(index) => (index < ITEMS as u16).then_some(items + index),
        Field::Origin(index) => (index < ITEMS as u16).then_some(origins + index),
        _ if at >= lines => None,
        Field::Made => Some(HEAD + 4 * at),
        Field::Taken => Some(HEAD + 4 * at + 1),
        Field::Acked => Some(HEAD + 4 * at + 2),
        Field::Inserts => Some(HEAD + 4 * at + 3),
        Field::Place(index) => (index < pending).then_some(places + 2 * pending * at + index),
        Field::Brought(index) => (index < pending).then_some(places + 2 * pending * at + pending + index),
        Field::PendingOrigin(index) => (end == 0 && index < pending).then_some(origins + ITEMS as u16 + pending * at + index),
    }
}

/// Eight ranks, zeros past the last, as the two words that hold them.
pub fn rank_words(ranks: &[u8]) -> [u32; 2] {
    let rank = |line: usize| ranks.get(line).copied().unwrap_or(0);
    [0, 4].map(|first| u32::from_le_bytes([rank(first), rank(first + 1), rank(first + 2), rank(first + 3)]))
}

/// The word of an origin.
pub fn origin_word((maker, number): Origin) -> u32 {
    (maker as u32) << 16 | number as u32
}

/// The seconds of items together: the low 12 bits of each.
pub fn seconds(items: &[u32]) -> u32 {
    items.iter().map(|item| item & 4095).sum()
}

/// A word of an end's bytes.
pub fn read(bytes: &[u8], word: u16) -> u32 {
    let at = 4 * word as usize;
    u32::from_le_bytes([bytes[at], bytes[at + 1], bytes[at + 2], bytes[at + 3]])
}

/// What stands in a word, for a report.
pub fn name(end: u8, index: u16) -> String {
    let lines = if end == 0 { LINES as u16 } else { 1 };
    let total = HEAD + 4 * lines;
    let items = first_item(end, total);
    let places = items + ITEMS as u16;
    let origins = places + 2 * PENDING as u16 * lines;
    let of = |line: u16| if end == 0 { format!(" of line {line}") } else { String::new() };
    if index < 3 {
        let names = if end == 0 { ["n", "initial", "length"] } else { ["n", "line", "length"] };
        names[index as usize].to_string()
    } else if index < HEAD {
        ["ranks of lines 1 to 4", "ranks of lines 5 to 8"][index as usize - 3].to_string()
    } else if index < total {
        let (line, which) = ((index - HEAD) / 4 + 1, (index - HEAD) % 4);
        let name = ["made", "taken", "acked", "inserts"][which as usize];
        format!("{name}{}", of(line))
    } else if index == total {
        "total".to_string()
    } else if index < items {
        ["place of the inverse", "item of the inverse"][(index - total) as usize - 1].to_string()
    } else if index < places {
        format!("items[{}]", index - items)
    } else if index < origins {
        let (at, pending) = (index - places, PENDING as u16);
        let (line, at) = (at / (2 * pending) + 1, at % (2 * pending));
        let (which, slot) = if at < pending { ("place", at) } else { ("item", at - pending) };
        format!("{which} of pending edit {slot}{}", of(line))
    } else if index < origins + ITEMS as u16 {
        format!("origin of items[{}]", index - origins)
    } else {
        let (at, pending) = (index - origins - ITEMS as u16, PENDING as u16);
        format!("origin of pending edit {}{}", at % pending, of(at / pending + 1))
    }
}

#[cfg(test)]
mod tests {
    use super::*;

    /// The words that the layout names.
    #[test]
    fn named_words() {
        assert_eq!((CLIENT_WORDS, SERVER_WORDS), (1164, 2598));
        for (end, line, field, at) in [
            (1, 1, Field::Ranks(0), 3),
            (1, 1, Field::Inserts, 8),
            (1, 1, Field::Total, 9),
            (1, 1, Field::InversePlace, 10),
            (1, 1, Field::InverseItem, 11),
            (1, 1, Field::Item(0), 12),
            (1, 1, Field::Item(511), 523),
            (1, 1, Field::Place(0), 524),
            (1, 1, Field::Brought(63), 651),
            (1, 1, Field::Origin(0), 652),
            (1, 1, Field::Origin(511), 1163),
            (0, 0, Field::Initial, 1),
            (0, 0, Field::Ranks(1), 4),
            (0, 1, Field::Made, 5),
            (0, 1, Field::Inserts, 8),
            (0, 2, Field::Taken, 10),
            (0, 8, Field::Acked, 35),
            (0, 0, Field::Total, 37),
            (0, 0, Field::Item(0), 38),
            (0, 1, Field::Place(0), 550),
            (0, 1, Field::Brought(0), 614),
            (0, 2, Field::Place(63), 741),
            (0, 8, Field::Brought(63), 1573),
            (0, 0, Field::Origin(0), 1574),
            (0, 0, Field::Origin(511), 2085),
            (0, 1, Field::PendingOrigin(0), 2086),
            (0, 2, Field::PendingOrigin(63), 2213),
            (0, 8, Field::PendingOrigin(63), 2597),
        ] {
            assert_eq!(word(end, line, field), Some(at), "{end} {line} {field:?}");
        }
        assert_eq!(word(0, 0, Field::Line), None);
        assert_eq!(word(1, 1, Field::Initial), None);
        assert_eq!(word(0, 1, Field::InversePlace), None);
        assert_eq!(word(0, 1, Field::InverseItem), None);
        assert_eq!(word(1, 1, Field::Ranks(2)), None);
        assert_eq!(word(1, 1, Field::PendingOrigin(0)), None);
        assert_eq!(word(0, 1, Field::PendingOrigin(64)), None);
        assert_eq!(name(0, 1572), "item of pending edit 62 of line 8");
        assert_eq!(name(1, 587), "place of pending edit 63");
        assert_eq!(name(1, 4), "ranks of lines 5 to 8");
        assert_eq!((name(1, 9), name(0, 37)), ("total".to_string(), "total".to_string()));
        assert_eq!((name(1, 10), name(1, 11)), ("place of the inverse".to_string(), "item of the inverse".to_string()));
        assert_eq!((name(1, 12), name(0, 38)), ("items[0]".to_string(), "items[0]".to_string()));
        assert_eq!(name(1, 1163), "origin of items[511]");
        assert_eq!(name(0, 2085), "origin of items[511]");
        assert_eq!(name(0, 2150), "origin of pending edit 0 of line 2");
        assert_eq!(origin_word((3, 400)), 196_608 + 400);
        assert_eq!(rank_words(&[2, 3, 4, 5, 1]), [0x0504_0302, 1]);
    }
}
