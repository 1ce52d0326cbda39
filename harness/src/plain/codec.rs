//! Messages and their bytes, high byte first. The kind byte alone fixes the length.

use super::edit::{self, Edit};
use super::origins;
use super::slip::{Rules, Slip};
use crate::limits::*;

pub const UP: u8 = 0;
pub const DOWN: u8 = 1;

/// What a message says. An acknowledgement has number 0, which no edit message has.
#[derive(Clone, Copy, PartialEq, Eq, Debug)]
pub struct Message {
    pub line: u8,
    pub direction: u8,
    pub number: u16,
    pub seen: u16,
    pub edit: Edit,
    /// The maker's line and number in one word; 0 in an acknowledgement.
    pub origin: u32,
}

/// The longest message.
pub const LONGEST: usize = 17;

impl Message {
    pub fn is_ack(&self) -> bool {
        self.number == 0
    }
}

/// How many bytes a message of that kind has; 0 for what is no kind.
#[inline]
pub fn length_of(kind: u8) -> usize {
    match kind {
        4 => 5,
        5 => LONGEST,
        7 => 12,
        8 => 10,
        _ => 0,
    }
}

/// Question 3: exactly one message with its fields in range.
#[inline]
pub fn read<R: Rules>(bytes: &[u8]) -> Option<Message> {
    let length = length_of(*bytes.first()?);
    if length == 0 || bytes.len() < length || (bytes.len() != length && !R::slips(Slip::TrailingBytes)) {
        return read_otherwise::<R>(bytes);
    }
    let two = |at: usize| u16::from_be_bytes([bytes[at], bytes[at + 1]]);
    let (kind, line, direction) = (bytes[0], bytes[1], bytes[2]);
    let up = direction == UP;
    let (number, seen) = if kind == 4 { (0, two(3)) } else { (two(3), two(5)) };
    let edit = match kind {
        5 => Edit::insert(two(7), u32::from_be_bytes([bytes[9], bytes[10], bytes[11], bytes[12]]), bytes[13]),
        7 => Edit::delete(two(7)),
        _ => Edit::NOTHING,
    };
    // an edit message ends with its origin
    let (maker, mut made) = (bytes[length - 3], two(length - 2));
    if R::slips(Slip::NumberLowFirst) {
        made = made.swap_bytes();
    }
    let most_number = if up && !R::slips(Slip::NumberRange) { EDITS } else { OTHERS };
    let most_seen = if up { OTHERS } else { EDITS };
    let in_range = (inside(line, 1, LINES as u8) || R::slips(Slip::LineRange))
        && (direction <= DOWN || R::slips(Slip::DirectionRange))
        && (kind == 4 || (1 <= number && number <= most_number))
        && (seen <= most_seen || R::slips(Slip::SeenRange))
        && (kind == 4 || inside(maker, 1, LINES as u8) || R::slips(Slip::MakerRange))
        && (kind == 4 || inside(made, 1, EDITS) || R::slips(Slip::MakerNumberRange))
        && (kind == 4 || kind == 8 || inside(edit.position(), 1, ITEMS as u16) || R::slips(Slip::PositionRange))
        && (kind != 5 || inside(edit.priority(), 1, LINES as u8) || R::slips(Slip::PriorityRange));
    let origin = if kind == 4 { 0 } else { origins::word(maker, made) };
    in_range.then_some(Message { line, direction, number, seen, edit, origin })
}

#[inline]
fn inside<T: PartialOrd>(value: T, low: T, high: T) -> bool {
    low <= value && value <= high
}

/// No message, but for the slips that let the length decide the kind, or go on reading the kinds of before origins.
#[cold]
fn read_otherwise<R: Rules>(bytes: &[u8]) -> Option<Message> {
    let mut copy = bytes.to_vec();
    if R::slips(Slip::KindByLength) {
        copy[0] = [4, 5, 7, 8].into_iter().find(|&kind| length_of(kind) == bytes.len())?;
    } else if R::slips(Slip::OldKinds) && matches!((bytes[0], bytes.len()), (1, 14) | (2, 9) | (3, 7)) {
        copy[0] = [5, 7, 8][bytes[0] as usize - 1];
        copy.extend([bytes[1], bytes[3], bytes[4]]);
    } else {
        return None;
    }
    read::<R>(&copy)
}

/// The bytes of a message in the first places, and their number.
#[inline]
pub fn write<R: Rules>(message: &Message) -> ([u8; LONGEST], usize) {
    let mut bytes = [0; LONGEST];
    let edit = message.edit;
    let kind = match (message.is_ack(), edit.kind()) {
        (true, _) => 4,
        (false, edit::INSERT) => 5,
        (false, edit::DELETE) => 7,
        (false, _) => 8,
    };
    let length = length_of(kind);
    bytes[..3].copy_from_slice(&[kind, message.line, message.direction]);
    if kind == 4 {
        bytes[3..5].copy_from_slice(&message.seen.to_be_bytes());
    } else {
        bytes[3..5].copy_from_slice(&message.number.to_be_bytes());
        bytes[5..7].copy_from_slice(&message.seen.to_be_bytes());
        bytes[7..9].copy_from_slice(&edit.position().to_be_bytes());
        bytes[9..13].copy_from_slice(&edit.item().to_be_bytes());
        bytes[13] = edit.priority();
        let mut made = origins::number(message.origin).to_be_bytes();
        if R::slips(Slip::NumberLowFirst) {
            made.reverse();
        }
        bytes[length - 3] = origins::maker(message.origin);
        bytes[length - 2..length].copy_from_slice(&made);
    }
    (bytes, length)
}
