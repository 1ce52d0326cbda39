//! One line of an end: its counts and its pending edits. A client has one, the server eight.

use super::codec::{self, Message};
use super::edit::{Edit, Move, Moves, DELETE, INSERT};
use super::ranks::Ranks;
use super::slip::{Rules, Slip};
use super::{Answer, Sent};
use crate::limits::*;
use std::ops::Range;

#[derive(Clone, PartialEq, Eq, Debug)]
#[repr(C)]
pub struct Line {
    pub made: u16,
    pub taken: u16,
    pub acked: u16,
    pub inserts: u16,
    /// Numbers acked + 1 to made, in their present form; the rest is unused.
    pub pending: Pending,
}

/// Pending edits side by side: position * 256 + priority, and the item.
#[derive(Clone, PartialEq, Eq, Debug)]
#[repr(C)]
pub struct Pending {
    pub places: [u32; PENDING],
    pub items: [u32; PENDING],
}

impl Pending {
    const ZERO: Pending = Pending { places: [0; PENDING], items: [0; PENDING] };

    #[inline]
    pub fn get(&self, at: usize) -> Edit {
        Edit::pending(self.places[at], self.items[at])
    }

    #[inline]
    fn put(&mut self, at: usize, edit: Edit) {
        self.places[at] = edit.place();
        self.items[at] = edit.item();
    }
}

/// What an arriving edit does to a line, computed before anything is written: a refusal then has nothing to undo.
pub struct Crossed {
    pub edit: Edit,
    pub passed: u16,
    pub within: bool,
    pending: Pending,
}

impl Line {
    pub const ZERO: Line = Line { made: 0, taken: 0, acked: 0, inserts: 0, pending: Pending::ZERO };

    #[inline]
    pub fn kept(&self) -> u16 {
        self.made.wrapping_sub(self.acked)
    }

    /// The part of question 2 that both kinds of end ask of their lines; `allowed` says which priorities a pending insert may have.
    #[inline]
    pub fn sound<R: Rules>(&self, allowed: impl Fn(u32) -> bool) -> bool {
        let kept = self.kept() as usize;
        let counts = (self.acked <= self.made || R::slips(Slip::SoundAcked))
            && (kept <= PENDING || R::slips(Slip::SoundPending))
            && (self.inserts <= INSERTS || R::slips(Slip::SoundInserts));
        if !counts {
            return false;
        }
        let (places, unused_places) = self.pending.places.split_at(kept.min(PENDING));
        let (items, unused_items) = self.pending.items.split_at(kept.min(PENDING));
        let mut bad = false;
        for (&place, &item) in places.iter().zip(items) {
            let (position, priority) = (place >> 8 & 65_535, place & 255);
            let outside = (position.wrapping_sub(1) >= ITEMS as u32) & !R::slips(Slip::SoundPosition);
            let foreign = if priority == 0 { item != 0 } else { !allowed(priority) } & !R::slips(Slip::SoundPriority);
            bad |= (place | item != 0) & (outside | foreign | (place >> 24 != 0));
        }
        let rest = unused_places.iter().zip(unused_items).fold(0, |all, (place, item)| all | place | item);
        !bad && (rest == 0 || R::slips(Slip::SoundPendingZero))
    }

    /// Questions 5 to 8 of an edit message, 7 and 8 of an acknowledgement: 0 or the first no.
    #[inline]
    pub fn in_turn<R: Rules>(&self, message: &Message) -> u8 {
        let (repeat, gap) = if R::slips(Slip::GapFirst) { (6, 5) } else { (5, 6) };
        if !message.is_ack() && message.number <= self.taken {
            repeat
        } else if !message.is_ack() && message.number != self.taken + 1 {
            gap
        } else if message.seen < self.acked && !R::slips(Slip::NoSeven) {
            7
        } else if message.seen > self.made && !R::slips(Slip::NoEight) {
            8
        } else {
            0
        }
    }

    /// Drops the pending edits up to `seen`.
    pub fn acknowledge<R: Rules>(&mut self, seen: u16) -> Answer {
        let seen = seen.clamp(self.acked, self.made);
        let (drop, kept) = ((seen - self.acked) as usize, self.kept() as usize);
        let passed = if R::slips(Slip::AckCounted) { self.made - seen } else { 0 };
        let position = if R::slips(Slip::AckPositions) { self.pending.get(0).position() } else { 0 };
        if !R::slips(Slip::AckIgnored) {
            for words in [&mut self.pending.places, &mut self.pending.items] {
                words.copy_within(drop..kept, 0);
                if !R::slips(Slip::PendingTailLeft) {
                    words[kept - drop..kept].fill(0);
                }
            }
            self.acked = seen;
        }
        Answer { passed, arrived: position, applied: position, ..Answer::default() }
    }

    /// The arriving edit past the pending edits after `seen` in order, and each of these past the edit as it stood
    /// before that one. Its moves have to add up.
    #[inline]
    pub fn cross<R: Rules>(&self, arriving: Edit, seen: u16, ranks: &Ranks) -> Crossed {
        let seen = seen.clamp(self.acked, self.made);
        let seen = if R::slips(Slip::SeenIgnored) { self.acked } else { seen };
        let (from, to) = ((seen - self.acked) as usize, self.kept() as usize);
        let mut crossed = Crossed { edit: arriving, passed: (to - from) as u16, within: true, pending: Pending::ZERO };
        if R::slips(Slip::PendingTailLeft) {
            crossed.pending = self.pending.clone();
        }
        let (mut highest, mut moves) = (0, Moves::default());
        for at in from..to.min(PENDING) {
            let old = self.pending.get(at);
            let (form, _) = carried::<R>(old, crossed.edit, ranks);
            let (edit, how) = carried::<R>(crossed.edit, old, ranks);
            crossed.edit = edit;
            moves.add(how);
            highest = highest.max(form.position());
            crossed.pending.put(at - from, form);
        }
        if R::CHECKS {
            assert_eq!(moves.from(arriving.position()), crossed.edit.position(), "the moves of {arriving:?} do not add up");
        }
        crossed.within = highest <= ITEMS as u16 || R::slips(Slip::PendingPast512);
        self.slip_of_crossing::<R>(&mut crossed, from..to, arriving);
        if R::slips(Slip::CountMadeUp) {
            crossed.passed = self.kept();
        }
        crossed
    }

    /// The slips that spoil what crossing computed.
    #[inline(always)]
    fn slip_of_crossing<R: Rules>(&self, crossed: &mut Crossed, passed: Range<usize>, arriving: Edit) {
        let left = |crossed: &mut Crossed, first: usize| {
            passed.clone().enumerate().skip(first).for_each(|(new, old)| crossed.pending.put(new, self.pending.get(old)))
        };
        if R::slips(Slip::PendingLeft) {
            left(crossed, 0);
        }
        if R::slips(Slip::FirstOnly) && !passed.is_empty() {
            crossed.edit = arriving.past(self.pending.get(passed.start)).0;
            left(crossed, 1);
        }
        if R::slips(Slip::CountZero) {
            crossed.passed = 0;
        }
    }

    /// Writes what `cross` computed; the edit counts as taken.
    #[inline]
    pub fn store<R: Rules>(&mut self, crossed: &Crossed, seen: u16) {
        self.pending = crossed.pending.clone();
        if !R::slips(Slip::SeenIgnored) {
            self.acked = seen.clamp(self.acked, self.made);
        }
        self.taken += 1;
    }

    /// Keeps an edit as the next number. The caller has asked question 12.
    #[inline]
    pub fn keep(&mut self, edit: Edit) {
        self.pending.put(self.kept() as usize, edit);
        self.made += 1;
    }

    /// Questions 13 and 14 of sending number k, and the message's bytes; `origin` is that of the pending edit at a slot.
    pub fn send<R: Rules>(&self, line: u8, direction: u8, k: u16, origin: impl Fn(usize) -> u32, out: &mut [u8]) -> Sent {
        if !(self.acked < k && k <= self.made) {
            return Sent::refused(13);
        }
        let slot = (k - self.acked - 1) as usize;
        let seen = if R::slips(Slip::SeenOfAcked) { self.acked } else { self.taken };
        put::<R>(&Message { line, direction, number: k, seen, edit: self.pending.get(slot), origin: origin(slot) }, out)
    }

    /// Question 14 of sending an acknowledgement, and its bytes.
    pub fn tell<R: Rules>(&self, line: u8, direction: u8, out: &mut [u8]) -> Sent {
        put::<R>(&Message { line, direction, number: 0, seen: self.taken, edit: Edit::NOTHING, origin: 0 }, out)
    }
}

fn put<R: Rules>(message: &Message, out: &mut [u8]) -> Sent {
    let (bytes, length) = codec::write::<R>(message);
    if out.len() < length {
        if R::slips(Slip::RefusedWrites) {
            let fits = out.len();
            out.copy_from_slice(&bytes[..fits]);
        }
        let refusal = if R::slips(Slip::ShortOut18) { 18 } else { 14 };
        return Sent { refusal, length: if R::slips(Slip::LengthAtRefusal) { length as u16 } else { 0 } };
    }
    out[..length].copy_from_slice(&bytes[..length]);
    if R::slips(Slip::BytesPast) {
        out[length..].fill(0);
    }
    Sent { refusal: 0, length: length as u16 }
}

/// One edit past another and its move, and the slips of that table, one of which looks at the ranks.
#[inline]
fn carried<R: Rules>(edit: Edit, other: Edit, ranks: &Ranks) -> (Edit, Move) {
    let position = edit.position();
    let line = |edit: Edit| ranks.iter().position(|&rank| rank == edit.priority());
    let slip = match (edit.kind(), other.kind(), position == other.position()) {
        (INSERT, INSERT, true) if R::slips(Slip::TieReversed) => position + (edit.priority() < other.priority()) as u16,
        (INSERT, INSERT, true) if R::slips(Slip::TieBoth) => position + 1,
        (INSERT, INSERT, true) if R::slips(Slip::TieByLine) => position + (line(edit) > line(other)) as u16,
        (INSERT, DELETE, true) if R::slips(Slip::InsertDeleteEqual) => position.max(2) - 1,
        (DELETE, INSERT, true) if R::slips(Slip::DeleteInsertEqual) => position,
        (DELETE, DELETE, true) if R::slips(Slip::DeleteTwice) => position,
        _ => return edit.past(other),
    };
    let how = match slip as i32 - position as i32 {
        1 => Move::Up,
        -1 => Move::Down,
        _ => Move::Still,
    };
    (edit.at(slip), how)
}
