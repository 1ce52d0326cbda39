//! The client's end.

use super::codec::{self, DOWN, UP};
use super::edit::{Edit, INSERT};
use super::line::Line;
use super::origins;
use super::packets::{self, Takes};
use super::places::Places;
use super::ranks::{self, Ranks};
use super::reported;
use super::slip::{Rules, Slip};
use super::undo::Inverse;
use super::{Answer, Sent};
use crate::limits::*;

#[derive(Clone, PartialEq, Eq, Debug)]
#[repr(C)]
pub struct Client {
    pub n: u8,
    pub line: u8,
    pub ranks: Ranks,
    pub own: Line,
    pub list: Places,
    /// Of the latest edit, past each edit taken since; nothing before the first.
    pub inverse: Inverse,
}

impl Client {
    pub const ZERO: Client = Client { n: 0, line: 0, ranks: [0; LINES], own: Line::ZERO, list: Places::ZERO, inverse: Inverse::NOTHING };

    /// Questions 1 and 16, of an end that is all zeros. Refused, it stays so.
    #[inline]
    pub fn open<R: Rules>(&mut self, n: u8, line: u8, ranks: &[u8], items: &[u32]) -> u8 {
        let least = if R::slips(Slip::OpenLineZero) { 0 } else { 1 };
        let one = 1 <= n && n as usize <= LINES && least <= line && line <= n && items.len() <= INITIAL;
        let refusal = ranks::opening::<R>(one, n, ranks);
        if refusal != 0 {
            return refusal;
        }
        self.n = n;
        self.line = line;
        self.ranks = ranks::stored(ranks);
        self.list.open::<R>(items);
        self.list.given_to::<R>(line);
        0
    }

    /// The rank of the client's own line.
    #[inline]
    fn rank<R: Rules>(&self) -> u8 {
        ranks::of::<R>(&self.ranks, self.line)
    }

    /// The priority that question 2 asks of the client's pending inserts.
    #[inline]
    fn own_priority<R: Rules>(&self) -> u8 {
        if R::slips(Slip::TwoByLine) {
            self.line
        } else {
            self.rank::<R>()
        }
    }

    pub fn insert<R: Rules>(&mut self, position: u16, item: u32) -> Answer {
        let priority = if R::slips(Slip::PriorityOne) { 1 } else { self.rank::<R>() };
        self.edit::<R>(Edit::insert(position, item, priority))
    }

    pub fn delete<R: Rules>(&mut self, position: u16) -> Answer {
        self.edit::<R>(Edit::delete(position))
    }

    /// Takes the latest edit back: its inverse is made as an ordinary edit. Questions 2, 17, 9, 10, 11, 12.
    pub fn take_back<R: Rules>(&mut self) -> Answer {
        let seventeen = self.inverse.place == 0;
        if !self.sound::<R>() {
            return Answer::refused(if seventeen && R::slips(Slip::SeventeenFirst) { 17 } else { 2 });
        }
        let before = (self.inverse, self.own.clone());
        let edit = self.inverse.edit();
        let refusal = if seventeen { self.nothing_refusal::<R>() } else { self.back_refusal::<R>(edit) };
        if refusal != 0 {
            if R::slips(Slip::BackRefusedClears) {
                self.inverse = Inverse::NOTHING;
            }
            return Answer::refused(refusal);
        }
        let answer = self.make::<R>(edit);
        self.slip_of_taking_back::<R>(edit, before);
        answer
    }

    /// 17 where there is nothing to take back, but for the slips that ask it late.
    #[inline]
    fn nothing_refusal<R: Rules>(&self) -> u8 {
        if R::slips(Slip::SeventeenAfterNine) {
            return 9;
        }
        let counts = if R::slips(Slip::SeventeenLast) { self.make_refusal::<R>(Edit::NOTHING) } else { 0 };
        if counts == 0 {
            17
        } else {
            counts
        }
    }

    /// Questions 9 to 12 of taking back.
    #[inline]
    fn back_refusal<R: Rules>(&self, edit: Edit) -> u8 {
        match self.make_refusal::<R>(edit) {
            10 if R::slips(Slip::BackNoTen) => 0,
            11 if R::slips(Slip::BackNoEleven) => 0,
            12 if R::slips(Slip::BackNoTwelve) => 0,
            refusal => refusal,
        }
    }

    /// The slips of what taking back leaves.
    #[inline(always)]
    fn slip_of_taking_back<R: Rules>(&mut self, edit: Edit, (inverse, own): (Inverse, Line)) {
        let insert = edit.kind() == INSERT;
        let at = (edit.position() as usize).wrapping_sub(1);
        match () {
            _ if R::slips(Slip::BackOnce) => self.inverse = Inverse::NOTHING,
            _ if R::slips(Slip::BackKept) => self.inverse = inverse,
            _ if R::slips(Slip::BackUnsent) => self.own = own,
            _ if R::slips(Slip::BackUncounted) => self.own.inserts = own.inserts,
            _ if R::slips(Slip::BackOrigin) && insert => self.list.origins[at] = origins::word(self.line, own.made),
            _ if R::slips(Slip::BackOldOrigin) && insert => self.list.origins[at] = origins::word(0, edit.position()),
            _ => {}
        }
    }

    /// Questions 2, 9, 10, 11, 12.
    #[inline]
    fn edit<R: Rules>(&mut self, edit: Edit) -> Answer {
        let refusal = self.edit_refusal::<R>(edit);
        if refusal != 0 {
            if R::slips(Slip::InverseRefused) && refusal > 9 {
                self.inverse = Inverse::of::<R>(edit, &self.list, self.line, self.rank::<R>());
            }
            return Answer::refused(refusal);
        }
        self.make::<R>(edit)
    }

    /// An edit that may be made: applied, counted and kept, and its inverse stored.
    #[inline]
    fn make<R: Rules>(&mut self, edit: Edit) -> Answer {
        if !(R::slips(Slip::InverseFirst) && self.inverse != Inverse::NOTHING) {
            self.inverse = Inverse::of::<R>(edit, &self.list, self.line, self.rank::<R>());
        }
        let number = self.own.made + !R::slips(Slip::OwnNumberBefore) as u16;
        if !R::slips(Slip::ListLeft) {
            let total = self.list.total;
            self.list.apply::<R>(edit, origins::word(self.line, number));
            if R::slips(Slip::TotalTakenAlone) {
                self.list.total = total;
            }
        }
        self.own.keep(edit);
        self.own.inserts += (edit.kind() == INSERT) as u16;
        let position = if R::slips(Slip::MadePositions) { edit.position() } else { 0 };
        Answer { arrived: position, applied: position, ..Answer::default() }
    }

    #[inline]
    fn edit_refusal<R: Rules>(&self, edit: Edit) -> u8 {
        if !self.sound::<R>() {
            2
        } else {
            self.make_refusal::<R>(edit)
        }
    }

    /// Questions 9 to 12.
    #[inline]
    fn make_refusal<R: Rules>(&self, edit: Edit) -> u8 {
        let own = &self.own;
        let most_inserts = if R::slips(Slip::Insert49) { INSERTS + 1 } else { INSERTS };
        let most_edits = if R::slips(Slip::Edit401) { EDITS + 1 } else { EDITS };
        let ten = edit.kind() == INSERT && own.inserts >= most_inserts;
        let twelve = own.kept() as usize >= room::<R>();
        if ten && R::slips(Slip::TenBeforeNine) {
            10
        } else if !fits::<R>(edit, self.list.length) {
            9
        } else if ten {
            10
        } else if twelve && R::slips(Slip::TwelveBeforeEleven) {
            12
        } else if own.made >= most_edits {
            11
        } else if twelve {
            12
        } else {
            0
        }
    }

    /// Questions 2 and 4 of a sending: 0 or the first no.
    #[inline]
    fn sending_refusal<R: Rules>(&self, line: u8) -> u8 {
        if !self.sound::<R>() {
            2
        } else if line != self.line {
            4
        } else {
            0
        }
    }

    /// Questions 2, 4, 13, 14.
    pub fn send<R: Rules>(&self, line: u8, k: u16, out: &mut [u8]) -> Sent {
        match self.sending_refusal::<R>(line) {
            0 => self.send_pending::<R>(line, k, out),
            refusal => Sent::refused(refusal),
        }
    }

    /// Questions 13 and 14, and the message.
    #[inline]
    fn send_pending<R: Rules>(&self, line: u8, k: u16, out: &mut [u8]) -> Sent {
        let number = |slot: usize| if R::slips(Slip::SendsSlot) { slot as u16 + 1 } else { k };
        self.own.send::<R>(line, UP, k, |slot| origins::word(line, number(slot)), out)
    }

    /// Sends an acknowledgement. Questions 2, 4, 14.
    pub fn tell<R: Rules>(&self, line: u8, out: &mut [u8]) -> Sent {
        match self.sending_refusal::<R>(line) {
            0 => self.own.tell::<R>(line, UP, out),
            refusal => Sent::refused(refusal),
        }
    }

    /// Writes a packet of the pending edits. Questions 2, 4, 14.
    pub fn pack<R: Rules>(&self, line: u8, out: &mut [u8], offset: usize) -> Sent {
        let pack = |out: &mut [u8]| packets::write::<R>(&self.own, |k, room| self.send_pending::<R>(line, k, room), out, offset);
        match self.sending_refusal::<R>(line) {
            0 => pack(out),
            4 if R::slips(Slip::PackAnyLine) => pack(out),
            4 if R::slips(Slip::PackFourLate) && pack(&mut out.to_vec()).refusal == 14 => Sent::refused(14),
            refusal => Sent::refused(refusal),
        }
    }

    /// Question 4 of the maker of an edit that comes down: another line of 1 to n.
    #[inline]
    fn is_anothers<R: Rules>(&self, edit: Edit, origin: u32) -> bool {
        let maker = origins::maker(origin);
        ((1 <= maker && maker <= self.n) || R::slips(Slip::MakerPastN))
            && (maker != self.line || R::slips(Slip::MakerOwnDown))
            && (edit.kind() != INSERT || edit.priority() == ranks::of::<R>(&self.ranks, maker) || !R::slips(Slip::MakersRank))
            || (edit.kind() != INSERT && R::slips(Slip::MakerOfInserts))
    }
}

impl Takes for Client {
    #[inline]
    fn sound<R: Rules>(&self) -> bool {
        let own = &self.own;
        ((1 <= self.n && self.n as usize <= LINES) || R::slips(Slip::SoundN))
            && ((1 <= self.line && self.line <= self.n) || R::slips(Slip::SoundLine))
            && (self.list.length as usize <= ITEMS || R::slips(Slip::SoundLength))
            && (own.made <= EDITS || R::slips(Slip::SoundMade))
            && (own.taken <= OTHERS || R::slips(Slip::SoundTaken))
            && (own.inserts <= own.made || R::slips(Slip::SoundInsertsMade))
            && ranks::sound::<R>(self.n, &self.ranks)
            && own.sound::<R>(|priority| priority == self.own_priority::<R>() as u32)
            && self.inverse.sound::<R>(self.own_priority::<R>(), own.made)
            && self.list.sound::<R>(self.n)
    }

    /// Questions 3 to 9; of an acknowledgement 3, 4, 7, 8.
    fn take_message<R: Rules>(&mut self, bytes: &[u8]) -> Answer {
        let Some(message) = codec::read::<R>(bytes) else {
            return Answer::refused(3);
        };
        if R::slips(Slip::AllRefused) {
            return Answer::refused(6);
        }
        let edit = message.edit;
        if R::slips(Slip::FiveBeforeFour) && !message.is_ack() && message.number <= self.own.taken {
            return reported::refused::<R>(5, edit);
        }
        let own = if R::slips(Slip::FourByLine) { self.line } else { self.rank::<R>() };
        let other = edit.priority() != own || R::slips(Slip::OwnPriorityDown);
        let foreign = edit.kind() != INSERT || (1 <= edit.priority() && edit.priority() <= self.n && other);
        let another = message.is_ack() || self.is_anothers::<R>(edit, message.origin);
        if message.direction != DOWN || message.line != self.line || !foreign || !(another || R::slips(Slip::MakerLate)) {
            return reported::refused::<R>(4, edit);
        }
        let refusal = self.own.in_turn::<R>(&message);
        if refusal != 0 {
            if R::slips(Slip::RefusedSeen) {
                self.own.acknowledge::<R>(message.seen);
            }
            return reported::refused::<R>(refusal, edit);
        }
        if message.is_ack() {
            if R::slips(Slip::InverseAcked) {
                self.inverse = Inverse::NOTHING;
            }
            return self.own.acknowledge::<R>(message.seen);
        }
        if !another {
            return Answer::refused(4);
        }
        let crossed = self.own.cross::<R>(edit, message.seen, &self.ranks);
        let inverse = self.inverse.past::<R>(edit, &crossed);
        if !crossed.within || !crossed.edit.fits(self.list.length, ITEMS as u16) || !inverse.stands::<R>() {
            return reported::refused_late::<R>(9, &message, &crossed);
        }
        let answer = reported::taken::<R>(&self.own, &message, &crossed, Slip::ClientSilent);
        self.own.store::<R>(&crossed, message.seen);
        self.inverse = inverse;
        if !R::slips(Slip::ListLeft) {
            let maker = if R::slips(Slip::MakerOfLine) { message.line } else { origins::maker(message.origin) };
            let number = if R::slips(Slip::NumberOfMessage) { message.number } else { origins::number(message.origin) };
            let total = self.list.total;
            self.list.apply::<R>(crossed.edit, origins::word(maker, number));
            if R::slips(Slip::TotalMadeAlone) {
                self.list.total = total;
            }
        }
        answer
    }
}

/// How many edits may be pending before question 12 says no.
#[inline]
fn room<R: Rules>() -> usize {
    if R::slips(Slip::TwelveAtOne) {
        1
    } else if R::slips(Slip::TwelveAt63) {
        63
    } else {
        PENDING
    }
}

/// Question 9 of editing.
#[inline]
fn fits<R: Rules>(edit: Edit, length: u16) -> bool {
    if R::slips(Slip::DeletePastEnd) && edit.kind() != INSERT {
        return 1 <= edit.position() && edit.position() <= length + 1;
    }
    if R::slips(Slip::InsertPastEnd) && edit.kind() == INSERT {
        return edit.fits(length, ITEMS as u16) && edit.position() <= length.max(1);
    }
    edit.fits(length, if R::slips(Slip::Item513) { 513 } else { ITEMS as u16 })
}
