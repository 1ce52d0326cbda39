//! The server's end.

use super::codec::{self, Message, DOWN, UP};
use super::edit::{Edit, INSERT, NOTHING};
use super::line::{Crossed, Line};
use super::origins::{self, Kept};
use super::packets::{self, Takes};
use super::places::Places;
use super::ranks::{self, Ranks};
use super::reported;
use super::slip::{Rules, Slip};
use super::{Answer, Sent};
use crate::limits::*;

#[derive(Clone, PartialEq, Eq, Debug)]
#[repr(C)]
pub struct Server {
    pub n: u8,
    pub initial: u16,
    pub ranks: Ranks,
    pub lines: [Line; LINES],
    pub list: Places,
    /// Of each line those of its pending edits.
    pub origins: [Kept; LINES],
}

impl Server {
    pub const ZERO: Server =
        Server { n: 0, initial: 0, ranks: [0; LINES], lines: [Line::ZERO; LINES], list: Places::ZERO, origins: [[0; PENDING]; LINES] };

    /// Questions 1 and 16, of an end that is all zeros. Refused, it stays so.
    #[inline]
    pub fn open<R: Rules>(&mut self, n: u8, ranks: &[u8], items: &[u32]) -> u8 {
        let most_items = if R::slips(Slip::Open129) { INITIAL + 1 } else { INITIAL };
        let most_lines = if R::slips(Slip::OpenNine) { LINES + 1 } else { LINES };
        let one = 1 <= n && n as usize <= most_lines && items.len() <= most_items;
        let refusal = ranks::opening::<R>(one, n, ranks);
        if refusal != 0 {
            return refusal;
        }
        self.n = n;
        self.initial = items.len() as u16;
        self.ranks = ranks::stored(ranks);
        self.list.open::<R>(items);
        0
    }

    /// Question 2 of the origins kept for a line (from 0): each has another maker of 1 to n and a number of 1 to 400, whatever became of its
    /// edit; the rest is zero.
    #[inline]
    fn sound_origins<R: Rules>(&self, l: usize) -> bool {
        let line = &self.lines[l];
        let (used, unused) = self.origins[l].split_at((line.kept() as usize).min(PENDING));
        let most = if R::slips(Slip::SoundMakerPastN) { LINES as u8 } else { self.n } as u32;
        let mut bad = false;
        for (&word, &place) in used.iter().zip(&line.pending.places) {
            let maker = if R::slips(Slip::WideMaker) { origins::maker(word) as u32 } else { word >> 16 };
            let outside = (maker.wrapping_sub(1) >= most) & !R::slips(Slip::SoundMaker);
            let own = (maker == l as u32 + 1) & !R::slips(Slip::SoundMakerOwn);
            let number = (origins::number(word).wrapping_sub(1) >= EDITS) & !R::slips(Slip::SoundMakerNumber);
            let asked = place != 0 || !R::slips(Slip::SoundNothingOrigin);
            let ranked = place as u8 == ranks::of::<R>(&self.ranks, origins::maker(word)) || place as u8 == 0;
            bad |= (outside | own | number) & asked | (R::slips(Slip::TwoMakersRank) && !ranked);
        }
        let rest = unused.iter().fold(0, |all, word| all | word);
        !bad && (rest == 0 || R::slips(Slip::SoundKeptZero))
    }

    /// The rank of a line.
    #[inline]
    fn rank<R: Rules>(&self, line: u8) -> u8 {
        let rank = ranks::of::<R>(&self.ranks, line);
        if R::slips(Slip::OtherRanks) {
            (self.n + 1).wrapping_sub(rank)
        } else {
            rank
        }
    }

    /// The priorities that question 2 lets the pending inserts of a line have: other ranks of 1 to n.
    #[inline]
    fn others<R: Rules>(&self, line: u8) -> impl Fn(u32) -> bool {
        let own = if R::slips(Slip::TwoByLine) { line } else { self.rank::<R>(line) } as u32;
        let n = self.n as u32;
        move |priority| (priority.wrapping_sub(1) < n) & (priority != own)
    }

    /// Question 4 of a line.
    #[inline]
    fn has(&self, line: u8) -> bool {
        1 <= line && line <= self.n
    }

    /// Questions 2 and 4 of a sending: 0 or the first no.
    #[inline]
    fn sending_refusal<R: Rules>(&self, line: u8) -> u8 {
        if !self.sound::<R>() {
            2
        } else if !self.has(line) {
            4
        } else {
            0
        }
    }

    /// Questions 2, 4, 13, 14.
    pub fn send<R: Rules>(&self, line: u8, k: u16, out: &mut [u8]) -> Sent {
        match self.sending_refusal::<R>(line) {
            0 => self.send_pending::<R>(line, k, out),
            refusal => Sent::refused(refusal),
        }
    }

    /// Questions 13 and 14, and the message.
    #[inline]
    fn send_pending<R: Rules>(&self, line: u8, k: u16, out: &mut [u8]) -> Sent {
        let l = line as usize - 1;
        self.lines[l].send::<R>(line, DOWN, k, |slot| self.sent_origin::<R>(l, k, slot), out)
    }

    /// The origin that the edit at a slot of a line (from 0) is sent with, as number k.
    #[inline]
    fn sent_origin<R: Rules>(&self, l: usize, k: u16, slot: usize) -> u32 {
        let origin = self.origins[l][if R::slips(Slip::SendsFirstOrigin) { 0 } else { slot }];
        let maker = if R::slips(Slip::SendsLine) { l as u8 + 1 } else { origins::maker(origin) };
        let number = if R::slips(Slip::SendsNumber) { k } else { origins::number(origin) };
        origins::word(maker, number)
    }

    /// Sends an acknowledgement. Questions 2, 4, 14.
    pub fn tell<R: Rules>(&self, line: u8, out: &mut [u8]) -> Sent {
        match self.sending_refusal::<R>(line) {
            0 => self.lines[line as usize - 1].tell::<R>(line, DOWN, out),
            refusal => Sent::refused(refusal),
        }
    }

    /// Writes a packet of the pending edits of a line. Questions 2, 4, 14.
    pub fn pack<R: Rules>(&self, line: u8, out: &mut [u8], offset: usize) -> Sent {
        match self.sending_refusal::<R>(line) {
            0 => packets::write::<R>(&self.lines[line as usize - 1], |k, room| self.send_pending::<R>(line, k, room), out, offset),
            refusal => Sent::refused(refusal),
        }
    }

    /// Drops the pending edits of a line (from 0) up to `seen`, and their origins.
    fn acknowledge<R: Rules>(&mut self, l: usize, seen: u16) -> Answer {
        let line = &mut self.lines[l];
        let (acked, pending) = (line.acked, line.kept());
        let answer = line.acknowledge::<R>(seen);
        if !R::slips(Slip::AckOrigins) {
            origins::forget::<R>(&mut self.origins[l], line.acked - acked, pending);
        }
        answer
    }

    /// Writes what crossing computed for a line (from 0), and drops the origins of the edits that were seen.
    #[inline]
    fn store<R: Rules>(&mut self, l: usize, crossed: &Crossed, message: &Message) {
        let line = &mut self.lines[l];
        let (acked, pending) = (line.acked, line.kept());
        line.store::<R>(crossed, message.seen);
        if !R::slips(Slip::SeenOrigins) {
            origins::forget::<R>(&mut self.origins[l], line.acked - acked, pending);
        }
        if R::slips(Slip::CrossedOrigins) {
            self.origins[l][..line.kept() as usize].fill(message.origin);
        }
    }

    /// Keeps an edit of that origin for a line (from 0).
    #[inline]
    fn keep<R: Rules>(&mut self, l: usize, edit: Edit, origin: u32) {
        let line = &mut self.lines[l];
        let bare = R::slips(Slip::NothingOrigin) && edit.kind() == NOTHING;
        self.origins[l][line.kept() as usize] = if bare { 0 } else { origin };
        line.keep(edit);
    }

    /// Questions 9, 10 and 12, and the taking.
    fn take_edit<R: Rules>(&mut self, message: Message) -> Answer {
        let own = message.line as usize - 1;
        let insert = message.edit.kind() == INSERT;
        let line = &self.lines[own];
        let crossed = line.cross::<R>(message.edit, message.seen, &self.ranks);
        let ten = insert && line.inserts >= INSERTS && !R::slips(Slip::ServerNoTen);
        if !crossed.within || !crossed.edit.fits(self.list.length, ITEMS as u16) {
            return reported::refused_late::<R>(9, &message, &crossed);
        }
        if ten {
            return reported::refused_late::<R>(10, &message, &crossed);
        }
        let n = (self.n as usize).min(LINES);
        let room = if R::slips(Slip::ServerTwelveAt63) { 63 } else { PENDING as u16 };
        let asked = |l: usize| l != own || R::slips(Slip::TwelveOwnLine);
        if (0..n).any(|l| asked(l) && self.lines[l].kept() >= room) {
            return reported::refused_late::<R>(12, &message, &crossed);
        }
        let answer = reported::taken::<R>(&self.lines[own], &message, &crossed, Slip::ServerSilent);
        self.store::<R>(own, &crossed, &message);
        self.lines[own].inserts += insert as u16;
        let kept = if R::slips(Slip::KeepsArrived) { message.edit } else { crossed.edit };
        let thrown = R::slips(Slip::NothingThrown) && kept.kind() == NOTHING;
        for l in 0..n {
            let other = l != own || (R::slips(Slip::KeepsForMaker) && self.lines[l].kept() < 64);
            if other && !thrown {
                self.keep::<R>(l, kept, message.origin);
            }
        }
        if !R::slips(Slip::ListLeft) {
            self.list.apply::<R>(crossed.edit, message.origin);
        }
        answer
    }
}

impl Takes for Server {
    #[inline]
    fn sound<R: Rules>(&self) -> bool {
        let n = self.n as usize;
        if !((1 <= n && n <= LINES) || R::slips(Slip::SoundN)) {
            return false;
        }
        let (used, unused) = self.lines.split_at(n.min(LINES));
        let taken: u32 = used.iter().map(|line| line.taken as u32).sum();
        let inserts: u32 = used.iter().map(|line| line.inserts as u32).sum();
        ranks::sound::<R>(self.n, &self.ranks)
            && (self.initial as usize <= INITIAL || R::slips(Slip::SoundInitial))
            && (self.list.length as usize <= ITEMS || R::slips(Slip::SoundLength))
            && (self.list.length as u32 <= self.initial as u32 + inserts || R::slips(Slip::SoundListBound))
            && used.iter().enumerate().all(|(l, line)| {
                (line.taken <= EDITS || R::slips(Slip::SoundTaken))
                    && (line.made as u32 == taken - line.taken as u32 || R::slips(Slip::SoundSum))
                    && (line.inserts <= line.taken || R::slips(Slip::SoundInsertsMade))
                    && line.sound::<R>(self.others::<R>(l as u8 + 1))
                    && self.sound_origins::<R>(l)
            })
            && (unused.iter().all(|line| *line == Line::ZERO) || R::slips(Slip::SoundPastN))
            && (self.origins[used.len()..].as_flattened().iter().fold(0, |all, word| all | word) == 0 || R::slips(Slip::SoundOriginsPastN))
            && self.list.sound::<R>(self.n)
    }

    /// Questions 3 to 10 and 12; of an acknowledgement 3, 4, 7, 8.
    fn take_message<R: Rules>(&mut self, bytes: &[u8]) -> Answer {
        let Some(message) = codec::read::<R>(bytes) else {
            return Answer::refused(3);
        };
        if R::slips(Slip::AllRefused) {
            return Answer::refused(6);
        }
        let edit = message.edit;
        let rank = if R::slips(Slip::FourByLine) { message.line } else { self.rank::<R>(message.line) };
        let own = edit.kind() != INSERT || edit.priority() == rank || R::slips(Slip::OtherPriorityUp);
        let by_sender = message.is_ack() || is_by_sender::<R>(&message);
        if message.direction != UP || !self.has(message.line) || !own || !(by_sender || R::slips(Slip::MakerLate)) {
            return reported::refused::<R>(4, edit);
        }
        let line = message.line as usize - 1;
        let refusal = self.lines[line].in_turn::<R>(&message);
        if refusal != 0 {
            if R::slips(Slip::RefusedSeen) {
                self.acknowledge::<R>(line, message.seen);
            }
            return reported::refused::<R>(refusal, edit);
        }
        if message.is_ack() {
            return self.acknowledge::<R>(line, message.seen);
        }
        if !by_sender {
            return Answer::refused(4);
        }
        self.take_edit::<R>(message)
    }
}

/// Question 4 of the maker of an edit that goes up: the line itself, and the message's own number.
#[inline]
fn is_by_sender<R: Rules>(message: &Message) -> bool {
    (origins::maker(message.origin) == message.line || R::slips(Slip::MakerUp))
        && (origins::number(message.origin) == message.number || R::slips(Slip::MakerNumberUp))
        || (message.edit.kind() != INSERT && R::slips(Slip::MakerOfInserts))
}
