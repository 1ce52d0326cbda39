//! Several messages in one packet: what both ends share. `packet_slips` has the same with mistakes.

use super::codec;
use super::line::Line;
use super::packet_slips;
use super::slip::{Rules, Slip};
use super::{Answer, Sent};
use crate::limits::LONGEST_PACKET;

/// The pending edits of a line in number order, from an offset of the buffer on, up to the first that does not fit; question 14. `send` writes
/// one of them.
pub fn write<R: Rules>(line: &Line, send: impl Fn(u16, &mut [u8]) -> Sent, out: &mut [u8], offset: usize) -> Sent {
    if R::SLIPS {
        return packet_slips::write::<R>(line, send, out, offset);
    }
    let mut at = offset;
    for k in line.acked + 1..=line.made {
        let sent = send(k, out.get_mut(at..).unwrap_or_default());
        if sent.refusal != 0 {
            break;
        }
        at += sent.length as usize;
    }
    if at == offset && line.kept() != 0 {
        return Sent::refused(14);
    }
    Sent { refusal: 0, length: (at - offset) as u16 }
}

/// How many bytes the next message of a packet has: as its kind says. A byte that is no kind, and a message that is cut off, take the rest.
#[inline]
pub fn next_size(bytes: &[u8]) -> usize {
    match bytes.first().map_or(0, |&kind| codec::length_of(kind)) {
        0 => bytes.len(),
        size => size.min(bytes.len()),
    }
}

/// An end that takes messages.
pub trait Takes: Clone {
    /// Question 2.
    fn sound<R: Rules>(&self) -> bool;

    /// One message, at a sound end: the questions from 3 on.
    fn take_message<R: Rules>(&mut self, bytes: &[u8]) -> Answer;

    fn take<R: Rules>(&mut self, bytes: &[u8]) -> Answer {
        if !self.sound::<R>() {
            return Answer::refused(2);
        }
        let answer = self.take_message::<R>(bytes);
        let read = R::slips(Slip::TakeRead) && answer.refusal == 0;
        Answer { read: if read { bytes.len() as u8 } else { 0 }, ..answer }
    }

    /// Questions 2 and 15: 0 or the first no. An accepted message leaves a sound end, so that 2 is asked once for a packet.
    #[inline]
    fn packet_refusal<R: Rules>(&self, packet: &[u8]) -> u8 {
        let fifteen = if is_sized::<R>(packet.len()) { 0 } else { 15 };
        if fifteen != 0 && R::slips(Slip::FifteenEarly) {
            15
        } else if !self.sound::<R>() {
            2
        } else {
            fifteen
        }
    }

    /// Takes the messages of a packet up to the first refused one.
    fn take_packet<R: Rules>(&mut self, packet: &[u8]) -> Answer {
        let refusal = self.packet_refusal::<R>(packet);
        if refusal != 0 {
            return Answer::refused(refusal);
        }
        if R::SLIPS {
            return packet_slips::take_packet::<R, Self>(self, packet);
        }
        let mut all = Answer::default();
        let mut rest = packet;
        while !rest.is_empty() {
            let (message, behind) = rest.split_at(next_size(rest));
            all.refusal = self.take_message::<R>(message).refusal;
            if all.refusal != 0 {
                break;
            }
            all.passed += 1;
            rest = behind;
        }
        all
    }

    /// Takes the message that begins at an offset of a packet; at its end and past it there is none.
    fn take_at<R: Rules>(&mut self, packet: &[u8], offset: usize) -> Answer {
        let refusal = self.packet_refusal::<R>(packet);
        if refusal != 0 && !(refusal == 15 && R::slips(Slip::AtUnsized)) {
            return Answer::refused(refusal);
        }
        if R::SLIPS {
            return packet_slips::take_at::<R, Self>(self, packet, offset);
        }
        let rest = packet.get(offset..).unwrap_or_default();
        let size = next_size(rest);
        let answer = self.take_message::<R>(&rest[..size]);
        Answer { read: if answer.refusal == 0 { size as u8 } else { 0 }, ..answer }
    }
}

/// Question 15.
#[inline]
fn is_sized<R: Rules>(length: usize) -> bool {
    let least = if R::slips(Slip::PacketEmpty) || R::slips(Slip::PacketEmptyThree) { 0 } else { 1 };
    let most = match () {
        _ if R::slips(Slip::Packet1401) => LONGEST_PACKET + 1,
        _ if R::slips(Slip::Packet1399) => LONGEST_PACKET - 1,
        _ => LONGEST_PACKET,
    };
    least <= length && length <= most
}
