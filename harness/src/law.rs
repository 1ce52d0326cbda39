//! The law of packets, asked of an implementation after every call on one: a packet is its messages handed over one after another until one is
//! refused, and writing one is sending one pending edit after another. Everything is done again on a copy of the end, by the calls for one message.

use crate::calls::Calls;
use crate::layout::{self, Field};
use crate::limits::{LONGEST_PACKET, PENDING};
use crate::list::{Answer, Call, MESSAGE, TAKE_PACKET};
use crate::literal;

/// A call on a packet: the lent bytes of its end before it and now, and what it was lent beside.
pub struct Called<'a, C: Calls + ?Sized> {
    pub calls: &'a C,
    pub call: &'a Call,
    pub before: &'a [u8],
    pub now: &'a [u8],
    pub answer: Answer,
}

impl<C: Calls + ?Sized> Called<'_, C> {
    /// Whether a taking obeys the law: of a whole packet, or of one message at an offset.
    pub fn taking_holds(&self, packet: &[u8]) -> bool {
        if self.call.op == TAKE_PACKET {
            self.is_by(self.one_by_one(packet)) && self.is_by(self.by_offsets(packet))
        } else {
            self.is_by(self.alone(packet))
        }
    }

    fn is_by(&self, (answer, end): (Answer, Vec<u8>)) -> bool {
        self.answer == answer && self.now == end
    }

    fn take(&self, end: &mut [u8], message: &[u8]) -> Answer {
        let number = if self.call.end == 0 { self.calls.server_take(end, message) } else { self.calls.client_take(end, message) };
        Answer::of(&number.to_le_bytes())
    }

    fn take_at(&self, end: &mut [u8], packet: &[u8], offset: usize) -> Answer {
        let calls = self.calls;
        let number = if self.call.end == 0 { calls.server_take_at(end, packet, offset) } else { calls.client_take_at(end, packet, offset) };
        Answer::of(&number.to_le_bytes())
    }

    /// The questions before the first message: what taking no bytes is refused with, but 15 in the place of 3 if the length is none.
    fn asked_first(&self, packet: &[u8]) -> u8 {
        let sized = (1..=LONGEST_PACKET).contains(&packet.len());
        match self.take(&mut self.before.to_vec(), &[]).refusal {
            3 if sized => 0,
            3 => 15,
            refusal => refusal,
        }
    }

    /// The messages handed over one after another.
    fn one_by_one(&self, packet: &[u8]) -> (Answer, Vec<u8>) {
        let mut end = self.before.to_vec();
        let mut all = Answer { refusal: self.asked_first(packet), ..Answer::default() };
        for message in literal::messages(packet) {
            if all.refusal == 0 {
                all.refusal = self.take(&mut end, message).refusal;
                all.count += (all.refusal == 0) as u16;
            }
        }
        (all, end)
    }

    /// The same by offsets, each message beginning where the one before ends.
    fn by_offsets(&self, packet: &[u8]) -> (Answer, Vec<u8>) {
        let mut end = self.before.to_vec();
        let mut all = Answer::default();
        let mut offset = 0;
        loop {
            let answer = self.take_at(&mut end, packet, offset);
            all.refusal = answer.refusal;
            all.count += (answer.refusal == 0) as u16;
            // a message has at least one byte, whatever is answered
            offset += answer.read.max(1) as usize;
            if all.refusal != 0 || offset >= packet.len() {
                return (all, end);
            }
        }
    }

    /// The message at the offset by itself, and how long it is.
    fn alone(&self, packet: &[u8]) -> (Answer, Vec<u8>) {
        let mut end = self.before.to_vec();
        let refusal = self.asked_first(packet);
        if refusal != 0 {
            return (Answer { refusal, ..Answer::default() }, end);
        }
        let message = literal::first(packet.get(self.call.offset()..).unwrap_or_default());
        let answer = self.take(&mut end, message);
        (Answer { read: if answer.refusal == 0 { message.len() as u8 } else { 0 }, ..answer }, end)
    }

    /// Whether what was written from the offset on is what sending one pending edit after another writes, up to the first that does not fit; 14
    /// if that is the first of all.
    pub fn writing_holds(&self, out: &[u8]) -> bool {
        if !matches!(self.answer.refusal, 0 | 14) {
            return true;
        }
        let Call { end, line, .. } = *self.call;
        let room = out.len().saturating_sub(self.call.offset());
        let number = |field: Field| layout::word(end, line, field).map_or(0, |word| layout::read(self.before, word));
        let (acked, made) = (number(Field::Acked), number(Field::Made));
        let mut bytes = Vec::new();
        for k in (acked + 1..=made).take(PENDING) {
            let mut message = [0; MESSAGE as usize];
            let (calls, k) = (self.calls, k as u16);
            let sent = if end == 0 {
                calls.server_send(self.before, line, k, &mut message)
            } else {
                calls.client_send(self.before, line, k, &mut message)
            };
            let length = Answer::of(&sent.to_le_bytes()).count as usize;
            if bytes.len() + length > room {
                break;
            }
            bytes.extend_from_slice(&message[..length.min(message.len())]);
        }
        let written = out.get(self.call.offset()..).and_then(|out| out.get(..bytes.len())).unwrap_or_default();
        let refusal = if bytes.is_empty() && acked != made { 14 } else { 0 };
        self.answer == Answer { refusal, count: bytes.len() as u16, ..Answer::default() } && bytes == written
    }
}
