//! The exported calls over lent bytes. The bytes are read into an end, the end does the call, and what it became is written back unless
//! the call was refused.

use super::client::Client;
use super::packets::Takes;
use super::script;
use super::server::Server;
use super::slip::{Rules, Slip};
use super::words::{End, Word};
use super::{Answer, Sent};
use crate::calls::Calls;
use crate::limits::*;

/// The layout's words of lent bytes; question 18.
#[inline]
fn words<E: End>(end: &[u8]) -> Option<&[Word]> {
    end.as_chunks().0.get(..E::WORDS)
}

#[inline]
fn words_mut<E: End>(end: &mut [u8]) -> Option<&mut [Word]> {
    end.as_chunks_mut().0.get_mut(..E::WORDS)
}

/// A call that may change the end.
#[inline]
fn change<R: Rules, E: End>(end: &mut [u8], call: impl FnOnce(&mut E) -> Answer) -> u64 {
    let lent = end.len();
    let Some(words) = words_mut::<E>(end).filter(|_| is_long_enough::<R, E>(lent)) else {
        return short::<R>(end, 4 * E::WORDS, |padded| change::<R, E>(padded, call));
    };
    let mut changed = E::ZERO;
    if !changed.read::<R>(words) {
        return refused::<R>(2);
    }
    let before = R::slips(Slip::ListRepeated).then(|| changed.shown().1.clone());
    let answer = call(&mut changed);
    if let (Some(before), (counts, list)) = (before, changed.shown()) {
        if answer.refusal == 0 && counts % 3 == 2 {
            *list = before;
        }
    }
    let refused_writes = R::slips(Slip::RefusedSeen) || R::slips(Slip::InverseRefused) || R::slips(Slip::BackRefusedClears);
    // a packet keeps what was taken before the refusal
    if answer.refusal == 0 || answer.passed != 0 || refused_writes {
        changed.write(words);
    } else if R::slips(Slip::RefusedByte) {
        words[E::WORDS - 1][0] ^= 1;
    }
    if R::slips(Slip::RestCleared) {
        end[4 * E::WORDS..].fill(0);
    }
    packed::<R>(answer)
}

/// A sending.
#[inline]
fn look<R: Rules, E: End>(end: &[u8], call: impl FnOnce(&E) -> Sent) -> u64 {
    let Some(words) = words::<E>(end).filter(|_| is_long_enough::<R, E>(end.len())) else {
        return short::<R>(&mut end.to_vec(), 4 * E::WORDS, |padded| look::<R, E>(padded, call));
    };
    let mut looked = E::ZERO;
    if !looked.read::<R>(words) {
        return refused::<R>(2);
    }
    let sent = call(&looked);
    let position = if R::slips(Slip::SentPositions) { sent.length } else { 0 };
    packed::<R>(Answer { refusal: sent.refusal, passed: sent.length, arrived: position, applied: position, read: 0 })
}

/// Questions 18, 1 and 16 of an opening, and the end it gives.
#[inline]
fn open<R: Rules, E: End>(end: &mut [u8], items: &[u8], call: impl FnOnce(&mut E, &[u32]) -> u8) -> u64 {
    let lent = end.len();
    let Some(words) = words_mut::<E>(end).filter(|_| is_long_enough::<R, E>(lent)) else {
        return short::<R>(end, 4 * E::WORDS, |padded| open::<R, E>(padded, items, call));
    };
    let (mut fours, cut) = items.as_chunks();
    if R::slips(Slip::ItemsCounted8) {
        fours = &fours[..fours.len() % 256];
    }
    // one item more than may be is enough to be refused
    let mut list = [0; INITIAL + 1];
    for (item, &four) in list.iter_mut().zip(fours) {
        *item = if R::slips(Slip::ItemsLowFirst) { u32::from_le_bytes(four) } else { u32::from_be_bytes(four) };
    }
    let whole = cut.is_empty() || R::slips(Slip::CutItem);
    let mut opened = E::ZERO;
    let mut refusal = 1;
    if whole || R::slips(Slip::CutLate) {
        refusal = call(&mut opened, &list[..fours.len().min(INITIAL + 1)]);
        refusal = if refusal == 0 { !whole as u8 } else { refusal };
    }
    if refusal == 0 {
        let before = R::slips(Slip::OpenLeaves).then(|| words.to_vec());
        opened.write(words);
        for (word, old) in words.iter_mut().zip(before.unwrap_or_default()).skip(9) {
            *word = if *word == [0; 4] { old } else { *word };
        }
    } else if R::slips(Slip::OpenZeros) {
        words.fill([0; 4]);
    } else if refusal == 16 && R::slips(Slip::RanksLate) {
        words[2] = (fours.len() as u32).to_le_bytes();
    }
    let position = if refusal == 0 && R::slips(Slip::OpenPositions) { fours.len() as u16 } else { 0 };
    packed::<R>(Answer { arrived: position, applied: position, ..Answer::refused(refusal) })
}

#[inline]
fn is_long_enough<R: Rules, E: End>(lent: usize) -> bool {
    lent == 4 * E::WORDS || !R::slips(Slip::LongRefused)
}

/// 18, but for the slips that go on with zeros for the bytes that are not there.
#[cold]
fn short<R: Rules>(end: &mut [u8], bytes: usize, call: impl FnOnce(&mut [u8]) -> u64) -> u64 {
    let late = R::slips(Slip::ShortLate);
    let let_through = R::slips(Slip::ShortByThree) && end.len() + 3 >= bytes;
    if end.len() >= bytes || !(late || let_through) {
        return refused::<R>(18);
    }
    let mut padded = end.to_vec();
    padded.resize(bytes, 0);
    let answer = call(&mut padded);
    if let_through {
        end.copy_from_slice(&padded[..end.len()]);
    }
    if let_through || answer as u8 != 0 {
        answer
    } else {
        refused::<R>(18)
    }
}

#[inline]
fn refused<R: Rules>(refusal: u8) -> u64 {
    packed::<R>(Answer::refused(refusal))
}

/// The answer's number: the refusal in bits 0 to 7, a count or a length in 8 to 23, where an edit arrived in 24 to 39, where it was applied in 40
/// to 55, how many bytes a message of a packet has in 56 to 63.
#[inline]
fn packed<R: Rules>(answer: Answer) -> u64 {
    let kept = match () {
        _ if R::slips(Slip::Positions8) => 255,
        _ if R::slips(Slip::Positions9) => 511,
        _ => u64::MAX,
    };
    let [at, then] = match () {
        _ if R::slips(Slip::ArrivedEarly) => [23, 40],
        _ if R::slips(Slip::AppliedEarly) => [24, 39],
        _ if R::slips(Slip::PositionsEarly) => [16, 32],
        _ => [24, 40],
    };
    let [arrived, applied] = [answer.arrived, answer.applied].map(|position| position as u64 & kept);
    let read = (answer.read | R::slips(Slip::AnswerHigh) as u8) as u64;
    answer.refusal as u64 | (answer.passed as u64) << 8 | arrived << at | applied << then | read << 56
}

/// The message that is taken.
#[inline]
fn lent_message<R: Rules>(message: &[u8]) -> &[u8] {
    if R::slips(Slip::Length8) {
        &message[..message.len() % 256]
    } else {
        message
    }
}

/// The packet that is taken.
#[inline]
fn lent_packet<R: Rules>(packet: &[u8]) -> &[u8] {
    if R::slips(Slip::PacketLength16) {
        &packet[..packet.len() % 65_536]
    } else {
        packet
    }
}

/// A call on a packet, and the slips that ask 15 too early.
#[inline]
fn unpack<R: Rules, E: End + Takes>(end: &mut [u8], packet: &[u8], call: impl FnOnce(&mut E, &[u8]) -> Answer) -> u64 {
    let early = R::slips(Slip::FifteenFirst) || (R::slips(Slip::FifteenBeforeTwo) && end.len() >= 4 * E::WORDS);
    if early && !(1..=LONGEST_PACKET).contains(&packet.len()) {
        return refused::<R>(15);
    }
    change::<R, E>(end, |end| call(end, lent_packet::<R>(packet)))
}

#[inline]
fn take_packet<R: Rules, E: End + Takes>(end: &mut [u8], packet: &[u8]) -> u64 {
    let answer = unpack::<R, E>(end, packet, |end, packet| end.take_packet::<R>(packet));
    if R::slips(Slip::PacketCountNone) && answer as u8 != 0 {
        refused::<R>(answer as u8)
    } else {
        answer
    }
}

#[inline]
fn take_at<R: Rules, E: End + Takes>(end: &mut [u8], packet: &[u8], offset: usize) -> u64 {
    unpack::<R, E>(end, packet, |end, packet| end.take_at::<R>(packet, offset))
}

impl<R: Rules + Sync> Calls for R {
    fn name(&self) -> &'static str {
        R::NAME
    }

    fn client_open(&self, end: &mut [u8], n: u8, line: u8, ranks: &[u8], items: &[u8]) -> u64 {
        open::<R, Client>(end, items, |client, items| client.open::<R>(n, line, ranks, items))
    }

    fn client_insert(&self, end: &mut [u8], position: u16, item: u32) -> u64 {
        change::<R, Client>(end, |client| client.insert::<R>(position, item))
    }

    fn client_delete(&self, end: &mut [u8], position: u16) -> u64 {
        change::<R, Client>(end, |client| client.delete::<R>(position))
    }

    fn client_take_back(&self, end: &mut [u8]) -> u64 {
        change::<R, Client>(end, |client| client.take_back::<R>())
    }

    fn client_send(&self, end: &[u8], line: u8, number: u16, out: &mut [u8]) -> u64 {
        look::<R, Client>(end, |client| client.send::<R>(line, number, out))
    }

    fn client_acknowledge(&self, end: &[u8], line: u8, out: &mut [u8]) -> u64 {
        look::<R, Client>(end, |client| client.tell::<R>(line, out))
    }

    fn client_take(&self, end: &mut [u8], message: &[u8]) -> u64 {
        change::<R, Client>(end, |client| client.take::<R>(lent_message::<R>(message)))
    }

    fn client_pack(&self, end: &[u8], line: u8, out: &mut [u8], offset: usize) -> u64 {
        look::<R, Client>(end, |client| client.pack::<R>(line, out, offset))
    }

    fn client_take_packet(&self, end: &mut [u8], packet: &[u8]) -> u64 {
        take_packet::<R, Client>(end, packet)
    }

    fn client_take_at(&self, end: &mut [u8], packet: &[u8], offset: usize) -> u64 {
        take_at::<R, Client>(end, packet, offset)
    }

    fn server_open(&self, end: &mut [u8], n: u8, ranks: &[u8], items: &[u8]) -> u64 {
        open::<R, Server>(end, items, |server, items| server.open::<R>(n, ranks, items))
    }

    fn server_send(&self, end: &[u8], line: u8, number: u16, out: &mut [u8]) -> u64 {
        look::<R, Server>(end, |server| server.send::<R>(line, number, out))
    }

    fn server_acknowledge(&self, end: &[u8], line: u8, out: &mut [u8]) -> u64 {
        look::<R, Server>(end, |server| server.tell::<R>(line, out))
    }

    fn server_take(&self, end: &mut [u8], message: &[u8]) -> u64 {
        change::<R, Server>(end, |server| server.take::<R>(lent_message::<R>(message)))
    }

    fn server_pack(&self, end: &[u8], line: u8, out: &mut [u8], offset: usize) -> u64 {
        look::<R, Server>(end, |server| server.pack::<R>(line, out, offset))
    }

    fn server_take_packet(&self, end: &mut [u8], packet: &[u8]) -> u64 {
        take_packet::<R, Server>(end, packet)
    }

    fn server_take_at(&self, end: &mut [u8], packet: &[u8], offset: usize) -> u64 {
        take_at::<R, Server>(end, packet, offset)
    }

    fn client_bytes(&self) -> u64 {
        4 * Client::WORDS as u64
    }

    fn server_bytes(&self) -> u64 {
        4 * Server::WORDS as u64
    }

    fn run(&self, input: &[u8], out: &mut [u8]) -> u64 {
        let mut printed = Vec::with_capacity(out.len());
        script::run::<R>(input, &mut printed);
        let fits = printed.len().min(out.len());
        out[..fits].copy_from_slice(&printed[..fits]);
        fits as u64
    }
}
