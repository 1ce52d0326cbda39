//! Packets with the mistakes that `Slipping` can make. They are written message by message, and not for speed.

use super::codec;
use super::line::Line;
use super::packets::{next_size, Takes};
use super::slip::{Rules, Slip};
use super::{Answer, Sent};

/// Writing a packet.
pub fn write<R: Rules>(line: &Line, send: impl Fn(u16, &mut [u8]) -> Sent, out: &mut [u8], offset: usize) -> Sent {
    let start = first_byte::<R>(offset);
    let room = room::<R>(out.len().saturating_sub(start));
    let messages = pending::<R>(line, send);
    let (bytes, written) = fitting::<R>(&messages, room);
    let all: usize = messages.iter().map(Vec::len).sum();
    let refusal = match () {
        _ if line.kept() == 0 => refusal_of_nothing::<R>(start, out.len()),
        _ if R::slips(Slip::PackWhole) && all > room => 14,
        _ if bytes.is_empty() && !R::slips(Slip::PackUnrefused) => 14,
        _ => 0,
    };
    if refusal != 0 {
        return Sent::refused(refusal);
    }
    if let Some(to) = out.get_mut(start..start.saturating_add(bytes.len())) {
        to.copy_from_slice(&bytes);
    }
    if R::slips(Slip::PackBefore) && written > 0 {
        out[..start].fill(0);
    }
    if let Some(behind) = out.get_mut(start.saturating_add(written)).filter(|_| R::slips(Slip::PackBehind)) {
        *behind = 0;
    }
    let length = match () {
        _ if R::slips(Slip::PackFromFront) => offset.wrapping_add(written),
        _ if R::slips(Slip::PackLength8) => written % 256,
        _ => written,
    };
    Sent { refusal: 0, length: length as u16 }
}

/// Where writing begins.
fn first_byte<R: Rules>(offset: usize) -> usize {
    match () {
        _ if R::slips(Slip::PackFront) => 0,
        _ if R::slips(Slip::PackOffset8) => offset % (1 << 8),
        _ if R::slips(Slip::PackOffset16) => offset % (1 << 16),
        _ if R::slips(Slip::PackOffset32) => offset % (1 << 32),
        _ if R::slips(Slip::PackWraps) && offset > usize::MAX - codec::LONGEST => 0,
        _ => offset,
    }
}

/// How many bytes may be written.
fn room<R: Rules>(room: usize) -> usize {
    match () {
        _ if R::slips(Slip::PackTight) => room.saturating_sub(1),
        _ if R::slips(Slip::PackMost1024) => room.min(1024),
        _ => room,
    }
}

/// The messages of a line's pending edits.
fn pending<R: Rules>(line: &Line, send: impl Fn(u16, &mut [u8]) -> Sent) -> Vec<Vec<u8>> {
    let message = |k: u16| {
        let mut bytes = vec![0; codec::LONGEST];
        let sent = send(if R::slips(Slip::PackFirstAgain) { line.acked + 1 } else { k }, &mut bytes);
        bytes.truncate(sent.length as usize);
        bytes
    };
    let mut all: Vec<Vec<u8>> = (line.acked + 1..=line.made).map(message).collect();
    if R::slips(Slip::PackReversed) {
        all.reverse();
    }
    if R::slips(Slip::PackWithoutFirst) && !all.is_empty() {
        all.remove(0);
    }
    if R::slips(Slip::PackWithoutLast) {
        all.pop();
    }
    all
}

/// What is written, and how many of these bytes are counted.
fn fitting<R: Rules>(messages: &[Vec<u8>], room: usize) -> (Vec<u8>, usize) {
    let (mut bytes, mut cut) = (Vec::new(), 0);
    for message in messages {
        let left = room - bytes.len();
        if message.len() <= left {
            bytes.extend(message);
        } else if R::slips(Slip::PackCut) || R::slips(Slip::PackCutUncounted) {
            bytes.extend(&message[..left]);
            cut = left;
            break;
        } else if !R::slips(Slip::PackSkips) {
            break;
        }
    }
    let counted = bytes.len() - if R::slips(Slip::PackCutUncounted) { cut } else { 0 };
    (bytes, counted)
}

fn refusal_of_nothing<R: Rules>(start: usize, length: usize) -> u8 {
    match () {
        _ if R::slips(Slip::PackNone13) => 13,
        _ if R::slips(Slip::PackNone14) && start >= length => 14,
        _ if R::slips(Slip::PackNonePast14) && start > length => 14,
        _ => 0,
    }
}

/// Taking a packet whose length is right.
pub fn take_packet<R: Rules, E: Takes>(end: &mut E, packet: &[u8]) -> Answer {
    if packet.is_empty() && R::slips(Slip::PacketEmptyThree) {
        return Answer::refused(3);
    }
    let (messages, before) = (split::<R>(packet), end.clone());
    let mut all = Answer::default();
    let mut taken: Vec<&[u8]> = Vec::new();
    for message in &messages {
        let answer = end.take_message::<R>(message);
        if answer.refusal == 0 {
            taken.push(message);
            all.passed += counted::<R>(message, answer);
            if R::slips(Slip::PacketPositions) {
                (all.arrived, all.applied) = (answer.arrived, answer.applied);
            }
            if message[0] == 4 && R::slips(Slip::PacketAckEnds) {
                break;
            }
        } else if answer.refusal != 5 || !R::slips(Slip::PacketRepeatsPassed) {
            all.refusal = if all.refusal == 0 || R::slips(Slip::PacketGoesOnLast) { answer.refusal } else { all.refusal };
            if !R::slips(Slip::PacketGoesOn) && !R::slips(Slip::PacketGoesOnLast) {
                break;
            }
        }
    }
    if all.refusal != 0 && (R::slips(Slip::PacketForgets) || R::slips(Slip::PacketForgetsLast)) {
        *end = before;
        taken.pop();
        let kept = if R::slips(Slip::PacketForgets) { &[] } else { &taken[..] };
        kept.iter().for_each(|message| _ = end.take_message::<R>(message));
    }
    match () {
        _ if R::slips(Slip::PacketCountAll) => all.passed = messages.len() as u16,
        _ if R::slips(Slip::PacketCountRefused) => all.passed += (all.refusal != 0) as u16,
        _ if R::slips(Slip::PacketCount8) => all.passed %= 256,
        _ if R::slips(Slip::PacketRead) => all.read = packet.len() as u8,
        _ => {}
    }
    all
}

/// How much a message that was taken adds to the count.
fn counted<R: Rules>(message: &[u8], answer: Answer) -> u16 {
    match () {
        _ if R::slips(Slip::PacketCountEdits) => (message[0] != 4) as u16,
        _ if R::slips(Slip::PacketCountPassed) => answer.passed,
        _ => 1,
    }
}

/// The messages of a packet.
fn split<R: Rules>(packet: &[u8]) -> Vec<Vec<u8>> {
    let (mut all, mut rest) = (Vec::new(), packet);
    while let Some(&kind) = rest.first() {
        let whole = match (kind, codec::length_of(kind)) {
            (8, _) if R::slips(Slip::PacketNothing12) => 12,
            (_, 0) if R::slips(Slip::PacketUnknownEnds) => break,
            (_, 0) if R::slips(Slip::PacketUnknownByte) => {
                rest = &rest[1..];
                continue;
            }
            (_, 0) => rest.len(),
            (_, whole) => whole,
        };
        let (message, behind) = rest.split_at(whole.min(rest.len()));
        if message.len() < whole && R::slips(Slip::PacketCutIgnored) {
            break;
        }
        let mut message = message.to_vec();
        if R::slips(Slip::PacketCutZeros) {
            message.resize(whole, 0);
        }
        all.push(message);
        rest = behind;
    }
    match () {
        _ if R::slips(Slip::PacketFirst) => all.truncate(1),
        _ if R::slips(Slip::PacketMost64) => all.truncate(64),
        _ => {}
    }
    all
}

/// Taking a message at an offset of a packet whose length is right.
pub fn take_at<R: Rules, E: Takes>(end: &mut E, packet: &[u8], offset: usize) -> Answer {
    let at = match () {
        _ if R::slips(Slip::AtFront) => 0,
        _ if R::slips(Slip::AtOffset8) => offset % (1 << 8),
        _ if R::slips(Slip::AtOffset16) => offset % (1 << 16),
        _ if R::slips(Slip::AtOffset32) => offset % (1 << 32),
        _ if R::slips(Slip::AtFromOne) => offset.saturating_sub(1),
        _ if R::slips(Slip::AtLast) && offset >= packet.len() => packet.len() - split::<R>(packet).last().map_or(0, Vec::len),
        _ => offset,
    };
    let rest = packet.get(at..).unwrap_or_default();
    if rest.is_empty() {
        let refusal = match () {
            _ if R::slips(Slip::AtEndAccepted) && at == packet.len() => 0,
            _ if R::slips(Slip::AtPast15) => 15,
            _ => 3,
        };
        return Answer::refused(refusal);
    }
    let size = if R::slips(Slip::AtRest) { rest.len() } else { next_size(rest) };
    let mut answer = end.take_message::<R>(&rest[..size]);
    if answer.refusal == 0 && R::slips(Slip::AtAll) {
        take_packet::<R, E>(end, &rest[size..]);
    }
    answer.read = match () {
        _ if R::slips(Slip::AtSilent) || (answer.refusal != 0 && !R::slips(Slip::AtRefused)) => 0,
        _ if R::slips(Slip::AtNext) => offset.wrapping_add(size) as u8,
        _ if R::slips(Slip::AtOffset) => offset as u8,
        _ if R::slips(Slip::AtLongest) => codec::LONGEST as u8,
        _ if R::slips(Slip::AtLeft) => (rest.len() - size) as u8,
        _ => size as u8,
    };
    if R::slips(Slip::AtCounts) && answer.refusal == 0 {
        answer.passed = 1;
    }
    answer
}
