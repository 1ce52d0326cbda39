//! Lists of calls, and the file that holds one (README.md).

use crate::layout;
use crate::limits::*;

pub const SLOTS: usize = 64;
/// Bytes of a slot: an odd number, so that messages stand at every alignment.
pub const SLOT: usize = 21;
/// Bytes of the longest message: what a sending is lent.
pub const MESSAGE: u8 = 17;
/// What a byte is before anything is written to it.
pub const FRESH: u8 = 170;
/// Bytes past the layout that a call may lend.
pub const SPARE: usize = 40;
/// A message or a packet with a tail has this many bytes more, times the call's number.
pub const TAIL: usize = 256;
pub const PACKETS: usize = 4;
/// Bytes of a buffer for packets: more than the longest that is taken, and an odd number.
pub const PACKET: usize = 1411;
const CALL: usize = 16;
const MAGIC: &[u8; 8] = b"calls 2\n";

/// An answer: the 8 bytes of the exported call's number, and one that says what did not hold: bytes that had to stay, the law of packets.
pub const ANSWER: usize = 9;
const SHOWN: usize = 1 + SLOT;
const PACKET_SHOWN: usize = 2 + PACKET;
/// The refusal of what is no call.
pub const NO_CALL: u8 = 255;

pub const OPEN: u8 = 0;
pub const INSERT: u8 = 1;
pub const DELETE: u8 = 2;
pub const SEND: u8 = 3;
pub const ACKNOWLEDGE: u8 = 4;
pub const TAKE: u8 = 5;
pub const POKE: u8 = 6;
pub const SET: u8 = 7;
pub const DUMP: u8 = 8;
pub const SHOW: u8 = 9;
pub const FILL: u8 = 10;
pub const COPY: u8 = 11;
pub const TAKE_BACK: u8 = 12;
pub const PACK: u8 = 13;
pub const TAKE_PACKET: u8 = 14;
pub const TAKE_AT: u8 = 15;
pub const ADD: u8 = 16;
pub const POKE_PACKET: u8 = 17;
pub const SHOW_PACKET: u8 = 18;

#[derive(Clone, Copy, PartialEq, Eq, Debug, Default)]
pub struct Call {
    pub op: u8,
    pub end: u8,
    pub line: u8,
    pub slot: u8,
    pub number: u16,
    pub position: u16,
    pub value: u32,
    pub size: u8,
    /// How many bytes of the end are lent, less the layout's.
    pub lent: i16,
}

impl Call {
    /// With line numbers as ranks.
    pub fn open(end: u8, n: u8, line: u8, count: u16) -> Call {
        let ranks: Vec<u8> = (1..=n).collect();
        Call { op: OPEN, end, line, number: count, size: n, ..Call::default() }.ranked(&ranks)
    }

    /// The opening with these ranks, which are at most 15; those past the eighth become 0.
    pub fn ranked(self, ranks: &[u8]) -> Call {
        let value = ranks.iter().take(LINES).enumerate().fold(0, |value, (at, &rank)| value | (rank as u32 & 15) << (4 * at));
        Call { position: ranks.len() as u16, value, ..self }
    }

    /// The ranks that an opening has: so many as its position says, four bits of its value each, and 0 past the eighth.
    pub fn ranks(&self) -> Vec<u8> {
        (0..self.position as usize).map(|at| if at < LINES { (self.value >> (4 * at) & 15) as u8 } else { 0 }).collect()
    }

    pub fn insert(end: u8, position: u16, item: u32) -> Call {
        Call { op: INSERT, end, position, value: item, ..Call::default() }
    }

    pub fn delete(end: u8, position: u16) -> Call {
        Call { op: DELETE, end, position, ..Call::default() }
    }

    pub fn take_back(end: u8) -> Call {
        Call { op: TAKE_BACK, end, ..Call::default() }
    }

    pub fn send(end: u8, line: u8, number: u16, slot: u8, size: u8) -> Call {
        Call { op: SEND, end, line, slot, number, size, ..Call::default() }
    }

    pub fn acknowledge(end: u8, line: u8, slot: u8, size: u8) -> Call {
        Call { op: ACKNOWLEDGE, end, line, slot, size, ..Call::default() }
    }

    pub fn take(end: u8, slot: u8) -> Call {
        Call { op: TAKE, end, slot, ..Call::default() }
    }

    /// Into the first `room` bytes of a packet.
    pub fn pack(end: u8, line: u8, packet: u8, room: u16, offset: usize) -> Call {
        Call { op: PACK, end, line, slot: packet, position: room, ..Call::default() }.at(offset)
    }

    pub fn take_packet(end: u8, packet: u8) -> Call {
        Call { op: TAKE_PACKET, end, slot: packet, ..Call::default() }
    }

    pub fn take_at(end: u8, packet: u8, offset: usize) -> Call {
        Call { op: TAKE_AT, end, slot: packet, ..Call::default() }.at(offset)
    }

    /// The same call at another offset. Its upper four bytes are alike.
    pub fn at(self, offset: usize) -> Call {
        let call = Call { value: offset as u32, size: (offset >> 32) as u8, ..self };
        debug_assert_eq!(call.offset(), offset);
        call
    }

    /// The offset of a packet's call: the value, and in each of the four bytes above it the size.
    pub fn offset(&self) -> usize {
        self.value as usize | (self.size as usize * 0x0101_0101) << 32
    }

    /// The message in a slot goes behind what a packet holds, so many times.
    pub fn add(slot: u8, packet: u8, times: u16) -> Call {
        Call { op: ADD, slot, number: times, size: packet, ..Call::default() }
    }

    pub fn poke_packet(packet: u8, index: u16, byte: u8, length: u16) -> Call {
        Call { op: POKE_PACKET, slot: packet, number: index, position: length, value: byte as u32, ..Call::default() }
    }

    pub fn show_packet(packet: u8) -> Call {
        Call { op: SHOW_PACKET, slot: packet, ..Call::default() }
    }

    pub fn poke(slot: u8, index: u16, byte: u8, length: u8) -> Call {
        Call { op: POKE, slot, number: index, value: byte as u32, size: length, ..Call::default() }
    }

    pub fn set(end: u8, word: u16, value: u32) -> Call {
        Call { op: SET, end, number: word, value, ..Call::default() }
    }

    /// Sets a field that the end has.
    pub fn field(end: u8, line: u8, field: layout::Field, value: u32) -> Call {
        Call::set(end, layout::word(end, line, field).unwrap(), value)
    }

    pub fn dump(end: u8) -> Call {
        Call { op: DUMP, end, ..Call::default() }
    }

    pub fn show(slot: u8) -> Call {
        Call { op: SHOW, slot, ..Call::default() }
    }

    pub fn fill(end: u8, byte: u8) -> Call {
        Call { op: FILL, end, value: byte as u32, ..Call::default() }
    }

    pub fn copy(end: u8, from: u8) -> Call {
        Call { op: COPY, end, line: from, ..Call::default() }
    }

    fn read(bytes: &[u8; CALL]) -> Call {
        Call {
            op: bytes[0],
            end: bytes[1],
            line: bytes[2],
            slot: bytes[3],
            number: u16::from_be_bytes([bytes[4], bytes[5]]),
            position: u16::from_be_bytes([bytes[6], bytes[7]]),
            value: u32::from_be_bytes([bytes[8], bytes[9], bytes[10], bytes[11]]),
            size: bytes[12],
            lent: i16::from_be_bytes([bytes[13], bytes[14]]),
        }
    }

    fn write(&self, out: &mut Vec<u8>) {
        out.extend_from_slice(&[self.op, self.end, self.line, self.slot]);
        out.extend_from_slice(&self.number.to_be_bytes());
        out.extend_from_slice(&self.position.to_be_bytes());
        out.extend_from_slice(&self.value.to_be_bytes());
        out.push(self.size);
        out.extend_from_slice(&self.lent.to_be_bytes());
        out.push(0);
    }

    /// Whether this is one of the exported calls.
    pub fn exported(&self) -> bool {
        matches!(self.op, OPEN | INSERT | DELETE | SEND | ACKNOWLEDGE | TAKE | TAKE_BACK) || self.is_of_packet()
    }

    /// Whether this is one of those that write or take packets.
    pub fn is_of_packet(&self) -> bool {
        matches!(self.op, PACK | TAKE_PACKET | TAKE_AT)
    }

    /// Whether this call writes messages and changes no end.
    pub fn sends(&self) -> bool {
        matches!(self.op, SEND | ACKNOWLEDGE | PACK)
    }

    /// Whether this call takes one message.
    pub fn takes_one(&self) -> bool {
        matches!(self.op, TAKE | TAKE_AT)
    }

    /// Whether this is a client's edit.
    pub fn edits(&self) -> bool {
        matches!(self.op, INSERT | DELETE | TAKE_BACK)
    }

    /// Whether the call names an end.
    pub fn has_end(&self) -> bool {
        !matches!(self.op, POKE | SHOW | ADD | POKE_PACKET | SHOW_PACKET)
    }

    /// Whether everything that the call names is there.
    pub fn is_one(&self) -> bool {
        let of_slot = matches!(self.op, SEND | ACKNOWLEDGE | TAKE | POKE | SHOW | ADD);
        let of_packet = self.is_of_packet() || matches!(self.op, POKE_PACKET | SHOW_PACKET);
        let sized = matches!(self.op, SEND | ACKNOWLEDGE | POKE);
        self.op <= SHOW_PACKET
            && (!self.has_end() || self.end as usize <= LINES)
            && !(self.edits() && self.end == 0)
            && !(of_slot && self.slot as usize >= SLOTS)
            && !(of_packet && self.slot as usize >= PACKETS)
            && !(sized && self.size as usize > SLOT)
            && match self.op {
                OPEN => self.slot < 4,
                TAKE | TAKE_PACKET | TAKE_AT => self.number as usize <= TAIL,
                POKE => (self.number as usize) < SLOT,
                PACK => self.position as usize <= PACKET,
                ADD => (self.size as usize) < PACKETS,
                POKE_PACKET => (self.number as usize) < PACKET && self.position as usize <= PACKET,
                SET => (self.number as usize) < layout::words(self.end),
                COPY => self.line as usize <= LINES && (self.line == 0) == (self.end == 0),
                _ => true,
            }
            && (!self.exported() || (-(layout::bytes(self.end) as i32)..=SPARE as i32).contains(&(self.lent as i32)))
    }

    /// How many bytes the call's answer has.
    pub fn answer_length(&self) -> usize {
        match self.op {
            _ if !self.is_one() => ANSWER,
            DUMP => ANSWER + layout::bytes(self.end),
            SHOW => ANSWER + SHOWN,
            SHOW_PACKET => ANSWER + PACKET_SHOWN,
            _ => ANSWER,
        }
    }
}

/// Bytes that a call changed and that had to stay, in an answer's last byte: the end's, by a call that took or made nothing.
pub const END: u8 = 1;
/// Those around the layout, lent or not.
pub const AROUND: u8 = 2;
/// The slot's or the packet's: those outside what was written.
pub const OUT: u8 = 4;
/// There too: a call on a packet does otherwise than the calls on its messages, one after another.
pub const LAW: u8 = 8;

/// An exported call's answer taken apart.
#[derive(Clone, Copy, PartialEq, Eq, Debug, Default)]
pub struct Answer {
    pub refusal: u8,
    /// A count, or a length.
    pub count: u16,
    /// The position of the edit that a taking took, in its message and as it was applied; 0 for nothing.
    pub arrived: u16,
    pub applied: u16,
    /// The bytes of the message that was taken out of a packet by its offset.
    pub read: u8,
}

impl Answer {
    /// From the first 8 bytes.
    pub fn of(bytes: &[u8]) -> Answer {
        let two = |at: usize| u16::from_le_bytes([bytes[at], bytes[at + 1]]);
        Answer { refusal: bytes[0], count: two(1), arrived: two(3), applied: two(5), read: bytes[7] }
    }

    /// The number: refusal in bits 0 to 7, count in 8 to 23, positions in 24 to 39 and 40 to 55, the message's bytes in 56 to 63.
    pub fn number(&self) -> u64 {
        let [count, arrived, applied] = [self.count, self.arrived, self.applied].map(u64::from);
        self.refusal as u64 | count << 8 | arrived << 24 | applied << 40 | (self.read as u64) << 56
    }
}

/// Ranks as the rule book asks for them: 1 to n, each used once.
pub fn is_ranking(n: usize, ranks: &[u8]) -> bool {
    let mut sorted = ranks.to_vec();
    sorted.sort();
    sorted.iter().map(|&rank| rank as usize).eq(1..=n)
}

/// A list of calls, and the items that its openings have.
#[derive(Clone, PartialEq, Eq, Debug, Default)]
pub struct List {
    pub initial: Vec<u32>,
    pub calls: Vec<Call>,
}

impl List {
    pub fn bytes(&self) -> Vec<u8> {
        let mut bytes = MAGIC.to_vec();
        bytes.extend_from_slice(&(self.initial.len() as u16).to_be_bytes());
        for item in &self.initial {
            bytes.extend_from_slice(&item.to_be_bytes());
        }
        for call in &self.calls {
            call.write(&mut bytes);
        }
        bytes
    }

    /// The list in a file; none if the bytes are no such file.
    pub fn of(bytes: &[u8]) -> Option<List> {
        let (count, rest) = bytes.strip_prefix(MAGIC)?.split_first_chunk::<2>()?;
        let (items, calls) = rest.split_at_checked(4 * u16::from_be_bytes(*count) as usize)?;
        let initial = items.chunks_exact(4).map(|four| u32::from_be_bytes(four.try_into().unwrap())).collect();
        let (calls, cut) = calls.as_chunks::<CALL>();
        cut.is_empty().then(|| List { initial, calls: calls.iter().map(Call::read).collect() })
    }

    pub fn output_length(&self) -> usize {
        self.calls.iter().map(Call::answer_length).sum()
    }

    /// The openings that a sheet of n lines starts with, line numbers as ranks.
    pub fn opened(n: u8, initial: Vec<u32>) -> List {
        List::ranked(&(1..=n).collect::<Vec<u8>>(), initial)
    }

    /// The same with ranks, of as many lines as there are ranks.
    pub fn ranked(ranks: &[u8], initial: Vec<u32>) -> List {
        let (n, count) = (ranks.len() as u8, initial.len() as u16);
        let calls = (0..=n).map(|end| Call::open(end, n, end, count).ranked(ranks)).collect();
        List { initial, calls }
    }

    /// The ranks of the sheet's lines, if the list begins with the openings of a whole one.
    pub fn ranks(&self) -> Option<Vec<u8>> {
        let ranks = self.calls.first().filter(|call| call.op == OPEN && call.position == call.size as u16)?.ranks();
        let opened = List::ranked(&ranks, self.initial.clone());
        let same = |(one, other): (&Call, &Call)| *one == Call { lent: 0, ..*other } && other.lent >= 0;
        let whole = self.calls.len() >= opened.calls.len() && opened.calls.iter().zip(&self.calls).all(same);
        let fits = (1..=LINES).contains(&ranks.len()) && is_ranking(ranks.len(), &ranks) && self.initial.len() <= INITIAL;
        (whole && fits).then_some(ranks)
    }

    /// How many lines that sheet has.
    pub fn lines(&self) -> Option<usize> {
        Some(self.ranks()?.len())
    }
}

#[cfg(test)]
mod tests {
    use super::*;

    #[test]
    fn answers() {
        let answer = Answer { refusal: 1, count: 0x0203, arrived: 0x0405, applied: 0x0607, read: 8 };
        assert_eq!(answer.number(), 0x08_0607_0405_0203_01);
        assert_eq!(Answer::of(&answer.number().to_le_bytes()), answer);
    }

    #[test]
    fn offsets() {
        for offset in [0, 3, 1 << 16, u32::MAX as usize, 0x0101_0101_0000_0003, usize::MAX - 4, usize::MAX] {
            assert_eq!(Call::take_at(0, 0, offset).offset(), offset);
        }
    }
}
