//! Runs lists of calls on nine ends in lent bytes: the server (end 0) and eight clients.

use crate::calls::Calls;
use crate::law::Called;
use crate::layout::{self, Field};
use crate::limits::*;
use crate::list::*;
use std::borrow::Cow;
use std::ops::Range;

/// The bytes of an end, with some before and behind it.
struct Place {
    end: u8,
    bytes: Vec<u8>,
}

impl Place {
    fn new(end: u8) -> Place {
        let mut place = Place { end, bytes: Vec::new() };
        let around = (0..place.start() + layout::bytes(end) + SPARE).map(|at| 0xC0 ^ at as u8);
        place.bytes = around.collect();
        place.layout_mut().fill(FRESH);
        place
    }

    /// Each end stands at an alignment of its own.
    fn start(&self) -> usize {
        8 + self.end as usize
    }

    fn layout(&self) -> &[u8] {
        &self.bytes[self.start()..][..layout::bytes(self.end)]
    }

    fn layout_mut(&mut self) -> &mut [u8] {
        let start = self.start();
        &mut self.bytes[start..][..layout::bytes(self.end)]
    }

    /// Where what a call is lent lies: the layout, or so many bytes more or fewer.
    fn lent(&self, more: i16) -> Range<usize> {
        let (start, length) = (self.start(), layout::bytes(self.end) as i32 + more as i32);
        start..start + length as usize
    }

    /// Which bytes are others than before; the layout's may be if `free`.
    fn changed(&self, before: &[u8], free: bool) -> u8 {
        let (start, stop) = (self.start(), self.start() + layout::bytes(self.end));
        let around = self.bytes[..start] != before[..start] || self.bytes[stop..] != before[stop..];
        let within = !free && self.bytes[start..stop] != before[start..stop];
        around as u8 * AROUND + within as u8 * END
    }
}

/// A buffer for messages: its bytes, and how many of them it holds.
struct Buffer<const N: usize> {
    bytes: [u8; N],
    length: usize,
}

impl<const N: usize> Buffer<N> {
    const FRESH: Buffer<N> = Buffer { bytes: [FRESH; N], length: 0 };

    fn held(&self) -> &[u8] {
        &self.bytes[..self.length]
    }

    fn poke(&mut self, at: usize, byte: u8, length: usize) {
        self.bytes[at] = byte;
        self.length = length;
    }

    /// A message goes behind what it holds, if there is room.
    fn add(&mut self, message: &[u8]) {
        if let Some(to) = self.bytes[self.length..].get_mut(..message.len()) {
            to.copy_from_slice(message);
            self.length += message.len();
        }
    }

    /// What a taking is lent: what it holds, with zeros behind it.
    fn lent(&self, tails: u16) -> Cow<'_, [u8]> {
        match tails {
            0 => Cow::Borrowed(self.held()),
            _ => Cow::Owned([self.held(), &vec![0; TAIL * tails as usize]].concat()),
        }
    }
}

/// What an end counts on a line.
#[derive(Clone, Copy)]
pub struct Counts {
    pub made: u32,
    pub taken: u32,
    pub acked: u32,
    pub inserts: u32,
}

pub struct World<'a, C: Calls + ?Sized> {
    calls: &'a C,
    ends: Vec<Place>,
    slots: [Buffer<SLOT>; SLOTS],
    packets: [Buffer<PACKET>; PACKETS],
    /// Whether what had to stay is compared, and the law of packets asked.
    watched: bool,
    /// The end's bytes before the call, and the buffer's.
    before: [Vec<u8>; 2],
}

impl<'a, C: Calls + ?Sized> World<'a, C> {
    /// No end is open: every byte is fresh.
    pub fn new(calls: &'a C) -> World<'a, C> {
        World { watched: true, ..World::unwatched(calls) }
    }

    /// One that does not look for bytes that had to stay, for timing.
    pub fn unwatched(calls: &'a C) -> World<'a, C> {
        let ends = (0..=LINES as u8).map(Place::new).collect();
        World { calls, ends, slots: [Buffer::FRESH; SLOTS], packets: [Buffer::FRESH; PACKETS], watched: false, before: Default::default() }
    }

    /// Performs one call and appends its answer.
    pub fn perform(&mut self, call: &Call, initial: &[u32], out: &mut Vec<u8>) {
        let (answer, changed) = if call.is_one() { self.answer(call, initial) } else { (NO_CALL as u64, 0) };
        out.extend_from_slice(&answer.to_le_bytes());
        out.push(changed);
        match call.op {
            _ if !call.is_one() => {}
            DUMP => out.extend_from_slice(self.end(call.end)),
            SHOW => {
                let slot = &self.slots[call.slot as usize];
                out.push(slot.length as u8);
                out.extend_from_slice(&slot.bytes);
            }
            SHOW_PACKET => {
                let packet = &self.packets[call.slot as usize];
                out.extend_from_slice(&(packet.length as u16).to_be_bytes());
                out.extend_from_slice(&packet.bytes);
            }
            _ => {}
        }
    }

    /// The answer's number, and what did not hold.
    fn answer(&mut self, call: &Call, initial: &[u32]) -> (u64, u8) {
        match call.op {
            POKE => self.slots[call.slot as usize].poke(call.number as usize, call.value as u8, call.size as usize),
            POKE_PACKET => self.packets[call.slot as usize].poke(call.number as usize, call.value as u8, call.position as usize),
            ADD => {
                let (message, packet) = (&self.slots[call.slot as usize], &mut self.packets[call.size as usize]);
                (0..call.number).for_each(|_| packet.add(message.held()));
            }
            SET => {
                let at = 4 * call.number as usize;
                self.ends[call.end as usize].layout_mut()[at..at + 4].copy_from_slice(&call.value.to_le_bytes());
            }
            FILL => self.ends[call.end as usize].layout_mut().fill(call.value as u8),
            COPY => {
                let from = self.end(call.line).to_vec();
                self.ends[call.end as usize].layout_mut().copy_from_slice(&from);
            }
            DUMP | SHOW | SHOW_PACKET => {}
            _ => return self.exported(call, initial),
        }
        (0, 0)
    }

    /// An exported call, and a look at what had to stay.
    fn exported(&mut self, call: &Call, initial: &[u32]) -> (u64, u8) {
        if self.watched {
            let [mut end, mut buffer] = std::mem::take(&mut self.before);
            end.clone_from(&self.ends[call.end as usize].bytes);
            buffer.clear();
            buffer.extend_from_slice(self.buffer(call));
            self.before = [end, buffer];
        }
        let number = self.call(call, initial);
        let answer = Answer::of(&number.to_le_bytes());
        let written = if call.sends() && answer.refusal == 0 { self.written(call, answer.count as usize) } else { 0..0 };
        (number, if self.watched { self.broken(call, answer, written) } else { 0 })
    }

    /// Where a sending says that it wrote so many bytes: the buffer then holds what lies before their end.
    fn written(&mut self, call: &Call, count: usize) -> Range<usize> {
        if call.op != PACK {
            self.slots[call.slot as usize].length = count.min(SLOT);
            return 0..count.min(SLOT);
        }
        if count == 0 {
            return 0..0;
        }
        let [from, to] = [call.offset(), call.offset().saturating_add(count)].map(|at| at.min(PACKET));
        self.packets[call.slot as usize].length = to;
        from..to
    }

    /// The bytes of the slot or of the packet that a call names.
    fn buffer(&self, call: &Call) -> &[u8] {
        let slot = call.slot as usize;
        if call.is_of_packet() {
            &self.packets[slot].bytes
        } else {
            &self.slots[slot].bytes
        }
    }

    /// What did not hold: bytes that had to stay, or the law of packets.
    fn broken(&self, call: &Call, answer: Answer, written: Range<usize>) -> u8 {
        let [before, buffer_before] = &self.before;
        let place = &self.ends[call.end as usize];
        // a packet keeps what was taken before the refusal
        let free = !call.sends() && (answer.refusal == 0 || (call.op == TAKE_PACKET && answer.count != 0));
        let now = self.buffer(call);
        let out = now[..written.start] != buffer_before[..written.start] || now[written.end..] != buffer_before[written.end..];
        let law = !call.is_of_packet() || self.law_holds(call, answer);
        out as u8 * OUT + !law as u8 * LAW + place.changed(before, free)
    }

    /// The law of packets, of a call on one.
    fn law_holds(&self, call: &Call, answer: Answer) -> bool {
        let place = &self.ends[call.end as usize];
        let [before, now] = [&self.before[0], &place.bytes].map(|bytes| &bytes[place.lent(call.lent)]);
        let called = Called { calls: self.calls, call, before, now, answer };
        let packet = &self.packets[call.slot as usize];
        match call.op {
            PACK => called.writing_holds(&packet.bytes[..call.position as usize]),
            _ => called.taking_holds(&packet.lent(call.number)),
        }
    }

    fn call(&mut self, call: &Call, initial: &[u32]) -> u64 {
        let (calls, line, offset) = (self.calls, call.line, call.offset());
        let place = &mut self.ends[call.end as usize];
        let range = place.lent(call.lent);
        let end = &mut place.bytes[range];
        let server = call.end == 0;
        match call.op {
            OPEN if server => calls.server_open(end, call.size, &call.ranks(), &items(call, initial)),
            OPEN => calls.client_open(end, call.size, line, &call.ranks(), &items(call, initial)),
            INSERT => calls.client_insert(end, call.position, call.value),
            DELETE => calls.client_delete(end, call.position),
            TAKE_BACK => calls.client_take_back(end),
            SEND | ACKNOWLEDGE => {
                let out = &mut self.slots[call.slot as usize].bytes[..call.size as usize];
                match (call.op, server) {
                    (SEND, true) => calls.server_send(end, line, call.number, out),
                    (SEND, false) => calls.client_send(end, line, call.number, out),
                    (_, true) => calls.server_acknowledge(end, line, out),
                    (_, false) => calls.client_acknowledge(end, line, out),
                }
            }
            PACK => {
                let out = &mut self.packets[call.slot as usize].bytes[..call.position as usize];
                if server {
                    calls.server_pack(end, line, out, offset)
                } else {
                    calls.client_pack(end, line, out, offset)
                }
            }
            _ => {
                let slot = call.slot as usize;
                let lent = if call.op == TAKE { self.slots[slot].lent(call.number) } else { self.packets[slot].lent(call.number) };
                match (call.op, server) {
                    (TAKE, true) => calls.server_take(end, &lent),
                    (TAKE, false) => calls.client_take(end, &lent),
                    (TAKE_PACKET, true) => calls.server_take_packet(end, &lent),
                    (TAKE_PACKET, false) => calls.client_take_packet(end, &lent),
                    (_, true) => calls.server_take_at(end, &lent, offset),
                    (_, false) => calls.client_take_at(end, &lent, offset),
                }
            }
        }
    }

    /// The layout's bytes of an end.
    pub fn end(&self, end: u8) -> &[u8] {
        self.ends[end as usize].layout()
    }

    /// The message in a slot.
    pub fn message(&self, slot: u8) -> &[u8] {
        self.slots[slot as usize].held()
    }

    /// The slot's bytes, those past its length too.
    pub fn slot(&self, slot: u8) -> &[u8; SLOT] {
        &self.slots[slot as usize].bytes
    }

    /// What a packet holds.
    pub fn packet(&self, packet: u8) -> &[u8] {
        self.packets[packet as usize].held()
    }

    fn number(&self, end: u8, line: usize, field: Field) -> u32 {
        layout::read(self.end(end), layout::word(end, line as u8, field).unwrap())
    }

    pub fn length(&self, end: usize) -> u32 {
        self.number(end as u8, 1, Field::Length)
    }

    pub fn items(&self, end: usize) -> Vec<u32> {
        (0..self.length(end).min(ITEMS as u32) as u16).map(|index| self.number(end as u8, 1, Field::Item(index))).collect()
    }

    /// The list's places: item, maker's line and maker's number.
    pub fn places(&self, end: usize) -> Vec<(u32, u32, u32)> {
        let origin = |index: u16| self.number(end as u8, 1, Field::Origin(index));
        self.items(end).into_iter().zip(0..).map(|(item, index)| (item, origin(index) >> 16, origin(index) & 65_535)).collect()
    }

    fn counts(&self, end: u8, line: usize) -> Counts {
        let [made, taken, acked, inserts] =
            [Field::Made, Field::Taken, Field::Acked, Field::Inserts].map(|field| self.number(end, line, field));
        Counts { made, taken, acked, inserts }
    }

    /// What client l counts.
    pub fn client(&self, l: usize) -> Counts {
        self.counts(l as u8, l)
    }

    /// What the server counts on line l.
    pub fn server(&self, l: usize) -> Counts {
        self.counts(0, l)
    }
}

/// The bytes of an opening's items, high byte first: as many as there are and the call names, and some bytes of the next.
fn items(call: &Call, initial: &[u32]) -> Vec<u8> {
    let count = initial.len().min(call.number as usize);
    let mut bytes: Vec<u8> = initial[..count].iter().flat_map(|item| item.to_be_bytes()).collect();
    bytes.extend_from_slice(&initial.get(count).unwrap_or(&0).to_be_bytes()[..call.slot as usize]);
    bytes
}
