//! Runs that leave the third demand: ends overwritten, messages that nobody wrote.

use crate::edit::Edit;
use crate::generate::Run;
use crate::layout::{self, Field};
use crate::limits::*;
use crate::list::*;
use crate::literal::{self, Message, Numbered};
use crate::rankings;

/// A run that is honest for a while.
pub fn hostile(seed: u64) -> List {
    let mut run = Run::open(seed);
    let target = run.list.calls.len() + run.rng.between(0, 150);
    while run.list.calls.len() < target {
        run.action();
    }
    for _ in 0..run.rng.between(1, 40) {
        match run.rng.below(4) {
            0 => run.overwrite(),
            1 => run.forge(),
            _ => run.action(),
        }
    }
    run.list
}

impl Run {
    /// Overwrites a field of an end, mostly near its limit, or a byte of it, or all of them.
    fn overwrite(&mut self) {
        let (end, line) = (self.rng.below(self.n + 1) as u8, self.rng.between(1, LINES) as u8);
        let index = if self.rng.once_in(2) { self.rng.below(520) } else { self.rng.below(65) } as u16;
        let count = self.rng.pick(&[0, 1, 63, 64, 65, 399, 400, 401, 511, 512, 513, 2799, 2800, 2801, 65_535]);
        let place = self.rng.pick(&[0, 1, 2, 511, 512, 513, 65_535]) << 8 | self.rng.below(10) as u32;
        let origin = layout::origin_word((self.rng.between(0, 9) as u8, self.rng.pick(&[0, 1, 2, 399, 400, 401, 65_535])));
        let total = layout::seconds(&self.world.items(end as usize));
        let (field, value) = match self.rng.below(18) {
            0 => (Field::N, self.rng.below(10) as u32),
            1 => (Field::Line, self.rng.below(10) as u32),
            2 => (Field::Length, count),
            3 => (Field::Initial, self.rng.pick(&[0, 127, 128, 129, 255])),
            4 => (Field::Made, count),
            5 => (Field::Taken, count),
            6 => (Field::Acked, count),
            7 => (Field::Inserts, self.rng.pick(&[0, 47, 48, 49, 255])),
            8 => (Field::Item(index), self.rng.below(2) as u32),
            9 => (Field::Place(index), place | self.rng.pick(&[0, 0, 0, 1, 2, 255]) << 24),
            10 => (Field::Brought(index), self.rng.below(2) as u32),
            11 => self.other_ranks(),
            12 => (Field::Origin(index), origin),
            13 => (Field::PendingOrigin(index), origin),
            14 => (Field::Total, total.wrapping_add(self.rng.pick(&[u32::MAX, 0, 1, 2, 4096, 65_536]))),
            15 => (Field::InversePlace, self.inverse(end) | self.rng.pick(&[0, 0, 0, 1, 2, 255]) << 24),
            16 => (Field::InverseItem, self.rng.below(2) as u32),
            _ => return self.overwrite_all(end),
        };
        let value = if self.rng.once_in(6) { value | 1 << self.rng.between(8, 31) } else { value };
        if let Some(word) = layout::word(end, line, field) {
            self.call(Call::set(end, word, value));
            self.call(Call::dump(end));
        }
    }

    /// An inverse near the edges of where one may stand, mostly with the client's rank or none.
    fn inverse(&mut self, end: u8) -> u32 {
        let own = self.ranks.get((end as usize).wrapping_sub(1)).map_or(1, |&rank| rank as u32);
        let priority = if self.rng.once_in(4) { self.rng.below(10) as u32 } else { self.rng.pick(&[0, own]) };
        let length = self.world.items(end as usize).len() as u32;
        self.rng.pick(&[0, 1, 2, length, length + 1, 511, 512, 513, 514, 65_535]) << 8 | priority
    }

    /// A word of ranks: of another ranking, or with a byte of it spoilt.
    fn other_ranks(&mut self) -> (Field, u32) {
        let half = self.rng.below(2);
        let word = layout::rank_words(&rankings::random(&mut self.rng, self.n))[half];
        let byte = 8 * self.rng.below(4);
        let rank = self.rng.pick(&[0, 1, 2, self.n as u32, self.n as u32 + 1, 8, 9, 255]);
        let value = if self.rng.once_in(2) { word } else { word & !(255 << byte) | rank << byte };
        (Field::Ranks(half as u16), value)
    }

    /// An end filled with one byte, or older bytes put back, or those of another client.
    fn overwrite_all(&mut self, end: u8) {
        let call = match self.rng.below(3) {
            choice if choice == 0 || end == 0 => Call::fill(end, self.rng.pick(&[0, 1, 255])),
            1 => Call::copy(end, self.rng.between(1, LINES) as u8),
            _ => Call::copy(self.rng.between(1, LINES) as u8, end),
        };
        self.call(call);
        self.call(Call::dump(call.end));
    }

    /// Writes a readable message that no end wrote, near what an end would take, and has it taken.
    fn forge(&mut self) {
        let (l, up) = (self.line(), self.rng.once_in(2));
        let end = if up { self.world.server(l) } else { self.world.client(l) };
        let (next, acked, made) = (end.taken.wrapping_add(1) as u16, end.acked, end.made);
        let number = next.wrapping_add(if self.rng.once_in(5) { self.rng.below(3) as u16 } else { 0 });
        let wanted = self.rng.between(acked as usize, made.max(acked) as usize) as i64
            + if self.rng.once_in(4) { self.rng.below(3) as i64 - 1 } else { 0 };
        let seen = wanted.max(0) as u16;
        let position =
            if self.rng.once_in(2) { self.rng.between(1, 20) } else { self.rng.pick(&[0, 1, 448, 449, 500, 511, 512, 513]) } as u16;
        let priority = if up && self.rng.below(4) > 0 { self.ranks[l - 1] } else { self.rng.between(1, LINES) as u8 };
        let edit = self.rng.pick(&[Edit::Insert(position, 5, priority), Edit::Delete(position), Edit::Nothing]);
        // going up mostly the right origin, coming down mostly another line's
        let maker = if up && self.rng.below(8) > 0 { l } else { self.rng.between(1, self.n + 1) } as u8;
        let made = if up && self.rng.below(8) > 0 { number } else { self.rng.pick(&[1, 2, 399, 400, 401, number]) };
        let numbered = (!self.rng.once_in(4)).then_some(Numbered { number, edit, origin: (maker, made) });
        let mut bytes = literal::write(&Message { line: l as u8, direction: !up as u8, numbered, seen });
        if bytes[0] != 4 && self.rng.once_in(12) {
            // a message of before origins
            bytes.truncate(bytes.len() - 3);
            bytes[0] = match edit {
                Edit::Insert(..) => 1,
                Edit::Delete(_) => 2,
                Edit::Nothing => 3,
            };
        }
        self.give(1, &bytes);
        let end = if up { 0 } else { l as u8 };
        self.call(Call::dump(end));
        if self.rng.below(3) > 0 {
            self.call(Call::take(end, 1));
        } else {
            self.forge_packet(end);
        }
        self.call(Call::dump(end));
    }

    /// The forged message in a packet among others, or twice, which is taken as a whole or at any offset.
    fn forge_packet(&mut self, end: u8) {
        let packet = self.rng.below(PACKETS) as u8;
        let length = self.rng.pick(&[0, 0, 0, LONGEST_PACKET as u16 - 17]);
        self.call(Call::poke_packet(packet, 0, 4, length));
        for _ in 0..self.rng.between(1, 4) {
            let slot = if self.rng.once_in(2) { 1 } else { self.rng.below(SLOTS) as u8 };
            self.call(Call::add(slot, packet, 1));
        }
        if self.rng.once_in(3) {
            let offset = self.rng.below(40);
            self.call(Call::take_at(end, packet, offset));
        } else {
            self.call(Call::take_packet(end, packet));
        }
    }
}
