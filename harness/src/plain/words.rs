//! An end as words of 4 bytes, low byte first: reading it from them and writing it back.

use super::client::Client;
use super::line::Pending;
use super::places::Places;
use super::ranks::Ranks;
use super::server::Server;
use super::slip::{Rules, Slip};
use super::undo::Inverse;
use crate::limits::*;

pub type Word = [u8; 4];

#[inline]
fn number(word: Word) -> u32 {
    u32::from_le_bytes(word)
}

/// An end that can lie in bytes.
pub trait End: Sized {
    const WORDS: usize;
    /// What it is read into.
    const ZERO: Self;
    /// False if a number does not fit its field: no sound end has such bytes.
    fn read<R: Rules>(&mut self, words: &[Word]) -> bool;
    fn write(&self, words: &mut [Word]);
    /// For the slip that repeats an earlier list: how often the end changed, and its list.
    fn shown(&mut self) -> (u16, &mut Places);
}

/// All words together.
#[inline]
fn gathered(words: &[Word]) -> u32 {
    words.iter().fold(0, |all, &word| all | number(word))
}

/// Whether a number of the first is above 8 bits, or one of the others above 16.
#[inline]
fn is_wide<R: Rules>(small: u32, others: u32) -> bool {
    (small >> 8 != 0 && !R::slips(Slip::WideN)) | (others >> 16 != 0 && !R::slips(Slip::WideCount))
}

/// Eight ranks in two words, line 1's in the lowest byte of the first.
#[inline]
fn read_ranks(ranks: &mut Ranks, words: &[Word]) {
    ranks.copy_from_slice(words[..2].as_flattened());
}

#[inline]
fn write_ranks(words: &mut [Word], ranks: &Ranks) {
    words[..2].as_flattened_mut().copy_from_slice(ranks);
}

#[inline]
fn read_all(numbers: &mut [u32], words: &[Word]) {
    for (number, word) in numbers.iter_mut().zip(words) {
        *number = u32::from_le_bytes(*word);
    }
}

#[inline]
fn write_all(words: &mut [Word], numbers: &[u32]) {
    for (word, number) in words.iter_mut().zip(numbers) {
        *word = number.to_le_bytes();
    }
}

#[inline]
fn read_pending<R: Rules>(pending: &mut Pending, places: &[Word], items: &[Word]) {
    read_all(&mut pending.places, places);
    read_all(&mut pending.items, items);
    if R::slips(Slip::WidePlace) {
        pending.places.iter_mut().for_each(|place| *place &= 0xFF_FFFF);
    }
}

impl End for Client {
    const WORDS: usize = 1164;
    const ZERO: Client = Client::ZERO;

    #[inline]
    fn read<R: Rules>(&mut self, words: &[Word]) -> bool {
        let small = |at: usize| number(words[at]) as u16;
        self.n = small(0) as u8;
        self.line = small(1) as u8;
        self.list.length = small(2);
        read_ranks(&mut self.ranks, &words[3..]);
        let own = &mut self.own;
        (own.made, own.taken, own.acked, own.inserts) = (small(5), small(6), small(7), small(8));
        self.list.total = number(words[9]);
        self.inverse = Inverse { place: number(words[10]), item: number(words[11]) };
        if R::slips(Slip::WideInverse) {
            self.inverse.place &= 0xFF_FFFF;
        }
        read_all(&mut self.list.items, &words[12..524]);
        read_pending::<R>(&mut own.pending, &words[524..588], &words[588..652]);
        read_all(&mut self.list.origins, &words[652..1164]);
        !is_wide::<R>(gathered(&words[..2]), number(words[2]) | gathered(&words[5..9]))
    }

    #[inline]
    fn write(&self, words: &mut [Word]) {
        let own = &self.own;
        write_all(&mut words[..3], &[self.n as u32, self.line as u32, self.list.length as u32]);
        write_ranks(&mut words[3..], &self.ranks);
        write_all(&mut words[5..9], &[own.made, own.taken, own.acked, own.inserts].map(u32::from));
        words[9] = self.list.total.to_le_bytes();
        write_all(&mut words[10..12], &[self.inverse.place, self.inverse.item]);
        write_all(&mut words[12..524], &self.list.items);
        write_all(&mut words[524..588], &own.pending.places);
        write_all(&mut words[588..652], &own.pending.items);
        write_all(&mut words[652..1164], &self.list.origins);
    }

    fn shown(&mut self) -> (u16, &mut Places) {
        (self.own.made, &mut self.list)
    }
}

impl End for Server {
    const WORDS: usize = 2598;
    const ZERO: Server = Server::ZERO;

    #[inline]
    fn read<R: Rules>(&mut self, words: &[Word]) -> bool {
        let small = |at: usize| number(words[at]) as u16;
        self.n = small(0) as u8;
        self.initial = small(1);
        self.list.length = small(2);
        read_ranks(&mut self.ranks, &words[3..]);
        for (at, line) in self.lines.iter_mut().enumerate() {
            let count = 5 + 4 * at;
            (line.made, line.taken, line.acked, line.inserts) = (small(count), small(count + 1), small(count + 2), small(count + 3));
            let (places, items) = words[550 + 2 * PENDING * at..][..2 * PENDING].split_at(PENDING);
            read_pending::<R>(&mut line.pending, places, items);
        }
        self.list.total = number(words[37]);
        read_all(&mut self.list.items, &words[38..550]);
        read_all(&mut self.list.origins, &words[1574..2086]);
        read_all(self.origins.as_flattened_mut(), &words[2086..2598]);
        !is_wide::<R>(number(words[0]), gathered(&words[1..3]) | gathered(&words[5..37]))
    }

    #[inline]
    fn write(&self, words: &mut [Word]) {
        write_all(&mut words[..3], &[self.n as u32, self.initial as u32, self.list.length as u32]);
        write_ranks(&mut words[3..], &self.ranks);
        for (at, line) in self.lines.iter().enumerate() {
            write_all(&mut words[5 + 4 * at..][..4], &[line.made, line.taken, line.acked, line.inserts].map(u32::from));
            let (places, items) = words[550 + 2 * PENDING * at..][..2 * PENDING].split_at_mut(PENDING);
            write_all(places, &line.pending.places);
            write_all(items, &line.pending.items);
        }
        words[37] = self.list.total.to_le_bytes();
        write_all(&mut words[38..550], &self.list.items);
        write_all(&mut words[1574..2086], &self.list.origins);
        write_all(&mut words[2086..2598], self.origins.as_flattened());
    }

    fn shown(&mut self) -> (u16, &mut Places) {
        (self.lines[0].taken, &mut self.list)
    }
}
