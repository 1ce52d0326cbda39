//! The list of an end: items, and beside each its origin.

use super::edit::{Edit, DELETE, INSERT};
use super::origins::{maker, word};
use super::slip::{Rules, Slip};
use crate::limits::*;

#[derive(Clone, PartialEq, Eq, Debug)]
#[repr(C)]
pub struct Places {
    pub length: u16,
    /// The seconds of the items together.
    pub total: u32,
    pub items: [u32; ITEMS],
    pub origins: [u32; ITEMS],
}

impl Places {
    pub const ZERO: Places = Places { length: 0, total: 0, items: [0; ITEMS], origins: [0; ITEMS] };

    /// The list that a sheet opens with, of an end that is all zeros: line 0, and the place as number.
    #[inline]
    pub fn open<R: Rules>(&mut self, items: &[u32]) {
        self.length = items.len() as u16;
        self.items[..items.len()].copy_from_slice(items);
        self.total = if R::slips(Slip::TotalUnopened) { 0 } else { total::<R>(items) };
        let first = if R::slips(Slip::OpenFromZero) { 0 } else { 1 };
        if !R::slips(Slip::OpenNoOrigins) {
            self.origins[..items.len()].iter_mut().zip(first..).for_each(|(origin, number)| *origin = number);
        }
    }

    /// Question 2 of a list of at most 512: the places past its end are zero, and its total is the sum over the items. Nothing is asked of the
    /// origins on it.
    #[inline]
    pub fn sound<R: Rules>(&self, n: u8) -> bool {
        let unused = (self.length as usize).min(ITEMS)..;
        let items = if R::slips(Slip::SoundItemsZero) { &[] } else { &self.items[unused.clone()] };
        let origins = if R::slips(Slip::SoundOriginsZero) { &[] } else { &self.origins[unused] };
        let listed = &self.items[..(self.length as usize).min(ITEMS)];
        let timed = sum_is::<R>(self.total, listed) || R::slips(Slip::SoundTotal);
        timed
            && is_zero(items)
            && is_zero(origins)
            && !(R::slips(Slip::TwoListMakers) && self.origins.iter().any(|&origin| maker(origin) > n))
    }

    /// Applies an edit that fits, of that origin; the place a delete leaves at the end becomes zero.
    #[inline]
    pub fn apply<R: Rules>(&mut self, edit: Edit, origin: u32) {
        let (at, end) = (edit.position() as usize, self.length as usize);
        self.count_seconds::<R>(edit);
        match edit.kind() {
            INSERT => {
                self.items.copy_within(at - 1..end, at);
                self.items[at - 1] = edit.item();
                if !R::slips(Slip::InsertOrigins) {
                    self.origins.copy_within(at - 1..end, at);
                }
                if !R::slips(Slip::OriginUnwritten) {
                    self.origins[at - 1] = origin;
                }
                self.length += 1;
            }
            DELETE => {
                let (item, origin) = (self.items[end - 1], self.origins[end - 1]);
                self.items.copy_within(at..end, at - 1);
                self.items[end - 1] = if R::slips(Slip::TailLeft) { item } else { 0 };
                if !R::slips(Slip::DeleteOrigins) {
                    self.origins.copy_within(at..end, at - 1);
                }
                self.origins[end - 1] = if R::slips(Slip::OriginTailLeft) { origin } else { 0 };
                self.length -= 1;
            }
            _ => {}
        }
    }

    /// Adds an insert's seconds to the total, subtracts those of the item that a delete takes out.
    #[inline]
    fn count_seconds<R: Rules>(&mut self, edit: Edit) {
        let at = edit.position() as usize;
        match edit.kind() {
            INSERT if !R::slips(Slip::TotalUnadded) => self.total = self.total.wrapping_add(seconds::<R>(edit.item())),
            DELETE if !R::slips(Slip::TotalUnsubtracted) => {
                let behind = R::slips(Slip::TotalBehind) && at < self.length as usize;
                self.total = self.total.wrapping_sub(seconds::<R>(self.items[at - !behind as usize]));
            }
            _ => {}
        }
    }

    /// For the slip that gives opening items to the client that opens.
    #[inline]
    pub fn given_to<R: Rules>(&mut self, line: u8) {
        if R::slips(Slip::OpenOwnLine) {
            self.origins[..self.length as usize].iter_mut().for_each(|origin| *origin |= word(line, 0));
        }
    }
}

/// The seconds of an item: its low 12 bits.
#[inline]
fn seconds<R: Rules>(item: u32) -> u32 {
    if R::slips(Slip::Seconds13) {
        item % 8192
    } else if R::slips(Slip::Seconds11) {
        item % 2048
    } else if R::slips(Slip::SecondsHigh) {
        item >> 20
    } else {
        item % 4096
    }
}

#[inline]
fn total<R: Rules>(items: &[u32]) -> u32 {
    items.iter().fold(0, |sum, &item| sum + seconds::<R>(item))
}

/// Whether a total is the sum over items, as question 2 asks.
#[inline]
fn sum_is<R: Rules>(stored: u32, items: &[u32]) -> bool {
    if R::slips(Slip::TotalLastUnseen) {
        return stored == total::<R>(&items[..items.len().saturating_sub(1)]);
    }
    let sum = total::<R>(items);
    if R::slips(Slip::SoundTotal16) {
        return stored as u16 == sum as u16;
    }
    stored == sum || (R::slips(Slip::SoundTotalLow) && stored <= sum)
}

/// OR all words together, compare once.
#[inline]
fn is_zero(words: &[u32]) -> bool {
    words.iter().fold(0, |all, word| all | word) == 0
}
