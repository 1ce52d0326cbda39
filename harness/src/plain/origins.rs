//! Origins as words, maker's line * 65536 + maker's edit number, and those that the server keeps beside a line's pending edits.

use super::slip::{Rules, Slip};
use crate::limits::*;

/// The origins of a line's pending edits, slot by slot; zeros past the last.
pub type Kept = [u32; PENDING];

#[inline]
pub fn word(maker: u8, number: u16) -> u32 {
    (maker as u32) << 16 | number as u32
}

#[inline]
pub fn maker(word: u32) -> u8 {
    (word >> 16) as u8
}

#[inline]
pub fn number(word: u32) -> u16 {
    word as u16
}

/// Forgets the first `dropped` of `pending` origins.
#[inline]
pub fn forget<R: Rules>(kept: &mut Kept, dropped: u16, pending: u16) {
    let (dropped, pending) = (dropped as usize, (pending as usize).min(PENDING));
    kept.copy_within(dropped..pending, 0);
    if !R::slips(Slip::OriginsTailLeft) {
        kept[pending - dropped..pending].fill(0);
    }
}
