//! The inverse of a client's latest edit, which taking back makes: stored as a pending edit is, and carried past every edit taken.

use super::edit::{Edit, DELETE, INSERT, NOTHING};
use super::line::Crossed;
use super::places::Places;
use super::slip::{Rules, Slip};
use crate::limits::*;

/// Position * 256 + priority, and the item. Zeros are nothing.
#[derive(Clone, Copy, PartialEq, Eq, Debug)]
#[repr(C)]
pub struct Inverse {
    pub place: u32,
    pub item: u32,
}

/// Where an inverse may stand: one past the longest list.
const LAST: u16 = ITEMS as u16 + 1;

impl Inverse {
    pub const NOTHING: Inverse = Inverse { place: 0, item: 0 };

    #[inline]
    pub fn new(edit: Edit) -> Inverse {
        Inverse { place: edit.place(), item: edit.item() }
    }

    /// The edit that taking back makes. The inverse is a sound one.
    #[inline]
    pub fn edit(self) -> Edit {
        Edit::pending(self.place, self.item)
    }

    /// Of an edit that fits that list, made by a client of that line and rank.
    #[inline]
    pub fn of<R: Rules>(edit: Edit, list: &Places, line: u8, rank: u8) -> Inverse {
        let position = edit.position();
        match edit.kind() {
            INSERT => {
                let behind = R::slips(Slip::InverseNext) && position <= list.length;
                Inverse::new(Edit::delete(position + behind as u16))
            }
            DELETE => {
                let behind = R::slips(Slip::InverseNeighbour) && position < list.length;
                let item = list.items[position as usize - !behind as usize];
                let item = if R::slips(Slip::InverseItemLost) { 0 } else { item };
                let priority = if R::slips(Slip::InverseByLine) { line } else { rank };
                Inverse::new(Edit::insert(position, item, priority))
            }
            _ => Inverse::NOTHING,
        }
    }

    /// Question 2, at a client whose inserts have that priority and that has made so many edits.
    #[inline]
    pub fn sound<R: Rules>(self, priority: u8, made: u16) -> bool {
        let (position, own) = (self.place >> 8 & 65_535, self.place & 255);
        let last = if R::slips(Slip::SoundInverse512) { ITEMS as u16 } else { LAST } as u32;
        let stands = (1 <= position && position <= last) || R::slips(Slip::SoundInversePosition);
        let ranked = own == 0 || own == priority as u32 || R::slips(Slip::SoundInversePriority);
        let brings = own != 0 || self.item == 0 || R::slips(Slip::SoundInverseItem);
        let narrow = self.place >> 24 == 0;
        let nothing = self.place == 0 && (self.item == 0 || R::slips(Slip::SoundInverseItem));
        let made = made > 0 || self.place == 0 || R::slips(Slip::SoundInverseUnmade);
        ((nothing || (self.place != 0 && stands && ranked && brings && narrow)) && made) || R::slips(Slip::SoundInverse)
    }

    /// Past an edit that arrived, in the form in which it is applied.
    #[inline]
    pub fn past<R: Rules>(self, arrived: Edit, crossed: &Crossed) -> Inverse {
        let other = if R::slips(Slip::InverseArrived) { arrived } else { crossed.edit };
        let edit = self.edit();
        let tie = edit.kind() == INSERT && other.kind() == INSERT && edit.position() == other.position();
        let (form, _) = edit.past(other);
        match () {
            _ if R::slips(Slip::InverseLeft) => self,
            _ if R::slips(Slip::InverseCleared) => Inverse::NOTHING,
            _ if R::slips(Slip::InverseTie) && tie => self,
            _ if R::slips(Slip::InverseGone) && form.kind() == NOTHING => self,
            _ => Inverse::new(form),
        }
    }

    /// Question 9 of a taking: the inverse stays at 1 to 513.
    #[inline]
    pub fn stands<R: Rules>(self) -> bool {
        let position = self.edit().position();
        position <= LAST || R::slips(Slip::Inverse514)
    }
}
