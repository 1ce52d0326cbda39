//! Edits, packed into one 64-bit word, and carrying one past another without branches.

pub const NOTHING: u8 = 0;
pub const DELETE: u8 = 1;
pub const INSERT: u8 = 2;

/// An edit: from the top, kind (8 bits), position (16), priority (8), item (32). What a kind does not use is zero. Position and priority stand
/// side by side: one comparison of 24 bits decides who moves.
#[derive(Clone, Copy, PartialEq, Eq, Default)]
#[repr(transparent)]
pub struct Edit(u64);

const STEP: u32 = 40;

/// How a position moves past another edit. Added up, moves that went past a `Gone` are above every sum of the others: an edit passes 64 at most.
#[derive(Clone, Copy, PartialEq, Eq, Debug)]
#[repr(i16)]
pub enum Move {
    Down = -1,
    Still = 0,
    Up = 1,
    Gone = 1024,
}

/// The moves of an edit added up.
#[derive(Clone, Copy, PartialEq, Eq, Debug, Default)]
pub struct Moves(i16);

impl Moves {
    #[inline]
    pub fn add(&mut self, how: Move) {
        self.0 += how as i16;
    }

    /// Where an edit that arrived at this position is applied: 0 if it is gone.
    #[inline]
    pub fn from(self, arrived: u16) -> u16 {
        if self.0 > Move::Gone as i16 / 2 {
            0
        } else {
            arrived.wrapping_add_signed(self.0)
        }
    }
}

impl Edit {
    pub const NOTHING: Edit = Edit(0);

    #[inline]
    pub fn delete(position: u16) -> Edit {
        Edit((DELETE as u64) << 56 | (position as u64) << STEP)
    }

    #[inline]
    pub fn insert(position: u16, item: u32, priority: u8) -> Edit {
        Edit((INSERT as u64) << 56 | (position as u64) << STEP | (priority as u64) << 32 | item as u64)
    }

    #[inline]
    pub fn kind(self) -> u8 {
        (self.0 >> 56) as u8
    }

    #[inline]
    pub fn position(self) -> u16 {
        (self.0 >> STEP) as u16
    }

    #[inline]
    pub fn priority(self) -> u8 {
        (self.0 >> 32) as u8
    }

    #[inline]
    pub fn item(self) -> u32 {
        self.0 as u32
    }

    /// The pending edit of that place (position * 256 + priority) and item: an insert has a priority, a delete a position.
    #[inline]
    pub fn pending(place: u32, item: u32) -> Edit {
        let kind = if place & 255 != 0 { INSERT } else { (place != 0) as u8 * DELETE };
        Edit((kind as u64) << 56 | (place as u64) << 32 | item as u64)
    }

    /// The same edit at another position.
    #[inline]
    pub fn at(self, position: u16) -> Edit {
        Edit(self.0 & !(0xFFFF << STEP) | (position as u64) << STEP)
    }

    /// Position * 256 + priority.
    #[inline]
    pub fn place(self) -> u32 {
        (self.0 >> 32) as u32 & 0xFF_FFFF
    }

    /// This edit's form after `other`, and how its position moved.
    /// An insert moves up behind an insert at a smaller position, or at its own with a smaller priority; a delete also moves up behind an
    /// insert at its own position, which the tie value 255, above the priorities 1 to 8, says.
    #[inline]
    pub fn past(self, other: Edit) -> (Edit, Move) {
        let (kind, other_kind) = (self.kind(), other.kind());
        let key = self.place() | if kind == INSERT { 0 } else { 255 };
        let there = kind != NOTHING;
        let up = there & (other_kind == INSERT) & (key > other.place());
        let later = self.position() > other.position();
        let down = there & (other_kind == DELETE) & later;
        let gone = (kind == DELETE) & (other_kind == DELETE) & (self.position() == other.position());
        let moved = self.0.wrapping_add((up as u64) << STEP).wrapping_sub((down as u64) << STEP);
        let how = match (up, down, gone) {
            (true, _, _) => Move::Up,
            (_, true, _) => Move::Down,
            (_, _, true) => Move::Gone,
            _ => Move::Still,
        };
        (Edit(if gone { 0 } else { moved }), how)
    }

    /// Whether the edit fits a list of `length` items and leaves at most `limit`.
    #[inline]
    pub fn fits(self, length: u16, limit: u16) -> bool {
        let position = self.position();
        match self.kind() {
            INSERT => 1 <= position && position <= length + 1 && length < limit,
            DELETE => 1 <= position && position <= length,
            _ => true,
        }
    }
}

impl std::fmt::Debug for Edit {
    fn fmt(&self, f: &mut std::fmt::Formatter) -> std::fmt::Result {
        write!(f, "kind {} position {} priority {} item {}", self.kind(), self.position(), self.priority(), self.item())
    }
}
