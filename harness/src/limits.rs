//! The rule book's limits, by name.

pub const LINES: usize = 8;
pub const ITEMS: usize = 512;
pub const INITIAL: usize = 128;
pub const PENDING: usize = 64;
pub const INSERTS: u16 = 48;
/// Edits that one client may make; also the highest number going up.
pub const EDITS: u16 = 400;
/// Edits of the seven other clients; also the highest number coming down.
pub const OTHERS: u16 = 2800;
/// Bytes of the longest packet that is taken.
pub const LONGEST_PACKET: usize = 1400;
