//! An independent implementation of the rule book in plain Rust: both ends, the messages, the calls over lent bytes, the run program.
//! An end changes in place and only once every question has been answered with yes.

pub mod client;
pub mod codec;
pub mod edit;
pub mod lent;
pub mod line;
pub mod origins;
mod packet_slips;
pub mod packets;
pub mod places;
pub mod ranks;
pub mod reported;
pub mod script;
pub mod server;
pub mod slip;
pub mod undo;
pub mod words;

/// The answer of editing and taking: the number of the first no, or 0, how many pending edits were passed, and of an edit that was taken the
/// position that arrived and the position applied, 0 for nothing.
#[derive(Clone, Copy, PartialEq, Eq, Debug, Default)]
pub struct Answer {
    pub refusal: u8,
    /// Of a packet how many of its messages were taken, beside a refusal too.
    pub passed: u16,
    pub arrived: u16,
    pub applied: u16,
    /// The bytes of a message that was taken at an offset of a packet.
    pub read: u8,
}

impl Answer {
    #[inline]
    pub fn refused(refusal: u8) -> Answer {
        Answer { refusal, ..Answer::default() }
    }
}

/// The answer of sending: the number of the first no, or 0, and the length written.
#[derive(Clone, Copy, PartialEq, Eq, Debug)]
pub struct Sent {
    pub refusal: u8,
    pub length: u16,
}

impl Sent {
    pub fn refused(refusal: u8) -> Sent {
        Sent { refusal, length: 0 }
    }
}
