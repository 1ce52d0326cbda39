//! What a line of the script did, or did not do.

use crate::edit::{Edit, Place};
use crate::literal::{self, Message};
use crate::reading::{Opening, Verb};
use crate::sheet::{Answer, Sheet, SERVER};
use crate::why::Why;

#[derive(Clone, Debug)]
pub enum Deed {
    Opened(Opening),
    NotOpened {
        opening: Opening,
        refusal: u8,
    },
    /// An edit made at a bay, its number and the bay's list after it.
    Made {
        bay: u8,
        number: u16,
        edit: Edit,
        view: View,
    },
    NotMade {
        bay: u8,
        edit: Edit,
        refusal: u8,
    },
    /// A message that one end wrote and the other took or refused.
    Carried(Carried),
    /// A message that was not written: an edit's number, or none for an acknowledgement.
    NotWritten {
        from: u8,
        line: u8,
        number: Option<u16>,
        refusal: u8,
    },
    NotUnderstood(Why),
}

#[derive(Clone, Debug)]
pub struct Carried {
    pub from: u8,
    pub to: u8,
    pub line: u8,
    pub message: Message,
    pub answer: Answer,
    /// Pending edits that the taker dropped, as the message's sender has them.
    pub dropped: u16,
    /// The taker's list after it.
    pub view: View,
}

/// A list after a change, with what changed.
#[derive(Clone, Debug)]
pub struct View {
    pub places: Vec<Place>,
    pub mark: Mark,
}

#[derive(Clone, Copy, PartialEq, Eq, Debug)]
pub enum Mark {
    Same,
    /// The position of a step that was inserted.
    New(u16),
    /// The position that a deleted step had, and the step.
    Gone(u16, u32),
}

impl Deed {
    /// The number that the run program prints; none for `?`.
    pub fn refusal(&self) -> Option<u8> {
        match self {
            Deed::Opened(_) | Deed::Made { .. } => Some(0),
            Deed::NotOpened { refusal, .. } | Deed::NotMade { refusal, .. } | Deed::NotWritten { refusal, .. } => Some(*refusal),
            Deed::Carried(carried) => Some(carried.answer.refusal),
            Deed::NotUnderstood(_) => None,
        }
    }
}

pub fn perform(sheet: &mut Sheet, bay: u8, verb: Verb) -> Deed {
    match verb {
        Verb::Edit(edit) => make(sheet, bay, edit),
        Verb::Up(number) => carry(sheet, bay, SERVER, bay, Some(number)),
        Verb::Down(number) => carry(sheet, SERVER, bay, bay, Some(number)),
        Verb::Ack => carry(sheet, bay, SERVER, bay, None),
        Verb::Told => carry(sheet, SERVER, bay, bay, None),
    }
}

fn make(sheet: &mut Sheet, bay: u8, edit: Edit) -> Deed {
    let before = sheet.list(bay);
    match sheet.edit(bay, edit) {
        0 => {
            let view = View { places: sheet.list(bay), mark: mark(edit, edit.position(), &before) };
            Deed::Made { bay, number: sheet.made(bay, bay), edit, view }
        }
        refusal => Deed::NotMade { bay, edit, refusal },
    }
}

fn carry(sheet: &mut Sheet, from: u8, to: u8, line: u8, number: Option<u16>) -> Deed {
    let bytes = match sheet.write(from, line, number) {
        Ok(bytes) => bytes,
        Err(refusal) => return Deed::NotWritten { from, line, number, refusal },
    };
    // an end writes what can be read: a proved promise
    let message = literal::read(&bytes).unwrap_or(Message { line, direction: (from == SERVER) as u8, numbered: None, seen: 0 });
    let (before, acked) = (sheet.list(to), sheet.acked(to, line));
    let answer = sheet.take(to, &bytes);
    let edit = message.numbered.map_or(Edit::Nothing, |numbered| numbered.edit);
    let view = View { places: sheet.list(to), mark: mark(edit, answer.applied, &before) };
    Deed::Carried(Carried { from, to, line, message, answer, dropped: sheet.acked(to, line) - acked, view })
}

/// What an edit did to a list at a position; 0 if it did nothing.
fn mark(edit: Edit, position: u16, before: &[Place]) -> Mark {
    match edit {
        Edit::Insert(..) if position > 0 => Mark::New(position),
        Edit::Delete(_) if position > 0 => before.get(position as usize - 1).map_or(Mark::Same, |place| Mark::Gone(position, place.item)),
        _ => Mark::Same,
    }
}
