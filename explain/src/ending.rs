//! How the ends compare after the last line: which bay lacks what.

use crate::edit::Place;
use crate::literal;
use crate::run::alike;
use crate::sheet::{Sheet, SERVER};
use crate::words::{form, whose};

/// An edit that one end has and the other lacks: its number on the line, and what it is.
pub struct Lacked {
    pub number: u16,
    pub what: String,
}

/// A bay beside the server.
pub struct Standing {
    pub bay: u8,
    pub alike: bool,
    /// Edits that the server took on other lines and the bay has not taken.
    pub missing: Vec<Lacked>,
    /// Edits that the bay made and the server has not taken.
    pub unaccepted: Vec<Lacked>,
    /// Steps on the bay's list that are not on the server's, and the other way round.
    pub more: Vec<Place>,
    pub fewer: Vec<Place>,
}

pub fn standings(sheet: &Sheet) -> Vec<Standing> {
    (1..=sheet.n).map(|bay| standing(sheet, bay)).collect()
}

fn standing(sheet: &Sheet, bay: u8) -> Standing {
    let lacked = |from: u8, taken: u16| (taken + 1..=sheet.made(from, bay)).map(|number| lacked(sheet, from, bay, number)).collect();
    let without = |one: u8, other: u8| {
        let there = sheet.list(other);
        sheet.list(one).into_iter().filter(|place| !there.contains(place)).collect()
    };
    Standing {
        bay,
        alike: alike(sheet, bay),
        missing: lacked(SERVER, sheet.taken(bay, bay)),
        unaccepted: lacked(bay, sheet.taken(SERVER, bay)),
        more: without(bay, SERVER),
        fewer: without(SERVER, bay),
    }
}

/// The edit as its message would have it now.
fn lacked(sheet: &Sheet, from: u8, line: u8, number: u16) -> Lacked {
    let message = sheet.write(from, line, Some(number)).ok().and_then(|bytes| literal::read(&bytes));
    let numbered = message.and_then(|message| message.numbered);
    let what = numbered.map_or("unknown".to_string(), |numbered| format!("{}, {}", whose(numbered.origin), form(numbered.edit)));
    Lacked { number, what }
}
