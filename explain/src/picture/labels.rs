//! The labels of a picture.

use super::columns::LIST;
use crate::deed::{Carried, Deed};
use crate::edit::Edit;
use crate::refusals;
use crate::sheet::SERVER;
use crate::view::part;
use crate::words::{form, whose};

/// At the dot of an edit that is made.
pub fn made(number: u16, edit: Edit) -> String {
    format!("edit {number}: {}", form(edit))
}

/// Above an arrow, and below it.
pub fn message(carried: &Carried) -> (String, String) {
    match carried.message.numbered {
        None => (format!("acknowledges {}", carried.message.seen), String::new()),
        Some(numbered) if carried.to == SERVER => (form(numbered.edit), format!("edit {}", numbered.number)),
        Some(numbered) => (form(numbered.edit), whose(numbered.origin)),
    }
}

/// Where an edit landed.
pub fn landed(carried: &Carried) -> String {
    match (carried.answer.arrived, carried.answer.applied) {
        (0, _) => "nothing left to do".to_string(),
        (arrived, 0) => format!("arrived at {arrived}, gone"),
        (arrived, applied) if arrived == applied => format!("applied at {applied}"),
        (arrived, applied) => format!("arrived at {arrived}, applied at {applied}"),
    }
}

/// Behind the number of a refusal.
pub fn refused(deed: &Deed) -> String {
    let short = refusals::refused(deed.refusal().unwrap_or(0)).short;
    match deed {
        Deed::NotMade { edit, .. } => format!("{}: {short}", form(*edit)),
        Deed::NotWritten { number: Some(number), .. } => format!("number {number}: {short}"),
        _ => short.to_string(),
    }
}

/// Characters of the list that is shown.
pub fn list(deed: &Deed) -> usize {
    let view = match deed {
        Deed::Made { view, .. } => view,
        Deed::Carried(carried) => &carried.view,
        _ => return 0,
    };
    part(view, LIST).iter().map(|(word, _)| word.len() + 1).sum()
}

/// All that have to fit between two ends.
pub fn of(deed: &Deed) -> Vec<String> {
    // the number and its badge are as wide as five letters
    let badge = || format!("     {}", refused(deed));
    match deed {
        Deed::Made { number, edit, .. } => vec![made(*number, *edit)],
        Deed::NotMade { .. } | Deed::NotWritten { .. } => vec![badge()],
        Deed::Carried(carried) if carried.answer.refusal != 0 => vec![message(carried).0, badge()],
        Deed::Carried(carried) => vec![message(carried).0, landed(carried)],
        _ => vec![],
    }
}
