//! What a line did, in words.

use crate::deed::{Carried, Deed, Mark, View};
use crate::edit::{self, Edit, Origin};
use crate::limits::*;
use crate::literal::Numbered;
use crate::refusals::refused;
use crate::sheet::{Sheet, SERVER};
use crate::view;

/// What was done, with the list that changed, or why not, with what to do.
#[derive(Clone, Debug)]
pub struct Said {
    pub what: String,
    pub list: Option<String>,
    pub advice: Option<String>,
}

fn done(what: String) -> Said {
    Said { what, list: None, advice: None }
}

fn changed(what: String, end: &str, view: &View) -> Said {
    Said { what, list: Some(format!("{end}: {}", view::line(view))), advice: None }
}

fn not_done(what: impl Into<String>, advice: impl Into<String>) -> Said {
    Said { what: what.into(), list: None, advice: Some(advice.into()) }
}

/// Of the first line.
pub fn first(deed: &Deed) -> Said {
    match deed {
        Deed::Opened(opening) => {
            let view = View { places: edit::opening(&opening.items), mark: Mark::Same };
            changed(format!("the server and {} are open", many(opening.n as usize, "bay")), "every list", &view)
        }
        Deed::NotOpened { opening, .. } if !(1..=LINES as u8).contains(&opening.n) => {
            not_done(format!("a sheet has 1 to {LINES} bays, not {}", opening.n), format!("write a number from 1 to {LINES} after `lines`"))
        }
        Deed::NotOpened { opening, refusal: 1 } => not_done(
            format!("a sheet opens with at most {INITIAL} steps, not {}", opening.items.len()),
            format!("leave {} out, and insert them later", many(opening.items.len().saturating_sub(INITIAL), "step")),
        ),
        Deed::NotOpened { refusal, .. } => generic(*refusal),
        Deed::NotUnderstood(why) => not_done(&why.reason, &why.advice),
        _ => done(String::new()),
    }
}

/// Of a later line, with the sheet as the line left it.
pub fn said(deed: &Deed, sheet: &Sheet) -> Said {
    match deed {
        Deed::Made { bay, number, edit, view } => made(*bay, *number, *edit, view),
        Deed::NotMade { bay, edit, refusal } => not_made(*bay, *edit, *refusal, sheet),
        Deed::Carried(carried) if carried.answer.refusal != 0 => not_taken(carried, sheet),
        Deed::Carried(carried) => match carried.message.numbered {
            Some(numbered) => taken(carried, numbered),
            None => acknowledged(carried, sheet),
        },
        Deed::NotWritten { from, line, number: Some(number), refusal: 13 } => not_pending(*from, *line, *number, sheet),
        Deed::NotWritten { refusal, .. } => generic(*refusal),
        _ => first(deed),
    }
}

fn made(bay: u8, number: u16, edit: Edit, view: &View) -> Said {
    let what = match (edit, view.mark) {
        (Edit::Insert(position, item, _), _) => format!("inserts {item} at position {position}"),
        (_, Mark::Gone(position, item)) => format!("deletes {item} at position {position}"),
        _ => "does nothing".to_string(),
    };
    changed(format!("bay {bay} {what}; this is its edit {number}"), &end(bay), view)
}

fn taken(carried: &Carried, numbered: Numbered) -> Said {
    let (edit, answer) = (numbered.edit, carried.answer);
    let passed = match answer.count as usize {
        0 => String::new(),
        count if carried.to == SERVER => format!(", past {} that bay {} had not seen", many(count, "edit"), carried.line),
        count => format!(", past {} of its own that the server had not seen", many(count, "edit")),
    };
    let landed = match (answer.arrived, answer.applied) {
        (0, _) => "its step was deleted before, so nothing is left to do".to_string(),
        (arrived, 0) => format!("arrived at {arrived}, gone: the step is deleted already{passed}"),
        (arrived, applied) => format!("arrived at {arrived}, applied at {applied}{passed}"),
    };
    let taker = end(carried.to);
    changed(format!("{taker} takes {}, {}: {landed}", whose(numbered.origin), form(edit)), &taker, &carried.view)
}

fn acknowledged(carried: &Carried, sheet: &Sheet) -> Said {
    let seen = many(carried.message.seen as usize, "edit");
    let dropped = many(carried.dropped as usize, "pending edit");
    let left = sheet.pending(carried.to, carried.line);
    done(format!("{} acknowledges {seen}; {} drops {dropped}, {left} left", end(carried.from), end(carried.to)))
}

fn not_made(bay: u8, edit: Edit, refusal: u8, sheet: &Sheet) -> Said {
    let length = sheet.length(bay);
    match (refusal, edit) {
        (9, Edit::Insert(..)) if length == ITEMS => not_done(format!("bay {bay}'s list is full: {ITEMS} steps"), "delete a step first"),
        (9, Edit::Delete(_)) if length == 0 => not_done(format!("bay {bay}'s list is empty"), "there is nothing to delete"),
        (9, _) => {
            let last = if matches!(edit, Edit::Insert(..)) { length + 1 } else { length };
            let what = format!("position {} is outside bay {bay}'s list, which has {}", edit.position(), many(length, "step"));
            not_done(what, if last == 1 { "write position 1".to_string() } else { format!("write a position from 1 to {last}") })
        }
        (10, _) => not_done(format!("bay {bay} has inserted {INSERTS} steps, and may not insert more"), refused(10).advice),
        (11, _) => not_done(format!("bay {bay} has made {EDITS} edits, and may not make more"), refused(11).advice),
        (12, _) => not_done(
            format!("{PENDING} edits of bay {bay} are pending: the server has not acknowledged them"),
            format!("send them (`{bay} up K`), let the server acknowledge (`{bay} told`), then edit again"),
        ),
        _ => generic(refusal),
    }
}

fn not_taken(carried: &Carried, sheet: &Sheet) -> Said {
    let Some(Numbered { number, .. }) = carried.message.numbered else {
        return generic(carried.answer.refusal);
    };
    let (to, line) = (end(carried.to), carried.line);
    let (verb, edit) = if carried.to == SERVER { ("up", format!("bay {line}'s edit")) } else { ("down", "number".to_string()) };
    let next = sheet.taken(carried.to, line) + 1;
    match carried.answer.refusal {
        5 => not_done(format!("{to} has taken {edit} {number} before"), "nothing: a repeat changes nothing"),
        6 => not_done(
            format!("{to} has not taken {edit} {next} yet, and takes edits in order"),
            format!("write `{line} {verb} {next}` first, then this line again"),
        ),
        12 => match (1..=sheet.n).find(|&other| other != line && sheet.pending(SERVER, other) as usize >= PENDING) {
            Some(other) => not_done(
                format!("the server keeps {PENDING} edits for bay {other}, which has not acknowledged them"),
                format!("let bay {other} take them (`{other} down K`) and acknowledge (`{other} ack`), then write this line again"),
            ),
            None => generic(12),
        },
        refusal => generic(refusal),
    }
}

/// Refusal 13: the end does not keep that number.
fn not_pending(from: u8, line: u8, number: u16, sheet: &Sheet) -> Said {
    let (made, acked) = (sheet.made(from, line), sheet.acked(from, line));
    let edits = many(made as usize, "edit");
    let (has, other) = if from == SERVER {
        (format!("the server has {edits} for bay {line}"), line)
    } else {
        (format!("bay {line} has made {edits}"), SERVER)
    };
    if number == 0 {
        return not_done("edits are numbered from 1", "write a number from 1");
    }
    if number <= acked {
        return not_done(format!("{} has acknowledged number {number}, so it is no longer kept", end(other)), "nothing: it was taken");
    }
    let what = format!("there is no number {number}: {has}");
    if made == acked {
        let advice = if from == SERVER { "let another bay send an edit up first" } else { "make an edit first" };
        return not_done(what, advice);
    }
    not_done(what, format!("send number {}, which the other end has not acknowledged", range(acked + 1, made)))
}

fn generic(refusal: u8) -> Said {
    let refusal = refused(refusal);
    not_done(refusal.meaning, refusal.advice)
}

pub fn end(end: u8) -> String {
    if end == SERVER {
        "the server".to_string()
    } else {
        format!("bay {end}")
    }
}

/// An edit as a message has it.
pub fn form(edit: Edit) -> String {
    match edit {
        Edit::Insert(position, item, _) => format!("insert {item} at {position}"),
        Edit::Delete(position) => format!("delete at {position}"),
        Edit::Nothing => "nothing".to_string(),
    }
}

pub fn whose((maker, number): Origin) -> String {
    if maker == 0 {
        "the opening list".to_string()
    } else {
        format!("bay {maker}'s edit {number}")
    }
}

pub fn many(count: usize, thing: &str) -> String {
    if count == 1 {
        format!("1 {thing}")
    } else {
        format!("{count} {thing}s")
    }
}

pub fn range(from: u16, to: u16) -> String {
    if from == to {
        from.to_string()
    } else {
        format!("{from} to {to}")
    }
}
