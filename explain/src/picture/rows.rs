//! The rows of a picture, one for each line of the script.

use super::canvas::{escaped, Anchor, Canvas, GREY, RED};
use super::columns::{Columns, COMMAND, LIST};
use super::{colour, labels};
use crate::deed::{Carried, Deed, Mark, View};
use crate::edit;
use crate::run::{answer, Step};
use crate::sheet::SERVER;
use crate::view::{cut, part, Kind};

pub fn height(step: &Step) -> i32 {
    match &step.deed {
        Deed::Made { .. } => 42,
        Deed::Carried(carried) if carried.message.numbered.is_some() => 42,
        _ => 32,
    }
}

/// Number and command at the left edge, and a stripe under every second row.
pub fn margin(canvas: &mut Canvas, columns: &Columns, step: &Step, top: i32) {
    let (height, y) = (height(step), top + height(step) / 2);
    if step.line % 2 == 0 {
        canvas.rect((0, top), (columns.width(), height), "#f5f7fa", "");
    }
    canvas.text((38, y + 4), Anchor::End, "mono plain", "#9ca3af", &step.line.to_string());
    let command = String::from_utf8_lossy(&step.text).into_owned();
    let fill = if step.deed.refusal() == Some(0) { "#111827" } else { RED };
    canvas.text((48, y + 4), Anchor::Start, "mono plain", fill, &cut(&command, COMMAND));
}

/// What the line did.
pub fn draw(canvas: &mut Canvas, columns: &Columns, step: &Step, top: i32) {
    let y = top + height(step) / 2;
    match &step.deed {
        Deed::Opened(opening) => opened(canvas, columns, &opening.items, y),
        Deed::Made { bay, number, edit, view } => made(canvas, columns, *bay, &labels::made(*number, *edit), view, y),
        Deed::NotMade { bay, .. } => refused(canvas, columns, (*bay, SERVER), &step.deed, y),
        Deed::Carried(carried) if carried.answer.refusal != 0 => not_taken(canvas, columns, carried, &step.deed, y),
        Deed::Carried(carried) => taken(canvas, columns, carried, y),
        Deed::NotWritten { from, line, .. } => not_written(canvas, columns, *from, *line, &step.deed, y),
        Deed::NotUnderstood(why) => not_understood(canvas, columns, &why.reason, y),
        Deed::NotOpened { .. } => {}
    }
}

fn opened(canvas: &mut Canvas, columns: &Columns, items: &[u32], y: i32) {
    let view = View { places: edit::opening(items), mark: Mark::Same };
    for end in 0..=columns.n {
        list(canvas, (columns.x(end), y + 4), Anchor::Middle, &view, GREY);
    }
}

fn made(canvas: &mut Canvas, columns: &Columns, bay: u8, label: &str, view: &View, y: i32) {
    let (x, anchor) = columns.beside(bay, SERVER);
    canvas.dot((columns.x(bay), y), 6, colour(bay));
    canvas.text((x, y - 3), anchor, "", "", label);
    list(canvas, (x, y + 13), anchor, view, colour(bay));
}

/// A cross on an end's line, and on the side that is turned away from the other end a number on red and a few words.
fn refused(canvas: &mut Canvas, columns: &Columns, (end, other): (u8, u8), deed: &Deed, y: i32) {
    let (x, anchor) = columns.beside(end, other);
    let number = answer(deed);
    canvas.cross((columns.x(end), y));
    let wide = 10 + 8 * number.len() as i32;
    let (badge, text) = if anchor == Anchor::End { (x - wide, x - wide - 6) } else { (x, x + wide + 6) };
    canvas.badge((badge, y), &number);
    canvas.text((text, y + 4), anchor, "", RED, &labels::refused(deed));
}

fn taken(canvas: &mut Canvas, columns: &Columns, carried: &Carried, y: i32) {
    let Some(numbered) = carried.message.numbered else {
        return arrow(canvas, columns, carried, y, GREY, " stroke-dasharray='2 3'");
    };
    let (maker, _) = numbered.origin;
    arrow(canvas, columns, carried, y, colour(maker), " stroke-width='2'");
    let (x, anchor) = columns.beside(carried.to, carried.from);
    let moved = carried.answer.arrived != carried.answer.applied;
    canvas.text((x, y - 3), anchor, if moved { "bold" } else { "" }, "", &labels::landed(carried));
    list(canvas, (x, y + 13), anchor, &carried.view, colour(maker));
}

fn not_taken(canvas: &mut Canvas, columns: &Columns, carried: &Carried, deed: &Deed, y: i32) {
    arrow(canvas, columns, carried, y, RED, " stroke-width='2' stroke-dasharray='7 4'");
    refused(canvas, columns, (carried.to, carried.from), deed, y);
}

/// From end to end, with its labels beside the bay.
fn arrow(canvas: &mut Canvas, columns: &Columns, carried: &Carried, y: i32, stroke: &str, more: &str) {
    let (from, to) = (columns.x(carried.from), columns.x(carried.to));
    let back = columns.towards(carried.to, carried.from);
    canvas.dot((from, y), 3, stroke);
    canvas.arrow((from, y), to + if carried.answer.refusal == 0 { 2 } else { 10 } * back, stroke, more);
    let middle = columns.x(carried.line) + columns.towards(carried.line, SERVER) * columns.gap / 2;
    let (above, below) = labels::message(carried);
    canvas.text((middle, y - 6), Anchor::Middle, if below.is_empty() { "small" } else { "" }, if stroke == RED { RED } else { "" }, &above);
    if !below.is_empty() {
        canvas.text((middle, y + 13), Anchor::Middle, "small", "", &below);
    }
}

/// A stub in place of the message.
fn not_written(canvas: &mut Canvas, columns: &Columns, from: u8, line: u8, deed: &Deed, y: i32) {
    let to = if from == SERVER { line } else { SERVER };
    let x = columns.x(from);
    canvas.line((x, y), (x + 40 * columns.towards(from, to), y), RED, " stroke-width='2' stroke-dasharray='4 4'");
    refused(canvas, columns, (from, to), deed, y);
}

fn not_understood(canvas: &mut Canvas, columns: &Columns, reason: &str, y: i32) {
    let wide = canvas.badge((columns.gutter, y), "?");
    canvas.text((columns.gutter + wide + 8, y + 4), Anchor::Start, "", RED, reason);
}

/// A list: the new step in a colour, a deleted one struck out.
fn list(canvas: &mut Canvas, at: (i32, i32), anchor: Anchor, view: &View, fill: &str) {
    let words = part(view, LIST).into_iter().map(|(word, kind)| match kind {
        Kind::New => format!("<tspan class='bold' style='fill:{fill}'>{}</tspan>", escaped(&word)),
        Kind::Gone => format!("<tspan class='gone' style='fill:{fill}'>{}</tspan>", escaped(&word)),
        _ => escaped(&word),
    });
    canvas.spans(at, anchor, "mono", "", &words.collect::<Vec<_>>().join(" "));
}
