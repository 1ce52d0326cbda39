//! The run as a picture: a vertical line for each end, time downwards, an arrow for each message.

mod canvas;
mod columns;
mod edges;
mod labels;
mod rows;

use crate::reading::LONGEST;
use crate::run::{answer, Run};
use crate::sheet::{Sheet, SERVER};
use canvas::{label_width, Anchor, Canvas, RED};
use columns::Columns;

/// The server's colour and that of each bay; none is red, which marks a refusal.
fn colour(end: u8) -> &'static str {
    match end {
        SERVER => "#374151",
        1 => "#1d5fbf",
        2 => "#b45309",
        3 => "#15803d",
        4 => "#7e3fb4",
        5 => "#0e8f9c",
        6 => "#b5179e",
        7 => "#6b6e00",
        _ => "#7a5c48",
    }
}

pub fn draw(name: &str, run: &Run) -> String {
    match &run.sheet {
        Some(sheet) => ends(name, run, sheet),
        None => nothing(name, run),
    }
}

fn ends(name: &str, run: &Run, sheet: &Sheet) -> String {
    let columns = Columns::of(run, sheet.n);
    let mut canvas = Canvas::default();
    let begin = edges::top(&mut canvas, &columns, name);
    let mut end = begin;
    for step in &run.steps {
        rows::margin(&mut canvas, &columns, step, end);
        end += rows::height(step);
    }
    // the opening lists stand between the names and the lines
    let opening = run.steps.first().map_or(0, rows::height);
    edges::lifelines(&mut canvas, &columns, begin + opening, end + 14);
    let mut top = begin;
    for step in &run.steps {
        rows::draw(&mut canvas, &columns, step, top);
        top += rows::height(step);
    }
    let below = edges::lists(&mut canvas, &columns, sheet, end + 14);
    let bottom = edges::legend(&mut canvas, &columns, below);
    canvas.finish(columns.width(), bottom + 10, name)
}

/// A script that opened no sheet.
fn nothing(name: &str, run: &Run) -> String {
    let mut canvas = Canvas::default();
    let (answer, reason) = match (run.too_long, run.steps.first()) {
        (Some(length), _) => ("long".to_string(), format!("{length} bytes; a script has at most {LONGEST}")),
        (None, Some(step)) => (answer(&step.deed), format!("line 1: {}", step.said.what)),
        (None, None) => ("?".to_string(), "the script is empty".to_string()),
    };
    edges::title(&mut canvas, name, "no sheet was opened, so the run program ends at once");
    let wide = canvas.badge((20, 80), &answer);
    canvas.text((20 + wide + 8, 84), Anchor::Start, "", RED, &reason);
    canvas.finish((60 + wide + label_width(&reason)).max(480), 110, name)
}
