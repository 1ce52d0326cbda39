//! What stands above and below the rows: names, final lists, the legend.

use super::canvas::{list_characters, Anchor, Canvas, GREY, RED};
use super::colour;
use super::columns::Columns;
use crate::ending::{standings, Standing};
use crate::sheet::{Sheet, SERVER};
use crate::words::many;

const GREEN: &str = "#15803d";
const LINE: i32 = 16;
/// Lines of a final list that are shown.
const LINES: usize = 6;

/// Title and names; gives where the rows begin.
pub fn top(canvas: &mut Canvas, columns: &Columns, name: &str) -> i32 {
    title(canvas, name, "time runs downwards, one row for each line of the script");
    for end in 0..=columns.n {
        let x = columns.x(end);
        canvas.rect((x - 48, 66), (96, 28), colour(end), " rx='6'");
        let name = if end == SERVER { "server".to_string() } else { format!("bay {end}") };
        canvas.text((x, 85), Anchor::Middle, "white", "", &name);
    }
    94
}

pub fn title(canvas: &mut Canvas, name: &str, below: &str) {
    canvas.text((20, 30), Anchor::Start, "title", "", name);
    canvas.text((20, 50), Anchor::Start, "", GREY, below);
}

/// The vertical lines.
pub fn lifelines(canvas: &mut Canvas, columns: &Columns, from: i32, to: i32) {
    for end in 0..=columns.n {
        let x = columns.x(end);
        canvas.line((x, from), (x, to), colour(end), " stroke-width='2' stroke-opacity='0.45'");
    }
}

/// The final lists; gives where the picture goes on.
pub fn lists(canvas: &mut Canvas, columns: &Columns, sheet: &Sheet, top: i32) -> i32 {
    let width = columns.gap - 16;
    let most = list_characters(width - 16);
    let mut bottom = top;
    let server = (SERVER, colour(SERVER), "server at the end".to_string(), wrapped(sheet, SERVER, most), vec![]);
    let bays = standings(sheet).into_iter().map(|standing| {
        let (colour, verdict) = if standing.alike { (GREEN, "same list") } else { (RED, "another list") };
        (standing.bay, colour, format!("bay {}: {verdict}", standing.bay), wrapped(sheet, standing.bay, most), lacks(&standing))
    });
    for (end, stroke, name, lines, lacks) in std::iter::once(server).chain(bays) {
        let x = columns.x(end);
        let height = 30 + LINE * (lines.len() + lacks.len()) as i32;
        let border = format!(" rx='6' stroke='{stroke}' stroke-width='2'");
        canvas.rect((x - width / 2, top), (width, height), "#fff", &border);
        canvas.text((x, top + 19), Anchor::Middle, "bold", stroke, &name);
        for (text, at) in lines.iter().zip(1..) {
            canvas.text((x, top + 19 + LINE * at), Anchor::Middle, "mono", "", text);
        }
        for (text, at) in lacks.iter().zip(lines.len() as i32 + 1..) {
            canvas.text((x, top + 19 + LINE * at), Anchor::Middle, "", RED, text);
        }
        bottom = bottom.max(top + height);
    }
    bottom
}

fn lacks(standing: &Standing) -> Vec<String> {
    let (missing, unaccepted) = (standing.missing.len(), standing.unaccepted.len());
    let mut lines = Vec::new();
    lines.extend((missing > 0).then(|| format!("{} missing", many(missing, "edit"))));
    lines.extend((unaccepted > 0).then(|| format!("{} not accepted", many(unaccepted, "edit"))));
    lines
}

/// An end's list in lines of so many characters.
fn wrapped(sheet: &Sheet, end: u8, most: usize) -> Vec<String> {
    let list = sheet.list(end);
    let mut lines = vec![String::new()];
    for place in &list {
        let word = place.item.to_string();
        match lines.last_mut() {
            Some(line) if line.is_empty() => *line = word,
            Some(line) if line.len() + 1 + word.len() <= most => *line += &format!(" {word}"),
            _ => lines.push(word),
        }
    }
    if list.is_empty() {
        return vec!["empty".to_string()];
    }
    if lines.len() > LINES {
        lines.truncate(LINES - 1);
        lines.push(format!(".. {} in all", many(list.len(), "step")));
    }
    lines
}

/// What the marks mean; gives where the picture ends.
pub fn legend(canvas: &mut Canvas, columns: &Columns, top: i32) -> i32 {
    const WIDTH: i32 = 300;
    let rows: [(&str, fn(&mut Canvas, i32, i32)); 6] = [
        ("edit made at a bay", |canvas, x, y| canvas.dot((x + 18, y), 6, colour(1))),
        ("edit carried, in its maker's colour", |canvas, x, y| canvas.arrow((x, y), x + 36, colour(1), " stroke-width='2'")),
        ("acknowledgement", |canvas, x, y| canvas.arrow((x, y), x + 36, GREY, " stroke-dasharray='2 3'")),
        ("inserted step", |canvas, x, y| canvas.text((x + 18, y + 4), Anchor::Middle, "mono bold", colour(1), "101")),
        ("deleted step", |canvas, x, y| canvas.text((x + 18, y + 4), Anchor::Middle, "mono gone", colour(1), "101")),
        ("refused, with its number", |canvas, x, y| {
            canvas.cross((x + 6, y));
            canvas.badge((x + 18, y), "9");
        }),
    ];
    let across = ((columns.width() - 40) / WIDTH).clamp(1, 3);
    for (index, (text, mark)) in (0..).zip(rows) {
        let (x, y) = (30 + WIDTH * (index % across), top + 26 + 24 * (index / across));
        mark(canvas, x, y);
        canvas.text((x + 48, y + 4), Anchor::Start, "", "", text);
    }
    top + 26 + 24 * ((6 + across - 1) / across)
}
