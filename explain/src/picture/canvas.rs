//! A small writer of SVG. All coordinates are whole numbers, so that a picture is the same everywhere.

use std::fmt::Write;

pub const RED: &str = "#c21807";
pub const GREY: &str = "#6b7280";
/// Tenths of a pixel that a character is wide, of labels in bold and of lists.
const LABEL: i32 = 66;
const LIST: i32 = 67;

const STYLE: &str = "text{font-family:Verdana,'DejaVu Sans',sans-serif;font-size:12px;fill:#1f2937;\
paint-order:stroke;stroke:#fff;stroke-width:4px;stroke-linejoin:round}\
.title{font-size:17px;font-weight:bold}.small{font-size:10px;fill:#6b7280}.bold{font-weight:bold}\
.mono{font-family:'DejaVu Sans Mono',Menlo,Consolas,monospace;font-size:11px;fill:#4b5563}\
.plain{stroke:none}.white{stroke:none;fill:#fff;font-weight:bold}.gone{text-decoration:line-through}";

#[derive(Clone, Copy, PartialEq, Eq, Debug)]
pub enum Anchor {
    Start,
    Middle,
    End,
}

#[derive(Default)]
pub struct Canvas {
    body: String,
}

pub fn escaped(text: &str) -> String {
    let clean = |letter: char| if letter.is_control() { '\u{b7}' } else { letter };
    text.chars().map(clean).collect::<String>().replace('&', "&amp;").replace('<', "&lt;").replace('>', "&gt;")
}

/// How wide a label is, about.
pub fn label_width(text: &str) -> i32 {
    text.chars().count() as i32 * LABEL / 10
}

pub fn list_width(characters: usize) -> i32 {
    characters as i32 * LIST / 10
}

/// How many characters of a list fit.
pub fn list_characters(width: i32) -> usize {
    (width * 10 / LIST).max(8) as usize
}

impl Canvas {
    /// An element that has no content.
    fn put(&mut self, element: std::fmt::Arguments) {
        // writing to a string does not fail
        let _ = writeln!(self.body, "<{element}/>");
    }

    pub fn line(&mut self, from: (i32, i32), to: (i32, i32), stroke: &str, more: &str) {
        self.put(format_args!("line x1='{}' y1='{}' x2='{}' y2='{}' stroke='{stroke}'{more}", from.0, from.1, to.0, to.1));
    }

    pub fn rect(&mut self, corner: (i32, i32), size: (i32, i32), fill: &str, more: &str) {
        self.put(format_args!("rect x='{}' y='{}' width='{}' height='{}' fill='{fill}'{more}", corner.0, corner.1, size.0, size.1));
    }

    pub fn dot(&mut self, at: (i32, i32), radius: i32, fill: &str) {
        self.put(format_args!("circle cx='{}' cy='{}' r='{radius}' fill='{fill}'", at.0, at.1));
    }

    /// A level arrow that ends at `to`.
    pub fn arrow(&mut self, from: (i32, i32), to: i32, colour: &str, more: &str) {
        let (y, back) = (from.1, if to > from.0 { -10 } else { 10 });
        self.line(from, (to + back / 2, y), colour, more);
        self.put(format_args!("path d='M{to} {y}l{back} -5v10z' fill='{colour}'"));
    }

    pub fn cross(&mut self, (x, y): (i32, i32)) {
        self.put(format_args!("path d='M{} {}l10 10m0 -10l-10 10' stroke='{RED}' stroke-width='3' fill='none'", x - 5, y - 5));
    }

    /// The number of a refusal, or `?`, in white on red; gives its width.
    pub fn badge(&mut self, (x, y): (i32, i32), text: &str) -> i32 {
        let width = 10 + 8 * text.len() as i32;
        self.rect((x, y - 9), (width, 18), RED, " rx='9'");
        self.text((x + width / 2, y + 4), Anchor::Middle, "white", "", text);
        width
    }

    pub fn text(&mut self, at: (i32, i32), anchor: Anchor, class: &str, fill: &str, text: &str) {
        self.spans(at, anchor, class, fill, &escaped(text));
    }

    /// Text that holds elements already.
    pub fn spans(&mut self, (x, y): (i32, i32), anchor: Anchor, class: &str, fill: &str, inside: &str) {
        let anchor = match anchor {
            Anchor::Start => "",
            Anchor::Middle => " text-anchor='middle'",
            Anchor::End => " text-anchor='end'",
        };
        let class = if class.is_empty() { String::new() } else { format!(" class='{class}'") };
        let fill = if fill.is_empty() { String::new() } else { format!(" style='fill:{fill}'") };
        let _ = writeln!(self.body, "<text x='{x}' y='{y}'{anchor}{class}{fill}>{inside}</text>");
    }

    /// The whole file.
    pub fn finish(self, width: i32, height: i32, title: &str) -> String {
        format!(
            "<svg xmlns='http://www.w3.org/2000/svg' width='{width}' height='{height}' viewBox='0 0 {width} {height}'>\n\
             <title>{}</title>\n<style>{STYLE}</style>\n<rect width='{width}' height='{height}' fill='#fff'/>\n{}</svg>\n",
            escaped(title),
            self.body
        )
    }
}
