//! The part of a list or of a text that is shown.

use crate::deed::{Mark, View};

#[derive(Clone, Copy, PartialEq, Eq, Debug)]
pub enum Kind {
    Old,
    New,
    Gone,
    /// Steps that are left out.
    Cut,
}

/// The steps around the one that changed, within so many characters.
pub fn part(view: &View, most: usize) -> Vec<(String, Kind)> {
    let mut all: Vec<(String, Kind)> = view.places.iter().map(|place| (place.item.to_string(), Kind::Old)).collect();
    let at = |position: u16| (position as usize).saturating_sub(1).min(view.places.len());
    let focus = match view.mark {
        Mark::Same => 0,
        Mark::New(position) => at(position),
        Mark::Gone(position, item) => {
            all.insert(at(position), (item.to_string(), Kind::Gone));
            at(position)
        }
    };
    match (all.get_mut(focus), view.mark) {
        (None, _) => return vec![("empty".to_string(), Kind::Cut)],
        (Some(step), Mark::New(_)) => step.1 = Kind::New,
        _ => {}
    }
    let (from, to) = around(&all, focus, most);
    let cut = || ("..".to_string(), Kind::Cut);
    let mut shown: Vec<(String, Kind)> = Vec::new();
    shown.extend((from > 0).then(cut));
    shown.extend_from_slice(&all[from..to]);
    shown.extend((to < all.len()).then(cut));
    shown
}

/// From and to, grown on both sides in turn while there is room.
fn around(all: &[(String, Kind)], focus: usize, most: usize) -> (usize, usize) {
    let (mut from, mut to) = (focus, focus + 1);
    let mut length = all[focus].0.len();
    loop {
        let before = (from, to);
        if from > 0 && length + 1 + all[from - 1].0.len() <= most {
            from -= 1;
            length += 1 + all[from].0.len();
        }
        if to < all.len() && length + 1 + all[to].0.len() <= most {
            length += 1 + all[to].0.len();
            to += 1;
        }
        if before == (from, to) {
            return before;
        }
    }
}

/// That part as one line of text: a new step in brackets, a deleted one left out.
pub fn line(view: &View) -> String {
    let shown = part(view, 72);
    let words = shown.iter().filter(|(_, kind)| *kind != Kind::Gone).map(|(word, kind)| match kind {
        Kind::New => format!("[{word}]"),
        _ => word.clone(),
    });
    let text = words.collect::<Vec<_>>().join(" ");
    if text.is_empty() {
        "empty".to_string()
    } else {
        text
    }
}

/// A text of at most so many characters.
pub fn cut(text: &str, most: usize) -> String {
    if text.chars().count() <= most {
        text.to_string()
    } else {
        text.chars().take(most - 2).chain("..".chars()).collect()
    }
}
