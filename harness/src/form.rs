//! What an edit becomes: the rule book's recursive definition, which mentions no buffer.
//!
//! Everywhere in a sheet one client's edits are applied in the order of making, so a set of applied edits is, for each line, how many
//! of its edits are in it: eight counts stand for the set.

use crate::edit::{transform, Carried, Edit};
use crate::limits::LINES;
use std::collections::HashMap;
use std::hash::{BuildHasherDefault, Hasher};

/// A set of edits: of each line the first so many.
pub type Set = [u16; LINES];

/// The set with one more edit of a line (from 0).
pub fn with(mut set: Set, line: usize) -> Set {
    set[line] += 1;
    set
}

/// The set without the last edit of a line (from 0).
fn without(mut set: Set, line: usize) -> Set {
    set[line] -= 1;
    set
}

/// An edit as its maker made it.
#[derive(Clone, Copy)]
pub struct Made {
    pub edit: Edit,
    /// What its maker had applied.
    pub context: Set,
    /// Its place in the server's order, if the server has taken it.
    pub place: Option<usize>,
}

/// The edits made so far, and the server's order.
#[derive(Default)]
pub struct History {
    pub lines: [Vec<Made>; LINES],
    /// The lines (from 0) of the edits that the server took, in its order.
    pub order: Vec<usize>,
    known: HashMap<(usize, u16, Set), Edit, Quick>,
}

impl History {
    /// A client (line from 0) made an edit, having applied `context`.
    pub fn make(&mut self, line: usize, edit: Edit, context: Set) {
        self.lines[line].push(Made { edit, context, place: None });
    }

    /// The server took edit `number` of a line.
    pub fn serve(&mut self, line: usize, number: u16) {
        self.lines[line][number as usize - 1].place = Some(self.order.len());
        self.order.push(line);
    }

    /// The form of edit `number` of `line` at `set`, which holds its context and not the edit itself.
    /// Found forms are kept: a form does not change as a run goes on.
    pub fn form(&mut self, line: usize, number: u16, set: Set) -> Edit {
        let made = self.lines[line][number as usize - 1];
        let Some(z) = self.last_outside(&made.context, &set) else {
            return made.edit;
        };
        if let Some(&form) = self.known.get(&(line, number, set)) {
            return form;
        }
        let before = without(set, z);
        let other = self.form(z, set[z], before);
        let (form, _) = transform(self.form(line, number, before), other);
        self.known.insert((line, number, set), form);
        form
    }

    /// The edit's form at `from`, where it arrived, its form at `to`, where it is applied, and its moves on the definition's way between the two.
    /// None if that way does not pass `from`.
    pub fn carried(&mut self, line: usize, number: u16, from: Set, to: Set) -> Option<Carried> {
        let context = self.lines[line][number as usize - 1].context;
        let (mut set, mut moves) = (to, Vec::new());
        while set != from {
            let z = self.last_outside(&context, &set)?;
            let before = without(set, z);
            let other = self.form(z, set[z], before);
            moves.push(transform(self.form(line, number, before), other).1);
            set = before;
        }
        moves.reverse();
        Some(Carried { arrived: self.form(line, number, from), applied: self.form(line, number, to), moves })
    }

    /// The line of the last edit of `set` outside `context`: the server's order, then the edits that it has not taken, in order of making.
    /// A line's last edit in the set stands behind its others, and only one line has untaken edits in any set that is asked about.
    fn last_outside(&self, context: &Set, set: &Set) -> Option<usize> {
        (0..LINES).filter(|&l| set[l] > context[l]).max_by_key(|&l| self.lines[l][set[l] as usize - 1].place.unwrap_or(usize::MAX))
    }
}

/// A quick hash for small keys of numbers.
#[derive(Default)]
pub struct QuickHasher(u64);
pub type Quick = BuildHasherDefault<QuickHasher>;

impl QuickHasher {
    fn add(&mut self, value: u64) {
        self.0 = (self.0.rotate_left(5) ^ value).wrapping_mul(0x517c_c1b7_2722_0a95);
    }
}

impl Hasher for QuickHasher {
    fn write(&mut self, bytes: &[u8]) {
        for eight in bytes.chunks(8) {
            let mut word = [0; 8];
            word[..eight.len()].copy_from_slice(eight);
            self.add(u64::from_ne_bytes(word));
        }
    }

    fn write_u16(&mut self, value: u16) {
        self.add(value as u64);
    }

    fn write_usize(&mut self, value: usize) {
        self.add(value as u64);
    }

    fn finish(&self) -> u64 {
        self.0 ^ (self.0 >> 29)
    }
}
