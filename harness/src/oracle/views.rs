//! What an end has to look like, and that the lists meet: everything is asked of the definition.

use super::{dumped, Asked, Expected, Line, Oracle};
use crate::edit::{apply, fits, inverse, transform, Edit};
use crate::layout::{self, Field};

impl Oracle {
    /// The form that a pending edit is owed, asked for once.
    pub(super) fn pending(&mut self, end: usize, l: usize, number: u16) -> Edit {
        let side = (end == 0) as usize;
        let line = &self.lines[l - 1];
        let taken = if end == 0 { line.server.taken } else { line.client.taken };
        let asked = &line.asked[side];
        let at = number.wrapping_sub(asked.from) as usize;
        if asked.taken == taken && at < asked.forms.len() {
            return asked.forms[at];
        }
        let form = self.owed(end, l, number);
        let asked = &mut self.lines[l - 1].asked[side];
        if asked.taken != taken {
            *asked = Asked { taken, from: number, forms: vec![form] };
        } else if at == asked.forms.len() {
            asked.forms.push(form);
        }
        form
    }

    /// At what its end had applied, less the line's pending edits from its number on.
    pub(super) fn owed(&mut self, end: usize, l: usize, number: u16) -> Edit {
        let line = &self.lines[l - 1];
        if end != 0 {
            let set = line.point(l - 1, number - 1, line.client.taken);
            self.history.form(l - 1, number, set)
        } else {
            let set = line.point(l - 1, line.server.taken, number - 1);
            let place = line.others[number as usize - 1];
            self.history.form(self.history.order[place], self.numbers[place], set)
        }
    }

    /// What taking back makes at client l: the inverse of its latest edit on the list that it showed then, past the form of each edit that it has
    /// applied since. Asked of the definition anew each time.
    pub(super) fn undo(&mut self, l: usize) -> Edit {
        let Some(latest) = self.history.lines[l - 1].last() else {
            return Edit::Nothing;
        };
        let line = &self.lines[l - 1];
        let mut undo = inverse(latest.edit, &line.before, self.ranks[l - 1]);
        for taken in line.since..line.client.taken {
            let line = &self.lines[l - 1];
            let (place, set) = (line.others[taken as usize], line.point(l - 1, line.client.made, taken));
            let form = self.history.form(self.history.order[place], self.numbers[place], set);
            undo = transform(undo, form).0;
        }
        undo
    }

    /// The whole end as the rule book has it, in the layout's words.
    pub(super) fn dump(&mut self, end: usize) -> Result<Expected, String> {
        let mut words = vec![0; layout::words(end as u8)];
        let mut put = |line: usize, field: Field, value: u32| {
            let word = layout::word(end as u8, line as u8, field).unwrap();
            words[word as usize] = value;
        };
        let places = if end == 0 { &self.shown } else { &self.lines[end - 1].shown };
        put(0, Field::N, self.n as u32);
        put(0, Field::Length, places.len() as u32);
        put(0, Field::Total, layout::seconds(&places.iter().map(|place| place.item).collect::<Vec<u32>>()));
        for (half, word) in layout::rank_words(&self.ranks).into_iter().enumerate() {
            put(0, Field::Ranks(half as u16), word);
        }
        for (index, place) in places.iter().enumerate() {
            put(0, Field::Item(index as u16), place.item);
            put(0, Field::Origin(index as u16), layout::origin_word(place.origin));
        }
        if end == 0 {
            put(0, Field::Initial, self.initial as u32);
        } else {
            put(0, Field::Line, end as u32);
        }
        for l in if end == 0 { 1..=self.n } else { end..=end } {
            let counts = self.counts(end, l);
            put(l, Field::Made, counts.made as u32);
            put(l, Field::Taken, counts.taken as u32);
            put(l, Field::Acked, counts.acked as u32);
            put(l, Field::Inserts, counts.inserts as u32);
            if end != 0 {
                let (place, item) = stored(self.undo(l));
                put(l, Field::InversePlace, place);
                put(l, Field::InverseItem, item);
            }
            for (index, number) in (counts.acked + 1..=counts.made).enumerate() {
                let (place, item) = stored(self.pending(end, l, number));
                put(l, Field::Place(index as u16), place);
                put(l, Field::Brought(index as u16), item);
                if end == 0 {
                    put(l, Field::PendingOrigin(index as u16), layout::origin_word(self.maker(end, l, number)));
                }
            }
        }
        if end != 0 {
            self.meeting(end)?;
        }
        Ok(dumped(words.iter().flat_map(|word| word.to_le_bytes()).collect()))
    }

    /// The lists meet: the client's with the missing edits carried past the unaccepted, the server's with the unaccepted carried past the missing.
    pub(super) fn meeting(&mut self, l: usize) -> Result<(), String> {
        let line = &self.lines[l - 1];
        let (client, server) = (line.client, line.server);
        let (mut here, mut there) = (line.shown.clone(), self.shown.clone());
        for j in client.taken + 1..=server.made {
            let line = &self.lines[l - 1];
            let (place, set) = (line.others[j as usize - 1], line.point(l - 1, client.made, j - 1));
            let form = self.history.form(self.history.order[place], self.numbers[place], set);
            if !fits(form, &here) {
                return Err(format!("meeting: the missing edit {j} does not fit client {l}'s list"));
            }
            apply(form, self.origin(place), &mut here);
        }
        for i in server.taken + 1..=client.made {
            let set = self.lines[l - 1].point(l - 1, i - 1, server.made);
            let form = self.history.form(l - 1, i, set);
            if !fits(form, &there) {
                return Err(format!("meeting: the unaccepted edit {i} of client {l} does not fit the server's list"));
            }
            apply(form, (l as u8, i), &mut there);
        }
        if here != there {
            return Err(format!("meeting: line {l}: {here:?} from the client, {there:?} from the server"));
        }
        Ok(())
    }

    pub(super) fn meeting_everywhere(&mut self) -> Result<(), String> {
        for l in 1..=self.n {
            self.meeting(l)?;
            self.orders.shown(&self.lines[l - 1].shown)?;
        }
        self.orders.shown(&self.shown)?;
        if self.delivered() {
            if self.lines.iter().any(|line| line.shown != self.shown) {
                return Err("everything is delivered and the lists differ".to_string());
            }
            // document 000's theorem, about the graphs themselves; large graphs are left out, for time
            if self.history.order.len() < 300 && !self.graph.compact() {
                return Err("everything is delivered and the graphs differ".to_string());
            }
        }
        Ok(())
    }

    pub(super) fn delivered(&self) -> bool {
        let same = |line: &Line| line.client.made == line.server.taken && line.client.taken == line.server.made;
        self.lines.iter().all(same)
    }
}

/// An edit as the layout stores it: place and item.
fn stored(edit: Edit) -> (u32, u32) {
    match edit {
        Edit::Nothing => (0, 0),
        Edit::Delete(position) => (position as u32 * 256, 0),
        Edit::Insert(position, item, priority) => (position as u32 * 256 + priority as u32, item),
    }
}
