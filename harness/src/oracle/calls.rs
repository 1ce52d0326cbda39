//! The calls: which question says no, and what an accepted one does to the history.

use super::{answer, taken, Counts, Expected, Oracle};
use crate::edit::{apply, fits, twice, Carried, Edit, Origin, Place};
use crate::form::Set;
use crate::limits::*;
use crate::list::*;
use crate::literal::{self, Message, Numbered};

impl Oracle {
    pub(super) fn edit(&mut self, l: usize, edit: Edit) -> Result<Expected, String> {
        let line = &mut self.lines[l - 1];
        let own = &mut line.client;
        let insert = matches!(edit, Edit::Insert(..));
        let refusal = if !fits(edit, &line.shown) || (insert && line.shown.len() >= ITEMS) {
            9
        } else if insert && own.inserts >= INSERTS {
            10
        } else if own.made >= EDITS {
            11
        } else if own.made - own.acked >= PENDING as u16 {
            12
        } else {
            let context = line.point(l - 1, line.client.made, line.client.taken);
            (line.before, line.since) = (line.shown.clone(), line.client.taken);
            line.client.made += 1;
            line.client.inserts += insert as u16;
            self.history.make(l - 1, edit, context);
            self.graph.do_op(l, edit);
            apply(edit, (l as u8, line.client.made), &mut line.shown);
            self.orders.applied(edit, &line.shown)?;
            0
        };
        self.same_lists(l)?;
        Ok(answer(refusal, 0))
    }

    /// Taking back makes the edit that the definition gives, if it gives one. If nothing was taken since the edit that is taken back, the items and
    /// their order are as they were before it.
    pub(super) fn take_back(&mut self, l: usize) -> Result<Expected, String> {
        let edit = self.undo(l);
        if edit == Edit::Nothing {
            return Ok(answer(17, 0));
        }
        let items = |places: &[Place]| places.iter().map(|place| place.item).collect::<Vec<u32>>();
        let line = &self.lines[l - 1];
        let (made, as_before) = (line.client.made, (line.since == line.client.taken).then(|| items(&line.before)));
        let expected = self.edit(l, edit)?;
        let line = &self.lines[l - 1];
        match as_before {
            Some(before) if line.client.made != made && items(&line.shown) != before => {
                Err(format!("client {l} takes back and nothing was taken since: {:?} before the edit, {before:?} now", line.shown))
            }
            _ => Ok(expected),
        }
    }

    pub(super) fn send(&mut self, call: &Call) -> Expected {
        let Some((end, l)) = self.sender(call) else {
            return answer(4, 0);
        };
        let counts = self.counts(end, l);
        let number = (call.op == SEND).then_some(call.number);
        if number.is_some_and(|number| number <= counts.acked || counts.made < number) {
            return answer(13, 0);
        }
        let bytes = self.message(end, l, number);
        if (call.size as usize) < bytes.len() {
            return answer(14, 0);
        }
        self.slots[call.slot as usize].put(0, &bytes);
        let length = bytes.len() as u16;
        self.written.insert(bytes);
        answer(0, length)
    }

    /// Writes the pending edits of a line in number order, as many as fit between the offset and the end of what is lent.
    pub(super) fn pack(&mut self, call: &Call) -> Expected {
        let Some((end, l)) = self.sender(call) else {
            return answer(4, 0);
        };
        let counts = self.counts(end, l);
        let mut at = call.offset();
        for number in counts.acked + 1..=counts.made {
            let bytes = self.message(end, l, Some(number));
            if at.checked_add(bytes.len()).is_none_or(|end| end > call.position as usize) {
                break;
            }
            self.packets[call.slot as usize].put(at, &bytes);
            at += bytes.len();
            self.written.insert(bytes);
        }
        let written = at - call.offset();
        answer(if written == 0 && counts.acked != counts.made { 14 } else { 0 }, written as u16)
    }

    /// The end and the line of a sending, if question 4 says yes.
    fn sender(&self, call: &Call) -> Option<(usize, usize)> {
        let (end, l) = (call.end as usize, call.line as usize);
        ((end == 0 || l == end) && (1..=self.n).contains(&l)).then_some((end, l))
    }

    /// What an end counts on a line.
    pub(super) fn counts(&self, end: usize, l: usize) -> Counts {
        let line = &self.lines[l - 1];
        if end == 0 {
            line.server
        } else {
            line.client
        }
    }

    /// The message of a pending edit, or an acknowledgement.
    fn message(&mut self, end: usize, l: usize, number: Option<u16>) -> Vec<u8> {
        let numbered = number.map(|number| Numbered { number, edit: self.pending(end, l, number), origin: self.maker(end, l, number) });
        literal::write(&Message { line: l as u8, direction: (end == 0) as u8, numbered, seen: self.counts(end, l).taken })
    }

    pub(super) fn take(&mut self, end: usize, call: &Call) -> Result<Expected, String> {
        let bytes = self.slots[call.slot as usize].lent(call.number);
        Ok(self.take_message(end, &bytes)?.into())
    }

    /// Question 15, then the packet's messages handed over one after another until one is refused.
    pub(super) fn take_packet(&mut self, end: usize, call: &Call) -> Result<Expected, String> {
        let packet = self.packets[call.slot as usize].lent(call.number);
        if !(1..=LONGEST_PACKET).contains(&packet.len()) {
            return Ok(answer(15, 0));
        }
        let mut count = 0;
        for message in literal::messages(&packet) {
            match self.take_message(end, message)? {
                None => return Ok(Expected::Silence),
                Some(Answer { refusal: 0, .. }) => count += 1,
                Some(Answer { refusal, .. }) => return Ok(answer(refusal, count)),
            }
        }
        Ok(answer(0, count))
    }

    /// Question 15, then the message at the offset by itself; how long it is, unless it is refused.
    pub(super) fn take_at(&mut self, end: usize, call: &Call) -> Result<Expected, String> {
        let packet = self.packets[call.slot as usize].lent(call.number);
        if !(1..=LONGEST_PACKET).contains(&packet.len()) {
            return Ok(answer(15, 0));
        }
        let message = literal::first(packet.get(call.offset()..).unwrap_or_default());
        let answer = self.take_message(end, message)?;
        Ok(answer.map(|answer| Answer { read: if answer.refusal == 0 { message.len() as u8 } else { 0 }, ..answer }).into())
    }

    /// Questions 3 to 8 and 12 of one message, and what taking it does to the history; none for a message that nobody wrote.
    fn take_message(&mut self, end: usize, bytes: &[u8]) -> Result<Option<Answer>, String> {
        let refused = |refusal: u8| Ok(Some(Answer { refusal, ..Answer::default() }));
        let Some(message) = literal::read(bytes) else {
            return refused(3);
        };
        let l = message.line as usize;
        let refusal = self.turn(end, &message);
        if refusal != 0 {
            return refused(refusal);
        }
        if !self.written.contains(bytes) {
            return Ok(None);
        }
        let line = &mut self.lines[l - 1];
        let counts = if end == 0 { &mut line.server } else { &mut line.client };
        let Some(Numbered { number, edit, .. }) = message.numbered else {
            counts.acked = message.seen;
            return refused(0);
        };
        let passed = counts.made - message.seen;
        if end == 0 && self.full(l) {
            return refused(12);
        }
        let carried = if end == 0 { self.serve(l, number, message.seen)? } else { self.deliver(l, message.seen)? };
        if carried.arrived != edit || carried.moves.len() != passed as usize {
            return Err(format!("{edit:?} arrives and {passed} are pending, the definition gives {carried:?}"));
        }
        self.same_lists(end)?;
        Ok(Some(taken(&carried)))
    }

    /// Questions 4 to 8 of a message at an end.
    pub(super) fn turn(&self, end: usize, message: &Message) -> u8 {
        let l = message.line as usize;
        let mine = if end == 0 { message.direction == 0 && l <= self.n } else { message.direction == 1 && l == end };
        if !mine || message.numbered.is_some_and(|numbered| !self.may_be(end, l, &numbered)) {
            return 4;
        }
        let counts = self.counts(end, l);
        match message.numbered {
            Some(Numbered { number, .. }) if number <= counts.taken => 5,
            Some(Numbered { number, .. }) if number != counts.taken + 1 => 6,
            _ if message.seen < counts.acked => 7,
            _ if message.seen > counts.made => 8,
            _ => 0,
        }
    }

    /// Question 4 of an insert's priority and of the maker: going up, both are the line's own and the maker's number is the message's; coming
    /// down, both are another's.
    fn may_be(&self, end: usize, l: usize, numbered: &Numbered) -> bool {
        let (maker, own) = (numbered.origin.0 as usize, self.ranks[l - 1]);
        let priority = match numbered.edit {
            Edit::Insert(_, _, priority) => Some(priority),
            _ => None,
        };
        if end == 0 {
            priority.is_none_or(|p| p == own) && numbered.origin == (l as u8, numbered.number)
        } else {
            priority.is_none_or(|p| self.ranks.contains(&p) && p != own) && maker <= self.n && maker != l
        }
    }

    /// Who made edit `number` of line l, as the end numbers it.
    pub(super) fn maker(&self, end: usize, l: usize, number: u16) -> Origin {
        if end == 0 {
            self.origin(self.lines[l - 1].others[number as usize - 1])
        } else {
            (l as u8, number)
        }
    }

    /// Whether another line's buffer is full: the server's made there is 64 above the last seen it took there.
    pub(super) fn full(&self, l: usize) -> bool {
        let others = self.lines.iter().enumerate().filter(|(index, _)| index + 1 != l);
        others.into_iter().any(|(_, line)| line.server.made - line.server.acked >= PENDING as u16)
    }

    /// The server takes edit `number` of line l: what arrives is its form at what its client had taken with it, what is applied its form at what
    /// the server applied.
    pub(super) fn serve(&mut self, l: usize, number: u16, seen: u16) -> Result<Carried, String> {
        let (origin, from) = ((l as u8, number), self.lines[l - 1].point(l - 1, number - 1, seen));
        let carried = self.carried(origin, from, self.applied)?;
        if !fits(carried.applied, &self.shown) {
            return Err(format!("the definition's form {:?} does not fit the server's list", carried.applied));
        }
        apply(carried.applied, origin, &mut self.shown);
        self.orders.applied(carried.applied, &self.shown)?;
        let applied = self.graph.s_rev(l, number);
        self.same_in_graph(0, origin, from, &carried, applied)?;
        let place = self.history.order.len();
        self.history.serve(l - 1, number);
        self.numbers.push(number);
        self.applied[l - 1] += 1;
        for (index, line) in self.lines.iter_mut().enumerate() {
            if index + 1 == l {
                line.server.taken += 1;
                line.server.acked = seen;
                line.server.inserts += matches!(carried.applied, Edit::Insert(..)) as u16;
            } else {
                line.server.made += 1;
                line.others.push(place);
                let last = *line.first.last().unwrap();
                line.first.push(crate::form::with(last, l - 1));
            }
        }
        Ok(carried)
    }

    /// Client l takes its next missing edit: what arrives is its form at what the server had taken of this line with it, what is applied its form
    /// at what the client applied.
    pub(super) fn deliver(&mut self, l: usize, seen: u16) -> Result<Carried, String> {
        let line = &self.lines[l - 1];
        let place = line.others[line.client.taken as usize];
        let [from, to] = [seen, line.client.made].map(|own| line.point(l - 1, own, line.client.taken));
        let origin = self.origin(place);
        let carried = self.carried(origin, from, to)?;
        let line = &mut self.lines[l - 1];
        if !fits(carried.applied, &line.shown) {
            return Err(format!("the definition's form {:?} does not fit client {l}'s list", carried.applied));
        }
        apply(carried.applied, origin, &mut line.shown);
        self.orders.applied(carried.applied, &line.shown)?;
        line.client.taken += 1;
        line.client.acked = seen;
        let applied = self.graph.rev(l, place);
        self.same_in_graph(l, origin, from, &carried, applied)?;
        let undo = self.undo(l);
        if !fits(undo, &self.lines[l - 1].shown) {
            return Err(format!("what takes back, {undo:?}, does not fit client {l}'s list any more"));
        }
        Ok(carried)
    }

    /// What the definition makes of an edit between two sets. The moves add up.
    fn carried(&mut self, origin: Origin, from: Set, to: Set) -> Result<Carried, String> {
        let carried = self.history.carried(origin.0 as usize - 1, origin.1, from, to);
        let carried = carried.ok_or_else(|| format!("the definition's way to {to:?} does not pass {from:?}, where {origin:?} arrives"))?;
        if !carried.adds_up() {
            return Err(format!("the moves do not add up: {carried:?}"));
        }
        Ok(carried)
    }

    /// The graph has the edit as the definition gives it, where it arrives and where it is applied.
    fn same_in_graph(&self, end: usize, origin: Origin, from: Set, carried: &Carried, applied: Edit) -> Result<(), String> {
        let arrived = self.graph.replicas[end].at(&from, (origin.0 - 1, origin.1));
        if arrived != Some(carried.arrived) || applied != carried.applied {
            return Err(format!("the definition gives {carried:?}, the graph {arrived:?} as it arrives and {applied:?} as applied"));
        }
        Ok(())
    }

    /// The graph has the list that the definition gives, origins too, and no origin stands there twice.
    pub(super) fn same_lists(&self, end: usize) -> Result<(), String> {
        let shown = if end == 0 { &self.shown } else { &self.lines[end - 1].shown };
        if let Some(origin) = twice(shown) {
            return Err(format!("end {end}: the origin {origin:?} stands twice in {shown:?}"));
        }
        if *shown != self.graph.replicas[end].state {
            return Err(format!("end {end}: the definition's list is {shown:?}, the graph's {:?}", self.graph.replicas[end].state));
        }
        Ok(())
    }
}
