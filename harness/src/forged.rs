//! Messages that no end writes, one for each list: every field at its edges, and two fields wrong at once, which shows the order of the questions.

use crate::crafted::poked;
use crate::edit::Edit;
use crate::list::*;
use crate::literal::{self, Message, Numbered};

const RANKS: [u8; 3] = [2, 3, 1];

/// Line 1 of three. Both ends have made 3 edits, taken 1 and been told of 1: the next number is 2, and a seen of 1 to 3 is in order.
fn underway() -> List {
    let mut list = List::ranked(&RANKS, (1..=9).collect());
    for number in 1..=3 {
        list.calls.extend([Call::insert(2, number, 5), Call::send(2, 2, number, 0, MESSAGE), Call::take(0, 0)]);
    }
    list.calls.extend([Call::delete(1, 2), Call::insert(1, 3, 6), Call::delete(1, 4)]);
    list.calls.extend([Call::send(0, 1, 1, 0, MESSAGE), Call::take(1, 0)]);
    list.calls.extend([Call::send(1, 1, 1, 0, MESSAGE), Call::take(0, 0), Call::acknowledge(0, 1, 0, MESSAGE), Call::take(1, 0)]);
    list
}

/// The messages that an end takes next: an edit of each kind, and an acknowledgement.
fn right(direction: u8) -> [Message; 4] {
    let up = direction == 0;
    let (origin, rank) = if up { ((1, 2), RANKS[0]) } else { ((2, 2), RANKS[1]) };
    let edit = |edit: Edit| Some(Numbered { number: 2, edit, origin });
    [edit(Edit::Insert(2, 7, rank)), edit(Edit::Delete(2)), edit(Edit::Nothing), None].map(|numbered| Message {
        line: 1,
        direction,
        numbered,
        seen: 2,
    })
}

/// The message with its line, direction, seen, number or position at the edges.
fn edges(right: Message) -> Vec<Message> {
    let mut all = vec![right];
    all.extend([0, 2, 3, 4, 8, 9, 255].map(|line| Message { line, ..right }));
    all.extend([0, 1, 2, 255].map(|direction| Message { direction, ..right }));
    all.extend([0, 1, 3, 4, 400, 401, 2800, 2801, 65_535].map(|seen| Message { seen, ..right }));
    for value in [0, 1, 3, 4, 12, 14, 400, 401, 512, 513, 2800, 2801, 65_535] {
        all.extend([numbered, positioned].map(|change| changed(right, |message| change(message, value))));
    }
    all
}

fn changed(mut message: Message, change: impl Fn(&mut Message)) -> Message {
    change(&mut message);
    message
}

fn numbered(message: &mut Message, number: u16) {
    message.numbered.iter_mut().for_each(|edit| edit.number = number);
}

fn positioned(message: &mut Message, position: u16) {
    message.numbered.iter_mut().for_each(|edit| match &mut edit.edit {
        Edit::Insert(at, ..) | Edit::Delete(at) => *at = position,
        Edit::Nothing => {}
    });
}

fn made_by(message: &mut Message, maker: u8, number: u16) {
    message.numbered.iter_mut().for_each(|edit| edit.origin = (maker, number));
}

/// Ways to be refused, by the question that says no.
const WRONG: [(u8, fn(&mut Message)); 10] = [
    (4, |message| message.line = 2),
    (4, |message| message.direction ^= 1),
    // going up another's edit, coming down an own one
    (4, |message| made_by(message, 3 - 2 * message.direction, 2)),
    (4, |message| made_by(message, 1, 3)),
    (4, |message| {
        let wrong = RANKS[1 - message.direction as usize];
        message.numbered.iter_mut().for_each(|edit| {
            if let Edit::Insert(_, _, priority) = &mut edit.edit {
                *priority = wrong;
            }
        })
    }),
    (5, |message| numbered(message, 1)),
    (6, |message| numbered(message, 3)),
    (7, |message| message.seen = 0),
    (8, |message| message.seen = 4),
    (9, |message| positioned(message, 100)),
];

/// The message wrong in two ways.
fn twice_wrong(right: Message) -> Vec<Message> {
    let pairs = WRONG.iter().enumerate().flat_map(|(index, first)| WRONG[index + 1..].iter().map(move |second| (first, second)));
    let differ = pairs.filter(|(first, second)| first.0 != second.0);
    differ.map(|(first, second)| changed(changed(right, second.1), first.1)).collect()
}

/// Each of them alone, and the right ones with bytes behind.
pub fn all() -> Vec<List> {
    let before = underway();
    let mut lists = Vec::new();
    for end in [0, 1] {
        let mut add = |bytes: &[u8], tail: u16| {
            let mut list = before.clone();
            list.calls.extend(poked(0, bytes));
            list.calls.extend([Call::dump(end), Call { number: tail, ..Call::take(end, 0) }, Call::dump(end)]);
            lists.push(list);
        };
        for right in right(end) {
            let mut messages = [edges(right), twice_wrong(right)].concat();
            messages.dedup();
            messages.iter().for_each(|message| add(&literal::write(message), 0));
            let bytes = literal::write(&right);
            add(&[&bytes[..], &[0]].concat(), 0);
            add(&bytes, 1);
        }
    }
    lists
}
