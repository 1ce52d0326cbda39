//! Sound ends at a limit, made by overwriting: questions 9, 10 and 12 where no run of calls leads, and what the benchmark starts from.

use crate::edit::{Edit, Origin};
use crate::ends::{inverse, pending};
use crate::forged;
use crate::layout::{self, Field};
use crate::list::*;
use crate::literal::{self, Message, Numbered};

/// The ranks of the eight lines: the lead technician's line 5 goes first.
pub const LEAD: [u8; 8] = [2, 3, 4, 5, 1, 6, 7, 8];

/// All of them, the short lists first.
pub fn all() -> Vec<List> {
    let mut lists: Vec<List> = (0..=9).map(kind_and_length).collect();
    lists.extend(pushed());
    lists.extend(inverse_moved());
    for line in 1..=8 {
        // the ranks of lines 1 to 5 are not their numbers
        lists.extend((0..=9).map(|priority| arriving(&LEAD, line, |maker| (Edit::Insert(2, 5, priority), (maker, 1)))));
    }
    lists.extend(forged::all());
    lists.extend((1..=3).flat_map(origins));
    for position in [1, 2, 64, 65, 255, 256, 257, 448, 464, 465, 511, 512] {
        for (end, insert) in [(0, false), (0, true), (1, false), (1, true)] {
            lists.push(moving(end, position, insert));
        }
    }
    lists.extend(at_limits());
    lists.sort_by_key(|list| list.calls.len());
    lists
}

/// Ends at their limits, and the message that asks for one more.
fn at_limits() -> Vec<List> {
    let mut lists = Vec::new();
    for inserts in [46, 47, 48] {
        for length in [128, 510, 511, 512] {
            for kept in [0, 1, 63, 64] {
                let mut list = server_at_limit(inserts, length, kept);
                list.calls.extend([Call::dump(0), Call::take(0, 0), Call::dump(0)]);
                lists.push(list);
            }
        }
    }
    for length in [0, 127, 511, 512] {
        for kept in [0, 1, 63, 64] {
            let mut list = client_at_limit(length, kept);
            let edits = [Call::take_back(1), Call::insert(1, 1, 5), Call::take_back(1), Call::delete(1, 1), Call::take_back(1)];
            for call in edits.into_iter().chain([Call::take(1, 0), Call::take_back(1)]) {
                list.calls.extend([Call::dump(1), call, Call::dump(1)]);
            }
            lists.push(list);
        }
    }
    lists
}

/// An insert arrives in front of a pending edit whose position it pushes to 512 or past it.
fn pushed() -> Vec<List> {
    let mut lists = Vec::new();
    for position in [510, 511, 512] {
        for (end, insert) in [(0, false), (0, true), (1, false), (1, true)] {
            let (mut list, rank) = if end == 0 { (server_at_limit(40, 9, 1), LEAD[4]) } else { (client_at_limit(9, 1), LEAD[0]) };
            let (priority, item) = if insert { (rank as u32, 9) } else { (0, 0) };
            list.calls.extend(pending(end, 1, 0, position << 8 | priority, item));
            list.calls.extend([Call::dump(end), Call::take(end, 0), Call::dump(end)]);
            lists.push(list);
        }
    }
    lists
}

/// An insert or a delete arrives in front of a client's inverse, at it or behind it: the inverse moves to 513 or past it, down, not at all, or is
/// gone; then it is taken back, twice.
fn inverse_moved() -> Vec<List> {
    let mut lists = Vec::new();
    for position in [1, 4, 5, 6, 7, 9, 10, 11, 511, 512, 513] {
        for (priority, item) in [(0, 0), (LEAD[0] as u32, 77)] {
            for edit in [Edit::Insert(5, 5, LEAD[4]), Edit::Insert(5, 5, LEAD[7]), Edit::Delete(5), Edit::Nothing] {
                let mut list = client_at_limit(9, 1);
                list.calls.extend(inverse(1, position << 8 | priority, item));
                let numbered = Some(Numbered { number: 1, edit, origin: (5, 1) });
                list.calls.extend(poked(0, &literal::write(&Message { line: 1, direction: 1, numbered, seen: 0 })));
                for call in [Call::take(1, 0), Call::take_back(1), Call::take_back(1)] {
                    list.calls.extend([Call::dump(1), call]);
                }
                list.calls.push(Call::dump(1));
                lists.push(list);
            }
        }
    }
    lists
}

/// A delete arrives at a position of a full list, at the server or at client 1, and passes edits that are all pending at position 1: 64 deletes,
/// which move it down or of which one takes its item, or 48 inserts, which move it up, at last past the list.
fn moving(end: u8, position: u16, insert: bool) -> List {
    let kept = if insert { 48 } else { 64 };
    let (mut list, priority) = if end == 0 { (server_at_limit(40, 512, kept), LEAD[4]) } else { (client_at_limit(512, kept), LEAD[0]) };
    let (place, item) = if insert { (1 << 8 | priority as u32, 9) } else { (1 << 8, 0) };
    list.calls.extend((0..kept).flat_map(|index| pending(end, 1, index, place, item)));
    let (number, seen, origin) = if end == 0 { (49, 48 * 7 - kept, (1, 49)) } else { (1, 0, (5, 1)) };
    let delete = Some(Numbered { number, edit: Edit::Delete(position), origin });
    list.calls.extend(poked(0, &literal::write(&Message { line: 1, direction: (end != 0) as u8, numbered: delete, seen })));
    list.calls.extend([Call::dump(end), Call::take(end, 0), Call::dump(end)]);
    list
}

/// Edits of every kind whose makers and makers' numbers are at their edges, from and to a line of three.
fn origins(line: u8) -> Vec<List> {
    let ranks = [2, 3, 1];
    let edits = |priority: u8| [Edit::Insert(2, 5, priority), Edit::Delete(2), Edit::Nothing];
    let mut lists = Vec::new();
    for kind in 0..3 {
        for maker in [0, 1, 2, 3, 4, 8, 9, 255] {
            for number in [0, 1, 2, 399, 400, 401, 65_535] {
                lists.push(arriving(&ranks, line, |right| (edits(ranks[right as usize - 1])[kind], (maker, number))));
            }
        }
    }
    lists
}

/// Question 4 of the first edit up from a line and down to its client: an edit and its origin, given who could have made it.
fn arriving(ranks: &[u8], line: u8, by: impl Fn(u8) -> (Edit, Origin)) -> List {
    let mut list = List::ranked(ranks, vec![1, 2, 3]);
    for end in [0, line] {
        let (edit, origin) = by(if end == 0 { line } else { line % ranks.len() as u8 + 1 });
        let numbered = Some(Numbered { number: 1, edit, origin });
        list.calls.extend(poked(0, &literal::write(&Message { line, direction: (end != 0) as u8, numbered, seen: 0 })));
        list.calls.extend([Call::dump(end), Call::take(end, 0), Call::dump(end)]);
    }
    list
}

/// The first edit of line 1 under a kind, cut or filled to the length of each kind there is and was; the last has the kind's own.
fn kind_and_length(kind: u8) -> List {
    let mut list = List::opened(2, vec![1, 2, 3]);
    for length in [14, 9, 7, 5, 10, 12, 17] {
        let edit = match length {
            9 | 12 => Edit::Delete(1),
            7 | 10 => Edit::Nothing,
            _ => Edit::Insert(1, 5, 1),
        };
        let numbered = (length != 5).then_some(Numbered { number: 1, edit, origin: (1, 1) });
        let mut bytes = literal::write(&Message { line: 1, direction: 0, numbered, seen: 0 });
        bytes.truncate(length);
        bytes[0] = kind;
        list.calls.extend(poked(0, &bytes));
        list.calls.extend([Call::dump(0), Call::take(0, 0), Call::dump(0)]);
    }
    list
}

/// Writes bytes into a slot.
pub fn poked(slot: u8, bytes: &[u8]) -> Vec<Call> {
    bytes.iter().enumerate().map(|(at, &byte)| Call::poke(slot, at as u16, byte, bytes.len() as u8)).collect()
}

/// The items past the first 128 of a long list, each with an origin, and the total with them.
fn items(end: u8, length: u16) -> Vec<Call> {
    let place = |index: u16| {
        let origin = layout::origin_word((index as u8 % 8 + 1, index / 8));
        [Call::field(end, 0, Field::Item(index), 1000 + index as u32), Call::field(end, 0, Field::Origin(index), origin)]
    };
    let all: Vec<u32> = (0..length).map(|index| if index < 128 { index as u32 + 1 } else { 1000 + index as u32 }).collect();
    let total = Call::field(end, 1, Field::Total, layout::seconds(&all));
    (128..length).flat_map(place).chain([total]).collect()
}

/// Pending edits all over the list, inserts and deletes in turn; inserts have the priority given.
fn pending_edits(end: u8, line: u8, kept: u16, length: u16, priority: u8) -> Vec<Call> {
    let edit = |index: u16| {
        let position = 1 + (index * 7) as u32 % length.max(1) as u32;
        let insert = index % 2 == 1;
        pending(end, line, index, position << 8 | if insert { priority as u32 } else { 0 }, if insert { 9 } else { 0 })
    };
    (0..kept).flat_map(edit).collect()
}

/// A server of eight lines where every line has 48 edits taken, line 1 has `inserts` inserts taken and `kept` edits pending, all of
/// them of line 5; slot 0 holds line 1's next edit, an insert in the middle that has seen none of the pending ones.
pub fn server_at_limit(inserts: u32, length: u16, kept: u16) -> List {
    let mut list = List::ranked(&LEAD, (1..=128).collect());
    let made = 48 * 7;
    for line in 1..=8 {
        let pairs = [
            (Field::Taken, 48),
            (Field::Made, made as u32),
            (Field::Acked, (made - if line == 1 { kept } else { 0 }) as u32),
            (Field::Inserts, if line == 1 { inserts } else { 48 }),
        ];
        list.calls.extend(pairs.map(|(field, value)| Call::field(0, line, field, value)));
    }
    list.calls.push(Call::field(0, 0, Field::Length, length as u32));
    list.calls.extend(items(0, length));
    list.calls.extend(pending_edits(0, 1, kept, length, LEAD[4]));
    list.calls.extend((0..kept).map(|index| Call::field(0, 1, Field::PendingOrigin(index), layout::origin_word((5, index + 1)))));
    let insert = Numbered { number: 49, edit: Edit::Insert(length / 2 + 1, 5, LEAD[0]), origin: (1, 49) };
    list.calls.extend(poked(0, &literal::write(&Message { line: 1, direction: 0, numbered: Some(insert), seen: made - kept })));
    list
}

/// Client 1 of eight with `kept` edits pending and nothing taken; slot 0 holds the first edit that comes down, an insert of line 5 in
/// the middle.
pub fn client_at_limit(length: u16, kept: u16) -> List {
    let mut list = List::ranked(&LEAD, (1..=length.min(128) as u32).collect());
    list.calls.push(Call::field(1, 1, Field::Length, length as u32));
    list.calls.extend(items(1, length));
    list.calls.push(Call::field(1, 1, Field::Made, kept as u32));
    list.calls.push(Call::field(1, 1, Field::Inserts, kept as u32 / 2));
    list.calls.extend(pending_edits(1, 1, kept, length, LEAD[0]));
    let insert = Numbered { number: 1, edit: Edit::Insert(length / 2 + 1, 5, LEAD[4]), origin: (5, 1) };
    list.calls.extend(poked(0, &literal::write(&Message { line: 1, direction: 1, numbered: Some(insert), seen: 0 })));
    list
}
