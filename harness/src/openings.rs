//! Openings at and past their limits, ranks that are none, and every call with too few and more than enough lent bytes.

use crate::crafted::LEAD;
use crate::layout;
use crate::limits::*;
use crate::list::*;
use crate::rankings;

/// n, line, count and cut items at their edges; half of the ends are open already.
fn edges() -> List {
    let mut list = List { initial: (1..=160).collect(), calls: Vec::new() };
    for count in [0, 1, 127, 128, 129, 160] {
        for n in [0, 1, 2, 8, 9, 10, 255] {
            for (end, line) in [(0, 0), (1, 0), (1, 1), (2, 2), (3, 8), (4, 9), (5, 255)] {
                for cut in [0, 1, 2, 3] {
                    list.calls.push(Call { slot: cut, ..Call::open(end, n, line, count) });
                    list.calls.push(Call::dump(end));
                }
                list.calls.push(Call::acknowledge(end, line.clamp(1, LINES as u8), 0, 20));
                list.calls.push(Call::show(0));
            }
        }
    }
    list
}

/// Lent lengths at their edges, less the layout's.
fn lent(end: u8) -> [i16; 14] {
    let bytes = layout::bytes(end) as i16;
    [-bytes, 1 - bytes, -bytes / 2, -5, -4, -3, -2, -1, 0, 1, 2, 3, 4, SPARE as i16]
}

/// Ranks that are right and ranks that are none, with all else right and with what question 1 refuses, at ends of which half are open already.
fn ranked(n: u8) -> List {
    let mut list = List { initial: (1..=160).collect(), calls: Vec::new() };
    let reversed: Vec<u8> = (1..=n).rev().collect();
    let mut shifted = rankings::by_line(n as usize);
    shifted.rotate_left(1);
    let mut all = rankings::spoilt(&shifted);
    all.extend([rankings::by_line(n as usize), reversed, shifted]);
    for ranks in all {
        for (end, line) in [(0, 0), (1, 1), (2, n)] {
            let right = Call::open(end, n, line, 3).ranked(&ranks);
            let refused = [
                Call { size: 0, ..right },
                Call { size: 9, ..right },
                Call { size: 255, ..right },
                Call { number: 129, ..right },
                Call { slot: 1, ..right },
                Call { line: n + 1, ..right },
                Call { line: 0, ..right },
                Call { lent: -1, ..right },
                Call { lent: -1, slot: 1, ..right },
            ];
            for call in refused.into_iter().chain([right]) {
                list.calls.extend([call, Call::dump(end)]);
            }
            list.calls.extend([Call::acknowledge(end, line.max(1), 0, 20), Call::show(0)]);
        }
    }
    list
}

/// Openings with them, refused for 18, for 1 and for 16 at once too.
fn opened() -> List {
    let mut list = List { initial: (1..=160).map(|item| item << 12).collect(), calls: Vec::new() };
    for end in [0, 1, 8] {
        for lent in lent(end) {
            for (n, count, cut, ranks) in [(8, 3, 0, 8), (0, 3, 0, 8), (8, 129, 0, 8), (8, 3, 1, 8), (8, 3, 0, 7), (8, 3, 1, 9)] {
                list.calls.push(Call::fill(end, 85));
                list.calls.push(Call { lent, slot: cut, ..Call::open(end, n, end, count).ranked(&rankings::by_line(ranks)) });
                list.calls.push(Call::dump(end));
            }
        }
    }
    list
}

/// Every other call with them, on a sound end and on one that is none; calls that would be accepted, and calls that another question refuses.
fn called(end: u8, sound: bool) -> List {
    let mut list = List::ranked(&LEAD, vec![1, 2, 3]);
    // what a client of line 2 made lies in slot 1, what it takes in slot 2, and nothing in slot 3
    list.calls.extend([
        Call::delete(2, 1),
        Call::send(2, 2, 1, 1, MESSAGE),
        Call::insert(1, 1, 9),
        Call::send(1, 1, 1, 4, MESSAGE),
        Call::take(0, 4),
    ]);
    list.calls.extend([Call::send(0, 2, 1, 2, MESSAGE), Call::copy(8, 2)]);
    let line = end.max(1);
    let (slot, number) = if end == 0 { (1, 1) } else { (2, 2) };
    let mut calls =
        vec![Call::take(end, slot), Call::take(end, 3), Call::send(end, line, number, 5, MESSAGE), Call::send(end, line, 1, 5, 0)];
    calls.extend([Call::acknowledge(end, line, 5, 5), Call::acknowledge(end, 9, 5, 5), Call::acknowledge(end, line, 5, 4)]);
    // packet 0 has the message twice, packet 1 nothing
    list.calls.push(Call::add(slot, 0, 2));
    calls.extend([Call::take_packet(end, 0), Call::take_at(end, 0, 0), Call::take_packet(end, 1), Call::take_at(end, 1, 0)]);
    calls.extend([Call::pack(end, line, 2, PACKET as u16, 3), Call::pack(end, 9, 2, 3, 3), Call::pack(end, line, 2, 3, 3)]);
    if end != 0 {
        calls.extend([Call::insert(end, 1, 7), Call::insert(end, 0, 7), Call::delete(end, 1), Call::delete(end, 99)]);
    }
    for call in calls {
        for lent in lent(end) {
            if !sound {
                list.calls.push(Call::set(end, 0, 9));
            }
            list.calls.extend([Call { lent, ..call }, Call::dump(end)]);
            if end != 0 {
                list.calls.push(Call::copy(end, 8));
            }
        }
    }
    list
}

/// Counts of items that are small in 8 bits, or their bytes in 16.
fn many() -> List {
    let mut list = List { initial: (0..65_535).collect(), calls: Vec::new() };
    for count in [255, 256, 257, 384, 16_383, 16_384, 16_385, 65_535] {
        for end in [0, 1] {
            list.calls.extend([Call::open(end, 1, end, count), Call::dump(end)]);
        }
    }
    list
}

pub fn all() -> Vec<List> {
    let called = [(0, true), (0, false), (2, true), (2, false)].map(|(end, sound)| called(end, sound));
    let ranked: Vec<List> = (1..=LINES as u8).map(ranked).collect();
    [vec![edges(), opened(), many()], ranked, called.to_vec()].concat()
}
