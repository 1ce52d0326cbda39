//! Packets at their edges, within the third demand: cut at every byte, with bytes that are no kind, of every length that matters, refused in the
//! middle, repeated; written from every offset and into every room.

use crate::limits::*;
use crate::list::*;

const ROOM: u16 = PACKET as u16;
/// Offsets that are 0 in 8, 16 or 32 bits.
const SMALL_IN_BITS: [usize; 3] = [1 << 8, 1 << 16, 0x0101_0101 << 32];
/// Offsets close to the highest, in 32 bits and in 64.
const HIGHEST: [usize; 5] = [u32::MAX as usize, usize::MAX - PACKET, usize::MAX - 17, usize::MAX - 16, usize::MAX];

pub fn all() -> Vec<List> {
    let mut lists = Vec::new();
    for end in [0, 1] {
        lists.extend((0..=WHOLE).map(|length| cut(end, length)));
        lists.extend([offsets(end), unknown_kinds(end), lengths(end), rooms(end), far_offsets(end), out_of_order(end)]);
    }
    lists.extend([nothing_pending(), wrong_lines(), longest(), full_line(), two_lines(), sent_again()]);
    lists.sort_by_key(|list| list.calls.len());
    lists
}

/// Sends an edit and has it taken: from client or server, the line, the number.
fn handed(from: u8, line: u8, number: u16) -> [Call; 2] {
    [Call::send(from, line, number, 0, MESSAGE), Call::take(if from == 0 { line } else { 0 }, 0)]
}

/// Line 1 of three. At both of its ends an insert, a delete and an edit that became nothing are pending and not yet taken.
fn underway() -> List {
    let mut list = List::ranked(&[2, 3, 1], (10..20).collect());
    list.calls.push(Call::delete(2, 3));
    list.calls.extend(handed(2, 2, 1));
    list.calls.extend([Call::insert(1, 2, 30), Call::delete(1, 1), Call::delete(1, 3)]);
    list.calls.extend(handed(0, 1, 1));
    list.calls.extend([Call::acknowledge(1, 1, 0, MESSAGE), Call::take(0, 0)]);
    list.calls.extend([Call::insert(2, 1, 31), Call::delete(2, 2), Call::delete(3, 1)]);
    list.calls.extend([handed(2, 2, 2), handed(2, 2, 3), handed(3, 3, 1)].concat());
    list
}

/// The bytes of the messages on line 1 to one of its ends, with an acknowledgement behind them.
const WHOLE: u16 = 17 + 12 + 10 + 5;
/// Where they begin.
const BEGIN: [usize; 4] = [0, 17, 29, 39];

/// They stand in packet 0, for that end.
fn packed(end: u8) -> List {
    let from = 1 - end;
    let mut list = underway();
    list.calls.extend([Call::pack(from, 1, 0, ROOM, 0), Call::acknowledge(from, 1, 0, MESSAGE), Call::add(0, 0, 1), Call::show_packet(0)]);
    list
}

/// The packet's first bytes alone, taken twice.
fn cut(end: u8, length: u16) -> List {
    let mut list = packed(end);
    list.calls.push(Call::poke_packet(0, 0, 5, length));
    list.calls.extend([Call::dump(end), Call::take_packet(end, 0), Call::dump(end), Call::take_packet(end, 0), Call::dump(end)]);
    list
}

/// What stands at every byte of the packet and past its end, from behind; then message by message, and again.
fn offsets(end: u8) -> List {
    let mut list = packed(end);
    let far = SMALL_IN_BITS.into_iter().flat_map(|zero| BEGIN.map(|begin| zero + begin));
    let within = (1..=WHOLE as usize + 2).rev();
    for offset in far.chain(HIGHEST).chain(within).chain(BEGIN).chain(BEGIN) {
        list.calls.extend([Call::take_at(end, 0, offset), Call::dump(end)]);
    }
    list
}

/// A byte that is no kind between two acknowledgements, and at the front.
fn unknown_kinds(end: u8) -> List {
    let mut list = underway();
    list.calls.push(Call::acknowledge(1 - end, 1, 0, MESSAGE));
    for kind in (0..=255).filter(|kind| ![4, 5, 7, 8].contains(kind)) {
        list.calls.extend([Call::poke_packet(0, 0, kind, 0), Call::add(0, 0, 1)]);
        list.calls.extend([Call::poke_packet(0, 5, kind, 6), Call::add(0, 0, 1), Call::take_packet(end, 0)]);
        list.calls.extend([Call::take_at(end, 0, 5), Call::poke_packet(0, 0, kind, 11), Call::take_packet(end, 0)]);
    }
    list.calls.push(Call::dump(end));
    list
}

/// Acknowledgements end to end, in lengths around both limits, and in lengths that are right in 8 or 16 bits; at an end that is open, at one that
/// is not, and with too few lent bytes.
fn lengths(end: u8) -> List {
    let mut list = underway();
    list.calls.push(Call::acknowledge(1 - end, 1, 0, MESSAGE));
    list.calls.extend([Call::add(0, 0, 282), Call::show_packet(0)]);
    for (length, tails) in [
        (0, 0),
        (1, 0),
        (4, 0),
        (5, 0),
        (1395, 0),
        (1399, 0),
        (1400, 0),
        (1401, 0),
        (1405, 0),
        (1410, 0),
        (0, 1),
        (5, 1),
        (5, 6),
        (0, 256),
        (5, 256),
        (1400, 256),
    ] {
        list.calls.push(Call::poke_packet(0, 0, 4, length));
        for (at, lent) in [(end, 0), (end, -1), (end + 7, 0), (end + 7, -1)] {
            for call in [Call::take_packet(at, 0), Call::take_at(at, 0, 0), Call::take_at(at, 0, 1395), Call::take_at(at, 0, 1400)] {
                list.calls.push(Call { number: tails, lent, ..call });
            }
        }
        list.calls.push(Call::dump(end));
    }
    list
}

/// The three pending edits into every room around their lengths, from several offsets.
fn rooms(end: u8) -> List {
    let mut list = underway();
    for offset in [0, 1, 5, 40] {
        for room in 0..=offset + 41 {
            list.calls.extend([Call::pack(end, 1, 0, room, offset as usize), Call::show_packet(0)]);
        }
    }
    list.calls.push(Call::dump(end));
    list
}

/// The three pending edits at the end of a long buffer and past it, and into no room at all.
fn far_offsets(end: u8) -> List {
    let mut list = underway();
    let near = [39, 38, 29, 28, 17, 16, 1].map(|left| PACKET - left);
    let past = (0..3).map(|more| PACKET + more);
    for offset in near.into_iter().chain(past).chain(SMALL_IN_BITS).chain(HIGHEST) {
        for room in [ROOM, ROOM - 1, 0] {
            list.calls.extend([Call::pack(end, 1, 1, room, offset), Call::show_packet(1)]);
        }
    }
    list
}

/// Nothing is pending, at a client and on a line of the server: nothing is written at any offset, and nothing is refused but another line.
fn nothing_pending() -> List {
    let mut list = List::opened(2, vec![10, 20]);
    list.calls.push(Call::delete(1, 1));
    list.calls.extend(handed(1, 1, 1));
    list.calls.extend([Call::acknowledge(0, 1, 0, MESSAGE), Call::take(1, 0)]);
    for end in [0, 1] {
        for offset in [0, 1, 20, PACKET - 1, PACKET, PACKET + 1].into_iter().chain(SMALL_IN_BITS).chain(HIGHEST) {
            for room in [0, 20, ROOM] {
                list.calls.extend([Call::pack(end, 1, 0, room, offset), Call::pack(end, 3, 0, room, offset)]);
            }
        }
        list.calls.extend([Call::show_packet(0), Call::dump(end)]);
    }
    list
}

/// Lines that are another's or none, with room and without; ends that are not open, and too few lent bytes.
fn wrong_lines() -> List {
    let mut list = underway();
    for end in [0, 1, 2, 8] {
        for line in [0, 1, 2, 3, 4, 8, 9, 255] {
            for (room, offset) in [(ROOM, 0), (0, 0), (3, 4), (16, 0)] {
                let call = Call::pack(end, line, 2, room, offset);
                list.calls.extend([call, Call { lent: -1, ..call }]);
            }
        }
        list.calls.push(Call::show_packet(2));
    }
    list
}

/// The longest packets: 64 inserts of two clients wait for the third, which takes them at once; a client's own 48 inserts and 16 deletes.
fn longest() -> List {
    let mut list = List::opened(3, (1..=20).collect());
    for number in 1..=32 {
        for line in [1, 2] {
            list.calls.push(Call::insert(line, number, 600 + number as u32));
            list.calls.extend(handed(line, line, number));
        }
    }
    let whole = PENDING * MESSAGE as usize;
    for (room, offset) in [(ROOM, 0), (whole as u16, 0), (whole as u16 - 1, 0), (ROOM, PACKET - whole), (ROOM, PACKET - whole + 1)] {
        list.calls.extend([Call::pack(0, 3, 0, room, offset), Call::show_packet(0)]);
    }
    list.calls.extend([Call::pack(0, 3, 1, ROOM, 0), Call::take_packet(3, 1), Call::dump(3), Call::take_packet(3, 1), Call::dump(3)]);
    list.calls.extend((1..=INSERTS).map(|number| Call::insert(3, number, 9)));
    list.calls.extend([Call::delete(3, 1); PENDING - INSERTS as usize]);
    list.calls.extend([Call::pack(3, 3, 2, ROOM, 0), Call::show_packet(2), Call::take_packet(0, 2), Call::dump(0)]);
    list
}

/// 62 edits of client 1 are pending on line 2: of its next three in one packet two are taken. The third goes through once one is acknowledged.
fn full_line() -> List {
    let mut list = List::opened(2, (1..=INITIAL as u32).collect());
    list.calls.extend([Call::delete(1, 1); PENDING - 2]);
    list.calls.extend([Call::pack(1, 1, 0, ROOM, 0), Call::take_packet(0, 0), Call::acknowledge(0, 1, 0, MESSAGE), Call::take(1, 0)]);
    list.calls.extend([Call::delete(1, 2); 3]);
    list.calls.extend([Call::pack(1, 1, 1, ROOM, 0), Call::take_packet(0, 1), Call::dump(0)]);
    list.calls.extend(handed(0, 2, 1));
    list.calls.extend([
        Call::acknowledge(2, 2, 0, MESSAGE),
        Call::take(0, 0),
        Call::take_packet(0, 1),
        Call::take_at(0, 1, 24),
        Call::dump(0),
    ]);
    list
}

/// Messages of line 1 in other orders, repeated, and with some of the other direction among them: each is refused at its place.
fn out_of_order(end: u8) -> List {
    let from = 1 - end;
    let mut list = underway();
    // slots 1 to 3 hold the edits for the end, slot 4 an acknowledgement, slot 5 an edit of its own, slot 6 an acknowledgement of no edit
    list.calls.insert(4, Call::acknowledge(from, 1, 6, MESSAGE));
    let first = if from == 0 { 2 } else { 1 };
    list.calls.extend((0..3).map(|more| Call::send(from, 1, first + more, 1 + more as u8, MESSAGE)));
    list.calls.extend([Call::acknowledge(from, 1, 4, MESSAGE), Call::send(end, 1, if end == 0 { 2 } else { 1 }, 5, MESSAGE)]);
    for slots in [
        &[2, 1][..],
        &[3],
        &[4, 2, 1],
        &[4, 5, 1],
        &[6, 2],
        &[4, 6, 1],
        &[5],
        &[1, 3, 2],
        &[1],
        &[4, 1, 2],
        &[2, 2, 3],
        &[4, 4, 3, 4, 4, 3],
        &[1, 2, 3],
        &[4],
    ] {
        list.calls.push(Call::poke_packet(3, 0, FRESH, 0));
        list.calls.extend(slots.iter().map(|&slot| Call::add(slot, 3, 1)));
        list.calls.extend([Call::take_packet(end, 3), Call::dump(end)]);
    }
    list
}

/// Edits and acknowledgements of three lines in one packet for the server.
fn two_lines() -> List {
    let mut list = List::ranked(&[2, 3, 1], (1..=9).collect());
    list.calls.extend([Call::insert(1, 1, 30), Call::insert(1, 4, 31), Call::delete(2, 2), Call::insert(3, 1, 32), Call::delete(2, 2)]);
    for (slot, line, number) in [(1, 2, 1), (2, 1, 1), (3, 3, 1), (4, 1, 2), (5, 2, 2)] {
        list.calls.push(Call::send(line, line, number, slot, MESSAGE));
    }
    list.calls.push(Call::acknowledge(3, 3, 6, MESSAGE));
    list.calls.extend([1, 6, 2, 3, 6, 4, 6, 5].map(|slot| Call::add(slot, 0, 1)));
    list.calls.extend([Call::take_packet(0, 0), Call::dump(0), Call::take_packet(0, 0), Call::dump(0)]);
    // the whole way down, each line in a packet
    for line in 1..=3 {
        list.calls.extend([Call::pack(0, line, 1, ROOM, 0), Call::take_packet(line, 1), Call::dump(line)]);
    }
    list
}

/// The server's acknowledgement is lost, and the client makes one more edit: the packet written again is stopped by a repeat. By offsets, passing
/// over repeats, the new edit is taken; or after an acknowledgement the packet has it alone.
fn sent_again() -> List {
    let mut list = List::opened(2, vec![10, 20, 30]);
    list.calls.extend([Call::insert(1, 1, 40), Call::delete(1, 3), Call::pack(1, 1, 0, ROOM, 0), Call::take_packet(0, 0)]);
    list.calls.extend([Call::insert(1, 2, 41), Call::pack(1, 1, 0, ROOM, 0), Call::take_packet(0, 0), Call::dump(0)]);
    list.calls.extend([0, 17, 29, 46].map(|offset| Call::take_at(0, 0, offset)));
    list.calls.extend([Call::insert(1, 3, 42), Call::pack(1, 1, 0, ROOM, 0), Call::take_packet(0, 0)]);
    list.calls.extend([
        Call::acknowledge(0, 1, 0, MESSAGE),
        Call::take(1, 0),
        Call::pack(1, 1, 0, ROOM, 0),
        Call::take_packet(0, 0),
        Call::dump(0),
    ]);
    // an acknowledgement in front of what goes down, and the packet twice
    list.calls.extend([
        Call::acknowledge(0, 2, 0, MESSAGE),
        Call::poke_packet(1, 0, FRESH, 0),
        Call::add(0, 1, 1),
        Call::pack(0, 2, 1, ROOM, 5),
    ]);
    list.calls.extend([Call::take_packet(2, 1), Call::dump(2), Call::take_packet(2, 1), Call::dump(2), Call::dump(1)]);
    list
}

#[cfg(test)]
mod tests {
    use super::*;
    use crate::calls;
    use crate::oracle;
    use crate::plain::slip::Plain;

    /// The oracle follows each list to its end, so they stay within the third demand.
    #[test]
    fn all_are_followed() {
        for list in all() {
            let out = calls::output(&Plain, &list).unwrap();
            assert_eq!(oracle::check(&list, &out).unwrap().followed, list.calls.len());
        }
    }
}
