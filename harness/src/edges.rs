//! Runs that reach the limits: 48 inserts, 400 edits, 64 pending, 512 items. They stay within the third demand, and at their end everything is
//! delivered.

use crate::generate::Run;
use crate::limits::*;
use crate::list::{Call, List, MESSAGE, PACKET};
use crate::rng::Rng;

pub fn limits(seed: u64) -> List {
    let rng = Rng::new(seed);
    // neighbouring seeds reach different limits
    let run = match seed / 4 % 6 {
        0 | 1 => full_list(rng),
        2 => all_edits(rng),
        3 => silent_line(rng),
        _ => full_buffers(rng),
    };
    run.list
}

/// Every insert of every client: with eight clients the list reaches 512.
fn full_list(mut rng: Rng) -> Run {
    let n = if rng.below(3) > 0 { LINES } else { rng.between(1, LINES) };
    let mut run = Run::sized(rng, n, INITIAL);
    while (1..=n).any(|l| run.world.client(l).inserts < INSERTS as u32) {
        for l in 1..=n {
            let position = run.rng.between(1, run.world.length(l) as usize + 1) as u16;
            run.call_and_look(Call::insert(l as u8, position, l as u32));
            if run.rng.once_in(2) {
                exchange_somehow(&mut run, l);
            }
        }
    }
    run.deliver_all();
    ask_edges(&mut run);
    run.deliver_all();
    run
}

/// Rounds in which all clients edit at once, until each has made 400 edits; the last 64 stay pending.
fn all_edits(mut rng: Rng) -> Run {
    let n = rng.between(6, LINES);
    let mut run = Run::sized(rng, n, INITIAL);
    for _ in 0..EDITS - PENDING as u16 {
        round(&mut run);
        if run.rng.once_in(20) {
            run.call(Call::dump(0));
            run.call(Call::dump(1));
        }
    }
    for l in 1..=n as u8 {
        for _ in 0..PENDING + 2 {
            run.call(Call::delete(l, 1));
        }
        run.call(Call::insert(l, 1, 5));
        run.call(Call::dump(l));
    }
    run.deliver_all();
    ask_edges(&mut run);
    run.deliver_all();
    run
}

/// One round from one list: an edit at every client, up to the server, and down to all. In a round of deletes all delete one item, for
/// else the items would not last for 400 edits of each client; now and then they differ.
pub fn round(run: &mut Run) {
    let (length, inserts) = (run.world.length(0) as usize, run.world.client(1).inserts);
    let insert = inserts < INSERTS as u32 && (length < 60 || run.rng.once_in(7));
    let (place, differ) = (run.rng.between(1, length.clamp(1, 50)), run.rng.once_in(60));
    for l in 1..=run.n {
        let position = if insert || differ { run.rng.between(1, length.clamp(1, 50)) } else { place } as u16;
        let item = run.rng.next() as u32;
        run.call(if insert { Call::insert(l as u8, position, item) } else { Call::delete(l as u8, position) });
    }
    for l in 1..=run.n {
        while run.world.server(l).taken < run.world.client(l).made {
            run.hand_over(l, l, run.world.server(l).taken + 1);
        }
    }
    for l in 1..=run.n {
        exchange(run, l);
    }
}

/// An insert while the client has some left and the list is short, else a delete at the front, where others delete as well; now and then a
/// taking back.
fn any_edit(run: &mut Run, l: usize) -> Call {
    let (length, inserts) = (run.world.length(l) as usize, run.world.client(l).inserts);
    if run.rng.once_in(6) {
        Call::take_back(l as u8)
    } else if inserts < INSERTS as u32 && (length < 200 || run.rng.once_in(3)) {
        let position = run.rng.between(1, length.min(50) + 1) as u16;
        Call::insert(l as u8, position, run.rng.next() as u32)
    } else {
        Call::delete(l as u8, run.rng.pick(&[1, 1, 1, 2, 7]))
    }
}

/// One client edits on and hears nothing, another line's messages stay unanswered: 12 at the clients and at the server.
fn silent_line(rng: Rng) -> Run {
    let mut rng = rng;
    let n = rng.between(2, LINES);
    let mut run = Run::sized(rng, n, INITIAL);
    let silent = run.rng.between(1, n);
    for _ in 0..run.rng.between(100, 300) {
        let l = run.rng.between(1, n);
        let edit = any_edit(&mut run, l);
        run.call_and_look(edit);
        if l != silent {
            exchange_somehow(&mut run, l);
        } else if run.rng.once_in(4) {
            // the silent line sends up and acknowledges nothing new: 12 is asked of the other lines only
            run.hand_over(l, l, run.world.server(l).taken + 1);
        }
    }
    ask_edges(&mut run);
    run.deliver_all();
    run
}

/// All clients edit until their buffers are full, one at a time.
fn full_buffers(mut rng: Rng) -> Run {
    let n = rng.between(1, LINES);
    let mut run = Run::sized(rng, n, INITIAL);
    for l in 1..=n {
        for _ in 0..PENDING + 2 {
            let edit = any_edit(&mut run, l);
            run.call_and_look(edit);
        }
        ask_edges(&mut run);
        if run.rng.once_in(2) {
            exchange_somehow(&mut run, l);
        }
    }
    run.deliver_all();
    run
}

/// Everything that a line still owes in both directions, as far as it is taken, and both acknowledgements.
pub fn exchange(run: &mut Run, l: usize) {
    while run.world.server(l).taken < run.world.client(l).made {
        if !run.hand_over(l, l, run.world.server(l).taken + 1) {
            break;
        }
    }
    while run.world.client(l).taken < run.world.server(l).made {
        run.hand_over(0, l, run.world.client(l).taken + 1);
    }
    run.call(Call::acknowledge(l as u8, l as u8, 0, MESSAGE));
    run.call(Call::take(0, 0));
    run.call(Call::acknowledge(0, l as u8, 1, MESSAGE));
    run.call(Call::take(l as u8, 1));
}

/// The same, now and then in packets.
fn exchange_somehow(run: &mut Run, l: usize) {
    if run.rng.once_in(3) {
        exchange_packets(run, l as u8);
    } else {
        exchange(run, l);
    }
}

/// The same in packets. What the other end has taken before is acknowledged first, or it would stop the packet as a repeat.
fn exchange_packets(run: &mut Run, l: u8) {
    run.call(Call::acknowledge(0, l, 1, MESSAGE));
    run.call(Call::take(l, 1));
    run.call(Call::pack(l, l, 0, PACKET as u16, 0));
    run.call(Call::take_packet(0, 0));
    // its acknowledgement stands in front
    for (from, to) in [(l, 0), (0, l)] {
        run.call(Call::acknowledge(from, l, 0, MESSAGE));
        run.call(Call::poke_packet(0, 0, 0, 0));
        run.call(Call::add(0, 0, 1));
        run.call(Call::pack(from, l, 0, PACKET as u16, 5));
        run.call(Call::take_packet(to, 0));
    }
    run.call(Call::acknowledge(l, l, 0, MESSAGE));
    run.call(Call::take(0, 0));
}

/// Edits at every edge of the list, at every client, and takings back.
fn ask_edges(run: &mut Run) {
    for l in 1..=run.n as u8 {
        for choice in 0..5 {
            let length = run.world.length(l as usize) as u16;
            let position = [0, length, 1, length + 1, length + 2][choice];
            run.call_and_look(Call::insert(l, position, 9));
            run.call_and_look(Call::delete(l, position));
        }
        for _ in 0..3 {
            run.call_and_look(Call::take_back(l));
        }
    }
}
