//! Damaged messages, one list of calls for each.

use crate::generate::Run;
use crate::list::*;
use crate::plain::slip::Plain;
use crate::rankings;
use crate::rng::Rng;
use crate::world::World;

/// The ranks of that run's three lines.
pub fn ranks(seed: u64) -> Vec<u8> {
    let all = rankings::all(3);
    all[seed as usize % all.len()].clone()
}

/// A short run, and where it leads: its slots hold real messages of all kinds. Neighbouring seeds rank the lines differently.
pub fn furnished(seed: u64) -> (List, World<'static, Plain>) {
    let initial = (1..=20).collect();
    let mut list = List::ranked(&ranks(seed), initial);
    let mut rng = Rng::new(seed);
    // equal deletes become nothing; positions differ from seed to seed
    let (p, q) = (rng.between(1, 18) as u16, rng.between(1, 15) as u16);
    let calls = [
        Call::delete(1, p),
        Call::delete(2, p),
        Call::insert(1, q, rng.next() as u32),
        Call::insert(3, q, 7),
        Call::send(1, 1, 1, 10, MESSAGE),
        Call::take(0, 10),
        Call::send(2, 2, 1, 11, MESSAGE),
        Call::take(0, 11),
        Call::send(3, 3, 1, 12, MESSAGE),
        Call::take(0, 12),
        // what may still be taken: up and down, every kind
        Call::send(1, 1, 2, 0, MESSAGE),
        Call::send(0, 1, 1, 1, MESSAGE),
        Call::send(0, 2, 1, 2, MESSAGE),
        Call::send(0, 3, 1, 3, MESSAGE),
        Call::send(0, 3, 2, 4, MESSAGE),
        Call::send(0, 2, 2, 5, MESSAGE),
        Call::acknowledge(1, 1, 6, MESSAGE),
        Call::acknowledge(0, 1, 7, MESSAGE),
        Call::take(1, 1),
        Call::send(0, 1, 2, 8, MESSAGE),
        Call::delete(2, 2),
        Call::send(2, 2, 2, 9, MESSAGE),
    ];
    list.calls.extend(calls);
    let mut world = World::unwatched(&Plain);
    let mut unread = Vec::new();
    list.calls.iter().for_each(|call| world.perform(call, &list.initial, &mut unread));
    (list, world)
}

fn meant_for(bytes: &[u8]) -> u8 {
    if bytes[2] == 0 {
        0
    } else {
        bytes[1].min(8)
    }
}

fn tried(prefix: &List, slot: u8, pokes: &[Call], end: u8) -> List {
    let mut list = prefix.clone();
    list.calls.extend_from_slice(pokes);
    list.calls.extend([Call::dump(end), Call::take(end, slot), Call::dump(end), Call::take(end, slot), Call::dump(end), Call::show(slot)]);
    list
}

/// The message twice in a packet, the first time with another byte.
fn tried_in_packet(prefix: &List, slot: u8, at: u16, byte: u8, length: u8, end: u8) -> List {
    let mut list = prefix.clone();
    list.calls.extend([Call::add(slot, 0, 2), Call::poke_packet(0, at, byte, 2 * length as u16)]);
    list.calls.extend([
        Call::dump(end),
        Call::take_packet(end, 0),
        Call::dump(end),
        Call::take_at(end, 0, length as usize),
        Call::dump(end),
    ]);
    list
}

/// Every single-bit change of one real message, every value of every byte of it, every shorter or longer length,
/// and lengths that are its own in 8 or 16 bits.
pub fn bytes(seed: u64) -> Vec<List> {
    let (prefix, world) = furnished(seed);
    let slot = (seed % 13) as u8;
    let message = world.message(slot);
    let end = meant_for(message);
    let length = message.len() as u8;
    let mut lists = Vec::new();
    for (at, &byte) in message.iter().enumerate() {
        for value in (0..=255).filter(|&value| value != byte) {
            let poke = [Call::poke(slot, at as u16, value, length)];
            lists.push(tried(&prefix, slot, &poke, end));
            lists.push(tried_in_packet(&prefix, slot, at as u16, value, length, end));
            if (value ^ byte).count_ones() == 1 {
                let other = Rng::new(seed ^ value as u64).below(9) as u8;
                lists.push(tried(&prefix, slot, &poke, other));
            }
        }
    }
    for wrong in (0..=SLOT as u8).filter(|&wrong| wrong != length) {
        lists.push(tried(&prefix, slot, &[Call::poke(slot, 0, message[0], wrong)], end));
    }
    for tail in [1, 2, TAIL as u16] {
        let mut list = prefix.clone();
        list.calls.extend([Call::dump(end), Call { number: tail, ..Call::take(end, slot) }, Call::dump(end)]);
        lists.push(list);
    }
    lists
}

/// Random bytes of every length to 21, half of them with small values so that fields are often in range.
pub fn noise(seed: u64) -> List {
    let mut run = Run::open(seed);
    for _ in 0..20 {
        run.action();
    }
    let mut rng = Rng::new(!seed);
    for length in 0..=SLOT {
        let wide = rng.once_in(2);
        let mut bytes: Vec<u8> = (0..length).map(|_| if wide { rng.next() as u8 } else { rng.pick(&[0, 0, 0, 1, 1, 2, 3]) }).collect();
        if let Some(kind) = bytes.first_mut().filter(|_| rng.once_in(2)) {
            *kind = rng.between(0, 9) as u8;
        }
        run.give(0, &bytes);
        // by itself, and in a packet behind those before
        run.call(Call::add(0, 0, 1));
        for end in 0..=3 {
            run.call(Call::dump(end));
            run.call(Call::take(end, 0));
            run.call(Call::dump(end));
            run.call(Call::take_packet(end, 0));
            run.call(Call::take_at(end, 0, length));
            run.call(Call::dump(end));
        }
    }
    run.list
}
