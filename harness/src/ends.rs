//! Damaged ends: fields at their edges and past their width, and every byte of the layout.

use crate::damage::{self, furnished};
use crate::generate::Run;
use crate::layout::{self, Field, NUMBERS};
use crate::limits::LINES;
use crate::list::*;
use crate::plain::slip::Plain;
use crate::rng::Rng;
use crate::world::World;

/// The edge values of a number.
fn edge_values(field: Field) -> &'static [u32] {
    match field {
        Field::N | Field::Line => &[0, 1, 2, 3, 4, 7, 8, 9, 255],
        Field::Length => &[0, 1, 19, 20, 21, 22, 128, 511, 512, 513, 65_535],
        Field::Initial => &[0, 17, 18, 19, 127, 128, 129, 255],
        Field::Made => &[0, 1, 2, 3, 63, 64, 65, 66, 399, 400, 401, 2799, 2800, 2801, 65_535],
        Field::Taken => &[0, 1, 2, 399, 400, 401, 2799, 2800, 2801, 65_535],
        Field::Acked => &[0, 1, 2, 3, 64, 65, 400, 401, 2800, 65_535],
        Field::Inserts => &[0, 1, 2, 47, 48, 49, 255],
        Field::Total => &[0, 1, 4095, 4096, 65_535, 512 * 4095, 512 * 4095 + 1],
        _ => &[0, 1, u32::MAX],
    }
}

/// Values that would be in range if their upper bytes were not looked at, and others of more than 16 bits.
const WIDE: [u32; 8] = [256 + 3, 65_536, 65_536 + 1, 65_536 + 3, 65_536 + 20, 70_000, (1 << 24) + 3, u32::MAX];

/// A pending edit's place and item.
pub fn pending(end: u8, line: u8, index: u16, place: u32, item: u32) -> [Call; 2] {
    [Call::field(end, line, Field::Place(index), place), Call::field(end, line, Field::Brought(index), item)]
}

/// Origins at their edges: makers to 9 and 255, numbers to 401 and 65,535, and a word's upper bits.
const ORIGINS: [u32; 18] = {
    const ONE: u32 = 1 << 16;
    [
        0,
        1,
        400,
        ONE,
        ONE + 1,
        ONE + 400,
        ONE + 401,
        ONE + 65_535,
        2 * ONE,
        2 * ONE + 1,
        3 * ONE + 1,
        3 * ONE + 400,
        4 * ONE + 1,
        8 * ONE + 1,
        9 * ONE + 1,
        (1 << 24) + ONE + 1,
        (1 << 31) + 2 * ONE + 1,
        u32::MAX,
    ]
};

/// The calls that ask question 2, at one end, with dumps around each.
fn probes(end: u8, list: &mut List) {
    let slots: &[u8] = if end == 0 { &[0, 6, 9, 60] } else { &[1, 2, 3, 7, 8, 60] };
    let mut calls = vec![
        Call::send(end, end.max(1), 1, 20, MESSAGE),
        Call::send(end, end.max(1), 2, 20, MESSAGE),
        Call::acknowledge(end, end.max(1), 21, MESSAGE),
    ];
    // packet 3 has no bytes, packet 2 one that is no message
    list.calls.push(Call::poke_packet(2, 0, 9, 1));
    calls.extend([
        Call::pack(end, end.max(1), 1, PACKET as u16, 0),
        Call::take_packet(end, 3),
        Call::take_packet(end, 2),
        Call::take_at(end, 2, 0),
    ]);
    calls.extend(slots.iter().map(|&slot| Call::take(end, slot)));
    if end != 0 {
        calls.extend([Call::take_back(end), Call::insert(end, 1, 5), Call::take_back(end), Call::take_back(end)]);
        calls.extend([Call::delete(end, 1), Call::delete(end, 20), Call::take_back(end)]);
    }
    for call in calls {
        list.calls.push(Call::dump(end));
        list.calls.push(call);
    }
    list.calls.push(Call::dump(end));
}

/// Every field of both kinds of end set to each of its edge values and to wider ones; then every kind of call.
pub fn ends(seed: u64) -> Vec<List> {
    let (prefix, world) = furnished(seed);
    let mut lists = Vec::new();
    let mut add = |sets: &[Call], end: u8| {
        let mut list = prefix.clone();
        list.calls.extend_from_slice(sets);
        probes(end, &mut list);
        lists.push(list);
    };
    for end in [0, 1, 2] {
        for field in NUMBERS {
            for &value in edge_values(field).iter().chain(&WIDE) {
                let of_a_line = matches!(field, Field::Made | Field::Taken | Field::Acked | Field::Inserts);
                for line in if end == 0 && of_a_line { 1..=4 } else { 1..=1 } {
                    if let Some(word) = layout::word(end, line, field) {
                        add(&[Call::set(end, word, value)], end);
                    }
                }
            }
        }
        for index in [0, 17, 18, 19, 20, 21, 127, 128, 300, 511] {
            for &value in edge_values(Field::Item(index)) {
                let item = Call::field(end, 0, Field::Item(index), value);
                add(&[item], end);
                // and with the total that it then has
                add(&[item, total_with(&world, end, index, value)], end);
            }
            for value in ORIGINS {
                add(&[Call::field(end, 0, Field::Origin(index), value)], end);
            }
        }
        for line in if end == 0 { 1..=8 } else { 1..=1 } {
            for sets in pending_sets(end, line) {
                add(&sets, end);
            }
            for (index, value) in [0, 1, 2, 63].into_iter().flat_map(|index| ORIGINS.map(|value| (index, value))) {
                if let Some(word) = layout::word(end, line, Field::PendingOrigin(index)) {
                    add(&[Call::set(end, word, value)], end);
                }
            }
        }
        let total = layout::seconds(&world.items(end as usize));
        for change in [u32::MAX, 1, 4096, 65_536] {
            add(&[Call::field(end, 1, Field::Total, total.wrapping_add(change))], end);
        }
        for sets in inverse_sets(end, damage::ranks(seed).get((end as usize).wrapping_sub(1)).copied()) {
            add(&sets, end);
        }
        for (field, value) in rank_words(&damage::ranks(seed)) {
            add(&[Call::field(end, 0, field, value)], end);
        }
        for byte in [0, 1, 255] {
            add(&[Call::fill(end, byte)], end);
        }
    }
    [several(seed), lists].concat()
}

/// The total of an end's list with another item at an index; past the list's end it is the list's own.
fn total_with(world: &World<Plain>, end: u8, index: u16, value: u32) -> Call {
    let mut items = world.items(end as usize);
    if let Some(item) = items.get_mut(index as usize) {
        *item = value;
    }
    Call::field(end, 1, Field::Total, layout::seconds(&items))
}

/// The same with several fields of an end at once.
pub fn several(seed: u64) -> Vec<List> {
    let (prefix, _) = furnished(seed);
    let mut lists = Vec::new();
    for end in [0, 1, 2] {
        for sets in together(end, &damage::ranks(seed)) {
            let mut list = prefix.clone();
            list.calls.extend(sets);
            probes(end, &mut list);
            lists.push(list);
        }
    }
    lists
}

/// The words of ranks with each of their eight bytes at its edge values, the zeros past n too; and two ranks exchanged, which is a ranking.
fn rank_words(ranks: &[u8]) -> Vec<(Field, u32)> {
    let mut all = Vec::new();
    let mut add = |ranks: &[u8], at: usize| all.push((Field::Ranks(at as u16 / 4), layout::rank_words(ranks)[at / 4]));
    let mut eight = ranks.to_vec();
    eight.resize(LINES, 0);
    for at in 0..LINES {
        for rank in [0, 1, 2, 3, 4, 5, 8, 9, 31, 32, 33, 63, 64, 65, 127, 128, 255] {
            let mut damaged = eight.clone();
            damaged[at] = rank;
            add(&damaged, at);
        }
    }
    for (one, other) in [(0, 1), (0, 2), (1, 2), (2, 3)] {
        let mut exchanged = eight.clone();
        exchanged.swap(one, other);
        add(&exchanged, one);
    }
    all
}

/// Pending places, used and unused, with edits whose positions and priorities are at their edges.
fn pending_sets(end: u8, line: u8) -> Vec<Vec<Call>> {
    let mut all = Vec::new();
    for index in [0, 1, 2, 3, 62, 63] {
        for (top, position, priority, item) in [
            (0, 0, 0, 0),
            (0, 0, 0, 5),
            (0, 0, 1, 0),
            (0, 0, 1, 5),
            (0, 1, 0, 0),
            (0, 1, 0, 5),
            (0, 512, 0, 0),
            (0, 513, 0, 0),
            (0, 65_535, 0, 0),
            (1, 0, 0, 0),
            (1, 1, 0, 0),
            (2, 1, 2, 5),
            (254, 1, 2, 5),
            (255, 1, 0, 0),
            (0, 1, 1, 0),
            (0, 512, 1, 5),
            (0, 512, 2, 5),
            (0, 513, 2, 5),
            (0, 1, 2, 5),
            (0, 1, 3, 5),
            (0, 1, 4, 5),
            (0, 1, 8, 5),
            (0, 1, 9, 5),
            (0, 1, 17, 5),
            (0, 1, 255, 5),
        ] {
            all.push(pending(end, line, index, top << 24 | position << 8 | priority, item).to_vec());
        }
    }
    all
}

/// A client's inverse at the edges of both its words: every priority that another has, positions to 513 and past it, items that mean nothing. Each
/// is asked before any other call, at a taking and at a taking back.
fn inverse_sets(end: u8, rank: Option<u8>) -> Vec<Vec<Call>> {
    let Some(rank) = rank.map(u32::from) else {
        return Vec::new();
    };
    let mut all = Vec::new();
    for position in [0, 1, 2, 19, 20, 21, 22, 511, 512, 513, 514, 515, 65_535] {
        for (top, priority, item) in
            [(0, 0, 0), (0, 0, 5), (0, rank, 0), (0, rank, 5), (0, rank % 3 + 1, 5), (1, 0, 0), (2, rank, 5), (128, 0, 0), (255, rank, 5)]
        {
            all.push(inverse(end, top << 24 | position << 8 | priority, item).to_vec());
        }
    }
    all.extend([4, 5, 8, 9, 16 + rank, 32 + rank, 64 + rank, 128 + rank, 255].map(|priority| inverse(end, 1 << 8 | priority, 5).to_vec()));
    all.extend([1, 255, 256, 1 << 16, 1 << 24, 1 << 31, u32::MAX].map(|item| inverse(end, 0, item).to_vec()));
    all
}

/// A client's inverse, as place and item.
pub fn inverse(end: u8, place: u32, item: u32) -> [Call; 2] {
    [Call::field(end, 1, Field::InversePlace, place), Call::field(end, 1, Field::InverseItem, item)]
}

/// Several fields at once, so that one conjunct alone is false or a limit is reached with all others kept.
fn together(end: u8, ranks: &[u8]) -> Vec<Vec<Call>> {
    if end == 0 {
        together_at_server(ranks)
    } else {
        together_at_client(end, ranks)
    }
}

fn together_at_client(end: u8, ranks: &[u8]) -> Vec<Vec<Call>> {
    let rank = ranks[end as usize - 1] as u32;
    let set = |field: Field, value: u32| Call::field(end, 1, field, value);
    let edits = |indices: std::ops::Range<u16>, position: u32, priority: u32| -> Vec<Call> {
        indices.flat_map(|index| pending(end, 1, index, position << 8 | priority, 9 * (priority != 0) as u32)).collect()
    };
    let all_pending = |made: u32, acked: u32| [vec![set(Field::Made, made), set(Field::Acked, acked)], edits(0..64, 1, 0)].concat();
    // no edit was made yet, and something is to be taken back
    let unmade = |place: u32, item: u32| {
        let none = vec![set(Field::Made, 0), set(Field::Acked, 0), set(Field::Inserts, 0)];
        [none, edits(0..4, 0, 0), inverse(end, place, item).to_vec()].concat()
    };
    // acked above made, and nothing else wrong
    let backwards = |acked: u32| [all_pending(0, acked), vec![set(Field::Inserts, 0)], inverse(end, 0, 0).to_vec()].concat();
    let full = |made: u32, place: u32| [all_pending(made, made - 64), inverse(end, place, 0).to_vec()].concat();
    vec![
        unmade(0, 0),
        unmade(0, 5),
        unmade(1 << 8, 0),
        unmade(1 << 8 | rank, 5),
        // 17 before 11 and 12, and unsound with nothing to take back
        full(400, 0),
        full(400, 1 << 8),
        full(64, 0),
        full(64, 1 << 8),
        full(64, 1 << 8 | rank),
        full(64, 513 << 8),
        full(401, 0),
        // every insert made: 10
        [
            vec![set(Field::Made, 400), set(Field::Acked, 400), set(Field::Inserts, 48)],
            edits(0..4, 0, 0),
            inverse(end, 1 << 8 | rank, 5).to_vec(),
        ]
        .concat(),
        all_pending(64, 0),
        all_pending(65, 0),
        all_pending(65, 1),
        all_pending(400, 336),
        all_pending(401, 337),
        [all_pending(400, 336), vec![set(Field::Inserts, 48)]].concat(),
        [all_pending(400, 336), vec![set(Field::Inserts, 49)]].concat(),
        backwards(1),
        backwards(65_472),
        backwards(u32::MAX - 63),
        vec![set(Field::Taken, 2800)],
        vec![set(Field::Taken, 2801)],
        vec![set(Field::N, 9), set(Field::Line, 9)],
        [all_pending(64, 0), vec![set(Field::Line, 0)]].concat(),
        [all_pending(64, 0), vec![set(Field::Line, 4)]].concat(),
        vec![set(Field::N, 0), set(Field::Line, 0)],
        vec![set(Field::N, 256 + 3), set(Field::Line, 256 + end as u32)],
        vec![set(Field::Made, 65_536), set(Field::Acked, 65_536)],
        vec![set(Field::Length, 512)],
        [all_pending(64, 0), edits(0..64, 512, rank)].concat(),
        [all_pending(10, 0), edits(0..10, 512, rank), edits(10..64, 0, 0)].concat(),
        // a rank more, or one fewer, than n says
        vec![set(Field::N, 4), set(Field::Ranks(0), layout::rank_words(&[ranks, &[4]].concat())[0])],
        vec![set(Field::N, 2)],
        vec![set(Field::N, 2), set(Field::Line, 1), set(Field::Ranks(0), layout::rank_words(&[1, 2])[0])],
        vec![set(Field::N, 2), set(Field::Line, 1), set(Field::Ranks(0), layout::rank_words(&[2, 1])[0])],
    ]
}

fn together_at_server(ranks: &[u8]) -> Vec<Vec<Call>> {
    let set = |line: u8, field: Field, value: u32| Call::field(0, line, field, value);
    // so many edits of line 1 pending on another line, all of which became nothing
    let unacked = |line: u8, count: u16| {
        let origin = |index: u16| set(line, Field::PendingOrigin(index), layout::origin_word((1, index + 1)));
        [vec![set(line, Field::Acked, 0)], (0..count).map(origin).collect()].concat()
    };
    // three lines: taken (a, b, c), made the sums of the others, nothing pending
    let counts = |a: u32, b: u32, c: u32| {
        let mut sets = Vec::new();
        for (line, taken, made) in [(1, a, b + c), (2, b, a + c), (3, c, a + b)] {
            sets.extend([set(line, Field::Taken, taken), set(line, Field::Made, made), set(line, Field::Acked, made)]);
            sets.extend((0..4).flat_map(|index| pending(0, line, index, 0, 0)));
            sets.extend((0..4).map(|index| set(line, Field::PendingOrigin(index), 0)));
        }
        sets
    };
    let with = |sets: Vec<Call>, more: &[Call]| [&sets[..], more].concat();
    // nothing taken yet, n and the ranks of lines 1 to 4
    let ranked = |n: u32, ranks: &[u8]| {
        let zero = [1, 2, 3].map(|line| set(line, Field::Inserts, 0));
        with(counts(0, 0, 0), &[&zero[..], &[set(0, Field::N, n), set(0, Field::Ranks(0), layout::rank_words(ranks)[0])]].concat())
    };
    vec![
        counts(400, 400, 400),
        counts(401, 400, 400),
        counts(1, 401, 0),
        counts(65_536, 0, 0),
        with(counts(100, 100, 100), &[set(1, Field::Inserts, 48), set(2, Field::Inserts, 48), set(3, Field::Inserts, 48)]),
        with(counts(100, 100, 100), &[set(1, Field::Inserts, 49)]),
        with(
            counts(100, 100, 100),
            &[set(2, Field::Inserts, 48), set(2, Field::Taken, 47), set(1, Field::Made, 147), set(3, Field::Made, 147)],
        ),
        with(counts(64, 0, 0), &[unacked(2, 64), unacked(3, 64)].concat()),
        with(counts(65, 0, 0), &[unacked(2, 64), unacked(3, 64)].concat()),
        with(counts(63, 0, 0), &[unacked(2, 63), vec![set(3, Field::Acked, 63)]].concat()),
        // an origin too few, one too many, one of the line itself, and all of a number that is none
        with(counts(64, 0, 0), &unacked(2, 63)),
        with(counts(63, 0, 0), &unacked(2, 64)),
        with(counts(64, 0, 0), &[unacked(2, 64), vec![set(2, Field::PendingOrigin(40), layout::origin_word((2, 1)))]].concat()),
        with(counts(64, 0, 0), &[unacked(2, 64), vec![set(2, Field::PendingOrigin(63), layout::origin_word((1, 401)))]].concat()),
        with(counts(64, 0, 0), &[set(1, Field::Inserts, 0), set(3, Field::Inserts, 0), set(0, Field::Initial, 18)]),
        with(counts(64, 0, 0), &[set(0, Field::Initial, 17)]),
        vec![set(4, Field::Acked, 1)],
        vec![set(4, Field::Inserts, 1)],
        vec![set(0, Field::N, 4)],
        vec![set(0, Field::N, 2)],
        ranked(3, ranks),
        ranked(4, ranks),
        ranked(4, &[ranks, &[4]].concat()),
        ranked(2, ranks),
        ranked(2, &[1, 2]),
        ranked(2, &[2, 1]),
        ranked(2, &[2, 2]),
    ]
}

/// One end of a random run, every word of it damaged in turn by a bit and put back: each byte of the layout is looked at, or the end is another
/// sound one. Neighbouring seeds take different ends and bits.
pub fn words(seed: u64) -> Vec<List> {
    let mut run = Run::open(seed);
    for _ in 0..60 {
        run.action();
    }
    let mut rng = Rng::new(!seed);
    let end = if rng.once_in(2) { 0 } else { rng.between(1, run.n) as u8 };
    let mut damaged = |word: u16| {
        let value = layout::read(run.world.end(end), word);
        let (bit, asks) = (1 << rng.below(32), Call::acknowledge(end, end.max(1), 0, SLOT as u8));
        [Call::set(end, word, value ^ bit), Call::dump(end), asks, Call::set(end, word, value), Call::dump(end)]
    };
    let words: Vec<u16> = (0..layout::words(end) as u16).collect();
    let parts: Vec<Vec<Call>> = words.chunks(200).map(|part| part.iter().flat_map(|&word| damaged(word)).collect()).collect();
    parts.iter().map(|part| List { initial: run.list.initial.clone(), calls: [&run.list.calls[..], part].concat() }).collect()
}
