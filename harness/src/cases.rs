//! The rule book's marked cases and edges, on every subject.

use crate::calls::{self, Calls, RUN_OUT};
use crate::layout::{self, Field};
use crate::limits::LINES;
use crate::list::*;
use crate::rankings;
use crate::report;
use crate::scripts;
use crate::world::World;
use std::fmt::Debug;

const P11: (&str, &str) = (
    "lines 2 items 10 20\n1 ins 1 30\n2 del 2\n1 up 1\n2 up 1\n1 down 1\n2 down 1\n",
    "0\n0\n0\n0\n0\n0\n0\nserver 30 10\nclient 1 30 10\nclient 2 30 10\n",
);

/// P12 as a script: the server takes client 2's edit, then client 1's two.
const P12: (&str, &str) = (
    "lines 2 items 10 20 30\n1 del 1\n1 ins 1 40\n2 ins 2 50\n2 up 1\n1 up 1\n1 up 2\n1 down 1\n2 down 1\n2 down 2",
    "0\n0\n0\n0\n0\n0\n0\n0\n0\n0\nserver 40 50 20 30\nclient 1 40 50 20 30\nclient 2 40 50 20 30\n",
);

/// Insert 48 is taken and 49 gives 10, also when items were deleted since.
fn inserts() -> (String, String) {
    let (mut input, mut output) = ("lines 1 items\n".to_string(), "0\n".to_string());
    let mut add = |line: String, refusal: u8| {
        input += &(line + "\n");
        output += &format!("{refusal}\n");
    };
    for number in 1..=400 {
        let edit = if number <= 48 {
            "1 ins 1 7"
        } else if number % 2 == 1 {
            "1 del 1"
        } else {
            "1 ins 1 7"
        };
        let over = number > 48 && number % 2 == 0;
        add(
            edit.to_string(),
            if over {
                10
            } else if number > 48 + 96 {
                9
            } else {
                0
            },
        );
        if !over && number <= 48 + 96 {
            let made = if number <= 48 { number } else { 48 + (number - 47) / 2 };
            add(format!("1 up {made}"), 0);
            add("1 told".to_string(), 0);
        }
    }
    output += "server\nclient 1\n";
    (input, output)
}

/// 64 pending, then 65 gives 12.
fn pending() -> (String, String) {
    let items: String = (0..128).map(|item| format!(" {item}")).collect();
    let mut input = format!("lines 1 items{items}\n");
    let mut output = "0\n".to_string();
    for number in 1..=65 {
        input += "1 del 1\n";
        output += if number <= 64 { "0\n" } else { "12\n" };
    }
    let rest = |from: u32| (from..128).map(|item| format!(" {item}")).collect::<String>();
    output += &format!("server{}\nclient 1{}\n", rest(0), rest(64));
    (input, output)
}

/// The first bytes of the slot that a list's last call shows: its length, and what stands in it.
fn shown(subject: &dyn Calls, mut list: List, slot: u8, bytes: usize) -> Result<Vec<u8>, String> {
    list.calls.push(Call::show(slot));
    let out = calls::output(subject, &list)?;
    Ok(out[out.len() - 1 - SLOT..][..bytes].to_vec())
}

/// P9 with its origin: the first edit of client 1. The bytes past the message stay.
fn p9(subject: &dyn Calls) -> Result<Vec<u8>, String> {
    let mut list = List::opened(2, vec![]);
    list.calls.extend([Call::insert(1, 1, 30), Call::send(1, 1, 1, 0, 20)]);
    shown(subject, list, 0, P9.len())
}

const P9: [u8; 20] = [17, 5, 1, 0, 0, 1, 0, 0, 0, 1, 0, 0, 0, 0x1E, 1, 1, 0, 1, FRESH, FRESH];

/// P10: three edits of client 2 reach the server, which acknowledges them.
fn p10(subject: &dyn Calls) -> Result<Vec<u8>, String> {
    let mut list = List::opened(2, vec![1, 2, 3]);
    for number in 1..=3 {
        list.calls.extend([Call::delete(2, 1), Call::send(2, 2, number, 0, MESSAGE), Call::take(0, 0)]);
    }
    list.calls.push(Call::acknowledge(0, 2, 1, 5));
    shown(subject, list, 1, P10.len())
}

const P10: [u8; 7] = [5, 4, 2, 1, 0, 3, FRESH];

/// The server's end opened, or that of a client.
fn open(subject: &dyn Calls, end: u8, bytes: &mut [u8], n: u8, ranks: &[u8], items: &[u8]) -> u64 {
    if end == 0 {
        subject.server_open(bytes, n, ranks, items)
    } else {
        subject.client_open(bytes, n, end, ranks, items)
    }
}

/// The places of a list: item, maker's line, maker's number.
type Places = Vec<(u32, u32, u32)>;

/// The lists of all ends after the calls of a list.
fn lists(subject: &dyn Calls, list: &List) -> Vec<Places> {
    let mut world = World::unwatched(subject);
    list.calls.iter().for_each(|call| world.perform(call, &list.initial, &mut Vec::new()));
    (0..=list.lines().unwrap()).map(|end| world.places(end)).collect()
}

/// Hands edits over: from client or server, the line, the number.
fn handed(list: &mut List, edits: &[(u8, u8, u16)]) {
    for &(from, line, number) in edits {
        list.calls.extend([Call::send(from, line, number, 0, MESSAGE), Call::take(if from == 0 { line } else { 0 }, 0)]);
    }
}

/// P11 as calls.
fn p11_calls() -> List {
    let mut list = List::opened(2, vec![10, 20]);
    list.calls.extend([Call::insert(1, 1, 30), Call::delete(2, 2)]);
    handed(&mut list, &[(1, 1, 1), (2, 2, 1), (0, 1, 1), (0, 2, 1)]);
    list
}

/// P12 as calls.
fn p12_calls() -> List {
    let mut list = List::opened(2, vec![10, 20, 30]);
    list.calls.extend([Call::delete(1, 1), Call::insert(1, 1, 40), Call::insert(2, 2, 50)]);
    handed(&mut list, &[(2, 2, 1), (1, 1, 1), (1, 1, 2), (0, 1, 1), (0, 2, 1), (0, 2, 2)]);
    list
}

/// P12 with origins, at all ends.
fn p12(subject: &dyn Calls) -> Result<(), String> {
    equal(vec![vec![(40, 1, 2), (50, 2, 1), (20, 0, 2), (30, 0, 3)]; 3], lists(subject, &p12_calls()))
}

/// The answers of a list's takings: refusal, pending edits passed, the position that arrived, the position applied. No other call has positions.
fn takings(subject: &dyn Calls, list: &List) -> Result<Vec<(u8, u16, u16, u16)>, String> {
    let out = calls::output(subject, list)?;
    let mut at = 0;
    let mut all = Vec::new();
    for call in &list.calls {
        let Answer { refusal, count, arrived, applied, read } = Answer::of(&out[at..]);
        if call.op == TAKE {
            all.push((refusal, count, arrived, applied));
        } else {
            equal((0, 0), (arrived, applied)).map_err(|text| format!("{}: {text}", call.words()))?;
        }
        equal(0, read)?;
        at += call.answer_length();
    }
    Ok(all)
}

/// The positions of P11 and P12: of their takings one edit alone moves, P11's delete at the server, up by one.
fn positions(subject: &dyn Calls) -> Result<(), String> {
    equal([(0, 0, 1, 1), (0, 1, 2, 3), (0, 0, 3, 3), (0, 0, 1, 1)], takings(subject, &p11_calls())?)?;
    let twelve = [(0, 0, 2, 2), (0, 1, 1, 1), (0, 1, 1, 1), (0, 0, 2, 2), (0, 0, 1, 1), (0, 0, 1, 1)];
    equal(twelve, takings(subject, &p12_calls())?)
}

/// Both clients delete one item: the other's delete is gone at client 2, and client 2's, written before, at the server. Client 1 takes nothing.
fn gone(subject: &dyn Calls) -> Result<(), String> {
    let mut list = List::opened(2, vec![10, 20, 30]);
    list.calls.extend([Call::delete(1, 2), Call::delete(2, 2), Call::send(2, 2, 1, 1, MESSAGE)]);
    handed(&mut list, &[(1, 1, 1), (0, 2, 1)]);
    list.calls.push(Call::take(0, 1));
    handed(&mut list, &[(0, 1, 1)]);
    equal([(0, 0, 2, 2), (0, 1, 2, 0), (0, 1, 2, 0), (0, 0, 0, 0)], takings(subject, &list)?)
}

/// A delete and an insert past another client's two deletes and three inserts, which move them down and up. Then a repeat, an early edit and
/// acknowledgements.
fn moves(subject: &dyn Calls) -> Result<(), String> {
    let mut list = List::opened(2, (1..=9).collect());
    list.calls.extend([Call::delete(1, 1), Call::delete(1, 2), Call::insert(1, 1, 5), Call::insert(1, 1, 6), Call::insert(1, 4, 7)]);
    list.calls.extend([Call::delete(2, 8), Call::insert(2, 2, 8)]);
    // client 1 takes both while all five of its own are pending
    handed(&mut list, &[(2, 2, 1), (2, 2, 2), (0, 1, 1), (0, 1, 2)]);
    let mut expected = vec![(0, 0, 8, 8), (0, 0, 2, 2), (0, 5, 8, 9), (0, 5, 2, 3)];
    // the server takes the five, which have now seen both
    handed(&mut list, &[(1, 1, 1), (1, 1, 2), (1, 1, 3), (1, 1, 4), (1, 1, 5)]);
    expected.extend([(0, 0, 1, 1), (0, 0, 3, 3), (0, 0, 1, 1), (0, 0, 1, 1), (0, 0, 5, 5)]);
    handed(&mut list, &[(1, 1, 5), (0, 2, 2)]);
    list.calls.extend([Call::acknowledge(0, 2, 0, MESSAGE), Call::take(2, 0), Call::acknowledge(2, 2, 0, MESSAGE), Call::take(0, 0)]);
    expected.extend([(5, 0, 0, 0), (6, 0, 0, 0), (0, 0, 0, 0), (0, 0, 0, 0)]);
    equal(expected, takings(subject, &list)?)
}

/// A delete, one that became nothing and an insert, as the server sends them to client 3: numbered 1 to 3 on its line, with the makers' lines
/// and numbers behind.
fn sent_on(subject: &dyn Calls) -> Result<(), String> {
    let mut list = List::opened(3, vec![10, 20, 30]);
    list.calls.extend([Call::delete(1, 1), Call::insert(1, 1, 40), Call::delete(2, 1)]);
    handed(&mut list, &[(1, 1, 1), (2, 2, 1), (1, 1, 2)]);
    let expected: [&[u8]; 3] = [
        &[12, 7, 3, 1, 0, 1, 0, 0, 0, 1, 1, 0, 1, FRESH],
        &[10, 8, 3, 1, 0, 2, 0, 0, 2, 0, 1, FRESH],
        &[17, 5, 3, 1, 0, 3, 0, 0, 0, 1, 0, 0, 0, 40, 1, 1, 0, 2, FRESH],
    ];
    for (number, bytes) in (1..).zip(expected) {
        let mut list = list.clone();
        list.calls.push(Call::send(0, 3, number, 1, MESSAGE));
        equal(bytes, shown(subject, list, 1, bytes.len())?)?;
    }
    Ok(())
}

/// What a list's last call answers: refusal, count, bytes read.
fn last_answer(subject: &dyn Calls, list: &List) -> Result<(u8, u16, u8), String> {
    let out = calls::output(subject, list)?;
    let Answer { refusal, count, read, .. } = Answer::of(&out[out.len() - ANSWER..]);
    Ok((refusal, count, read))
}

/// Three edits of client 1 in one packet behind two bytes that stay: an insert, a delete and one that became nothing.
fn packet_written(subject: &dyn Calls) -> Result<(), String> {
    let expected = [
        &[0, 41, FRESH, FRESH][..],
        &[5, 1, 0, 0, 1, 0, 1, 0, 1, 0, 0, 0, 40, 1, 1, 0, 1],
        &[7, 1, 0, 0, 2, 0, 1, 0, 2, 1, 0, 2],
        &[8, 1, 0, 0, 3, 0, 1, 1, 0, 3],
        &[FRESH],
    ]
    .concat();
    let mut list = three_pending();
    list.calls.push(Call::pack(1, 1, 0, 50, 2));
    equal((0, 39, 0), last_answer(subject, &list)?)?;
    list.calls.push(Call::show_packet(0));
    let out = calls::output(subject, &list)?;
    equal(&expected[..], &out[out.len() - 2 - PACKET..][..expected.len()])
}

/// Client 1 deletes what client 2 has deleted, and takes that.
fn three_pending() -> List {
    let mut list = List::opened(2, vec![10, 20, 30]);
    list.calls.extend([Call::delete(2, 2), Call::insert(1, 1, 40), Call::delete(1, 2), Call::delete(1, 2)]);
    handed(&mut list, &[(2, 2, 1), (0, 1, 1)]);
    list
}

/// The packet goes up: three are taken, then none and 5; with an edit more by its offset alone, or by itself once the others are acknowledged.
fn packet_taken(subject: &dyn Calls) -> Result<(), String> {
    let mut list = three_pending();
    let mut then = |calls: &[Call], expected: (u8, u16, u8)| {
        list.calls.extend_from_slice(calls);
        equal(expected, last_answer(subject, &list)?).map_err(|text| format!("{}: {text}", calls[calls.len() - 1].words()))
    };
    let pack = Call::pack(1, 1, 0, PACKET as u16, 0);
    then(&[pack, Call::take_packet(0, 0)], (0, 3, 0))?;
    then(&[Call::take_packet(0, 0)], (5, 0, 0))?;
    then(&[Call::insert(1, 2, 41), pack], (0, 56, 0))?;
    then(&[Call::take_packet(0, 0)], (5, 0, 0))?;
    then(&[Call::take_at(0, 0, 17)], (5, 0, 0))?;
    then(&[Call::take_at(0, 0, 39)], (0, 0, 17))?;
    then(&[Call::take_at(0, 0, 56)], (3, 0, 0))?;
    then(&[Call::acknowledge(0, 1, 0, MESSAGE), Call::take(1, 0), pack], (0, 0, 0))?;
    then(&[Call::pack(0, 2, 1, PACKET as u16, 0)], (0, 56, 0))?;
    then(&[Call::delete(1, 1), pack, Call::take_packet(2, 0)], (4, 0, 0))?;
    then(&[Call::take_packet(2, 1)], (0, 4, 0))?;
    let (both, all) = (vec![(40, 1, 1), (41, 1, 4), (30, 0, 3)], lists(subject, &list));
    equal((&both, &both), (&all[0], &all[2]))
}

/// A packet written behind 65,536 bytes and read in as many: what is small in 16 bits is not taken for it.
fn far_packets(subject: &dyn Calls) -> Result<(), String> {
    let mut world = World::unwatched(subject);
    let list = three_pending();
    list.calls.iter().for_each(|call| world.perform(call, &list.initial, &mut Vec::new()));
    let (client, mut server) = (world.end(1).to_vec(), world.end(0).to_vec());
    let mut out = vec![FRESH; 70_000];
    equal(39 << 8, subject.client_pack(&client, 1, &mut out, 65_536))?;
    equal(true, out[..65_536].iter().chain(&out[65_575..]).all(|&byte| byte == FRESH))?;
    let packet = out[65_536..65_575].to_vec();
    out[..39].copy_from_slice(&packet);
    let before = server.clone();
    equal((15, 15), (subject.server_take_packet(&mut server, &out[..65_575]), subject.server_take_at(&mut server, &out[..65_575], 0)))?;
    equal(true, server == before)?;
    equal(3 << 8, subject.server_take_packet(&mut server, &packet))
}

/// 128 opening items: line 0, and the places as numbers.
fn opening_origins(subject: &dyn Calls) -> Result<(), String> {
    let expected: Places = (1..=128).map(|place| (7, 0, place)).collect();
    equal(vec![expected; 9], lists(subject, &List::opened(8, vec![7; 128])))
}

/// The refusals of a list's takings back, in order.
fn takings_back(subject: &dyn Calls, list: &List) -> Result<Vec<u8>, String> {
    let out = calls::output(subject, list)?;
    let mut at = 0;
    let mut all = Vec::new();
    for call in &list.calls {
        if call.op == TAKE_BACK {
            all.push(out[at]);
        }
        at += call.answer_length();
    }
    Ok(all)
}

/// The list of client 1 after these calls of a sheet of two with items 10, 20 and 30, of which client 2 goes first.
fn client_1(subject: &dyn Calls, calls: &[Call]) -> Places {
    let mut list = List::ranked(&[2, 1], vec![10, 20, 30]);
    list.calls.extend_from_slice(calls);
    lists(subject, &list).swap_remove(1)
}

/// An insert taken back, and that again; a delete taken back, whose item comes back as a new step; further edits in between.
fn taken_back(subject: &dyn Calls) -> Result<(), String> {
    let (insert, delete, back) = (Call::insert(1, 2, 40), Call::delete(1, 2), Call::take_back(1));
    let opening = vec![(10, 0, 1), (20, 0, 2), (30, 0, 3)];
    equal(&opening, client_1(subject, &[insert, back]))?;
    equal([(10, 0, 1), (40, 1, 3), (20, 0, 2), (30, 0, 3)], client_1(subject, &[insert, back, back]).as_slice())?;
    equal(&opening, client_1(subject, &[insert, back, back, back]))?;
    equal([(10, 0, 1), (20, 1, 2), (30, 0, 3)], client_1(subject, &[delete, back]).as_slice())?;
    equal([(10, 0, 1), (30, 0, 3)], client_1(subject, &[delete, back, back]).as_slice())?;
    equal([(10, 0, 1), (20, 1, 4), (30, 0, 3)], client_1(subject, &[delete, back, back, back]).as_slice())?;
    // the latest edit alone is taken back
    let places = [(10, 0, 1), (40, 1, 1), (20, 1, 3), (30, 0, 3)];
    equal(places, client_1(subject, &[insert, Call::delete(1, 3), back]).as_slice())
}

/// What is taken back stands where its step would, past edits of client 2 that came meanwhile: in front, at its place, behind.
fn taken_back_later(subject: &dyn Calls) -> Result<(), String> {
    let after = |edit: Call, others: &[Call]| {
        let mut list = List::ranked(&[2, 1], vec![10, 20, 30]);
        list.calls.push(edit);
        list.calls.extend_from_slice(others);
        for number in 1..=others.len() as u16 {
            handed(&mut list, &[(2, 2, number), (0, 1, number)]);
        }
        list.calls.extend([Call::take_back(1), Call::send(1, 1, 1, 0, MESSAGE), Call::take(0, 0)]);
        handed(&mut list, &[(1, 1, 2), (0, 2, 1), (0, 2, 2)]);
        lists(subject, &list)
    };
    // client 2 goes first, so its insert stands before the step that is put back
    let places = vec![(10, 0, 1), (50, 2, 1), (20, 1, 2), (30, 0, 3)];
    equal(vec![places; 3], after(Call::delete(1, 2), &[Call::insert(2, 2, 50)]))?;
    let places = vec![(20, 1, 2), (30, 0, 3)];
    equal(vec![places; 3], after(Call::delete(1, 2), &[Call::delete(2, 1)]))?;
    let places = vec![(50, 2, 2), (10, 0, 1), (60, 2, 1), (20, 0, 2), (30, 0, 3)];
    equal(vec![places; 3], after(Call::insert(1, 2, 40), &[Call::insert(2, 2, 60), Call::insert(2, 1, 50)]))
}

/// 17 before any edit, and once another has deleted what was inserted; 12 with 64 pending, which leaves the inverse.
fn nothing_to_take_back(subject: &dyn Calls) -> Result<(), String> {
    let mut list = List::opened(2, (1..=128).collect());
    list.calls.extend([Call::take_back(1), Call::insert(1, 2, 40)]);
    handed(&mut list, &[(1, 1, 1), (0, 2, 1)]);
    list.calls.push(Call::delete(2, 2));
    handed(&mut list, &[(2, 2, 1), (0, 1, 1)]);
    list.calls.push(Call::take_back(1));
    equal([17, 17], takings_back(subject, &list)?.as_slice())?;
    list.calls.extend([Call::delete(1, 1); 64]);
    list.calls.extend([Call::take_back(1), Call::take_back(1)]);
    handed(&mut list, &[(1, 1, 2)]);
    list.calls.extend([Call::acknowledge(0, 1, 0, MESSAGE), Call::take(1, 0), Call::take_back(1), Call::take_back(1)]);
    equal([17, 17, 12, 12, 0, 12], takings_back(subject, &list)?.as_slice())
}

/// The lists of all ends after these clients inserted their line's number at one position of one list, the server took the edits in this order,
/// and everything was delivered.
fn tied(subject: &dyn Calls, ranks: &[u8], initial: &[u32], position: u16, order: &[u8]) -> Vec<Places> {
    let mut list = List::ranked(ranks, initial.to_vec());
    list.calls.extend(order.iter().map(|&line| Call::insert(line, position, line as u32)));
    for &line in order {
        list.calls.extend([Call::send(line, line, 1, 0, MESSAGE), Call::take(0, 0)]);
    }
    for line in 1..=ranks.len() as u8 {
        let others = order.iter().filter(|&&other| other != line).count() as u16;
        list.calls.extend((1..=others).flat_map(|number| [Call::send(0, line, number, 0, MESSAGE), Call::take(line, 0)]));
    }
    lists(subject, &list)
}

/// Client 5 has rank 1 and wins the tie against client 1, whichever of them the server takes first.
fn lead(subject: &dyn Calls) -> Result<(), String> {
    for order in [[1, 5], [5, 1]] {
        let lists = tied(subject, &[2, 3, 4, 5, 1], &[10, 20], 2, &order);
        equal(vec![vec![(10, 0, 1), (5, 5, 1), (1, 1, 1), (20, 0, 2)]; 6], lists)?;
    }
    Ok(())
}

/// Every ranking of four lines: all insert at one place, and the list is then in the order of the ranks.
fn ties(subject: &dyn Calls) -> Result<(), String> {
    for ranks in rankings::all(4) {
        for order in rankings::all(4) {
            let mut lines: Vec<u32> = (1..=4).collect();
            lines.sort_by_key(|&line| ranks[line as usize - 1]);
            let places: Places = lines.into_iter().map(|line| (line, line, 1)).collect();
            equal(vec![places; 5], tied(subject, &ranks, &[], 1, &order))
                .map_err(|text| format!("ranks {ranks:?}, order {order:?}: {text}"))?;
        }
    }
    Ok(())
}

/// Openings with every byte at every place of a ranking, with ranks that are n in 8 or 16 bits, and with every ranking of up to five
/// lines: 0 with ranks that are right, else 16, and then no byte changes.
fn ranks(subject: &dyn Calls) -> Result<(), String> {
    let mut all: Vec<(u8, Vec<u8>)> = (1..=5u8).flat_map(|n| rankings::all(n as usize).into_iter().map(move |ranks| (n, ranks))).collect();
    for n in 1..=LINES as u8 {
        let ranks: Vec<u8> = (1..=n).rev().collect();
        for at in 0..ranks.len() {
            all.extend((0..=255).map(|rank| (n, [&ranks[..at], &[rank], &ranks[at + 1..]].concat())));
        }
        all.extend([255, 256, 512, 65_536].map(|more| (n, [&ranks[..], &vec![1; more]].concat())));
    }
    for (n, ranks) in all {
        for end in [0, 1, n] {
            let mut bytes = vec![FRESH; layout::bytes(end)];
            let answer = open(subject, end, &mut bytes, n, &ranks, &[]);
            let right = is_ranking(n as usize, &ranks);
            let stayed = bytes.iter().all(|&byte| byte == FRESH);
            let ranks = &ranks[..ranks.len().min(16)];
            equal((if right { 0 } else { 16 }, !right), (answer, stayed)).map_err(|text| format!("n {n}, ranks {ranks:?}: {text}"))?;
        }
    }
    Ok(())
}

/// An end opened with item 7 in 65,536 bytes more than the layout has: the answer, the item, its origin, and whether the rest stayed.
fn far(subject: &dyn Calls, end: u8) -> (u64, u32, u32, bool) {
    let mut bytes = vec![FRESH; layout::bytes(end) + 65_536];
    let items = [0, 0, 0, 7];
    let answer = open(subject, end, &mut bytes, 3, &[2, 3, 1], &items);
    let [item, origin] = [Field::Item(0), Field::Origin(0)].map(|field| layout::read(&bytes, layout::word(end, 1, field).unwrap()));
    (answer, item, origin, bytes[layout::bytes(end)..].iter().all(|&byte| byte == FRESH))
}

/// What was expected, and what came.
fn equal(expected: impl Debug, came: impl Debug) -> Result<(), String> {
    let (expected, came) = (format!("{expected:?}"), format!("{came:?}"));
    if expected == came {
        Ok(())
    } else {
        Err(format!("expected {expected}; came {came}"))
    }
}

fn on(subject: &dyn Calls) -> bool {
    let script = |input: &str, output: &str| scripts::compare(output.as_bytes(), &calls::printed(subject, input.as_bytes(), RUN_OUT)?);
    let (inserts, pending) = (inserts(), pending());
    let verdicts = [
        ("P9", p9(subject).and_then(|came| equal(P9, came))),
        ("P10", p10(subject).and_then(|came| equal(P10, came))),
        ("P11", script(P11.0, P11.1)),
        ("P12", script(P12.0, P12.1)),
        ("P12 with origins", p12(subject)),
        ("positions of P11 and P12", positions(subject)),
        ("positions of an edit that is gone", gone(subject)),
        ("positions of edits that move", moves(subject)),
        ("edits sent on", sent_on(subject)),
        ("opening items' origins", opening_origins(subject)),
        ("an edit taken back", taken_back(subject)),
        ("taken back past other edits", taken_back_later(subject)),
        ("nothing to take back", nothing_to_take_back(subject)),
        ("a packet written", packet_written(subject)),
        ("a packet taken", packet_taken(subject)),
        ("packets in far more bytes", far_packets(subject)),
        ("inserts", script(&inserts.0, &inserts.1)),
        ("pending", script(&pending.0, &pending.1)),
        ("the layouts' lengths", equal((4656, 10392), (subject.client_bytes(), subject.server_bytes()))),
        ("ranks", ranks(subject)),
        ("client 5 with rank 1", lead(subject)),
        ("ties", ties(subject)),
        ("a client in far more bytes", equal((0, 7, 1, true), far(subject, 1))),
        ("a server in far more bytes", equal((0, 7, 1, true), far(subject, 0))),
    ];
    for (name, verdict) in &verdicts {
        if let Err(text) = verdict {
            report::heading(&format!("case {name}"), &format!("{text} ({})", subject.name()));
        }
    }
    verdicts.iter().all(|(_, verdict)| verdict.is_ok())
}

/// Runs all of them on every subject.
pub fn all(subjects: &[&dyn Calls]) -> bool {
    let fine = subjects.iter().all(|subject| on(*subject));
    if !fine {
        report::again("one Cases");
    }
    fine
}
