//! The shortest runs that reach each limit, within the third demand: 64 pending at a client and at the server, 48 inserts, 400 edits, nothing to
//! take back.

use crate::edges::exchange;
use crate::generate::Run;
use crate::limits::*;
use crate::list::*;
use crate::rng::Rng;

/// One run for each limit, and one more of each.
pub fn all() -> Vec<List> {
    vec![client_full(), server_full(), all_inserts(), all_edits(), deleted_by_another(), nothing_left()]
}

/// Sends an edit and has it taken: from client or server, the line, the number.
fn handed(from: u8, line: u8, number: u16) -> [Call; 2] {
    [Call::send(from, line, number, 0, MESSAGE), Call::take(if from == 0 { line } else { 0 }, 0)]
}

/// The server's acknowledgement, taken by the client of the line.
fn acknowledged(line: u8) -> [Call; 2] {
    [Call::acknowledge(0, line, 1, MESSAGE), Call::take(line, 1)]
}

/// Client 1 makes 64 edits and hears nothing. Edits past its list, and one more edit.
fn client_full() -> List {
    let mut list = List::opened(1, (1..=INITIAL as u32).collect());
    list.calls.extend([Call::delete(1, 1); PENDING]);
    list.calls.extend([
        Call::dump(1),
        Call::delete(1, 65),
        Call::insert(1, 66, 5),
        Call::delete(1, 1),
        Call::insert(1, 1, 5),
        Call::take_back(1),
        Call::dump(1),
    ]);
    list
}

/// 64 edits of client 1 are pending on line 2, whose client has seen none. Its next one is refused; line 2's passes all 64.
fn server_full() -> List {
    let mut list = List::opened(2, (1..=INITIAL as u32).collect());
    for number in 1..=PENDING as u16 {
        list.calls.push(Call::delete(1, number % 3 + 1));
        list.calls.extend(handed(1, 1, number));
    }
    list.calls.extend(acknowledged(1));
    list.calls.extend([Call::delete(1, 9), Call::delete(2, 20), Call::dump(0)]);
    list.calls.extend([handed(1, 1, PENDING as u16 + 1), handed(2, 2, 1)].concat());
    list.calls.push(Call::dump(0));
    list
}

/// Client 1 makes every insert that it may. One more, also past its list.
fn all_inserts() -> List {
    let mut list = List::opened(1, vec![1, 2]);
    for number in 1..=INSERTS {
        list.calls.push(Call::insert(1, 1 + number % 3, number as u32));
        list.calls.extend(handed(1, 1, number));
    }
    list.calls.extend(acknowledged(1));
    list.calls.extend([Call::insert(1, 1, 5), Call::insert(1, 52, 5), Call::delete(1, 1), Call::take_back(1)]);
    list.calls.extend([Call::dump(1), Call::dump(0)]);
    list
}

/// Client 1 makes 400 edits: the inserts of four others are enough for its deletes. The last 64 stay pending. One more, also past its list, and
/// a taking back.
fn all_edits() -> List {
    let mut run = Run::sized(Rng::new(0), 5, INITIAL);
    for number in 0..EDITS {
        if number < INSERTS {
            for line in 1..=5 {
                run.call(Call::insert(line, 1, number as u32));
            }
        } else {
            run.call(Call::delete(1, 1));
        }
        if number % 8 == 7 && number < EDITS - PENDING as u16 {
            (1..=5).for_each(|line| exchange(&mut run, line));
        }
    }
    for call in [Call::delete(1, 1), Call::insert(1, 1, 5), Call::delete(1, 99), Call::take_back(1), Call::dump(1), Call::dump(0)] {
        run.call(call);
    }
    run.list
}

/// Client 2 deletes what client 1 inserted, and nothing is left to take back; the next edit can be taken back again.
fn deleted_by_another() -> List {
    let mut list = List::opened(2, vec![1, 2]);
    list.calls.extend([Call::take_back(1), Call::insert(1, 2, 5)]);
    list.calls.extend([handed(1, 1, 1), handed(0, 2, 1)].concat());
    list.calls.push(Call::delete(2, 2));
    list.calls.extend([handed(2, 2, 1), handed(0, 1, 1)].concat());
    list.calls.extend([Call::dump(1), Call::take_back(1), Call::delete(1, 1), Call::take_back(1), Call::dump(1)]);
    list
}

/// Client 1 makes 400 edits, the last one an insert, whose item client 2 deletes: nothing is left to take back, and no edit either.
fn nothing_left() -> List {
    let mut run = Run::sized(Rng::new(1), 5, INITIAL);
    for number in 0..EDITS {
        let lines = if number < INSERTS - 1 { 1..=5 } else { 1..=1 };
        for line in lines {
            let insert = number < INSERTS - 1 || number == EDITS - 1;
            run.call(if insert { Call::insert(line, 1, number as u32) } else { Call::delete(1, 1) });
        }
        if number % 8 == 7 {
            (1..=5).for_each(|line| exchange(&mut run, line));
        }
    }
    run.call(Call::take_back(1));
    // client 2 takes the insert, and client 1 the delete
    [1, 2].into_iter().for_each(|line| exchange(&mut run, line));
    run.call(Call::delete(2, 1));
    [2, 1].into_iter().for_each(|line| exchange(&mut run, line));
    for call in [Call::dump(1), Call::take_back(1), Call::dump(1)] {
        run.call(call);
    }
    run.list
}
