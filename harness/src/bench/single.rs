//! The time of single calls.

use super::{head, row, scripts, turns};
use crate::calls::Calls;
use crate::clock::thread as clock;
use crate::crafted::{client_at_limit, server_at_limit, LEAD};
use crate::edit::Edit;
use crate::limits::LONGEST_PACKET;
use crate::list::*;
use crate::literal::{self, Message, Numbered};
use crate::plain::slip::Plain;
use crate::world::World;
use std::cell::RefCell;
use std::hint::black_box;

/// How many edits are made on fresh bytes.
pub const BURST: u32 = 8;

/// A call on an end's bytes.
type Work = Box<dyn Fn(&dyn Calls, &mut [u8]) -> u64>;

/// One call to time.
struct Task {
    name: String,
    end: Vec<u8>,
    work: Work,
    refusal: u8,
    /// Calls on fresh bytes; none if the call changes no byte.
    burst: Option<u32>,
}

impl Task {
    fn new(name: impl Into<String>, end: &[u8], work: impl Fn(&dyn Calls, &mut [u8]) -> u64 + 'static) -> Task {
        Task { name: name.into(), end: end.to_vec(), work: Box::new(work), refusal: 0, burst: None }
    }

    fn refused(self, refusal: u8) -> Task {
        Task { refusal, ..self }
    }

    fn fresh(self, burst: u32) -> Task {
        Task { burst: Some(burst), ..self }
    }

    /// Nanoseconds for one call. A call that was taken out of the loop would stop the run: every answer has to be the one named.
    fn time(&self, subject: &dyn Calls) -> f64 {
        let mut end = self.end.clone();
        let mut answers = 0;
        let Some(burst) = self.burst else {
            let start = clock();
            for _ in 0..TIMES {
                answers += ((self.work)(subject, black_box(&mut end)) as u8 == self.refusal) as u32;
            }
            let spent = clock() - start;
            assert_eq!(answers, TIMES, "{}: {}", subject.name(), self.name);
            return spent / TIMES as f64;
        };
        let times = TIMES / burst;
        let start = clock();
        for _ in 0..times {
            black_box(&mut end).copy_from_slice(black_box(&self.end));
        }
        let copying = clock() - start;
        let start = clock();
        for _ in 0..times {
            black_box(&mut end).copy_from_slice(black_box(&self.end));
            for _ in 0..burst {
                answers += ((self.work)(subject, black_box(&mut end)) as u8 == self.refusal) as u32;
            }
        }
        let spent = clock() - start - copying;
        assert_eq!(answers, times * burst, "{}: {}", subject.name(), self.name);
        spent / (times * burst) as f64
    }
}

/// Calls in a turn.
const TIMES: u32 = 8_000;

/// The bytes of the ends after a list of calls, and the message in slot 0.
fn after(list: &List, end: u8) -> (Vec<u8>, Vec<u8>) {
    let mut world = World::unwatched(&Plain);
    list.calls.iter().for_each(|call| world.perform(call, &list.initial, &mut Vec::new()));
    (world.end(end).to_vec(), world.message(0).to_vec())
}

fn client(length: u16, kept: u16) -> (Vec<u8>, Vec<u8>) {
    after(&client_at_limit(length, kept), 1)
}

fn server(length: u16, kept: u16) -> (Vec<u8>, Vec<u8>) {
    after(&server_at_limit(47, length, kept), 0)
}

fn openings() -> Vec<Task> {
    let items: Vec<u8> = (1..=128u32).flat_map(u32::to_be_bytes).collect();
    let (for_client, for_server) = (items.clone(), items);
    vec![
        Task::new("client open, 128 items", &client(128, 0).0, move |calls, end| {
            calls.client_open(end, 8, 1, black_box(&LEAD), black_box(&for_client))
        }),
        Task::new("server open, 128 items", &server(128, 0).0, move |calls, end| {
            calls.server_open(end, 8, black_box(&LEAD), black_box(&for_server))
        }),
    ]
}

fn edits() -> Vec<Task> {
    let mut tasks = Vec::new();
    // a burst ends at the limits: 64 pending, 512 items
    for length in [128, 504] {
        for kept in [0, 8, 56] {
            let name = format!("client insert, from {kept} pending, {length} items");
            let (end, _) = client(length, kept);
            tasks.push(Task::new(name, &end, move |calls, end| calls.client_insert(end, length / 2, 5)).fresh(BURST));
        }
    }
    let delete = |calls: &dyn Calls, end: &mut [u8]| calls.client_delete(end, 200);
    tasks.push(Task::new("client delete, from 8 pending, 512 items", &client(512, 8).0, delete).fresh(BURST));
    let back = |calls: &dyn Calls, end: &mut [u8]| calls.client_take_back(end);
    for length in [128, 504] {
        let mut list = client_at_limit(length, 8);
        list.calls.push(Call::insert(1, length / 2, 5));
        tasks.push(Task::new(format!("client take back, from 9 pending, {length} items"), &after(&list, 1).0, back).fresh(BURST));
    }
    // everything but the writing: question 9 says no
    for (length, kept) in [(128, 0), (511, 64)] {
        let name = format!("client insert refused, {kept} pending, {length} items");
        tasks.push(Task::new(name, &client(length, kept).0, |calls, end| calls.client_insert(end, 0, 5)).refused(9));
    }
    tasks
}

fn takings() -> Vec<Task> {
    let mut tasks = Vec::new();
    for length in [128, 511] {
        for kept in [0, 8, 64] {
            let (end, message) = client(length, kept);
            let name = format!("client take, {kept} pending, {length} items");
            tasks.push(Task::new(name, &end, move |calls, end| calls.client_take(end, black_box(&message))).fresh(1));
        }
    }
    for length in [128, 510] {
        for kept in [0, 8, 64] {
            let (end, message) = server(length, kept);
            let name = format!("server take, {kept} pending, {length} items");
            tasks.push(Task::new(name, &end, move |calls, end| calls.server_take(end, black_box(&message))).fresh(1));
        }
    }
    tasks
}

fn sendings() -> Vec<Task> {
    let out = || black_box([0; MESSAGE as usize]);
    let (client_end, server_end) = (client(128, 8).0, server(128, 8).0);
    let mut tasks = vec![
        Task::new("client send, 8 pending, 128 items", &client_end, move |calls, end| calls.client_send(end, 1, 4, &mut out())),
        Task::new("server send, 8 pending, 128 items", &server_end, move |calls, end| calls.server_send(end, 1, 330, &mut out())),
        Task::new("client acknowledge, 8 pending, 128 items", &client_end, move |calls, end| calls.client_acknowledge(end, 1, &mut out())),
        Task::new("server acknowledge, 8 pending, 128 items", &server_end, move |calls, end| calls.server_acknowledge(end, 1, &mut out())),
    ];
    // a line that is none: question 2 is asked, then 4 says no
    for (length, kept) in [(128, 0), (511, 64)] {
        let name = format!("client soundness alone, {kept} pending, {length} items");
        let call = move |calls: &dyn Calls, end: &mut [u8]| calls.client_acknowledge(end, 0, &mut out());
        tasks.push(Task::new(name, &client(length, kept).0, call).refused(4));
    }
    for (length, kept) in [(128, 0), (510, 64)] {
        let name = format!("server soundness alone, {kept} pending, {length} items");
        let call = move |calls: &dyn Calls, end: &mut [u8]| calls.server_acknowledge(end, 0, &mut out());
        tasks.push(Task::new(name, &server(length, kept).0, call).refused(4));
    }
    tasks
}

/// An end of line 1 with so many edits pending, and a packet of inserts that it takes.
fn with_packet(is_server: bool, kept: u16, count: u16) -> (Vec<u8>, Vec<u8>) {
    let (list, first, seen) =
        if is_server { (server_at_limit(40, 128, kept), 49, 48 * 7 - kept) } else { (client_at_limit(128, kept), 1, 0) };
    let (maker, rank) = if is_server { (1, LEAD[0]) } else { (5, LEAD[4]) };
    let message = |number: u16| {
        let numbered = Some(Numbered { number, edit: Edit::Insert(65, 5, rank), origin: (maker, number) });
        literal::write(&Message { line: 1, direction: !is_server as u8, numbered, seen })
    };
    (after(&list, !is_server as u8).0, (first..first + count).flat_map(message).collect())
}

fn packets() -> Vec<Task> {
    let mut tasks = Vec::new();
    for (is_server, name) in [(false, "client"), (true, "server")] {
        for kept in [8, 64] {
            let out = RefCell::new([0; LONGEST_PACKET]);
            let pack = move |calls: &dyn Calls, end: &mut [u8]| {
                let mut out = black_box(&out).borrow_mut();
                if is_server {
                    calls.server_pack(end, 1, &mut *out, 0)
                } else {
                    calls.client_pack(end, 1, &mut *out, 0)
                }
            };
            tasks.push(Task::new(format!("{name} pack, {kept} pending, 128 items"), &with_packet(is_server, kept, 0).0, pack));
        }
        for (count, kept) in [(1, 8), (8, 0), (8, 8)] {
            let (end, packet) = with_packet(is_server, kept, count);
            let take = move |calls: &dyn Calls, end: &mut [u8]| {
                if is_server {
                    calls.server_take_packet(end, black_box(&packet))
                } else {
                    calls.client_take_packet(end, black_box(&packet))
                }
            };
            tasks.push(Task::new(format!("{name} take packet of {count}, {kept} pending, 128 items"), &end, take).fresh(1));
        }
        let (end, packet) = with_packet(is_server, 8, 8);
        let take = move |calls: &dyn Calls, end: &mut [u8]| {
            if is_server {
                calls.server_take_at(end, black_box(&packet), 0)
            } else {
                calls.client_take_at(end, black_box(&packet), 0)
            }
        };
        tasks.push(Task::new(format!("{name} take at the front of a packet, 8 pending, 128 items"), &end, take).fresh(1));
    }
    tasks
}

pub fn table(subjects: &[&dyn Calls]) -> String {
    let mut table = head("call", subjects);
    for task in [openings(), edits(), takings(), sendings(), packets()].into_iter().flatten() {
        table += &row(&task.name, &turns(subjects, |subject| task.time(subject)));
    }
    table += &scripts::whole(subjects);
    eprintln!();
    table
}
