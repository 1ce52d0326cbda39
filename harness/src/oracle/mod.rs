//! What the rule book says that a list of calls has to answer, from the history of accepted calls alone: no buffer is kept here.
//!
//! Every pending edit, message, list and taking's two positions are asked of the recursive definition (`form`) and of the graph (`cjupiter`). The
//! oracle follows a list as long as it is one of those that the third demand speaks of; from the first call that is none (an end
//! overwritten, a message that nobody wrote taken) it says nothing more.

mod calls;
mod orders;
mod views;

use crate::cjupiter::CJupiter;
use crate::describe::difference;
use crate::edit::{opening, Carried, Edit, Origin, Place};
use crate::form::{History, Set};
use crate::layout;
use crate::limits::*;
use crate::list::*;
use orders::Orders;
use std::collections::HashSet;

/// What is counted on one side of a line, at the client or at the server.
#[derive(Clone, Copy, Default)]
struct Counts {
    made: u16,
    taken: u16,
    acked: u16,
    inserts: u16,
}

/// A line: both sides' counts, and the other clients' edits in the server's order.
#[derive(Default)]
struct Line {
    client: Counts,
    server: Counts,
    /// Places of the others' edits in the server's order.
    others: Vec<usize>,
    /// The set of the first j others, at index j.
    first: Vec<Set>,
    shown: Vec<Place>,
    /// What the client showed when it made its latest edit, and how many edits it had taken then.
    before: Vec<Place>,
    since: u16,
    /// Forms already asked for, of the client's and of the server's pending edits.
    asked: [Asked; 2],
}

/// Forms of successive numbers at one count of taken edits; they stay as long as that count does.
#[derive(Default)]
struct Asked {
    taken: u16,
    from: u16,
    forms: Vec<Edit>,
}

impl Line {
    /// The set of the line's first `own` edits and the first `others` of the other lines.
    fn point(&self, line: usize, own: u16, others: u16) -> Set {
        let mut set = self.first[others as usize];
        set[line] = own;
        set
    }
}

/// A slot or a packet: its bytes, and how many of them it holds.
#[derive(Clone)]
struct Buffer {
    bytes: Vec<u8>,
    length: usize,
}

impl Buffer {
    fn fresh(room: usize) -> Buffer {
        Buffer { bytes: vec![FRESH; room], length: 0 }
    }

    /// What it holds, with zeros behind it.
    fn lent(&self, tails: u16) -> Vec<u8> {
        let mut bytes = self.bytes[..self.length].to_vec();
        bytes.resize(bytes.len() + TAIL * tails as usize, 0);
        bytes
    }

    fn poke(&mut self, at: usize, byte: u8, length: usize) {
        self.bytes[at] = byte;
        self.length = length;
    }

    /// Puts bytes at a place; what lies before their end is then held.
    fn put(&mut self, at: usize, bytes: &[u8]) {
        self.bytes[at..at + bytes.len()].copy_from_slice(bytes);
        self.length = at + bytes.len();
    }
}

pub struct Oracle {
    n: usize,
    ranks: Vec<u8>,
    initial: usize,
    history: History,
    graph: CJupiter,
    lines: Vec<Line>,
    shown: Vec<Place>,
    /// What the server applied.
    applied: Set,
    /// The number of each edit of the server's order within its line.
    numbers: Vec<u16>,
    slots: Vec<Buffer>,
    packets: Vec<Buffer>,
    written: HashSet<Vec<u8>>,
    orders: Orders,
}

/// What a check found: how far the oracle followed, and whether every edit had been delivered everywhere at the end.
#[derive(Clone, Copy, Default, Debug)]
pub struct Report {
    pub followed: usize,
    pub delivered: bool,
}

/// A difference: the call's index and what is wrong.
pub type Wrong = (usize, String);

/// Either the call's whole expected answer, or that the oracle has nothing more to say.
enum Expected {
    Bytes(Vec<u8>),
    Silence,
}

/// Holds the answers of a run to the rule book.
pub fn check(list: &List, out: &[u8]) -> Result<Report, Wrong> {
    let mut report = Report::default();
    let Some(ranks) = list.ranks() else {
        return Ok(report);
    };
    let n = ranks.len();
    let mut oracle = Oracle::start(ranks, &list.initial);
    let mut at = 0;
    for (index, call) in list.calls.iter().enumerate() {
        let came = out.get(at..at + call.answer_length()).ok_or_else(|| (index, "the output ends here".to_string()))?;
        at += came.len();
        let expected = if index <= n { answer(0, 0) } else { oracle.expect(call).map_err(|text| (index, text))? };
        let Expected::Bytes(expected) = expected else {
            return Ok(report);
        };
        if let Some((name, [expected, came])) = difference(call, &expected, came) {
            return Err((index, format!("{name}: expected {expected}; came {came}")));
        }
        report.followed = index + 1;
    }
    report.delivered = oracle.delivered();
    oracle.meeting_everywhere().map_err(|text| (list.calls.len() - 1, text))?;
    Ok(report)
}

impl Oracle {
    /// The oracle after the openings of a sheet whose lines have these ranks.
    fn start(ranks: Vec<u8>, initial: &[u32]) -> Oracle {
        let n = ranks.len();
        let line = || Line { first: vec![[0; LINES]], shown: opening(initial), ..Line::default() };
        Oracle {
            n,
            ranks,
            initial: initial.len(),
            history: History::default(),
            graph: CJupiter::new(n, initial),
            lines: (0..n).map(|_| line()).collect(),
            shown: opening(initial),
            applied: [0; LINES],
            numbers: Vec::new(),
            slots: vec![Buffer::fresh(SLOT); SLOTS],
            packets: vec![Buffer::fresh(PACKET); PACKETS],
            written: HashSet::new(),
            orders: Orders::default(),
        }
    }

    /// Who made the edit at a place of the server's order.
    fn origin(&self, place: usize) -> Origin {
        (self.history.order[place] as u8 + 1, self.numbers[place])
    }

    fn expect(&mut self, call: &Call) -> Result<Expected, String> {
        if !call.is_one() {
            return Ok(answer(NO_CALL, 0));
        }
        let end = call.end as usize;
        let unopened = end > self.n && call.has_end();
        match call.op {
            _ if call.exported() && call.lent < 0 => Ok(answer(18, 0)),
            OPEN if opening_refusal(call, self.initial) != 0 => Ok(answer(opening_refusal(call, self.initial), 0)),
            OPEN | SET | FILL | COPY => Ok(Expected::Silence),
            DUMP if unopened => Ok(dumped(vec![FRESH; layout::bytes(call.end)])),
            _ if unopened => Ok(answer(2, 0)),
            INSERT => self.edit(end, Edit::Insert(call.position, call.value, self.ranks[end - 1])),
            DELETE => self.edit(end, Edit::Delete(call.position)),
            TAKE_BACK => self.take_back(end),
            SEND | ACKNOWLEDGE => Ok(self.send(call)),
            PACK => Ok(self.pack(call)),
            TAKE => self.take(end, call),
            TAKE_PACKET => self.take_packet(end, call),
            TAKE_AT => self.take_at(end, call),
            DUMP => self.dump(end),
            _ => Ok(self.in_buffers(call)),
        }
    }

    /// What changes or shows a slot or a packet, and no end.
    fn in_buffers(&mut self, call: &Call) -> Expected {
        let (slot, at, byte) = (call.slot as usize, call.number as usize, call.value as u8);
        match call.op {
            POKE => self.slots[slot].poke(at, byte, call.size as usize),
            POKE_PACKET => self.packets[slot].poke(at, byte, call.position as usize),
            ADD => {
                let (message, packet) = (self.slots[slot].lent(0), &mut self.packets[call.size as usize]);
                for _ in 0..call.number {
                    if packet.length + message.len() <= PACKET {
                        packet.put(packet.length, &message);
                    }
                }
            }
            SHOW => return dumped([&[self.slots[slot].length as u8], &self.slots[slot].bytes[..]].concat()),
            _ => return dumped([&(self.packets[slot].length as u16).to_be_bytes(), &self.packets[slot].bytes[..]].concat()),
        }
        answer(0, 0)
    }
}

/// Question 1 with the cut item, then question 16, of an opening that has so many items to choose from.
pub fn opening_refusal(call: &Call, initial: usize) -> u8 {
    let (n, items) = (call.size as usize, initial.min(call.number as usize));
    let line = call.end == 0 || (1 <= call.line && call.line <= call.size);
    match () {
        _ if call.slot != 0 || !(1..=LINES).contains(&n) || !line || items > INITIAL => 1,
        _ if !is_ranking(n, &call.ranks()) => 16,
        _ => 0,
    }
}

/// The answer of a call that has no positions; nothing is broken.
fn answer(refusal: u8, count: u16) -> Expected {
    Answer { refusal, count, ..Answer::default() }.into()
}

/// The answer of taking an edit: how many pending edits it passed, where it arrived and where it was applied.
fn taken(carried: &Carried) -> Answer {
    let (arrived, applied) = (carried.arrived.position(), carried.applied.position());
    Answer { count: carried.moves.len() as u16, arrived, applied, ..Answer::default() }
}

impl From<Answer> for Expected {
    fn from(answer: Answer) -> Expected {
        Expected::Bytes([&answer.number().to_le_bytes()[..], &[0]].concat())
    }
}

/// The oracle has nothing to say of a message that nobody wrote.
impl From<Option<Answer>> for Expected {
    fn from(answer: Option<Answer>) -> Expected {
        answer.map_or(Expected::Silence, Expected::from)
    }
}

/// The answer of a dump or a show, and the bytes after it.
fn dumped(bytes: Vec<u8>) -> Expected {
    Expected::Bytes([&[0; ANSWER][..], &bytes].concat())
}
