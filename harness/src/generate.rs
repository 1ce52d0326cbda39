//! Random lists of calls. A right world runs along, so that most calls are ones that matter.

use crate::layout;
use crate::limits::*;
use crate::list::*;
use crate::literal;
use crate::plain::slip::Plain;
use crate::rankings;
use crate::rng::Rng;
use crate::world::World;
use std::collections::HashSet;

/// What a run is like: of a hundred actions, how many are of which sort.
#[derive(Clone, Copy, Debug)]
struct Mood {
    edits: usize,
    deletes: usize,
    /// Take back the latest edit of a client, now and then twice.
    takes_back: usize,
    /// Send the next edit of a line; half of these are taken at once.
    exchanges: usize,
    acknowledgements: usize,
    /// Pack the pending edits of a line; or put messages behind each other and have them taken as one packet.
    packets: usize,
    /// Take whatever lies in a slot: late, repeated, or never meant for that end.
    strays: usize,
    /// Positions, numbers and lengths at and past their edges.
    odd: usize,
    /// Dump the end after every so many calls.
    dump_every: usize,
    /// Edits stand at this position at most, so that many meet.
    hot_positions: u32,
    /// Bytes past the layout that the calls lend.
    spare: i16,
}

pub struct Run {
    pub list: List,
    pub world: World<'static, Plain>,
    pub rng: Rng,
    pub n: usize,
    /// The ranks that all ends were opened with.
    pub ranks: Vec<u8>,
    mood: Mood,
    since_dump: usize,
    scratch: Vec<u8>,
    /// Every message that an end wrote.
    written: HashSet<Vec<u8>>,
}

/// A run that stays within the third demand; at its end everything is delivered.
pub fn honest(seed: u64) -> List {
    let mut run = Run::open(seed);
    let target = run.list.calls.len() + [30, 120, 400, 1500][run.rng.below(4)];
    while run.list.calls.len() < target {
        run.action();
    }
    run.deliver_all();
    run.list
}

impl Run {
    /// A sheet of any size.
    pub fn open(seed: u64) -> Run {
        let mut rng = Rng::new(seed);
        let n = rng.between(1, LINES);
        let count = rng.pick(&[0, 0, 1, 2, 3, 10, 60, 127, 128, 128]);
        Run::sized(rng, n, count)
    }

    /// A sheet of n lines, ranked in any way, that opens with so many items.
    pub fn sized(mut rng: Rng, n: usize, count: usize) -> Run {
        let small = rng.once_in(2);
        let item = |rng: &mut Rng| if small { rng.below(3) as u32 } else { rng.next() as u32 };
        let initial: Vec<u32> = (0..count).map(|_| item(&mut rng)).collect();
        let mood = Mood {
            edits: rng.between(5, 60),
            deletes: rng.pick(&[10, 40, 50, 60, 90]),
            takes_back: rng.pick(&[0, 3, 10, 30]),
            exchanges: rng.between(5, 60),
            acknowledgements: rng.pick(&[0, 2, 10]),
            packets: rng.pick(&[0, 3, 10, 30]),
            strays: rng.pick(&[0, 5, 20]),
            odd: rng.pick(&[0, 3, 10]),
            dump_every: rng.pick(&[1, 1, 4]),
            hot_positions: rng.pick(&[2, 4, 600]),
            spare: rng.pick(&[0, 0, 1, 7, SPARE as i16]),
        };
        let ranks = rankings::random(&mut rng, n);
        let opened = List::ranked(&ranks, initial.clone());
        let list = List { initial, calls: Vec::new() };
        let world = World::unwatched(&Plain);
        let mut run = Run { list, world, rng, n, ranks, mood, since_dump: 0, scratch: Vec::new(), written: HashSet::new() };
        for call in opened.calls {
            run.call(Call { lent: mood.spare, ..call });
        }
        run
    }

    /// Adds a call to the list and lets the world perform it; its refusal.
    pub fn call(&mut self, call: Call) -> u8 {
        self.list.calls.push(call);
        self.scratch.clear();
        self.world.perform(&call, &self.list.initial, &mut self.scratch);
        let answer = Answer::of(&self.scratch);
        if call.sends() && answer.refusal == 0 {
            let from = if call.op == PACK { call.offset().min(PACKET) } else { 0 };
            let held = if call.op == PACK { self.world.packet(call.slot) } else { self.world.message(call.slot) };
            let new = held.get(from..).filter(|_| answer.count != 0).unwrap_or_default();
            self.written.extend(literal::messages(new).into_iter().map(<[u8]>::to_vec));
        }
        answer.refusal
    }

    /// Whether bytes are no message or one that an end wrote: a run that takes them stays within the third demand.
    fn is_honest(&self, message: &[u8]) -> bool {
        literal::read(message).is_none() || self.written.contains(message)
    }

    /// The same with the run's lent bytes, now and then fewer than the layout's, and a dump of the end every so often.
    pub fn call_and_look(&mut self, call: Call) -> u8 {
        let lent = if self.odd() && self.rng.once_in(3) { self.too_few(call.end) } else { self.mood.spare };
        let refusal = self.call(Call { lent, ..call });
        self.since_dump += 1;
        if self.since_dump >= self.mood.dump_every {
            self.since_dump = 0;
            if call.sends() && self.rng.once_in(2) {
                self.call(if call.op == PACK { Call::show_packet(call.slot) } else { Call::show(call.slot) });
            }
            self.call(Call::dump(call.end));
        }
        refusal
    }

    pub fn line(&mut self) -> usize {
        self.rng.between(1, self.n)
    }

    fn odd(&mut self) -> bool {
        self.rng.below(100) < self.mood.odd
    }

    fn slot(&mut self) -> u8 {
        self.rng.below(SLOTS) as u8
    }

    /// Too few bytes for an end: by a little, or none at all.
    fn too_few(&mut self, end: u8) -> i16 {
        let all = layout::bytes(end.min(LINES as u8)) as i16;
        let some = self.rng.between(1, all as usize) as i16;
        -self.rng.pick(&[1, 2, 3, 4, 5, some, all])
    }

    fn room(&mut self) -> u8 {
        if self.odd() {
            self.rng.below(SLOT + 1) as u8
        } else {
            self.rng.between(MESSAGE as usize, SLOT) as u8
        }
    }

    pub fn action(&mut self) {
        let mood = self.mood;
        let all = [
            (mood.edits, Run::edit as fn(&mut Run)),
            (mood.takes_back, Run::take_back),
            (mood.exchanges, Run::exchange),
            (mood.acknowledgements, Run::acknowledge),
            (mood.packets, Run::pack),
            (mood.packets, Run::gather),
            (mood.strays, Run::stray),
            (mood.odd, Run::nonsense),
        ];
        let mut ticket = self.rng.below(all.iter().map(|(share, _)| share).sum());
        for (share, act) in all {
            if ticket < share {
                return act(self);
            }
            ticket -= share;
        }
    }

    fn edit(&mut self) {
        let l = self.line();
        let length = self.world.length(l);
        let insert = self.rng.below(100) >= self.mood.deletes || length == 0;
        let position = if self.odd() {
            let edges = [0, 1, length, length.wrapping_add(1), length.wrapping_add(2), 512, 513, 65_535];
            self.rng.pick(&edges) as u16
        } else {
            let most = length.saturating_add(insert as u32).min(self.mood.hot_positions);
            self.rng.between(1, most as usize) as u16
        };
        let item = if self.rng.once_in(2) { self.rng.below(9) as u32 } else { self.rng.next() as u32 };
        let call = if insert { Call::insert(l as u8, position, item) } else { Call::delete(l as u8, position) };
        self.call_and_look(call);
    }

    fn take_back(&mut self) {
        let l = self.line() as u8;
        self.call_and_look(Call::take_back(l));
        if self.rng.once_in(4) {
            self.call_and_look(Call::take_back(l));
        }
    }

    /// Sends the next edit that the other end lacks, or another pending one, and often has it taken at once.
    fn exchange(&mut self) {
        let (l, up) = (self.line(), self.rng.once_in(2));
        let (client, server) = (self.world.client(l), self.world.server(l));
        let (from, to) = if up { (client, server) } else { (server, client) };
        let (next, acked, made) = (to.taken.wrapping_add(1), from.acked, from.made);
        let k = if self.odd() {
            let edges = [0, acked, acked.wrapping_add(1), made, made.wrapping_add(1), 400, 65_535];
            self.rng.pick(&edges)
        } else if self.rng.once_in(8) && made > acked {
            self.rng.between(acked as usize + 1, made as usize) as u32
        } else {
            next
        } as u16;
        let (slot, room) = (self.slot(), self.room());
        let sender = if up { l as u8 } else { 0 };
        self.call_and_look(Call::send(sender, l as u8, k, slot, room));
        if self.rng.below(3) > 0 {
            self.call_and_look(Call::take(if up { 0 } else { l as u8 }, slot));
        }
    }

    /// Packs a line's pending edits, mostly behind what the packet holds or from its front on, and often has the packet taken at once.
    fn pack(&mut self) {
        let (l, up, packet) = (self.line() as u8, self.rng.once_in(2), self.rng.below(PACKETS) as u8);
        let length = self.world.packet(packet).len();
        let offset = if self.odd() {
            let past = PACKET + self.rng.below(3);
            self.rng.pick(&[1, length, PACKET - 1, past, 256, 65_536, u32::MAX as usize, 0x0101_0101 << 32, usize::MAX - 9, usize::MAX])
        } else {
            self.rng.pick(&[0, length])
        };
        let room = match self.rng.below(4) {
            0 => self.rng.below(PACKET + 1),
            // for some of the first messages
            1 => offset.saturating_add(self.rng.below(60)).min(PACKET),
            _ => PACKET,
        };
        let (from, to) = if up { (l, 0) } else { (0, l) };
        self.call_and_look(Call::pack(from, l, packet, room as u16, offset));
        if self.rng.below(3) > 0 {
            self.take_packet(to, packet);
        }
    }

    /// Messages for one end behind each other: of each line the next edits, now and then an acknowledgement, a repeat, or whatever lies in a slot;
    /// sometimes with a tail that is no message.
    fn gather(&mut self) {
        let (packet, up) = (self.rng.below(PACKETS) as u8, self.rng.once_in(2));
        let to = if up { 0 } else { self.line() as u8 };
        if self.rng.below(4) > 0 {
            self.call(Call::poke_packet(packet, 0, FRESH, 0));
        }
        let mut slot = self.slot();
        let mut further = [0; LINES + 1];
        for _ in 0..self.rng.between(1, 12) {
            let l = if up { self.line() } else { to as usize };
            let from = if up { l as u8 } else { 0 };
            let taken = if up { self.world.server(l) } else { self.world.client(l) }.taken;
            match self.rng.below(12) {
                0 => {}
                1 => slot = self.slot(),
                2 | 3 => {
                    slot = self.slot();
                    self.call(Call::acknowledge(from, l as u8, slot, MESSAGE));
                }
                _ => {
                    slot = self.slot();
                    further[l] += 1;
                    self.call(Call::send(from, l as u8, (taken + further[l]) as u16, slot, MESSAGE));
                }
            }
            let times = if self.rng.once_in(60) { self.rng.between(2, 300) } else { 1 };
            self.call(Call::add(slot, packet, times as u16));
        }
        if self.rng.once_in(4) {
            self.spoil_tail(packet);
        }
        let to = if self.odd() { self.rng.below(self.n + 1) as u8 } else { to };
        self.take_packet(to, packet);
    }

    /// Cuts some bytes off a packet, or puts some behind it of which the first is no kind.
    fn spoil_tail(&mut self, packet: u8) {
        let held = self.world.packet(packet).to_vec();
        if self.rng.once_in(2) {
            let length = held.len().saturating_sub(self.rng.between(1, MESSAGE as usize));
            self.call(Call::poke_packet(packet, 0, held.first().copied().unwrap_or(FRESH), length as u16));
            return;
        }
        let first = self.rng.pick(&[0, 1, 2, 3, 6, 9, 255]);
        let tail = (0..self.rng.between(1, 8)).map(|at| if at == 0 { first } else { self.rng.below(9) as u8 });
        let tail: Vec<u8> = tail.collect();
        for (at, byte) in (held.len()..PACKET).zip(tail) {
            self.call(Call::poke_packet(packet, at as u16, byte, at as u16 + 1));
        }
    }

    /// Has a packet taken: as a whole, or message by message with repeats passed over, or at places where no message begins.
    fn take_packet(&mut self, end: u8, packet: u8) {
        if !literal::messages(self.world.packet(packet)).iter().all(|message| self.is_honest(message)) {
            return;
        }
        match self.rng.below(6) {
            0 | 1 => self.walk(end, packet),
            2 if self.odd() => self.take_odd(end, packet),
            _ => _ = self.call_and_look(Call::take_packet(end, packet)),
        }
    }

    /// Takes the messages of a packet by their offsets, up to the first that is refused and no repeat.
    fn walk(&mut self, end: u8, packet: u8) {
        let held = self.world.packet(packet).to_vec();
        let mut offset = 0;
        while offset < held.len() {
            if !matches!(self.call_and_look(Call::take_at(end, packet, offset)), 0 | 5) {
                break;
            }
            offset += literal::first(&held[offset..]).len();
        }
    }

    /// Takes what stands at an offset where no message begins, or past the packet's end.
    fn take_odd(&mut self, end: u8, packet: u8) {
        let held = self.world.packet(packet).to_vec();
        let within = self.rng.below(held.len() + 2);
        let offset = self.rng.pick(&[within, held.len(), held.len() + 256, held.len() + 65_536, 0x0101_0101 << 32, usize::MAX]);
        if self.is_honest(literal::first(held.get(offset..).unwrap_or_default())) {
            self.call_and_look(Call::take_at(end, packet, offset));
        }
    }

    fn acknowledge(&mut self) {
        let (l, up, slot, room) = (self.line() as u8, self.rng.once_in(2), self.slot(), self.room());
        self.call_and_look(Call::acknowledge(if up { l } else { 0 }, l, slot, room));
        if self.rng.once_in(2) {
            self.call_and_look(Call::take(if up { 0 } else { l }, slot));
        }
    }

    /// Takes what lies in a slot, mostly at the end that it was written for.
    fn stray(&mut self) {
        let slot = self.slot();
        let bytes = self.world.slot(slot);
        let meant = if bytes[2] == 0 { 0 } else { bytes[1] };
        let end = if self.rng.once_in(4) || meant as usize > LINES { self.rng.below(self.n + 1) as u8 } else { meant };
        self.call_and_look(Call::take(end, slot));
    }

    /// Calls at ends that were not opened, on wrong lines, of damaged bytes, openings that are refused, and what is no call at all.
    fn nonsense(&mut self) {
        let (end, slot) = (self.rng.below(LINES + 1) as u8, self.slot());
        let line = self.rng.below(LINES + 2) as u8;
        let call = match self.rng.below(16) {
            0 => Call::insert(end.max(1), 1, 5),
            1 => Call::send(end, line, 1, slot, 20),
            2 => Call::acknowledge(end, line, slot, 20),
            3 => Call { op: self.rng.between(SHOW_PACKET as usize + 1, 255) as u8, ..Call::dump(end) },
            4 => Call::insert(0, 1, 5),
            5 => Call::take(end, slot | 64),
            6 => Call::acknowledge(end, line, slot, SLOT as u8 + 1),
            7 => Call { number: self.rng.pick(&[1, 2, 255, 256]), ..Call::take(end, slot) },
            8 | 11 => self.refused_opening(end),
            9 => Call::take_back(end.max(1)),
            10 => Call::take_back(0),
            12 => Call::pack(end, line, slot % PACKETS as u8, self.rng.below(40) as u16, self.rng.below(40)),
            13 => self.badly_sized(end, slot % PACKETS as u8),
            14 => Call::take_packet(end, PACKETS as u8 + slot),
            _ => {
                // a byte changed so that the slot most likely holds no message
                let (at, length) = (self.rng.below(3) as u16, self.world.message(slot).len() as u8);
                let byte = self.rng.pick(&[0, 9, 77, 255]);
                self.call(Call::poke(slot, at, byte, length));
                if !self.is_honest(self.world.message(slot)) {
                    self.call(Call::poke(slot, 0, byte, length));
                }
                let end = self.rng.below(self.n + 1) as u8;
                Call::take(end, slot)
            }
        };
        self.call_and_look(call);
        if call.op == TAKE && self.rng.once_in(2) {
            self.call(Call::poke(slot, 0, 0, 0));
        }
    }

    /// Taking a packet that has no bytes, or more than a packet may have, or one that is small in 16 bits.
    fn badly_sized(&mut self, end: u8, packet: u8) -> Call {
        let number = self.rng.pick(&[0, 0, 0, 6, 256]);
        let length = if number == 6 { 0 } else { self.rng.pick(&[0, LONGEST_PACKET as u16 + 1, PACKET as u16]) };
        self.call(Call::poke_packet(packet, 0, 4, length));
        let call = if self.rng.once_in(2) { Call::take_packet(end, packet) } else { Call::take_at(end, packet, self.rng.below(3)) };
        Call { number, ..call }
    }

    /// An opening that question 1 refuses, or with a cut item, or that question 16 refuses, at an end that may be open. Half of those that
    /// question 1 refuses have wrong ranks too.
    fn refused_opening(&mut self, end: u8) -> Call {
        let (n, count) = (self.n as u8, self.list.initial.len() as u16);
        let wrong = rankings::wrong(&mut self.rng, self.n);
        let (one, ranks) = match self.rng.below(4) {
            0 | 1 => (false, &wrong),
            2 => (true, &wrong),
            _ => (true, &self.ranks),
        };
        // a line that the sheet has: question 16 alone says no
        let right = Call::open(end, n, end.clamp(1, n), count).ranked(ranks);
        match self.rng.below(3) {
            _ if !one => right,
            0 => Call { size: self.rng.pick(&[0, 9, 255]), ..right },
            1 => Call { slot: self.rng.between(1, 3) as u8, number: self.rng.below(count as usize + 1) as u16, ..right },
            _ => Call { end: end.max(1), line: self.rng.pick(&[0, n + 1, 255]), ..right },
        }
    }

    /// Sends and takes until no end lacks anything.
    pub fn deliver_all(&mut self) {
        loop {
            let mut progress = false;
            for l in 1..=self.n {
                while self.world.client(l).taken < self.world.server(l).made {
                    progress |= self.hand_over(0, l, self.world.client(l).taken + 1);
                }
                if self.world.server(l).acked < self.world.client(l).taken {
                    self.call(Call::acknowledge(l as u8, l as u8, 0, 20));
                    self.call(Call::take(0, 0));
                }
            }
            for l in 1..=self.n {
                if self.world.server(l).taken < self.world.client(l).made {
                    progress |= self.hand_over(l, l, self.world.server(l).taken + 1);
                }
            }
            if !progress {
                break;
            }
        }
        for end in 0..=self.n as u8 {
            self.call(Call::dump(end));
        }
    }

    pub fn hand_over(&mut self, from: usize, l: usize, k: u32) -> bool {
        let slot = self.slot();
        self.call(Call::send(from as u8, l as u8, k as u16, slot, MESSAGE));
        self.call(Call::take(if from == 0 { l as u8 } else { 0 }, slot)) == 0
    }

    /// Puts bytes into a slot.
    pub fn give(&mut self, slot: u8, bytes: &[u8]) {
        for (at, &byte) in bytes.iter().enumerate() {
            self.call(Call::poke(slot, at as u16, byte, bytes.len() as u8));
        }
        if bytes.is_empty() {
            self.call(Call::poke(slot, 0, FRESH, 0));
        }
    }
}
