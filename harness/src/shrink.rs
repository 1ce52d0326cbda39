//! Shorter lists of calls that still fail. What may be tried is counted in calls, never in seconds: every machine finds the same list.

use crate::list::{Call, List, ACKNOWLEDGE, DELETE, DUMP, INSERT, MESSAGE, PACK, PACKET, SEND, SHOW, SHOW_PACKET};
use crate::rankings;

/// Whether a list still fails, asked until so many calls were run.
struct Tries<'a> {
    left: usize,
    fails: &'a dyn Fn(&List) -> bool,
}

impl Tries<'_> {
    fn over(&self) -> bool {
        self.left == 0
    }

    /// Runs the candidate. With too few calls left it counts as one that does not fail, and nothing is tried any more.
    fn fails(&mut self, candidate: &List) -> bool {
        self.left = self.left.saturating_sub(candidate.calls.len().max(1));
        !self.over() && (self.fails)(candidate)
    }

    /// Whether the candidate is another list and fails; it is then the best.
    fn betters(&mut self, best: &mut List, candidate: List) -> bool {
        let better = candidate != *best && self.fails(&candidate);
        if better {
            *best = candidate;
        }
        better
    }
}

/// The shortest list found within so many calls that still fails; the openings at the front stay.
pub fn shrink(list: &List, calls: usize, fails: &dyn Fn(&List) -> bool) -> List {
    let mut tries = Tries { left: calls, fails };
    let mut best = list.clone();
    let mut bare = list.clone();
    let last = list.calls.len() - 1;
    let mut index = 0..;
    bare.calls.retain(|call| index.next() == Some(last) || !matches!(call.op, DUMP | SHOW | SHOW_PACKET));
    tries.betters(&mut best, bare);
    fewer_calls(&mut best, &mut tries);
    fewer_lines(&mut best, &mut tries);
    plainer(&mut best, &mut tries);
    fewer_items(&mut best, &mut tries);
    best
}

/// Leaves out stretches of calls, half as long each time.
fn fewer_calls(best: &mut List, tries: &mut Tries) {
    let opened = best.lines().map_or(0, |n| n + 1);
    let mut chunk = (best.calls.len() - opened).next_power_of_two().max(1);
    loop {
        let mut shorter = false;
        let mut at = best.calls.len();
        while at > opened && !tries.over() {
            let from = at.saturating_sub(chunk).max(opened);
            let mut candidate = best.clone();
            candidate.calls.drain(from..at);
            shorter |= tries.betters(best, candidate);
            at = from;
        }
        if tries.over() || (chunk == 1 && !shorter) {
            break;
        }
        chunk = (chunk / 2).max(1);
    }
}

/// Tries smaller sheets, whose last client does nothing, and then line numbers as ranks.
fn fewer_lines(best: &mut List, tries: &mut Tries) {
    while let Some((last, rest)) = best.ranks().and_then(|mut ranks| Some((ranks.pop()?, ranks))).filter(|(_, rest)| !rest.is_empty()) {
        let mut candidate = best.clone();
        candidate.calls.remove(rest.len() + 1);
        let ranks: Vec<u8> = rest.iter().map(|&rank| rank - (rank > last) as u8).collect();
        ranked_anew(&mut candidate, &ranks);
        if !tries.betters(best, candidate) {
            break;
        }
    }
    if let Some(n) = best.lines() {
        let mut candidate = best.clone();
        ranked_anew(&mut candidate, &rankings::by_line(n));
        tries.betters(best, candidate);
    }
}

/// The openings at the front with other ranks.
fn ranked_anew(list: &mut List, ranks: &[u8]) {
    for call in &mut list.calls[..=ranks.len()] {
        *call = Call { size: ranks.len() as u8, ..call.ranked(ranks) };
    }
}

/// Tries exactly the layout's bytes lent, and small positions, items and buffers in the place of random ones.
fn plainer(best: &mut List, tries: &mut Tries) {
    for index in 0..best.calls.len() {
        let mut attempt = |change: &dyn Fn(&mut Call)| {
            let mut changed = best.calls[index];
            change(&mut changed);
            if changed == best.calls[index] || tries.over() {
                return false;
            }
            let mut candidate = best.clone();
            candidate.calls[index] = changed;
            tries.betters(best, candidate)
        };
        attempt(&|call| call.lent = 0);
        attempt(&|call| match call.op {
            SEND | ACKNOWLEDGE => call.size = MESSAGE,
            PACK => call.position = PACKET as u16,
            INSERT if call.value > 1000 => call.value = index as u32,
            _ => {}
        });
        let _ = (1..=4).any(|position| {
            attempt(&|call| {
                if matches!(call.op, INSERT | DELETE) {
                    call.position = call.position.min(position);
                }
            })
        });
    }
}

/// Tries shorter opening lists.
fn fewer_items(best: &mut List, tries: &mut Tries) {
    let mut count = 0;
    while count < best.initial.len() && !tries.over() {
        let mut candidate = best.clone();
        candidate.initial.truncate(count);
        let opened = best.lines().map_or(0, |n| n + 1);
        candidate.calls[..opened].iter_mut().for_each(|call| call.number = call.number.min(count as u16));
        if tries.betters(best, candidate) {
            break;
        }
        count = (count * 2).max(count + 1);
    }
}

/// The same of a script: whole lines are left out, until so many were run.
pub fn shrink_script(script: &[u8], most: usize, fails: &dyn Fn(&[u8]) -> bool) -> Vec<u8> {
    let mut left = most;
    let mut lines: Vec<Vec<u8>> = script.split_inclusive(|&byte| byte == 10).map(<[u8]>::to_vec).collect();
    let mut chunk = lines.len().next_power_of_two().max(1);
    loop {
        let mut at = lines.len();
        while at > 0 && left > 0 {
            let from = at.saturating_sub(chunk);
            let mut candidate = lines.clone();
            candidate.drain(from..at);
            left = left.saturating_sub(candidate.len().max(1));
            if fails(&candidate.concat()) {
                lines = candidate;
            }
            at = from;
        }
        if chunk == 1 || left == 0 {
            return lines.concat();
        }
        chunk /= 2;
    }
}
