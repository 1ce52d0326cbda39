//! The checks: what is run, in which order, and what a failure prints.

use crate::calls::{self, Calls, RUN_OUT};
use crate::describe::difference;
use crate::list::*;
use crate::oracle::{self, Report, Wrong};
use crate::report;
use crate::{cases, clock, crafted, damage, edges, ends, generate, hostile, openings, packets, scripts, shortest, steady};
use std::time::{Duration, Instant};

/// The sorts of input; all but the first five are made from a seed.
#[derive(Clone, Copy, PartialEq, Eq, Debug)]
pub enum Sort {
    Cases,
    Openings,
    Shortest,
    Packets,
    Crafted,
    Honest,
    Limits,
    Hostile,
    Bytes,
    Noise,
    Ends,
    Words,
    Script,
}

use Sort::*;

pub const SORTS: [Sort; 13] = [Cases, Openings, Shortest, Packets, Crafted, Honest, Limits, Hostile, Bytes, Noise, Ends, Words, Script];

impl Sort {
    /// The call lists of a seed; cases and scripts have none.
    pub fn lists(self, seed: u64) -> Vec<List> {
        match self {
            Cases | Script => vec![],
            Openings => openings::all(),
            Shortest => shortest::all(),
            Packets => packets::all(),
            Crafted => crafted::all(),
            Honest => vec![generate::honest(seed)],
            Limits => vec![edges::limits(seed)],
            Hostile => vec![hostile::hostile(seed)],
            Bytes => damage::bytes(seed),
            Noise => vec![damage::noise(seed)],
            Ends => ends::ends(seed),
            Words => ends::words(seed),
        }
    }

    /// Whether every edit is delivered at the end of the list.
    fn delivers(self) -> bool {
        matches!(self, Honest | Limits)
    }
}

/// How often what happened.
pub struct Tally {
    lists: u64,
    calls: u64,
    scripts: u64,
    /// Calls that the history, the graph and the definition followed.
    followed: u64,
    refusals: [u64; 256],
    most_passed: u16,
    /// Takings whose edit was applied elsewhere than it arrived, and how far at most; those whose edit was gone.
    moved: u64,
    furthest: u16,
    gone: u64,
    /// Edits that were taken back.
    taken_back: u64,
    /// Packets written and taken that had something in them, how many messages were taken of one at most, and how many were taken beside a
    /// refusal.
    packed: u64,
    unpacked: u64,
    most_messages: u16,
    beside_refusal: u64,
}

impl Default for Tally {
    fn default() -> Tally {
        Tally {
            lists: 0,
            calls: 0,
            scripts: 0,
            followed: 0,
            refusals: [0; 256],
            most_passed: 0,
            moved: 0,
            furthest: 0,
            gone: 0,
            taken_back: 0,
            packed: 0,
            unpacked: 0,
            most_messages: 0,
            beside_refusal: 0,
        }
    }
}

impl Tally {
    fn count(&mut self, list: &List, out: &[u8], report: Report) {
        self.lists += 1;
        self.followed += report.followed as u64;
        let mut at = 0;
        for call in &list.calls {
            if call.exported() {
                self.calls += 1;
                self.refusals[out[at] as usize] += 1;
            }
            let answer = Answer::of(&out[at..]);
            if call.takes_one() {
                self.taking(answer);
            }
            self.packed += (call.op == PACK && answer.count != 0) as u64;
            if call.op == TAKE_PACKET && answer.count != 0 {
                self.unpacked += 1;
                self.most_messages = self.most_messages.max(answer.count);
                self.beside_refusal += if answer.refusal == 0 { 0 } else { answer.count as u64 };
            }
            self.taken_back += (call.op == TAKE_BACK && out[at] == 0) as u64;
            at += call.answer_length();
        }
    }

    fn taking(&mut self, answer: Answer) {
        self.most_passed = self.most_passed.max(answer.count);
        if answer.applied == 0 {
            self.gone += (answer.arrived != 0) as u64;
        } else {
            let far = answer.applied.abs_diff(answer.arrived);
            self.moved += (far != 0) as u64;
            self.furthest = self.furthest.max(far);
        }
    }

    /// The whole process's time counts, generating and judging included.
    fn print(&self) {
        let seconds = clock::process() / 1e9;
        println!(
            "{} lists, {} calls, {} scripts; {seconds:.1} s of processor time, {:.0} calls a second",
            self.lists,
            self.calls,
            self.scripts,
            self.calls as f64 / seconds
        );
        println!("followed by the graph and the definition: {} calls and dumps", self.followed);
        let named: Vec<String> = (0..=255).filter(|&r| self.refusals[r] > 0).map(|r| format!("{r}: {}", self.refusals[r])).collect();
        println!("answers by refusal  {}", named.join("  "));
        println!("most edits passed by one taking: {}", self.most_passed);
        println!("takings that moved their edit: {}, {} places at most; whose edit was gone: {}", self.moved, self.furthest, self.gone);
        println!("edits taken back: {}", self.taken_back);
        println!(
            "packets written: {}, taken: {}, {} messages of one at most; messages taken of packets that were refused then: {}",
            self.packed, self.unpacked, self.most_messages, self.beside_refusal
        );
    }
}

/// The first call whose answers differ.
pub fn compare(list: &List, one: &[u8], other: &[u8], names: [&str; 2]) -> Result<(), Wrong> {
    if one == other {
        return Ok(());
    }
    let mut at = 0;
    for (index, call) in list.calls.iter().enumerate() {
        let range = at..at + call.answer_length();
        if let Some((name, [expected, came])) = difference(call, &one[range.clone()], &other[range.clone()]) {
            return Err((index, format!("{name}: expected {expected} ({}); came {came} ({})", names[0], names[1])));
        }
        at = range.end;
    }
    unreachable!("outputs of one list have one length");
}

/// All subjects answer the same; what they answer.
pub fn same(list: &List, subjects: &[&dyn Calls]) -> Result<Vec<u8>, Wrong> {
    let output = |subject: &dyn Calls| calls::output(subject, list).map_err(|text| (list.calls.len(), text));
    let first = output(subjects[0])?;
    for other in &subjects[1..] {
        compare(list, &first, &output(*other)?, [subjects[0].name(), other.name()])?;
    }
    Ok(first)
}

/// Judges a list: all subjects answer the same, and what they answer is right.
pub fn judge(list: &List, subjects: &[&dyn Calls], delivers: bool, tally: &mut Tally) -> Result<(), Wrong> {
    let out = same(list, subjects)?;
    steady::check(list, &out)?;
    let report = oracle::check(list, &out)?;
    if delivers && !report.delivered {
        return Err((list.calls.len(), "the end of the run: expected every edit delivered; came some that are not".to_string()));
    }
    tally.count(list, &out, report);
    Ok(())
}

/// Judges a script, with room for all that it prints and with too little.
pub fn judge_script(script: &[u8], subjects: &[&dyn Calls]) -> Result<(), String> {
    let expected = scripts::expected(script);
    for subject in subjects {
        for lent in [RUN_OUT, expected.len() / 2] {
            let expected = &expected[..expected.len().min(lent)];
            let printed = calls::printed(*subject, script, lent)?;
            scripts::compare(expected, &printed).map_err(|text| format!("{text} ({})", subject.name()))?;
        }
    }
    Ok(())
}

/// Runs one seed of one sort. A failure is printed with its shortest list, and false comes back.
pub fn seed(sort: Sort, seed: u64, subjects: &[&dyn Calls], tally: &mut Tally) -> bool {
    match sort {
        Cases => return cases::all(subjects),
        Script => return (0..20).all(|part| script(20 * seed + part, subjects, tally)),
        _ => {}
    }
    for list in sort.lists(seed) {
        if let Err((index, text)) = judge(&list, subjects, sort.delivers(), tally) {
            report::heading(&format!("{sort:?}, seed {seed}, call {index}"), &text);
            report::again(&format!("one {sort:?} --seed {seed}"));
            report::list(&list, index, sort.delivers() && index == list.calls.len(), subjects);
            return false;
        }
    }
    true
}

/// One seed of one sort, as a failure names it.
pub fn one(sort: Sort, number: u64, subjects: &[&dyn Calls]) -> bool {
    let mut tally = Tally::default();
    let fine = seed(sort, number, subjects, &mut tally);
    tally.print();
    fine
}

fn script(seed: u64, subjects: &[&dyn Calls], tally: &mut Tally) -> bool {
    let script = scripts::random(seed, 400);
    tally.scripts += 1;
    let Err(text) = judge_script(&script, subjects) else {
        return true;
    };
    report::heading(&format!("Script, seed {}", seed / 20), &text);
    report::again(&format!("one Script --seed {}", seed / 20));
    report::script(&script, subjects);
    false
}

/// Judges the list of calls in a file, or the script.
pub fn replay(bytes: &[u8], subjects: &[&dyn Calls]) -> bool {
    let mut tally = Tally::default();
    let verdict = match List::of(bytes) {
        Some(list) => judge(&list, subjects, false, &mut tally).map_err(|(index, text)| (format!("call {index}"), text)),
        None => judge_script(bytes, subjects).map_err(|text| ("script".to_string(), text)),
    };
    match &verdict {
        Ok(()) => println!("no difference"),
        Err((place, text)) => report::heading(place, text),
    }
    verdict.is_ok()
}

/// The whole check within a time: the fixed parts first, then random seeds in turn.
pub fn timed(seconds: u64, first: u64, subjects: &[&dyn Calls]) -> bool {
    let start = Instant::now();
    let mut tally = Tally::default();
    let fine = [Cases, Openings, Shortest, Packets, Crafted].into_iter().all(|sort| seed(sort, first, subjects, &mut tally));
    // honest runs, limits and hostile ends get most of the time
    let turns = [Honest, Honest, Hostile, Script, Noise, Honest, Hostile, Limits, Script, Honest, Hostile, Bytes, Words, Ends];
    let going = |_: &Tally| start.elapsed() < Duration::from_secs(seconds);
    seeds(first, &turns, fine, going, subjects, tally)
}

/// Seed after seed, the sorts of runs by turns, as long as nothing is different and it is to go on.
fn seeds(first: u64, turns: &[Sort], mut fine: bool, going: impl Fn(&Tally) -> bool, subjects: &[&dyn Calls], mut tally: Tally) -> bool {
    let mut now = first;
    while fine && going(&tally) {
        let sort = turns[now as usize % turns.len()];
        fine = seed(sort, now, subjects, &mut tally);
        now += 1;
    }
    match now - first {
        0 => println!("no seed"),
        _ => println!("seeds {first} to {}", now - 1),
    }
    tally.print();
    println!("{}", if fine { "no difference" } else { "DIFFERENT" });
    fine
}

/// Runs of calls until so many were made.
pub fn long(calls: u64, first: u64, subjects: &[&dyn Calls]) -> bool {
    let going = |tally: &Tally| tally.calls < calls;
    seeds(first, &[Honest, Hostile, Honest, Limits, Honest, Hostile], true, going, subjects, Tally::default())
}
