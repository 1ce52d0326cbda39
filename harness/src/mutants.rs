//! Can the harness fail? Every slip is switched on in turn, and has to be noticed.
//!
//! What is tried is fixed, in lists and in calls: a loaded or slow machine finds the same as any other.

use crate::calls::{self, RUN_OUT};
use crate::check::{compare, judge, Sort, Tally};
use crate::list::List;
use crate::plain::slip::{self, Checked, Plain, Seen, Slip, Slipping};
use crate::{clock, ends, oracle, report, scripts, shrink, steady};

/// How many calls, or lines of scripts, are run to shorten what noticed a slip.
const TRIED: usize = 100_000;
/// How many scripts are tried.
const SCRIPTS: u64 = 1000;

/// A list to try, and the sort and seed that give it.
struct Input {
    sort: Sort,
    seed: u64,
    list: List,
}

/// The lists that are tried, in this order.
struct Inputs {
    runs: Vec<Input>,
    openings: Vec<Input>,
    messages: Vec<Input>,
    ends: Vec<Input>,
}

/// Who noticed a slip, after how many calls (or script lines), and the length of the shortest list or script.
struct Notice {
    by: &'static str,
    input: String,
    calls: usize,
    shortest: usize,
}

/// Tries every slip, or the one named; whether all were noticed.
pub fn run(only: Option<Slip>) -> bool {
    let inputs = Inputs { runs: runs(), openings: inputs(Sort::Openings, [0]), messages: messages(), ends: ends() };
    if !sane(&inputs) {
        return false;
    }
    // a slip that makes the implementation panic is noticed too, and says nothing on its own
    std::panic::set_hook(Box::new(|_| {}));
    let (mut noticed, mut tried) = (0, 0);
    println!("{:22} {:12} {:>16} {:>9} {:>9}  what it does", "slip", "noticed by", "input", "calls", "shortest");
    for &(slip, seen, text) in slip::ALL {
        if only.is_some_and(|only| only != slip) {
            continue;
        }
        slip::set(slip);
        tried += 1;
        let name = format!("{slip:?}");
        match notice(seen, &inputs) {
            Some(found) => {
                noticed += 1;
                println!("{name:22} {:12} {:>16} {:>9} {:>9}  {text}", found.by, found.input, found.calls, found.shortest);
            }
            None => println!("{name:22} NOT NOTICED  {text}"),
        }
    }
    println!("{noticed} of {tried} slips noticed, {:.0} s of processor time", clock::process() / 1e9);
    noticed == tried
}

fn inputs(sort: Sort, seeds: impl IntoIterator<Item = u64>) -> Vec<Input> {
    seeds.into_iter().flat_map(|seed| sort.lists(seed).into_iter().map(move |list| Input { sort, seed, list })).collect()
}

/// Runs within the third demand. The short ones come first: they are soon judged and soon shortened.
fn runs() -> Vec<Input> {
    let mut all = inputs(Sort::Honest, 0..48);
    all.extend(inputs(Sort::Shortest, [0]));
    all.extend(inputs(Sort::Packets, [0]));
    all.sort_by_key(|input| input.list.calls.len());
    // full lists, all edits, a silent line and full buffers, twice
    all.extend(inputs(Sort::Limits, (0..12).map(|family| 4 * family)));
    all
}

/// Crafted messages, all damaged ones of a run, and hostile runs.
fn messages() -> Vec<Input> {
    [inputs(Sort::Crafted, [0]), inputs(Sort::Bytes, 0..13), inputs(Sort::Noise, 0..16), inputs(Sort::Hostile, 0..64)]
        .into_iter()
        .flatten()
        .collect()
}

/// Damaged ends, with several fields at once first. The others stand in families, from all of which some come early.
fn ends() -> Vec<Input> {
    let mut all = inputs(Sort::Ends, [0]);
    let mut single: Vec<(u32, Input)> = (0..).zip(all.split_off(ends::several(0).len())).collect();
    single.sort_by_key(|(index, _)| index.wrapping_mul(0x9E37_79B9));
    all.extend(single.into_iter().map(|(_, input)| input));
    all.extend(inputs(Sort::Words, 0..8));
    all
}

fn notice(seen: Seen, Inputs { runs, openings, messages, ends }: &Inputs) -> Option<Notice> {
    match seen {
        Seen::Script => in_script(),
        Seen::History => in_lists([runs, openings], "history", &by_history),
        Seen::Opening => in_lists([openings, messages, ends], "comparison", &by_comparison),
        Seen::Message => in_lists([messages, ends, openings], "comparison", &by_comparison),
        Seen::End => in_lists([ends, messages, openings], "comparison", &by_comparison),
    }
}

/// The history, the graph and the definition alone, without the right implementation.
fn by_history(list: &List) -> bool {
    let Ok(out) = calls::output(&Slipping, list) else {
        return true;
    };
    steady::check(list, &out).is_err() || oracle::check(list, &out).is_err()
}

fn by_comparison(list: &List) -> bool {
    let right = calls::output(&Plain, list).expect("the right implementation does not panic");
    calls::output(&Slipping, list).map_or(true, |out| compare(list, &right, &out, ["plain", "slipping"]).is_err())
}

fn in_lists<const N: usize>(inputs: [&Vec<Input>; N], by: &'static str, noticed: &dyn Fn(&List) -> bool) -> Option<Notice> {
    let mut calls = 0;
    for Input { sort, seed, list } in inputs.into_iter().flatten() {
        calls += list.calls.len();
        if noticed(list) {
            let short = shrink::shrink(list, TRIED, noticed);
            return Some(Notice { by, input: format!("{sort:?} {seed}"), calls, shortest: short.calls.len() });
        }
    }
    None
}

fn in_script() -> Option<Notice> {
    let mut run = 0;
    let wrong = |script: &[u8]| calls::printed(&Slipping, script, RUN_OUT).map_or(true, |printed| printed != scripts::expected(script));
    let lines = |script: &[u8]| script.split(|&byte| byte == 10).count();
    for seed in 0..SCRIPTS {
        let script = scripts::random(seed, 60);
        run += lines(&script);
        if wrong(&script) {
            let short = shrink::shrink_script(&script, TRIED, &wrong);
            return Some(Notice { by: "script", input: format!("Script {seed}"), calls: run, shortest: lines(&short) });
        }
    }
    None
}

/// The right implementation passes the same judgement, and so does the one that can slip as long as it does not: a notice means something.
fn sane(inputs: &Inputs) -> bool {
    slip::unset();
    inputs.runs.iter().chain(&inputs.openings).all(|Input { sort, seed, list }| {
        match judge(list, &[&Checked, &Slipping], false, &mut Tally::default()) {
            Ok(()) => true,
            Err((index, text)) => {
                report::heading(&format!("the right implementation, {sort:?} {seed}, call {index}"), &text);
                false
            }
        }
    })
}
