//! What a failure prints: what was expected and what came, the command that repeats it, and the shortest list or script that still fails.

use crate::calls::Calls;
use crate::check::{judge, judge_script, same, Tally};
use crate::list::List;
use crate::plain::slip;
use crate::shrink;

const FAILED_CALLS: &str = "failure.calls";
const FAILED_SCRIPT: &str = "failure.txt";
/// How many calls, or lines of scripts, are run to find the shortest list: a minute or two where the slowest opinions are asked.
const TRIED: usize = 5_000_000;

pub fn heading(place: &str, text: &str) {
    println!("FAILURE: {place}: {text}");
}

/// The command that does the same again, with the same program and the same slip.
pub fn again(command: &str) {
    let program = std::env::args().next().unwrap_or("harness".to_string());
    let slip = slip::now().map_or(String::new(), |slip| format!(" --slip {slip:?}"));
    println!("again: {program} {command}{slip}");
}

fn written(file: &str, bytes: &[u8]) {
    match std::fs::write(file, bytes) {
        Ok(()) => again(&format!("replay {file}")),
        Err(error) => println!("not written to {file}: {error}"),
    }
}

/// Prints the shortest list of calls that still fails, and writes it to a file.
pub fn list(list: &List, index: usize, delivers: bool, subjects: &[&dyn Calls]) {
    let judged = |list: &List| judge(list, subjects, delivers, &mut Tally::default());
    // where the subjects differ, the slower opinions are not asked again
    let differ = same(list, subjects).is_err();
    let fails = |list: &List| if differ { same(list, subjects).is_err() } else { judged(list).is_err() };
    let mut cut = list.clone();
    cut.calls.truncate(index + 1);
    let start = if fails(&cut) { &cut } else { list };
    let short = shrink::shrink(start, TRIED, &fails);
    let items = if short.initial.len() <= 160 { format!("{:?}", short.initial) } else { format!("{} items", short.initial.len()) };
    println!("shortest list found ({} calls of {}), initial {items}:", short.calls.len(), list.calls.len());
    let left_out = short.calls.len().saturating_sub(60);
    for (index, call) in short.calls.iter().enumerate() {
        if index == 10 && left_out > 0 {
            println!("  .. {left_out} calls ..");
        }
        if index < 10 || index >= 10 + left_out {
            println!("  {}", call.words());
        }
    }
    if let Err((_, text)) = judged(&short) {
        println!("  {text}");
    }
    // that everything is delivered is not asked of a list from a file
    if judge(&short, subjects, false, &mut Tally::default()).is_err() {
        written(FAILED_CALLS, &short.bytes());
    }
}

/// The same of a script.
pub fn script(script: &[u8], subjects: &[&dyn Calls]) {
    let short = shrink::shrink_script(script, TRIED, &|script| judge_script(script, subjects).is_err());
    println!("shortest script found:\n{}", String::from_utf8_lossy(&short).escape_debug());
    if let Err(text) = judge_script(&short, subjects) {
        println!("  {text}");
    }
    written(FAILED_SCRIPT, &short);
}
