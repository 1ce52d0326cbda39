//! Benchmarks: the time of single calls over lent bytes and of the run program, and what a server keeps as edits grow.
//!
//! Subjects take turns within one run, so that what else the machine does falls on all of them; a ratio is taken within each turn, and
//! the middle one of all turns is given with the lowest and the highest.

#[cfg(feature = "timing")]
mod by_value;
mod codec;
mod growth;
mod plot;
mod scripts;
mod single;

use crate::calls::Calls;
use std::fmt::Write;
use std::path::Path;

const TURNS: usize = 31;

/// The middle value, the lowest and the highest.
fn middle(values: &[f64]) -> (f64, f64, f64) {
    let mut values = values.to_vec();
    values.sort_by(f64::total_cmp);
    (values[values.len() / 2], values[0], values[values.len() - 1])
}

/// The ratio of one subject's times to plain's, each within its turn.
fn ratio(times: &[f64], plain: &[f64]) -> (f64, f64, f64) {
    middle(&times.iter().zip(plain).map(|(one, plain)| one / plain).collect::<Vec<f64>>())
}

fn unit(nanoseconds: f64) -> String {
    match nanoseconds {
        n if n < 10_000.0 => format!("{n:.0} ns"),
        n if n < 10_000_000.0 => format!("{:.1} µs", n / 1e3),
        n => format!("{:.1} ms", n / 1e6),
    }
}

/// The times of each subject, which take turns.
fn turns(subjects: &[&dyn Calls], one: impl Fn(&dyn Calls) -> f64) -> Vec<Vec<f64>> {
    let mut turns = vec![Vec::new(); subjects.len()];
    for _ in 0..TURNS {
        for (subject, times) in subjects.iter().zip(&mut turns) {
            times.push(one(*subject));
        }
    }
    eprint!(".");
    turns
}

/// The first two lines of a table of times, in Markdown.
fn head(what: &str, subjects: &[&dyn Calls]) -> String {
    head_of(what, &subjects.iter().map(|subject| subject.name()).collect::<Vec<&str>>())
}

fn head_of(what: &str, names: &[&str]) -> String {
    let mut table = format!("| {what} |");
    for name in names {
        write!(table, " {name} |").unwrap();
    }
    for name in &names[1..] {
        write!(table, " {name} / {} (lowest to highest) |", names[0]).unwrap();
    }
    table + "\n|---|" + &"--:|".repeat(2 * names.len() - 1) + "\n"
}

/// The methods by value, where their library is linked (build.rs).
fn by_value() -> String {
    #[cfg(feature = "timing")]
    return format!(
        "## Methods by value\n\nAn end goes in and a new one comes back, on both sides: a row includes a copy of the end. Middle of {TURNS} turns.\n\n{}\n",
        by_value::table()
    );
    #[cfg(not(feature = "timing"))]
    String::new()
}

/// A line of it: each subject's times, and their ratios to the first one's.
fn row(name: &str, turns: &[Vec<f64>]) -> String {
    let mut row = format!("| {name} |");
    for times in turns {
        let (half, low, high) = middle(times);
        write!(row, " {} ({} to {}) |", unit(half), unit(low), unit(high)).unwrap();
    }
    for times in &turns[1..] {
        let (half, low, high) = ratio(times, &turns[0]);
        write!(row, " {half:.2} ({low:.2} to {high:.2}) |").unwrap();
    }
    row + "\n"
}

/// Runs everything and writes benchmarks.md and growth.svg into a folder.
pub fn run(folder: &Path, subjects: &[&dyn Calls]) -> bool {
    let calls = single::table(subjects);
    let codec = codec::table();
    let by_value = by_value();
    let scripts = scripts::table(subjects);
    let rows = growth::rows(subjects);
    let growth = growth::table(&rows, subjects);
    let names: Vec<&str> = subjects.iter().map(|subject| subject.name()).collect();
    let burst = single::BURST;
    let text = format!(
        "## Single calls\n\nOver lent bytes: the end is read from its bytes, does the call and is written back unless the call is refused. A call that changes the end\n\
         gets fresh bytes, {burst} edits in a row get them once; the time of copying them is measured by itself and taken off. Processor\n\
         time of one call, middle of {TURNS} turns, lowest to highest in brackets.\n\n{calls}\n\
         ## What the bytes cost plain\n\nReading an end from its bytes and writing it back, without a call. Middle of {TURNS} turns.\n\n{codec}\n{by_value}\
         ## As a script grows\n\nThe script of the run program's row above, cut after a part of its lines, less the time of its first line alone, which opens the ends\n\
         and has their lists printed. Middle of {TURNS} turns.\n\n{scripts}\n\
         ## As edits grow\n\nA whole sheet of eight, all editing at once: every edit is made, sent, taken by the server, sent on and taken by\n\
         seven clients, with acknowledgements both ways. Middle of {TURNS} turns.\n\n{growth}\n![Bytes kept and time per edit](growth.svg)\n"
    );
    println!("{text}");
    let written = std::fs::create_dir_all(folder)
        .and_then(|()| std::fs::write(folder.join("benchmarks.md"), &text))
        .and_then(|()| std::fs::write(folder.join("growth.svg"), plot::growth(&rows, &names)));
    match &written {
        Ok(()) => println!("written to {}", folder.display()),
        Err(error) => println!("not written to {}: {error}", folder.display()),
    }
    written.is_ok()
}
