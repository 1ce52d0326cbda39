//! The time of the run program.

use super::{head, row, turns};
use crate::calls::{Calls, RUN_OUT};
use crate::clock::thread as clock;
use crate::scripts::full;
use std::hint::black_box;

/// Nanoseconds for one run.
fn time(script: &[u8], times: usize, subject: &dyn Calls) -> f64 {
    let mut out = vec![0; RUN_OUT];
    // the first run is not counted: it touches the output's bytes for the first time
    assert!(subject.run(script, &mut out) > 0);
    let start = clock();
    for _ in 0..times {
        black_box(subject.run(black_box(script), black_box(&mut out)));
    }
    (clock() - start) / times as f64
}

/// The row of the longest script.
pub fn whole(subjects: &[&dyn Calls]) -> String {
    let script = full();
    row(&format!("run program, {} bytes", script.len()), &turns(subjects, |subject| time(&script, 2, subject)))
}

/// The longest script, its first line alone, and cut after an eighth, a quarter and a half of its lines. Of these the time of one line
/// more, which is what is left without the first.
pub fn table(subjects: &[&dyn Calls]) -> String {
    let script = full();
    let ends: Vec<usize> = (0..script.len()).filter(|&i| script[i] == b'\n').map(|i| i + 1).collect();
    let first = &script[..ends[0]];
    let mut table = head("script", subjects);
    table += &row("the first line alone", &turns(subjects, |subject| time(first, 100, subject)));
    for part in [8, 4, 2, 1] {
        let lines = ends.len() / part;
        let cut = &script[..ends[lines - 1]];
        let name = format!("{lines} lines, {} bytes, a line", cut.len());
        let line = |subject: &dyn Calls| (time(cut, 2 * part, subject) - time(first, 100, subject)) / (lines - 1) as f64;
        table += &row(&name, &turns(subjects, line));
    }
    eprintln!();
    table
}
