//! Whether the run program prints what is said here.

use crate::exported::{Calls, RUN_OUT};
use crate::proved::Proved;

/// What the exported run program prints.
pub fn run_program(script: &[u8]) -> Vec<u8> {
    let mut out = vec![0; RUN_OUT];
    let length = Proved.run(script, &mut out) as usize;
    out.truncate(length);
    out
}

/// The first line that differs: what follows from the calls made here, and what the run program printed.
pub fn difference(ours: &[u8], printed: &[u8]) -> Option<String> {
    let lines = |bytes: &[u8]| String::from_utf8_lossy(bytes).lines().map(str::to_string).collect::<Vec<_>>();
    if ours == printed {
        return None;
    }
    let (ours, printed) = (lines(ours), lines(printed));
    let at = (0..).find(|&at| ours.get(at) != printed.get(at) || ours.get(at).is_none()).unwrap_or(0);
    let shown = |lines: &[String]| lines.get(at).map_or("nothing".to_string(), |line| format!("{line:?}"));
    let (ours, printed) = (shown(&ours), shown(&printed));
    Some(format!("this tool and the run program disagree. Line {} of what the run program prints is {printed}, here it is {ours}.", at + 1))
}
