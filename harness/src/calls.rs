//! What stands behind the exported calls, and what it answers to a list of calls or a script.

pub use crate::exported::{Calls, RUN_OUT};
use crate::list::List;
use crate::plain::slip::{Checked, Plain};
use crate::world::World;
use std::panic::{catch_unwind, AssertUnwindSafe};

/// Everything that a list of calls answers. A panic is an answer too.
pub fn output(calls: &dyn Calls, list: &List) -> Result<Vec<u8>, String> {
    let mut out = Vec::with_capacity(list.output_length());
    let run = || {
        let mut world = World::new(calls);
        list.calls.iter().for_each(|call| world.perform(call, &list.initial, &mut out));
    };
    catch_unwind(AssertUnwindSafe(run)).map_err(|_| format!("{} panics", calls.name()))?;
    Ok(out)
}

/// What the run program prints into so many lent bytes; an error if it changes the bytes past what it printed.
pub fn printed(calls: &dyn Calls, input: &[u8], lent: usize) -> Result<Vec<u8>, String> {
    const MARK: u8 = 7;
    let mut out = vec![MARK; lent];
    let written = catch_unwind(AssertUnwindSafe(|| calls.run(input, &mut out))).map_err(|_| format!("{} panics", calls.name()))?;
    let rest = out.get(written as usize..).ok_or_else(|| format!("{} says that it printed {written} bytes into {lent}", calls.name()))?;
    if rest.iter().any(|&byte| byte != MARK) {
        return Err(format!("{} changes bytes past the {written} that it printed", calls.name()));
    }
    out.truncate(written as usize);
    Ok(out)
}

/// The implementations under test; the first is the one that the others are compared with. It checks itself as it goes unless it is timed.
pub fn all(timed: bool) -> Vec<&'static dyn Calls> {
    vec![
        if timed { &Plain } else { &Checked },
        #[cfg(feature = "proved")]
        &crate::proved::Proved,
    ]
}
