//! The command line. What is not understood is an error.

use crate::check::{Sort, SORTS};
use crate::plain::slip::{self, Slip};

pub const USAGE: &str = "harness check [--seconds N] [--seed S] [--slip NAME]   everything, within a time (60 s); status 1 on a difference
harness long [--calls N] [--seed S] [--slip NAME]      runs of calls until N were made (10000000)
harness one SORT [--seed S] [--slip NAME]              one seed again, as a failure names it
harness replay FILE [--slip NAME]                      the list of calls or the script that a failure wrote
harness mutants [--slip NAME]                          every slip has to be noticed, or the one named
harness bench [--out FOLDER]                           times and bytes, as tables and a plot (target/bench)
harness --help                                         this text

SORT is Cases, Openings, Shortest, Packets, Crafted, Honest, Limits, Hostile, Bytes, Noise, Ends, Words or Script. The first seed is 1.
With --slip NAME, check, long, one and replay also run the implementation that slips so, to show what a failure prints;
`mutants` prints the names. The proved library is under test in a build with --features proved.";

pub enum Command {
    Check { seconds: u64, seed: u64 },
    Long { calls: u64, seed: u64 },
    One { sort: Sort, seed: u64 },
    Replay { file: String },
    Mutants,
    Bench { out: String },
    Help,
}

/// The command, and the slip that it names.
pub fn read(words: &[String]) -> Result<(Command, Option<Slip>), String> {
    if words.iter().any(|word| word == "--help" || word == "-h") {
        return Ok((Command::Help, None));
    }
    let (name, mut rest) = words.split_first().ok_or("no command")?;
    let mut operand = |what: &str| -> Result<String, String> {
        let (first, after) = rest.split_first().filter(|(first, _)| !first.starts_with("--")).ok_or(format!("{name} needs {what}"))?;
        rest = after;
        Ok(first.clone())
    };
    let command = match name.as_str() {
        "check" => Command::Check { seconds: 60, seed: 1 },
        "long" => Command::Long { calls: 10_000_000, seed: 1 },
        "one" => Command::One { sort: sort(&operand("a SORT")?)?, seed: 1 },
        "replay" => Command::Replay { file: operand("a FILE")? },
        "mutants" => Command::Mutants,
        "bench" => Command::Bench { out: "target/bench".to_string() },
        _ => return Err(format!("no command {name:?}")),
    };
    options(command, name, rest)
}

fn sort(word: &str) -> Result<Sort, String> {
    SORTS.into_iter().find(|sort| format!("{sort:?}") == word).ok_or(format!("no SORT {word:?}"))
}

fn number(option: &str, word: &str) -> Result<u64, String> {
    const MOST: u64 = 1_000_000_000_000_000;
    word.parse().ok().filter(|&number| number <= MOST).ok_or(format!("{option} needs a number up to {MOST}, not {word:?}"))
}

/// The options behind a command, each at most once and with its word.
fn options(mut command: Command, name: &str, words: &[String]) -> Result<(Command, Option<Slip>), String> {
    let mut chosen = None;
    for (at, pair) in words.chunks(2).enumerate() {
        let option = pair[0].as_str();
        if !option.starts_with("--") {
            return Err(format!("{name} does not take {option:?}"));
        }
        let word = pair.get(1).ok_or(format!("{option:?} has nothing behind it"))?;
        if words.iter().step_by(2).take(at).any(|earlier| earlier == option) {
            return Err(format!("{option} stands twice"));
        }
        match (option, &mut command) {
            ("--seconds", Command::Check { seconds: value, .. })
            | ("--calls", Command::Long { calls: value, .. })
            | ("--seed", Command::Check { seed: value, .. } | Command::Long { seed: value, .. } | Command::One { seed: value, .. }) => {
                *value = number(option, word)?
            }
            ("--out", Command::Bench { out }) => *out = word.clone(),
            ("--slip", Command::Bench { .. }) => return Err("bench has no option --slip".to_string()),
            ("--slip", _) => chosen = Some(slip::named(word).ok_or(format!("no slip {word:?}"))?),
            _ => return Err(format!("{name} has no option {option:?}")),
        }
    }
    Ok((command, chosen))
}
