//! What a sceptical engineer would run against the sheet (README.md).

mod arguments;
mod bench;
mod calls;
mod cases;
mod check;
mod cjupiter;
mod clock;
mod crafted;
mod damage;
mod describe;
mod edges;
mod edit;
mod ends;
mod exported;
mod forged;
mod form;
mod generate;
mod hostile;
mod law;
mod layout;
mod limits;
mod list;
mod literal;
mod mutants;
mod openings;
mod oracle;
mod packets;
mod plain;
#[cfg(feature = "proved")]
mod proved;
mod rankings;
mod report;
mod rng;
mod scripts;
mod shortest;
mod shrink;
mod steady;
mod world;

use arguments::Command;
use plain::slip::{self, Slipping};
use std::process::ExitCode;

fn main() -> ExitCode {
    let words: Vec<String> = std::env::args().skip(1).collect();
    let (command, slip) = match arguments::read(&words) {
        Ok((Command::Help, _)) => {
            println!("{}", arguments::USAGE);
            return ExitCode::SUCCESS;
        }
        Ok(read) => read,
        Err(text) => {
            eprintln!("harness: {text}\n\n{}", arguments::USAGE);
            return ExitCode::from(2);
        }
    };
    let file = match &command {
        Command::Replay { file } => match std::fs::read(file) {
            Ok(bytes) => bytes,
            Err(error) => {
                eprintln!("harness: {file}: {error}");
                return ExitCode::from(2);
            }
        },
        _ => Vec::new(),
    };
    let mut subjects = calls::all(matches!(command, Command::Bench { .. }));
    if let Some(slip) = slip {
        slip::set(slip);
        subjects.push(&Slipping);
    }
    let names: Vec<&str> = subjects.iter().map(|subject| subject.name()).collect();
    let without = if cfg!(feature = "proved") { "" } else { " (without the proved library: built without --features proved)" };
    println!("under test: {}{without}", names.join(", "));
    let fine = match command {
        Command::Check { seconds, seed } => check::timed(seconds, seed, &subjects),
        Command::Long { calls, seed } => check::long(calls, seed, &subjects),
        Command::One { sort, seed } => check::one(sort, seed, &subjects),
        Command::Replay { .. } => check::replay(&file, &subjects),
        Command::Mutants => mutants::run(slip),
        Command::Bench { out } => bench::run(out.as_ref(), &subjects),
        Command::Help => true,
    };
    ExitCode::from(!fine as u8)
}
