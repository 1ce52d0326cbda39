//! The command line of the explaining tool.

use std::ffi::OsString;
use std::io::Write;
use std::path::Path;
use std::process::ExitCode;

const USAGE: &str = "explain FILE         says for each line of a script of the run program what it does, or why not
explain --svg FILE   writes a picture of the run to standard output
explain --help       this text

Status 0: every line was done and the lists are alike. Status 1: a line was refused or not understood, or the lists differ.
Status 2: the file cannot be read, the command line is wrong, or the tool and the run program disagree.";

fn main() -> ExitCode {
    let words: Vec<OsString> = std::env::args_os().skip(1).collect();
    match &words[..] {
        [word] if word == "--help" || word == "-h" => {
            println!("{USAGE}");
            ExitCode::SUCCESS
        }
        [option, file] if option == "--svg" && is_file(file) => told(file, explain::as_picture),
        [file] if is_file(file) => told(file, explain::in_words),
        _ => failed(&format!("expected a FILE, or --svg and a FILE\n\n{USAGE}")),
    }
}

fn is_file(word: &OsString) -> bool {
    !word.to_string_lossy().starts_with("--")
}

fn failed(text: &str) -> ExitCode {
    eprintln!("explain: {text}");
    ExitCode::from(2)
}

fn told(file: &OsString, tell: fn(&str, &[u8]) -> explain::Explained) -> ExitCode {
    let path = Path::new(file);
    let script = match std::fs::read(path) {
        Ok(script) => script,
        Err(error) => return failed(&format!("{}: {error}", path.display())),
    };
    let name = path.file_name().unwrap_or(path.as_os_str()).to_string_lossy();
    let explained = tell(&name, &script);
    // a reader that stops early, as `head` does, is no failure
    let _ = std::io::stdout().write_all(explained.output.as_bytes());
    match explained.complaint {
        Some(text) => failed(&text),
        None => ExitCode::from(explained.status),
    }
}
