//! The command line: what it prints, and its status.

mod common;

use common::{example, EXAMPLES};
use std::process::{Command, Output};

fn explain(words: &[&str]) -> Output {
    Command::new(env!("CARGO_BIN_EXE_explain")).args(words).current_dir(env!("CARGO_MANIFEST_DIR")).output().unwrap()
}

#[test]
fn statuses() {
    for (words, status) in [
        (&["../examples/bench.txt"][..], 0),
        (&["../examples/refused.txt"], 1),
        (&["--svg", "../examples/refused.txt"], 1),
        (&["--help"], 0),
        (&[], 2),
        (&["--svg"], 2),
        (&["--png", "../examples/bench.txt"], 2),
        (&["../examples/bench.txt", "../examples/refused.txt"], 2),
        (&["no such file"], 2),
    ] {
        let output = explain(words);
        assert_eq!(output.status.code(), Some(status), "{words:?}");
        assert_eq!(output.stderr.is_empty(), status != 2, "{words:?}");
    }
}

#[test]
fn words_of_the_examples() {
    for name in EXAMPLES {
        let file = format!("{name}.txt");
        let output = explain(&[&format!("../examples/{file}")]);
        let expected = explain::in_words(&file, &example(&file));
        assert_eq!((String::from_utf8(output.stdout), output.status.code()), (Ok(expected.output), Some(expected.status.into())));
    }
}

#[test]
fn picture_of_the_example() {
    let output = explain(&["--svg", "../examples/offline.txt"]);
    assert_eq!(output.status.code(), Some(0));
    assert!(output.stdout == example("offline.svg"));
}
