//! Says what a script of the run program does, in words or as a picture (README.md).

// Shared with the harness, where their tests are.
#[allow(dead_code)]
#[path = "../../harness/src/edit.rs"]
mod edit;
#[allow(dead_code)]
#[path = "../../harness/src/exported.rs"]
mod exported;
#[allow(dead_code)]
#[path = "../../harness/src/layout.rs"]
mod layout;
#[allow(dead_code)]
#[path = "../../harness/src/limits.rs"]
mod limits;
#[allow(dead_code)]
#[path = "../../harness/src/literal.rs"]
mod literal;
#[path = "../../harness/src/proved.rs"]
mod proved;

mod agreement;
mod deed;
mod ending;
mod picture;
mod reading;
mod refusals;
mod run;
mod sheet;
mod text;
mod view;
mod why;
mod words;

pub use agreement::difference;

/// What is printed for a script, and the status: 0 if every line was done and the lists are alike, 1 if not, 2 if what is said here is not
/// what the run program prints.
pub struct Explained {
    pub output: String,
    pub complaint: Option<String>,
    pub status: u8,
}

/// The script in words.
pub fn in_words(name: &str, script: &[u8]) -> Explained {
    explained(script, |run| text::all(name, run))
}

/// The script as an SVG picture.
pub fn as_picture(name: &str, script: &[u8]) -> Explained {
    explained(script, |run| picture::draw(name, run))
}

fn explained(script: &[u8], tell: impl Fn(&run::Run) -> String) -> Explained {
    let run = run::run(script);
    let complaint = agreement::difference(&run.printed(), &agreement::run_program(script));
    let status = match complaint {
        Some(_) => 2,
        None if run.is_fine() => 0,
        None => 1,
    };
    Explained { output: tell(&run), complaint, status }
}
