//! The whole script, line by line.

use crate::deed::{self, Deed};
use crate::edit::Place;
use crate::reading::{self, LONGEST};
use crate::sheet::{Sheet, SERVER};
use crate::words::{self, Said};

/// A line of the script.
pub struct Step {
    /// From 1.
    pub line: usize,
    pub text: Vec<u8>,
    pub deed: Deed,
    pub said: Said,
}

pub struct Run {
    pub steps: Vec<Step>,
    /// Lines that a failed first line leaves unread.
    pub unread: usize,
    /// The bytes of a script that is too long.
    pub too_long: Option<usize>,
    /// What the first line opened, as the last line left it.
    pub sheet: Option<Sheet>,
}

pub fn run(script: &[u8]) -> Run {
    let mut run = Run { steps: Vec::new(), unread: 0, too_long: None, sheet: None };
    if script.len() > LONGEST {
        run.too_long = Some(script.len());
        return run;
    }
    let lines = reading::lines(script);
    let Some((first, rest)) = lines.split_first() else {
        return run;
    };
    run.first(first);
    match run.sheet.take() {
        Some(mut sheet) => {
            rest.iter().for_each(|line| run.next(line, &mut sheet));
            run.sheet = Some(sheet);
        }
        None => run.unread = rest.len(),
    }
    run
}

impl Run {
    fn first(&mut self, line: &[u8]) {
        let deed = match reading::opening(line) {
            Ok(opening) => match Sheet::open(&opening) {
                Ok(sheet) => {
                    self.sheet = Some(sheet);
                    Deed::Opened(opening)
                }
                Err(refusal) => Deed::NotOpened { opening, refusal },
            },
            Err(why) => Deed::NotUnderstood(why),
        };
        self.steps.push(Step { line: 1, text: line.to_vec(), said: words::first(&deed), deed });
    }

    fn next(&mut self, line: &[u8], sheet: &mut Sheet) {
        let deed = match reading::order(line, sheet.n) {
            Ok((bay, verb)) => deed::perform(sheet, bay, verb),
            Err(why) => Deed::NotUnderstood(why),
        };
        let said = words::said(&deed, sheet);
        self.steps.push(Step { line: self.steps.len() + 1, text: line.to_vec(), deed, said });
    }

    /// What the run program has to print, if what is said here is right.
    pub fn printed(&self) -> Vec<u8> {
        if self.too_long.is_some() {
            return b"long\n".to_vec();
        }
        if self.steps.is_empty() {
            return b"?\n".to_vec();
        }
        let mut lines: Vec<String> = self.steps.iter().map(|step| answer(&step.deed)).collect();
        if let Some(sheet) = &self.sheet {
            lines.push(listed("server".to_string(), &sheet.list(SERVER)));
            lines.extend((1..=sheet.n).map(|bay| listed(format!("client {bay}"), &sheet.list(bay))));
        }
        (lines.join("\n") + "\n").into_bytes()
    }

    /// Whether every line was done and the lists are alike.
    pub fn is_fine(&self) -> bool {
        let done = self.steps.iter().all(|step| step.deed.refusal() == Some(0));
        done && self.sheet.as_ref().is_some_and(|sheet| (1..=sheet.n).all(|bay| alike(sheet, bay)))
    }
}

/// Whether a bay's list is the server's, as the run program prints them.
pub fn alike(sheet: &Sheet, bay: u8) -> bool {
    let items = |end: u8| sheet.list(end).iter().map(|place| place.item).collect::<Vec<_>>();
    items(bay) == items(SERVER)
}

/// What the run program prints for a line.
pub fn answer(deed: &Deed) -> String {
    deed.refusal().map_or("?".to_string(), |refusal| refusal.to_string())
}

fn listed(name: String, places: &[Place]) -> String {
    places.iter().fold(name, |line, place| format!("{line} {}", place.item))
}
