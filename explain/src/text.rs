//! The whole explanation as text.

use crate::edit::Place;
use crate::ending::{standings, Lacked, Standing};
use crate::reading::LONGEST;
use crate::run::{answer, Run, Step};
use crate::sheet::{Sheet, SERVER};
use crate::view::cut;
use crate::words::{many, whose};
use std::collections::BTreeMap;

/// Edits or steps of one kind that are listed before the rest are counted.
const SHOWN: usize = 10;
/// Steps of the final list.
const STEPS: usize = 64;
/// Characters of a command.
const COMMAND: usize = 100;

pub fn all(name: &str, run: &Run) -> String {
    if let Some(length) = run.too_long {
        return format!(
            "{name}: {length} bytes\n\nThe run program prints `long` and does nothing: a script has at most {LONGEST} bytes.\n\
             To do: cut it into shorter scripts.\n"
        );
    }
    if run.steps.is_empty() {
        return format!(
            "{name}: empty\n\nThe run program prints `?`: the first line is missing.\nTo do: begin with `lines N items X Y ..`.\n"
        );
    }
    let mut text = format!("{name}: {}\n\n", many(run.steps.len() + run.unread, "line"));
    for step in &run.steps {
        text += &line(step);
    }
    if run.sheet.is_none() {
        text += "\nThe first line failed, so the program ends here: no sheet was opened, and no lists are printed.\n";
        if run.unread > 0 {
            text += &format!("{} behind it {} not read.\n", many(run.unread, "line"), if run.unread == 1 { "was" } else { "were" });
        }
    }
    text + &counts(run) + &run.sheet.as_ref().map_or(String::new(), ending)
}

/// The number, the command, the answer and what it means.
fn line(step: &Step) -> String {
    let number = step.line;
    let command = if step.deed.refusal().is_some() { String::from_utf8_lossy(&step.text).into_owned() } else { escaped(&step.text) };
    let verdict = match step.deed.refusal() {
        Some(0) => "",
        Some(_) => "refused, nothing changed: ",
        None => "not understood, nothing done: ",
    };
    let mut text = format!("{number:5}  {}\n       {}: {verdict}{}\n", cut(&command, COMMAND), answer(&step.deed), step.said.what);
    let more = |text: &str| format!("       {text}\n");
    text += &step.said.list.as_ref().map_or(String::new(), |list| more(list));
    text += &step.said.advice.as_ref().map_or(String::new(), |advice| more(&format!("to do: {advice}")));
    text
}

/// A line that is not understood, in quotes and with what the eye does not see.
fn escaped(line: &[u8]) -> String {
    format!("\"{}\"", line.escape_ascii())
}

/// How many lines had which answer.
fn counts(run: &Run) -> String {
    let mut refusals: BTreeMap<u8, usize> = BTreeMap::new();
    let mut not_understood = 0;
    for step in &run.steps {
        match step.deed.refusal() {
            Some(refusal) => *refusals.entry(refusal).or_default() += 1,
            None => not_understood += 1,
        }
    }
    let done = refusals.remove(&0).unwrap_or(0);
    let each: Vec<String> = refusals.iter().map(|(number, count)| format!("{count} with {number}")).collect();
    let each = if each.is_empty() { String::new() } else { format!(" ({})", each.join(", ")) };
    format!("\n{done} done, {} refused{each}, {not_understood} not understood.\n", refusals.values().sum::<usize>())
}

fn ending(sheet: &Sheet) -> String {
    let standings = standings(sheet);
    let all_alike = standings.iter().all(|standing| standing.alike);
    let list = sheet.list(SERVER);
    let steps = if list.is_empty() { "empty.".to_string() } else { format!("{}:", many(list.len(), "step")) };
    let mut text = if all_alike {
        format!("\nAll {} lists are alike, {steps}\n", sheet.n + 1)
    } else {
        format!("\nThe lists differ. The server's, {steps}\n")
    };
    for (place, position) in list.iter().zip(1..).take(STEPS) {
        text += &format!("  {position:3}  {:<10}  {}\n", place.item, whose(place.origin));
    }
    if list.len() > STEPS {
        text += &format!("  and {} more\n", list.len() - STEPS);
    }
    text += "\n";
    standings.iter().for_each(|standing| text += &bay(standing));
    text
}

/// What a bay lacks, and what the server lacks of it.
fn bay(standing: &Standing) -> String {
    let bay = standing.bay;
    let list = if standing.alike { "has the server's list" } else { "differs from the server" };
    if standing.missing.is_empty() && standing.unaccepted.is_empty() {
        return format!("Bay {bay} {list}; it lacks nothing.\n");
    }
    let mut text = format!("Bay {bay} {list}.\n");
    text += &listed("missing, taken by the server and not by the bay", "down", bay, &standing.missing);
    text += &listed("unaccepted, made by the bay and not taken by the server", "up", bay, &standing.unaccepted);
    text += &named("only on its list", &standing.more);
    text + &named("only on the server's list", &standing.fewer)
}

fn listed(title: &str, verb: &str, bay: u8, lacked: &[Lacked]) -> String {
    if lacked.is_empty() {
        return String::new();
    }
    let mut text = format!("  {title}:\n");
    for Lacked { number, what } in lacked.iter().take(SHOWN) {
        let command = format!("{bay} {verb} {number}");
        text += &format!("    {command:<12}  would bring {what}\n");
    }
    text + &rest(lacked.len(), "    ")
}

fn named(title: &str, places: &[Place]) -> String {
    if places.is_empty() {
        return String::new();
    }
    let shown: Vec<String> = places.iter().take(SHOWN).map(|place| format!("{} ({})", place.item, whose(place.origin))).collect();
    format!("  {title}: {}\n{}", shown.join(", "), rest(places.len(), "    "))
}

fn rest(count: usize, indent: &str) -> String {
    if count > SHOWN {
        format!("{indent}and {} more\n", count - SHOWN)
    } else {
        String::new()
    }
}
