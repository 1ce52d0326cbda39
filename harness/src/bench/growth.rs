//! What a whole sheet takes and keeps as edits grow, beside the graph.

use super::{middle, ratio, unit, TURNS};
use crate::calls::Calls;
use crate::cjupiter::CJupiter;
use crate::clock::thread as clock;
use crate::edges;
use crate::edit::Edit;
use crate::generate::Run;
use crate::layout;
use crate::limits::*;
use crate::list::*;
use crate::rng::Rng;
use crate::world::World;
use std::fmt::Write;

/// A row of the table: edits, time per edit of each subject and of the graph (ns), its ratio to plain's for each other subject, bytes
/// kept by the server and by its graph, edges.
pub struct Growth {
    pub edits: usize,
    pub times: Vec<f64>,
    ratios: Vec<(f64, f64, f64)>,
    pub server_bytes: usize,
    pub graph_bytes: usize,
    edges: usize,
}

/// A sheet of eight in which all clients edit at once, as a list of calls; cut after so many edits.
fn growing(edits: usize) -> List {
    let mut run = Run::sized(Rng::new(3200), LINES, INITIAL);
    let made = |run: &Run| (1..=LINES).map(|l| run.world.client(l).made as usize).sum::<usize>();
    while made(&run) < edits {
        edges::round(&mut run);
    }
    run.list
}

/// What the graph does for the same list: the edits, and which end takes which.
fn graph_run(list: &List, out: &[u8]) -> CJupiter {
    let mut graph = CJupiter::new(LINES, &list.initial);
    let ranks = list.ranks().expect("a whole sheet");
    let mut taken = [0u16; LINES + 1];
    // the places in the server's order of the edits that each client has still to take
    let mut others: Vec<Vec<usize>> = vec![Vec::new(); LINES + 1];
    let mut slots = [(0u8, false); SLOTS];
    let mut at = 0;
    for call in &list.calls {
        let accepted = out[at] == 0;
        at += call.answer_length();
        match call.op {
            INSERT if accepted => {
                let rank = ranks[call.end as usize - 1];
                graph.do_op(call.end as usize, Edit::Insert(call.position, call.value, rank))
            }
            DELETE if accepted => graph.do_op(call.end as usize, Edit::Delete(call.position)),
            SEND if accepted => slots[call.slot as usize] = (call.line, true),
            ACKNOWLEDGE if accepted => slots[call.slot as usize] = (call.line, false),
            TAKE if accepted && slots[call.slot as usize].1 => {
                let line = slots[call.slot as usize].0 as usize;
                if call.end == 0 {
                    taken[line] += 1;
                    graph.s_rev(line, taken[line]);
                    let place = graph.serial.len() - 1;
                    (1..=LINES).filter(|&l| l != line).for_each(|l| others[l].push(place));
                } else {
                    let place = others[line].remove(0);
                    graph.rev(line, place);
                }
            }
            _ => {}
        }
    }
    graph
}

/// A subject does the list's calls; their answers.
fn subject_run(list: &List, subject: &dyn Calls, out: &mut Vec<u8>) {
    out.clear();
    let mut world = World::unwatched(subject);
    list.calls.iter().for_each(|call| world.perform(call, &list.initial, out));
}

fn row_of(edits: usize, subjects: &[&dyn Calls]) -> Growth {
    let list = growing(edits);
    let mut out = Vec::with_capacity(list.output_length());
    let real = list.calls.iter().filter(|call| matches!(call.op, INSERT | DELETE)).count();
    let mut turns = vec![Vec::new(); subjects.len() + 1];
    let mut graph = None;
    for _ in 0..TURNS {
        for (subject, times) in subjects.iter().zip(&mut turns) {
            let start = clock();
            subject_run(&list, *subject, &mut out);
            times.push((clock() - start) / real as f64);
        }
        let start = clock();
        graph = Some(graph_run(&list, &out));
        turns.last_mut().unwrap().push((clock() - start) / real as f64);
    }
    let server = &graph.unwrap().replicas[0];
    Growth {
        edits: real,
        times: turns.iter().map(|times| middle(times).0).collect(),
        ratios: turns[1..subjects.len()].iter().map(|times| ratio(times, &turns[0])).collect(),
        server_bytes: layout::bytes(0),
        graph_bytes: server.bytes(),
        edges: server.edges(),
    }
}

pub fn rows(subjects: &[&dyn Calls]) -> Vec<Growth> {
    let mut rows = Vec::new();
    for edits in [50, 100, 200, 400, 800, 1600, 3200] {
        rows.push(row_of(edits, subjects));
        eprint!(".");
    }
    eprintln!();
    rows
}

pub fn table(rows: &[Growth], subjects: &[&dyn Calls]) -> String {
    let mut table = "| edits |".to_string();
    for subject in subjects {
        write!(table, " {}, time per edit |", subject.name()).unwrap();
    }
    for subject in &subjects[1..] {
        write!(table, " {} / {} (lowest to highest) |", subject.name(), subjects[0].name()).unwrap();
    }
    table += " graph, time per edit | server keeps | server's graph keeps | its edges |\n|--:|";
    table += &"--:|".repeat(2 * subjects.len() + 3);
    table.push('\n');
    for row in rows {
        write!(table, "| {} |", row.edits).unwrap();
        for &each in &row.times[..subjects.len()] {
            write!(table, " {} |", unit(each)).unwrap();
        }
        for (half, low, high) in &row.ratios {
            write!(table, " {half:.2} ({low:.2} to {high:.2}) |").unwrap();
        }
        write!(table, " {} |", unit(row.times[subjects.len()])).unwrap();
        writeln!(table, " {} B | {} B | {} |", row.server_bytes, row.graph_bytes, row.edges).unwrap();
    }
    table
}
