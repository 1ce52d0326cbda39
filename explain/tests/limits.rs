//! Refusals at the limits, and ends that differ.

mod common;

use common::has;
use explain::in_words;

fn text(script: &str, status: u8) -> String {
    let explained = in_words("script", script.as_bytes());
    assert_eq!(explained.complaint, None);
    assert_eq!(explained.status, status, "{}", explained.output);
    explained.output
}

/// So many lines, with the number in the place of `K`.
fn repeated(line: &str, numbers: std::ops::RangeInclusive<usize>) -> String {
    numbers.map(|number| line.replace('K', &number.to_string()) + "\n").collect()
}

/// Bay 1 deletes and sends so many edits, from the front.
fn deleted(numbers: std::ops::RangeInclusive<usize>) -> String {
    repeated("1 del 1\n1 up K", numbers) + "1 told\n"
}

#[test]
fn refusals() {
    let pending = "lines 1 items\n".to_string() + &repeated("1 ins 1 K", 1..=32) + &repeated("1 del 1", 1..=32) + "1 ins 1 9\n";
    has(&text(&pending, 1), &["12: refused, nothing changed: 64 edits of bay 1 are pending: the server has not acknowledged them"]);
    let inserts = "lines 1 items\n".to_string() + &repeated("1 ins 1 K", 1..=49);
    has(&text(&inserts, 1), &["10: refused, nothing changed: bay 1 has inserted 48 steps, and may not insert more"]);
    let opening = format!("lines 2 items{}\n", " 7".repeat(128));
    let full = opening + &deleted(1..=40) + &deleted(41..=64) + "1 del 1\n1 up 65\n";
    has(&text(&full, 1), &["12: refused, nothing changed: the server keeps 64 edits for bay 2, which has not acknowledged them"]);
    has(&text(&full, 1), &["to do: let bay 2 take them (`2 down K`) and acknowledge (`2 ack`), then write this line again"]);
    let gap = text("lines 1 items\n1 ins 1 5\n1 ins 1 6\n1 up 2\n1 up 0\n1 del 9\n", 1);
    has(&gap, &["6: refused, nothing changed: the server has not taken bay 1's edit 1 yet, and takes edits in order"]);
    has(&gap, &["to do: write `1 up 1` first, then this line again", "edits are numbered from 1", "write a position from 1 to 2"]);
    has(&text("lines 1 items\n1 del 1\n", 1), &["9: refused, nothing changed: bay 1's list is empty\n"]);
    let told = text("lines 1 items\n1 ins 1 5\n1 up 1\n1 told\n1 up 1\n", 1);
    has(&told, &["the server has acknowledged number 1, so it is no longer kept\n       to do: nothing: it was taken"]);
}

/// Five bays, of which each takes and acknowledges everything now and then.
struct Sheet {
    script: String,
    made: [usize; 5],
    taken: [usize; 5],
}

impl Sheet {
    fn edit(&mut self, bay: usize, edit: &str) {
        self.made[bay - 1] += 1;
        self.script += &format!("{bay} {edit}\n{bay} up {}\n", self.made[bay - 1]);
        if self.made.iter().sum::<usize>() % 20 == 0 {
            (1..=5).for_each(|bay| self.settle(bay));
        }
    }

    fn settle(&mut self, bay: usize) {
        let others = self.made.iter().sum::<usize>() - self.made[bay - 1];
        self.script += &repeated(&format!("{bay} down K"), self.taken[bay - 1] + 1..=others);
        self.script += &format!("{bay} ack\n{bay} told\n");
        self.taken[bay - 1] = others;
    }
}

#[test]
fn four_hundred_edits() {
    let mut sheet = Sheet { script: format!("lines 5 items{}\n", " 7".repeat(128)), made: [0; 5], taken: [0; 5] };
    (0..4 * 48).for_each(|edit| sheet.edit(2 + edit / 48, "ins 1 8"));
    (1..=5).for_each(|bay| sheet.settle(bay));
    (0..320).for_each(|_| sheet.edit(1, "del 1"));
    (0..80).for_each(|edit| sheet.edit(1, if edit % 2 == 0 { "ins 1 9" } else { "del 1" }));
    (1..=5).for_each(|bay| sheet.settle(bay));
    has(&text(&sheet.script, 0), &["this is its edit 400", "All 6 lists are alike, empty.\n"]);
    let text = text(&(sheet.script + "1 ins 1 9\n"), 1);
    has(&text, &["11: refused, nothing changed: bay 1 has made 400 edits, and may not make more"]);
}

#[test]
fn gone_and_nothing() {
    let text = text("lines 2 items 5 6\n1 del 1\n2 del 1\n1 up 1\n2 up 1\n1 down 1\n2 down 1\n", 0);
    has(&text, &["bay 2's edit 1, delete at 1: arrived at 1, gone: the step is deleted already, past 1 edit that bay 2 had not seen"]);
    has(&text, &["bay 1 takes bay 2's edit 1, nothing: its step was deleted before, so nothing is left to do"]);
    has(&text, &["All 3 lists are alike, 1 step:\n    1  6           the opening list\n"]);
}

/// What each bay lacks, and the commands that would bring it.
#[test]
fn ends_that_differ() {
    let text = text("lines 2 items 5 6\n1 ins 1 7\n1 up 1\n2 del 1\n1 del 3\n", 1);
    has(&text, &["The lists differ. The server's, 3 steps:\n    1  7           bay 1's edit 1\n"]);
    has(&text, &["Bay 1 differs from the server.\n  unaccepted, made by the bay and not taken by the server:\n"]);
    has(&text, &["    1 up 2        would bring bay 1's edit 2, delete at 3\n  only on the server's list: 6 (the opening list)\n"]);
    has(&text, &["Bay 2 differs from the server.\n  missing, taken by the server and not by the bay:\n"]);
    has(&text, &["    2 down 1      would bring bay 1's edit 1, insert 7 at 1\n"]);
    has(&text, &["    2 up 1        would bring bay 2's edit 1, delete at 1\n"]);
    has(&text, &["  only on the server's list: 7 (bay 1's edit 1), 5 (the opening list)\n"]);
}

/// Equal lists may still wait for edits: that is said, and is no failure.
#[test]
fn alike_but_waiting() {
    let text = text("lines 1 items 5\n1 ins 1 7\n1 del 1\n", 0);
    has(&text, &["All 2 lists are alike, 1 step:", "Bay 1 has the server's list.\n  unaccepted"]);
}
