//! Where the ends stand: the server in the middle, the bays on both sides of it.

use super::canvas::{label_width, list_width, Anchor};
use super::labels;
use crate::run::Run;
use crate::sheet::SERVER;

/// Characters of a list beside its end.
pub const LIST: usize = 28;
/// Characters of a command at the left edge.
pub const COMMAND: usize = 24;

pub struct Columns {
    pub n: u8,
    /// Where the commands end.
    pub gutter: i32,
    /// From one end to the next.
    pub gap: i32,
}

impl Columns {
    pub fn of(run: &Run, n: u8) -> Columns {
        let command = run.steps.iter().map(|step| step.text.len().min(COMMAND)).max().unwrap_or(0);
        let label = run.steps.iter().flat_map(|step| labels::of(&step.deed)).map(|label| label_width(&label)).max();
        let list = run.steps.iter().map(|step| labels::list(&step.deed)).max();
        let widest = label.max(list.map(list_width)).unwrap_or(0);
        Columns { n, gutter: 64 + list_width(command), gap: widest.max(130) + 30 }
    }

    fn left(&self) -> u8 {
        self.n.div_ceil(2)
    }

    fn slot(&self, end: u8) -> u8 {
        match end {
            SERVER => self.left(),
            bay if bay <= self.left() => bay - 1,
            bay => bay,
        }
    }

    pub fn x(&self, end: u8) -> i32 {
        self.gutter + self.gap + self.gap * self.slot(end) as i32
    }

    pub fn width(&self) -> i32 {
        self.gutter + self.gap * (self.n as i32 + 2)
    }

    /// -1 if the second end is to the left of the first, else 1.
    pub fn towards(&self, end: u8, other: u8) -> i32 {
        if self.x(other) < self.x(end) {
            -1
        } else {
            1
        }
    }

    /// Where text beside an end begins, on the side that is turned away from the other end.
    pub fn beside(&self, end: u8, other: u8) -> (i32, Anchor) {
        let away = -self.towards(end, other);
        (self.x(end) + 14 * away, if away < 0 { Anchor::End } else { Anchor::Start })
    }
}
