//! What a taking reports of its edit: the position that arrived and the position applied, 0 for nothing. A refusal has neither.

use super::codec::Message;
use super::edit::{Edit, Move, Moves, DELETE, INSERT, NOTHING};
use super::line::{Crossed, Line};
use super::slip::{Rules, Slip};
use super::Answer;

/// The answer of taking an edit, asked before its line changes. `silent` is the slip of an end that reports no positions.
#[inline]
pub fn taken<R: Rules>(line: &Line, message: &Message, crossed: &Crossed, silent: Slip) -> Answer {
    let mut positions = slip_of_gone::<R>(line, message, [message.edit.position(), crossed.edit.position()]);
    positions = slip_of_moves::<R>(line, message, positions);
    let [arrived, applied] = slip_of_positions::<R>(message, positions, silent);
    Answer { passed: crossed.passed, arrived, applied, ..Answer::default() }
}

/// The refusal of a message that was read.
#[inline]
pub fn refused<R: Rules>(refusal: u8, edit: Edit) -> Answer {
    let arrived = if R::slips(Slip::RefusedArrived) { edit.position() } else { 0 };
    Answer { arrived, ..Answer::refused(refusal) }
}

/// The refusal of an edit that crossed.
#[inline]
pub fn refused_late<R: Rules>(refusal: u8, message: &Message, crossed: &Crossed) -> Answer {
    if R::slips(if refusal == 12 { Slip::RefusedAt12 } else { Slip::RefusedAt9 }) {
        return Answer { arrived: message.edit.position(), applied: crossed.edit.position(), ..Answer::refused(refusal) };
    }
    Answer::refused(refusal)
}

/// For the slips: the arriving edit before each pending edit that it passes, that one, and its form and move past it.
fn way(line: &Line, message: &Message) -> Vec<(Edit, Edit, Edit, Move)> {
    way_from(line, message.edit, message.seen - line.acked)
}

fn way_from(line: &Line, mut edit: Edit, first: u16) -> Vec<(Edit, Edit, Edit, Move)> {
    let step = |at: u16| {
        let (before, pending) = (edit, line.pending.get(at as usize));
        let (after, how) = before.past(pending);
        edit = after;
        (before, pending, after, how)
    };
    (first..line.kept()).map(step).collect()
}

/// Where the moves that count lead.
fn added_up(arrived: u16, moves: impl Iterator<Item = Move>) -> u16 {
    let mut sum = Moves::default();
    moves.for_each(|how| sum.add(how));
    sum.from(arrived)
}

/// The slips of an edit that is gone.
#[inline(always)]
fn slip_of_gone<R: Rules>(line: &Line, message: &Message, [arrived, applied]: [u16; 2]) -> [u16; 2] {
    match () {
        _ if arrived == 0 || applied != 0 => [arrived, applied],
        _ if R::slips(Slip::GoneLast) => {
            let last = way(line, message).into_iter().find(|step| step.3 == Move::Gone);
            [arrived, last.map_or(0, |step| step.0.position())]
        }
        _ if R::slips(Slip::GoneUnmoved) => [arrived, arrived],
        _ if R::slips(Slip::GoneTwice) => [0, 0],
        _ => [arrived, applied],
    }
}

/// The slips of adding up.
#[inline(always)]
fn slip_of_moves<R: Rules>(line: &Line, message: &Message, [arrived, applied]: [u16; 2]) -> [u16; 2] {
    let way = || way(line, message);
    let slipped = match () {
        _ if R::slips(Slip::UpForDown) => added_up(
            arrived,
            way().iter().map(|step| match step.3 {
                Move::Up => Move::Down,
                Move::Down => Move::Up,
                other => other,
            }),
        ),
        _ if R::slips(Slip::UpsAlone) => added_up(arrived, way().iter().map(|step| step.3).filter(|&how| how != Move::Down)),
        _ if R::slips(Slip::DownsAlone) => added_up(arrived, way().iter().map(|step| step.3).filter(|&how| how != Move::Up)),
        _ if R::slips(Slip::MovesOfPending) => added_up(arrived, way().iter().map(|step| step.1.past(step.0).1)),
        _ if R::slips(Slip::FirstMove) => way().first().map_or(applied, |step| step.2.position()),
        _ if R::slips(Slip::LastMoveLost) => way().last().map_or(applied, |step| step.0.position()),
        _ if R::slips(Slip::PositionOfPending) => way().last().map_or(applied, |step| step.1.position()),
        _ if R::slips(Slip::MovesPastSeen) => way_from(line, message.edit, 0).last().map_or(applied, |step| step.2.position()),
        _ => applied,
    };
    [arrived, slipped]
}

/// The slips of which positions are reported, and how.
#[inline(always)]
fn slip_of_positions<R: Rules>(message: &Message, [arrived, applied]: [u16; 2], silent: Slip) -> [u16; 2] {
    let kind = message.edit.kind();
    match () {
        _ if R::slips(silent) => [0, 0],
        _ if R::slips(Slip::ArrivedTwice) => [arrived, arrived],
        _ if R::slips(Slip::AppliedTwice) => [applied, applied],
        _ if R::slips(Slip::PositionsExchanged) => [applied, arrived],
        _ if R::slips(Slip::Distance) => [arrived, applied.wrapping_sub(arrived)],
        _ if R::slips(Slip::MovedAlone) && arrived == applied => [0, 0],
        _ if R::slips(Slip::InsertsAlone) && kind == DELETE => [0, 0],
        _ if R::slips(Slip::DeletesAlone) && kind == INSERT => [0, 0],
        _ if R::slips(Slip::PositionsFromZero) => [arrived, applied].map(|position| position.saturating_sub(1)),
        // what stands in a message where the position of another kind does
        _ if R::slips(Slip::NothingRead) && kind == NOTHING => [(message.origin >> 8) as u16, 0],
        _ => [arrived, applied],
    }
}
