//! What can be said of every run, hostile ones too, from its own dumps: question 2 read literally, clause by clause, what an opening leaves,
//! when 18, 1 and 16 are given, that a refusal changes nothing, that a taking changes the list at the position applied, and that taking back right
//! after an edit leaves the items as they were before it.

use crate::describe::broken;
use crate::layout::{self, Field};
use crate::limits::*;
use crate::list::*;
use crate::oracle::{opening_refusal, Wrong};

/// An edit as a dump shows it: the place's top byte, position, priority; item.
type Slot = (u64, u64, u64, u64);

/// A line as a dump shows it.
struct Line {
    made: u64,
    taken: u64,
    acked: u64,
    inserts: u64,
    pending: Vec<Slot>,
    /// The pending edits' makers and their numbers, slot by slot; a client has none.
    origins: Vec<(u64, u64)>,
}

/// An end as a dump shows it.
struct View {
    end: u8,
    words: Vec<u64>,
}

impl View {
    fn new(end: u8, dump: &[u8]) -> View {
        View { end, words: dump.chunks_exact(4).map(|word| word.iter().rev().fold(0, |all, &byte| all << 8 | byte as u64)).collect() }
    }

    fn number(&self, line: u8, field: Field) -> u64 {
        self.words[layout::word(self.end, line, field).unwrap() as usize]
    }

    fn origin(&self, line: u8, field: Field) -> (u64, u64) {
        let word = self.number(line, field);
        (word >> 16, word & 65_535)
    }

    /// The edit that a place and an item hold.
    fn edit(&self, line: u8, place: Field, item: Field) -> Slot {
        let (place, item) = (self.number(line, place), self.number(line, item));
        (place >> 24, place >> 8 & 65_535, place & 255, item)
    }

    fn line(&self, line: u8) -> Line {
        let edit = |index: u16| self.edit(line, Field::Place(index), Field::Brought(index));
        Line {
            made: self.number(line, Field::Made),
            taken: self.number(line, Field::Taken),
            acked: self.number(line, Field::Acked),
            inserts: self.number(line, Field::Inserts),
            pending: (0..PENDING as u16).map(edit).collect(),
            origins: (0..PENDING as u16).filter(|_| self.end == 0).map(|index| self.origin(line, Field::PendingOrigin(index))).collect(),
        }
    }

    /// The eight ranks, a byte each.
    fn ranks(&self) -> Vec<u8> {
        [0, 1].iter().flat_map(|&half| (self.number(0, Field::Ranks(half)) as u32).to_le_bytes()).collect()
    }

    /// The list's places: the item and its origin.
    fn places(&self) -> Vec<(u64, (u64, u64))> {
        (0..ITEMS as u16).map(|index| (self.number(0, Field::Item(index)), self.origin(0, Field::Origin(index)))).collect()
    }
}

/// The ranks of lines 1 to n are 1 to n, each used once, and the rest is zero.
fn sound_ranks(n: u64, ranks: &[u8]) -> bool {
    let (used, unused) = ranks.split_at(n as usize);
    is_ranking(n as usize, used) && unused.iter().all(|&rank| rank == 0)
}

fn unused_places_are_zero(places: &[(u64, (u64, u64))], length: u64) -> bool {
    places.iter().skip(length as usize).all(|&place| place == (0, (0, 0)))
}

/// The total is the sum of the items' seconds, the low 12 bits of each, over the list from the front.
fn is_running_time(view: &View, length: u64) -> bool {
    let seconds = |index: u16| view.number(0, Field::Item(index)) % 4096;
    view.number(1, Field::Total) == (0..length as u16).map(seconds).sum::<u64>()
}

/// The pending edits are exactly acked + 1 to made, at most 64, with positions 1 to 512, and the rest is zero.
fn sound_pending(line: &Line, priority_allowed: impl Fn(u64) -> bool) -> bool {
    if line.acked > line.made || line.made - line.acked > PENDING as u64 {
        return false;
    }
    let (used, unused) = line.pending.split_at((line.made - line.acked) as usize);
    used.iter().all(|&(top, position, priority, item)| {
        let delete = priority == 0 && item == 0;
        let insert = priority != 0 && priority_allowed(priority);
        (top, position, priority, item) == (0, 0, 0, 0) || top == 0 && (1..=512).contains(&position) && (delete || insert)
    }) && unused.iter().all(|&edit| edit == (0, 0, 0, 0))
}

/// At the server every pending edit has an origin, whatever it became: another line of 1 to n and a number of 1 to 400; the rest is zero.
fn sound_origins(line: &Line, own: u64, n: u64) -> bool {
    let (used, unused) = line.origins.split_at((line.made - line.acked) as usize);
    used.iter().all(|&(maker, number)| (1..=n).contains(&maker) && maker != own && (1..=400).contains(&number))
        && unused.iter().all(|&origin| origin == (0, 0))
}

/// The stored inverse: nothing, a delete or an insert of the client's rank at 1 to 513; nothing where no edit was made.
fn sound_inverse((top, position, priority, item): Slot, rank: u64, made: u64) -> bool {
    if (top, position, priority, item) == (0, 0, 0, 0) {
        return true;
    }
    let delete = priority == 0 && item == 0;
    let insert = priority != 0 && priority == rank;
    made > 0 && top == 0 && (1..=513).contains(&position) && (delete || insert)
}

fn sound_client(dump: &[u8]) -> bool {
    let view = View::new(1, dump);
    let [n, line, length] = [Field::N, Field::Line, Field::Length].map(|field| view.number(1, field));
    let (own, ranks) = (view.line(1), view.ranks());
    (1..=8).contains(&n)
        && (1..=n).contains(&line)
        && sound_ranks(n, &ranks)
        && length <= 512
        && own.made <= 400
        && own.taken <= 2800
        && sound_pending(&own, |priority| priority == ranks[line as usize - 1] as u64)
        && own.inserts <= 48
        && own.inserts <= own.made
        && sound_inverse(view.edit(1, Field::InversePlace, Field::InverseItem), ranks[line as usize - 1] as u64, own.made)
        && unused_places_are_zero(&view.places(), length)
        && is_running_time(&view, length)
}

fn sound_server(dump: &[u8]) -> bool {
    let view = View::new(0, dump);
    let [n, initial, length] = [Field::N, Field::Initial, Field::Length].map(|field| view.number(0, field));
    let lines: Vec<Line> = (1..=LINES as u8).map(|line| view.line(line)).collect();
    let ranks = view.ranks();
    if !(1..=8).contains(&n) || !sound_ranks(n, &ranks) || initial > 128 || length > 512 {
        return false;
    }
    let (used, unused) = lines.split_at(n as usize);
    let all_taken: u64 = used.iter().map(|line| line.taken).sum();
    let all_inserts: u64 = used.iter().map(|line| line.inserts).sum();
    let zero = |line: &Line| {
        [line.made, line.taken, line.acked, line.inserts] == [0; 4]
            && line.pending.iter().all(|&edit| edit == (0, 0, 0, 0))
            && line.origins.iter().all(|&origin| origin == (0, 0))
    };
    used.iter().enumerate().all(|(index, line)| {
        line.taken <= 400
            && line.made == all_taken - line.taken
            && sound_pending(line, |priority| (1..=n).contains(&priority) && priority != ranks[index] as u64)
            && sound_origins(line, index as u64 + 1, n)
            && line.inserts <= 48
            && line.inserts <= line.taken
    }) && length <= initial + all_inserts
        && unused.iter().all(zero)
        && unused_places_are_zero(&view.places(), length)
        && is_running_time(&view, length)
}

/// Question 2 of a dump.
pub fn sound(end: u8, dump: &[u8]) -> bool {
    if end == 0 {
        sound_server(dump)
    } else {
        sound_client(dump)
    }
}

/// The end that an opening gives.
fn opened(call: &Call, initial: &[u32]) -> Vec<u8> {
    let items = &initial[..initial.len().min(call.number as usize)];
    let mut words = vec![0; layout::words(call.end)];
    words[0] = call.size as u32;
    words[1] = if call.end == 0 { items.len() as u32 } else { call.line as u32 };
    words[2] = items.len() as u32;
    words[3..5].copy_from_slice(&layout::rank_words(&call.ranks()));
    words[layout::word(call.end, 1, Field::Total).unwrap() as usize] = layout::seconds(items);
    let first = layout::word(call.end, 1, Field::Item(0)).unwrap() as usize;
    words[first..first + items.len()].copy_from_slice(items);
    let first = layout::word(call.end, 1, Field::Origin(0)).unwrap() as usize;
    (0..items.len()).for_each(|index| words[first + index] = index as u32 + 1);
    words.iter().flat_map(|word| word.to_le_bytes()).collect()
}

/// The bytes of an end's length and items.
fn items(end: u8, bytes: &[u8]) -> Vec<u8> {
    let word = |field: Field| 4 * layout::word(end, 1, field).unwrap() as usize;
    let (length, first) = (word(Field::Length), word(Field::Item(0)));
    [&bytes[length..length + 4], &bytes[first..first + 4 * ITEMS]].concat()
}

/// What is known of an end.
#[derive(Default)]
struct Known {
    /// Its bytes, and whether they are sound.
    end: Option<(Vec<u8>, bool)>,
    since: Since,
    /// The items before its latest edit, as long as nothing was taken since.
    before: Option<Vec<u8>>,
    /// The items that the next dump has to show, as taking back left them.
    back: Option<Vec<u8>>,
}

/// What was accepted since: the list and counts may have changed, but the end has to be sound if it was.
#[derive(Clone, Copy, PartialEq, Eq, Default)]
enum Since {
    #[default]
    Nothing,
    /// One taking, which said that it applied an edit at this position.
    Taking(u16),
    More,
}

/// Whether an edit at this position made the list of the second dump out of that of the first, items and origins; 0 leaves it.
fn changed_at(end: u8, position: u16, before: &[u8], now: &[u8]) -> bool {
    let word = |field: Field| layout::word(end, 1, field).unwrap();
    let [length, new_length] = [before, now].map(|dump| layout::read(dump, word(Field::Length)));
    [Field::Item(0), Field::Origin(0)].into_iter().all(|first| {
        let [before, now] = [before, now].map(|dump| dump[4 * word(first) as usize..][..4 * ITEMS].as_chunks::<4>().0);
        let Some(at) = (position as usize).checked_sub(1) else {
            return before == now && length == new_length;
        };
        let inserted = new_length == length + 1 && now[at + 1..] == before[at..ITEMS - 1];
        let deleted = new_length + 1 == length && now[at..ITEMS - 1] == before[at + 1..];
        before[..at] == now[..at] && (inserted || deleted)
    })
}

/// Checks a whole run: 18 exactly with too few lent bytes, 1 and 16 exactly by their questions, 2 exactly at unsound ends, openings give their
/// end, refusals change nothing and have no count, length or position, takings alone have positions, accepted calls keep ends sound.
pub fn check(list: &List, out: &[u8]) -> Result<(), Wrong> {
    let fresh = |end: u8| Known { end: Some((vec![FRESH; layout::bytes(end)], false)), ..Known::default() };
    let mut ends: Vec<Known> = (0..=LINES as u8).map(fresh).collect();
    let mut at = 0;
    for (index, call) in list.calls.iter().enumerate() {
        let Some(answer) = out.get(at..at + call.answer_length()) else {
            return Err((index, "the output ends here".to_string()));
        };
        at += answer.len();
        if call.is_one() && call.has_end() {
            let known = &mut ends[call.end as usize];
            let fine = if call.exported() { called(known, call, &list.initial, answer) } else { seen(known, call, &answer[ANSWER..]) };
            fine.map_err(|text| (index, text))?;
        }
    }
    Ok(())
}

/// A dump, or an end overwritten.
fn seen(known: &mut Known, call: &Call, now: &[u8]) -> Result<(), String> {
    if call.op != DUMP {
        *known = Known::default();
        return Ok(());
    }
    let before = known.end.take();
    let is_sound = match &before {
        Some((bytes, was_sound)) if bytes == now => *was_sound,
        _ => sound(call.end, now),
    };
    if let Some((before, was_sound)) = before {
        let differs = before.iter().zip(now).position(|(before, now)| before != now);
        if let Some(at) = differs.filter(|_| known.since == Since::Nothing) {
            let word = at as u16 / 4;
            let [before, now] = [&before, now].map(|bytes| layout::read(bytes, word));
            return Err(format!("{} (word {word}): expected {before}; came {now}", layout::name(call.end, word)));
        }
        if was_sound && !is_sound {
            return Err("end: expected a sound one after an accepted call; came an unsound one".to_string());
        }
        if let Since::Taking(position) = known.since {
            if !changed_at(call.end, position, &before, now) {
                return Err(format!("list: expected a change at the position applied, {position}; came another"));
            }
        }
    }
    if let Some(back) = known.back.take() {
        if back != items(call.end, now) {
            return Err("list: expected the items as before the edit that was taken back; came others".to_string());
        }
    }
    (known.end, known.since) = (Some((now.to_vec(), is_sound)), Since::Nothing);
    Ok(())
}

/// What an answer says beside its refusal: nothing at one, but for the messages of a packet that were taken before it; positions at the taking of
/// one message alone, at most 512, which differ by at most one for each pending edit passed unless the edit is gone past one of them; how long
/// the message is only if it was taken at an offset.
fn said(call: &Call, answer: Answer) -> Result<(), String> {
    let Answer { refusal, count, arrived, applied, read } = answer;
    let far = arrived.abs_diff(applied);
    let counts = refusal == 0 || call.op == TAKE_PACKET;
    let sized = if refusal == 0 && call.op == TAKE_AT { matches!(read, 5 | 10 | 12 | 17) } else { read == 0 };
    let expected = match () {
        _ if !counts && count != 0 => "no count at a refusal",
        _ if !(refusal == 0 && call.takes_one()) && (arrived, applied) != (0, 0) => "no positions",
        _ if !sized => "the length of a message that is taken at an offset, and else none",
        _ if arrived as usize > ITEMS || applied as usize > ITEMS => "positions of at most 512",
        _ if arrived == 0 && applied != 0 => "no position applied of an edit that arrived without one",
        _ if (applied != 0 && far > count) || (applied == 0 && arrived != 0 && count == 0) => "positions that so many moves explain",
        _ => return Ok(()),
    };
    Err(format!("answer: expected {expected}; came {answer:?}"))
}

fn called(known: &mut Known, call: &Call, initial: &[u32], bytes: &[u8]) -> Result<(), String> {
    let answer = Answer::of(bytes);
    let refusal = answer.refusal;
    if bytes[ANSWER - 1] != 0 {
        return Err(format!("broken: expected nothing; came {}", broken(bytes[ANSWER - 1])));
    }
    said(call, answer)?;
    let unsound = known.end.as_ref().map(|end| !end.1);
    let opening = (call.op == OPEN).then(|| opening_refusal(call, initial.len()));
    let wanted = match refusal {
        _ if call.lent < 0 => refusal == 18,
        _ if call.op == OPEN => opening == Some(refusal),
        1 | 16 | 18 => false,
        15 if !call.is_of_packet() => false,
        _ => unsound.is_none_or(|unsound| unsound == (refusal == 2)),
    };
    if !wanted {
        let state = unsound.map_or("unknown", |unsound| if unsound { "unsound" } else { "sound" });
        let expected = match opening {
            _ if call.lent < 0 => "18".to_string(),
            Some(refusal) => refusal.to_string(),
            _ if unsound == Some(true) => "2".to_string(),
            _ => "none of 1, 2, 16, 18, and 15 of a packet alone".to_string(),
        };
        return Err(format!("refusal: expected {expected}; came {refusal} (the end is {state})"));
    }
    if refusal == 0 && call.op == OPEN {
        *known = Known { end: Some((opened(call, initial), true)), ..Known::default() };
    }
    let took = (call.op == TAKE_PACKET && answer.count != 0) || (refusal == 0 && call.takes_one());
    if took || (refusal == 0 && call.edits()) {
        let dumped = known.end.as_ref().filter(|_| known.since == Since::Nothing).map(|(bytes, _)| items(call.end, bytes));
        let shown = known.back.take().or(dumped);
        known.back = known.before.take().filter(|_| call.op == TAKE_BACK);
        known.before = shown.filter(|_| call.edits());
        let first = known.since == Since::Nothing && call.takes_one();
        known.since = if first { Since::Taking(answer.applied) } else { Since::More };
    }
    Ok(())
}
