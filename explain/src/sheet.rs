//! A server and its bays in lent bytes, driven through the exported calls. End 0 is the server, end l (1 to 8) bay l.

use crate::edit::{Edit, Place};
use crate::exported::Calls;
use crate::layout::{read, word, Field};
use crate::proved::Proved;
use crate::reading::Opening;

pub const SERVER: u8 = 0;
/// Bytes of the longest message.
const MESSAGE: usize = 17;

pub struct Sheet {
    pub n: u8,
    ends: Vec<Vec<u8>>,
}

/// The number that a call answers, taken apart.
#[derive(Clone, Copy, Debug)]
pub struct Answer {
    pub refusal: u8,
    /// The bytes of a sending; the pending edits that a taken edit passed.
    pub count: u16,
    pub arrived: u16,
    pub applied: u16,
}

impl Answer {
    fn of(number: u64) -> Answer {
        Answer { refusal: number as u8, count: (number >> 8) as u16, arrived: (number >> 24) as u16, applied: (number >> 40) as u16 }
    }
}

/// The answer, or the refusal.
fn accepted(number: u64) -> Result<Answer, u8> {
    match Answer::of(number) {
        answer if answer.refusal == 0 => Ok(answer),
        answer => Err(answer.refusal),
    }
}

impl Sheet {
    /// The server and the bays, with line numbers as ranks, or the refusal.
    pub fn open(opening: &Opening) -> Result<Sheet, u8> {
        let n = opening.n;
        let ranks: Vec<u8> = (1..=n).collect();
        let items: Vec<u8> = opening.items.iter().flat_map(|item| item.to_be_bytes()).collect();
        let mut server = vec![0; Proved.server_bytes() as usize];
        accepted(Proved.server_open(&mut server, n, &ranks, &items))?;
        let mut ends = vec![server];
        for line in 1..=n {
            let mut end = vec![0; Proved.client_bytes() as usize];
            accepted(Proved.client_open(&mut end, n, line, &ranks, &items))?;
            ends.push(end);
        }
        Ok(Sheet { n, ends })
    }

    /// Editing at a bay.
    pub fn edit(&mut self, bay: u8, edit: Edit) -> u8 {
        let end = &mut self.ends[bay as usize];
        let answer = match edit {
            Edit::Insert(position, item, _) => Proved.client_insert(end, position, item),
            Edit::Delete(position) => Proved.client_delete(end, position),
            Edit::Nothing => 0,
        };
        Answer::of(answer).refusal
    }

    /// The message of an edit's number on a line, or an acknowledgement.
    pub fn write(&self, from: u8, line: u8, number: Option<u16>) -> Result<Vec<u8>, u8> {
        let end = &self.ends[from as usize];
        let mut out = vec![0; MESSAGE];
        let answer = accepted(match (from, number) {
            (SERVER, Some(number)) => Proved.server_send(end, line, number, &mut out),
            (SERVER, None) => Proved.server_acknowledge(end, line, &mut out),
            (_, Some(number)) => Proved.client_send(end, line, number, &mut out),
            (_, None) => Proved.client_acknowledge(end, line, &mut out),
        })?;
        out.truncate(answer.count as usize);
        Ok(out)
    }

    pub fn take(&mut self, to: u8, message: &[u8]) -> Answer {
        let end = &mut self.ends[to as usize];
        Answer::of(if to == SERVER { Proved.server_take(end, message) } else { Proved.client_take(end, message) })
    }

    /// A number of an end, of line `line` where the server has one for each.
    fn field(&self, end: u8, line: u8, field: Field) -> u32 {
        word(end, line, field).map_or(0, |word| read(&self.ends[end as usize], word))
    }

    pub fn length(&self, end: u8) -> usize {
        self.field(end, 0, Field::Length) as usize
    }

    pub fn list(&self, end: u8) -> Vec<Place> {
        let place = |index: u16| {
            let origin = self.field(end, 0, Field::Origin(index));
            Place { item: self.field(end, 0, Field::Item(index)), origin: ((origin >> 16) as u8, origin as u16) }
        };
        (0..self.length(end) as u16).map(place).collect()
    }

    /// Edits that an end made for a line.
    pub fn made(&self, end: u8, line: u8) -> u16 {
        self.field(end, line, Field::Made) as u16
    }

    /// Edits that it took on the line.
    pub fn taken(&self, end: u8, line: u8) -> u16 {
        self.field(end, line, Field::Taken) as u16
    }

    /// How many of those that it made the other end has acknowledged.
    pub fn acked(&self, end: u8, line: u8) -> u16 {
        self.field(end, line, Field::Acked) as u16
    }

    pub fn pending(&self, end: u8, line: u8) -> u16 {
        self.made(end, line) - self.acked(end, line)
    }
}
