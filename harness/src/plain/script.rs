//! The run program: a script in, the refusals and the lists out.

use super::client::Client;
use super::codec::LONGEST as LONGEST_MESSAGE;
use super::packets::Takes;
use super::places::Places;
use super::server::Server;
use super::slip::{Rules, Slip};
use crate::limits::*;

pub const LONGEST: usize = 65_536;

/// What a line of the script asks for.
enum Order {
    Insert(u16, u32),
    Delete(u16),
    Up(u16),
    Down(u16),
    Ack,
    Told,
}

struct Sheet {
    n: u8,
    server: Server,
    clients: [Client; LINES],
}

/// Appends what the program prints to `out`.
pub fn run<R: Rules>(input: &[u8], out: &mut Vec<u8>) {
    if input.len() > LONGEST - R::slips(Slip::ScriptLong) as usize {
        return out.extend_from_slice(b"long\n");
    }
    let mut lines = Lines { rest: input };
    let Some((n, items)) = lines.next::<R>().and_then(first::<R>) else {
        return out.extend_from_slice(b"?\n");
    };
    let Some(mut sheet) = Sheet::open::<R>(n, &items) else {
        return out.extend_from_slice(b"1\n");
    };
    out.extend_from_slice(b"0\n");
    while let Some(line) = lines.next::<R>() {
        match order::<R>(line, n) {
            Some((bay, order)) => decimal(sheet.perform::<R>(bay, order) as u32, out),
            None => out.push(b'?'),
        }
        out.push(b'\n');
    }
    sheet.print::<R>(out);
}

struct Lines<'a> {
    rest: &'a [u8],
}

impl<'a> Lines<'a> {
    /// The next line without its byte 10; a last line without one counts.
    fn next<R: Rules>(&mut self) -> Option<&'a [u8]> {
        if self.rest.is_empty() {
            return None;
        }
        match self.rest.iter().position(|&byte| byte == b'\n') {
            Some(end) => {
                let line = &self.rest[..end];
                self.rest = &self.rest[end + 1..];
                Some(line)
            }
            None if R::slips(Slip::ScriptLastLine) => None,
            None => Some(std::mem::take(&mut self.rest)),
        }
    }
}

/// The words of a line: single spaces stand between them.
struct Words<'a> {
    rest: Option<&'a [u8]>,
}

impl<'a> Words<'a> {
    fn next<R: Rules>(&mut self) -> Option<&'a [u8]> {
        let mut rest = self.rest?;
        if R::slips(Slip::ScriptSpaces) {
            while rest.first() == Some(&b' ') {
                rest = &rest[1..];
            }
        }
        match rest.iter().position(|&byte| byte == b' ') {
            Some(end) => {
                self.rest = Some(&rest[end + 1..]);
                Some(&rest[..end])
            }
            None => {
                self.rest = None;
                Some(rest)
            }
        }
    }

    /// A number of at most `bits` bits.
    fn number<R: Rules>(&mut self, bits: u32) -> Option<u64> {
        let word = self.next::<R>()?;
        if word.is_empty() || !word.iter().all(u8::is_ascii_digit) {
            return None;
        }
        if R::slips(Slip::ScriptZeros) && word.len() > 1 && word[0] == b'0' {
            return None;
        }
        let value = word.iter().fold(0u64, |value, digit| (value * 10 + (digit - b'0') as u64).min(1 << 40));
        if R::slips(Slip::ScriptWide) {
            return Some(value & ((1 << bits) - 1));
        }
        (value < 1 << bits).then_some(value)
    }
}

/// `lines n items` and the items.
fn first<R: Rules>(line: &[u8]) -> Option<(u8, Vec<u32>)> {
    let mut words = Words { rest: Some(line) };
    if words.next::<R>()? != b"lines" {
        return None;
    }
    let n = words.number::<R>(8)? as u8;
    if words.next::<R>()? != b"items" {
        return None;
    }
    let mut items = Vec::new();
    while words.rest.is_some() {
        items.push(words.number::<R>(32)? as u32);
    }
    Some((n, items))
}

fn order<R: Rules>(line: &[u8], n: u8) -> Option<(u8, Order)> {
    let mut words = Words { rest: Some(line) };
    // a client's number has no width of its own: it only has to be 1 to n
    let bay = words.number::<R>(39).filter(|&bay| 1 <= bay && bay <= n as u64)? as u8;
    let order = match words.next::<R>()? {
        b"ins" => Order::Insert(words.number::<R>(16)? as u16, words.number::<R>(32)? as u32),
        b"del" => Order::Delete(words.number::<R>(16)? as u16),
        b"up" => Order::Up(words.number::<R>(16)? as u16),
        b"down" => Order::Down(words.number::<R>(16)? as u16),
        b"ack" => Order::Ack,
        b"told" => Order::Told,
        _ => return None,
    };
    words.rest.is_none().then_some((bay, order))
}

impl Sheet {
    fn open<R: Rules>(n: u8, items: &[u32]) -> Option<Sheet> {
        let mut sheet = Sheet { n, server: Server::ZERO, clients: [Client::ZERO; LINES] };
        // line numbers are the ranks
        let ranks: Vec<u8> = if R::slips(Slip::ScriptRanks) { (1..=n).rev().collect() } else { (1..=n).collect() };
        let refusal = sheet.server.open::<R>(n, &ranks, items);
        for (line, client) in (1..=n).zip(&mut sheet.clients) {
            client.open::<R>(n, line, &ranks, items);
        }
        (refusal == 0).then_some(sheet)
    }

    fn perform<R: Rules>(&mut self, bay: u8, order: Order) -> u8 {
        let (server, client) = (&mut self.server, &mut self.clients[bay as usize - 1]);
        let mut buffer = [0; LONGEST_MESSAGE];
        let sent = match order {
            Order::Insert(position, item) => return client.insert::<R>(position, item).refusal,
            Order::Delete(position) => return client.delete::<R>(position).refusal,
            Order::Up(k) => client.send::<R>(bay, k, &mut buffer),
            Order::Ack => client.tell::<R>(bay, &mut buffer),
            Order::Down(k) => server.send::<R>(bay, k, &mut buffer),
            Order::Told => server.tell::<R>(bay, &mut buffer),
        };
        if sent.refusal != 0 && !R::slips(Slip::ScriptRefusalOfTaking) {
            return sent.refusal;
        }
        let bytes = &buffer[..sent.length as usize];
        match order {
            Order::Up(_) | Order::Ack => server.take::<R>(bytes).refusal,
            _ => client.take::<R>(bytes).refusal,
        }
    }

    fn print<R: Rules>(&self, out: &mut Vec<u8>) {
        out.extend_from_slice(b"server");
        print_items::<R>(&self.server.list, out);
        for client in &self.clients[..self.n as usize] {
            out.extend_from_slice(b"client ");
            decimal(client.line as u32, out);
            print_items::<R>(&client.list, out);
        }
    }
}

/// The items alone, without their origins.
fn print_items<R: Rules>(list: &Places, out: &mut Vec<u8>) {
    let items = &list.items[..list.length as usize];
    if items.is_empty() && R::slips(Slip::ScriptEmptyList) {
        out.push(b' ');
    }
    for &item in items {
        out.push(b' ');
        decimal(item, out);
    }
    out.push(b'\n');
}

fn decimal(mut value: u32, out: &mut Vec<u8>) {
    let mut digits = [0; 10];
    let mut at = digits.len();
    loop {
        at -= 1;
        digits[at] = b'0' + (value % 10) as u8;
        value /= 10;
        if value == 0 {
            return out.extend_from_slice(&digits[at..]);
        }
    }
}
