//! Random scripts for the run program, malformed lines included, and a second reading of them: lines are split and parsed as text, and every
//! order becomes calls of a call list.

use crate::limits::*;
use crate::list::*;
use crate::plain::slip::Plain;
use crate::rng::Rng;
use crate::world::World;

/// What the program has to print.
pub fn expected(input: &[u8]) -> Vec<u8> {
    if input.len() > 65_536 {
        return b"long\n".to_vec();
    }
    let mut lines: Vec<&[u8]> = input.split(|&byte| byte == 10).collect();
    if lines.last().is_some_and(|line| line.is_empty()) {
        lines.pop();
    }
    let Some((n, items)) = lines.first().and_then(|line| opening(line)) else {
        return b"?\n".to_vec();
    };
    if !(1..=8).contains(&n) || items.len() > 128 {
        return b"1\n".to_vec();
    }
    let mut sheet = World::unwatched(&Plain);
    let opened = List::opened(n as u8, items);
    for call in &opened.calls {
        sheet.perform(call, &opened.initial, &mut Vec::new());
    }
    let mut printed = "0\n".to_string();
    for line in &lines[1..] {
        printed += &match calls_of(line, n) {
            Some(calls) => format!("{}\n", perform(&mut sheet, &calls)),
            None => "?\n".to_string(),
        };
    }
    printed += &listed("server".to_string(), &sheet.items(0));
    for l in 1..=n as usize {
        printed += &listed(format!("client {l}"), &sheet.items(l));
    }
    printed.into_bytes()
}

/// The first line that differs from what has to be printed.
pub fn compare(expected: &[u8], printed: &[u8]) -> Result<(), String> {
    let (mut wanted, mut came) = (expected.split(|&byte| byte == 10), printed.split(|&byte| byte == 10));
    for line in 1.. {
        let (wanted, came) = (wanted.next(), came.next());
        if wanted != came {
            let text = |line: Option<&[u8]>| line.map_or("nothing".to_string(), |line| format!("{:?}", String::from_utf8_lossy(line)));
            return Err(format!("printed line {line}: expected {}; came {}", text(wanted), text(came)));
        }
        if wanted.is_none() {
            break;
        }
    }
    Ok(())
}

fn listed(name: String, items: &[u32]) -> String {
    let mut words = vec![name];
    words.extend(items.iter().map(u32::to_string));
    words.join(" ") + "\n"
}

/// The first refusal, or 0.
fn perform(sheet: &mut World<Plain>, calls: &[Call]) -> u8 {
    let mut answer = Vec::with_capacity(ANSWER);
    for call in calls {
        answer.clear();
        sheet.perform(call, &[], &mut answer);
        if answer[0] != 0 {
            break;
        }
    }
    answer[0]
}

fn number(word: &str, bits: u32) -> Option<u64> {
    if word.is_empty() || !word.bytes().all(|byte| byte.is_ascii_digit()) {
        return None;
    }
    let digits = word.trim_start_matches('0');
    let value = if digits.is_empty() { 0 } else { digits.parse::<u64>().ok()? };
    (value >> bits == 0).then_some(value)
}

fn opening(line: &[u8]) -> Option<(u64, Vec<u32>)> {
    let text = std::str::from_utf8(line).ok()?;
    let words: Vec<&str> = text.split(' ').collect();
    let ["lines", n, "items", items @ ..] = &words[..] else {
        return None;
    };
    let items: Option<Vec<u32>> = items.iter().map(|word| number(word, 32).map(|item| item as u32)).collect();
    Some((number(n, 8)?, items?))
}

fn calls_of(line: &[u8], n: u64) -> Option<Vec<Call>> {
    let text = std::str::from_utf8(line).ok()?;
    let words: Vec<&str> = text.split(' ').collect();
    let bay = number(words.first()?, 63).filter(|&bay| 1 <= bay && bay <= n)? as u8;
    let small = |word: &str| number(word, 16).map(|value| value as u16);
    Some(match words[1..] {
        ["ins", position, item] => vec![Call::insert(bay, small(position)?, number(item, 32)? as u32)],
        ["del", position] => vec![Call::delete(bay, small(position)?)],
        ["up", k] => vec![Call::send(bay, bay, small(k)?, 0, MESSAGE), Call::take(0, 0)],
        ["down", k] => vec![Call::send(0, bay, small(k)?, 0, MESSAGE), Call::take(bay, 0)],
        ["ack"] => vec![Call::acknowledge(bay, bay, 0, MESSAGE), Call::take(0, 0)],
        ["told"] => vec![Call::acknowledge(0, bay, 0, MESSAGE), Call::take(bay, 0)],
        _ => return None,
    })
}

/// A random script of at most about `lines` lines.
pub fn random(seed: u64, lines: usize) -> Vec<u8> {
    let mut rng = Rng::new(seed);
    if rng.once_in(60) {
        // around the longest input
        let length = 65_536 + rng.between(0, 2) - 1;
        let mut script = random(seed + 1, 50);
        script.resize(length, b'\n');
        return script;
    }
    let n = rng.between(1, LINES);
    let mut script = first_line(&mut rng, n).into_bytes();
    let (mut made, mut taken) = ([0usize; LINES], [0usize; LINES]);
    for _ in 0..rng.below(lines + 1) {
        script.push(b'\n');
        let line = if rng.once_in(12) { malformed(&mut rng, n) } else { sensible(&mut rng, n, &mut made, &mut taken).into_bytes() };
        script.extend_from_slice(&line);
    }
    if rng.below(3) > 0 {
        script.push(b'\n');
    }
    if rng.once_in(100) {
        script.clear();
    }
    script
}

fn first_line(rng: &mut Rng, n: usize) -> String {
    let bad = [
        "lines 2 item 1",
        "lines",
        "lines 2",
        "lines 2 items ",
        "lines 256 items 1",
        "lines 2 items 4294967296",
        " lines 2 items",
        "lines  2 items",
        "lines 2 items 1 ",
        "line 2 items",
        "lines 0 items",
        "lines 9 items",
        "lines 255 items 3",
        "lines 2 items\r",
        "lines -1 items",
        "lines 2 items x",
        "",
    ];
    if rng.once_in(15) {
        return rng.pick(&bad).to_string();
    }
    let count = if rng.once_in(20) { rng.between(120, 132) } else { rng.below(8) };
    let mut line = format!("{}lines {} items", "", if rng.once_in(4) { format!("000{n}") } else { n.to_string() });
    for _ in 0..count {
        line += &match rng.below(4) {
            0 => format!(" {}", rng.next() as u32),
            1 => " 4294967295".to_string(),
            _ => format!(" {}", rng.below(100)),
        };
    }
    line
}

fn sensible(rng: &mut Rng, n: usize, made: &mut [usize; LINES], taken: &mut [usize; LINES]) -> String {
    let l = rng.between(1, n);
    match rng.below(10) {
        0..=2 => {
            made[l - 1] += 1;
            format!("{l} ins {} {}", rng.between(1, 3), rng.below(1000))
        }
        3 => {
            made[l - 1] += 1;
            format!("{l} del {}", rng.between(1, 4))
        }
        4 | 5 => {
            let k = if rng.once_in(6) { rng.below(made[l - 1] + 2) } else { (taken[l - 1] + 1).min(made[l - 1]) };
            taken[l - 1] = taken[l - 1].max(k);
            format!("{l} up {k}")
        }
        6..=7 => {
            let all: usize = taken.iter().sum::<usize>() - taken[l - 1];
            format!("{l} down {}", if rng.once_in(2) { all } else { rng.below(all + 2) })
        }
        8 => format!("{l} ack"),
        _ => format!("{l} told"),
    }
}

fn malformed(rng: &mut Rng, n: usize) -> Vec<u8> {
    let l = rng.between(1, n);
    let choices = [
        String::new(),
        " ".to_string(),
        format!("{l}"),
        format!("{l} "),
        format!("{l} ins 1"),
        format!("{l} ins 1 "),
        format!("{l} ins 1 5 6"),
        format!("{l}  ins 1 5"),
        format!("{l} ins  1 5"),
        format!(" {l} ins 1 5"),
        format!("{l} ins 1 5 "),
        format!("{l}\tins 1 5"),
        format!("{l} ins 1 5\r"),
        format!("{l} ins 65536 5"),
        format!("{l} ins 1 4294967296"),
        format!("{l} ins 65535 4294967295"),
        format!("{l} ins 0001 00000000000000000000000000000005"),
        format!("0000000000000000000000000000000000000{l} del 1"),
        format!("{l} ins 99999999999999999999999999 5"),
        format!("{l} ins 1 18446744073709551621"),
        format!("18446744073709551617 ins 1 5"),
        format!("99999999999999999999999999999999 ack"),
        format!("{l} del 65537"),
        format!("{l} up 65537"),
        format!("{l} down 70000"),
        format!("{l} up 0"),
        format!("{l} down 0"),
        format!("{l} ack 1"),
        format!("{l} told "),
        format!("{l} Ack"),
        format!("{l} ack\0"),
        format!("{l} inss 1 5"),
        format!("{l} in 1 5"),
        format!("{l} del +1"),
        format!("{l} del -1"),
        format!("{l} del 1x"),
        format!("{l} del 0x1"),
        format!("0 ack"),
        format!("{} ack", n + 1),
        format!("257 ack"),
        format!("-1 ack"),
        format!("ack"),
        format!("lines {n} items"),
        format!("{l} del \u{0663}"),
    ];
    if rng.once_in(8) {
        return (0..rng.below(12)).map(|_| rng.next() as u8).filter(|&byte| byte != 10).collect();
    }
    choices[rng.below(choices.len())].clone().into_bytes()
}

/// A script of exactly 65,536 bytes that keeps eight clients editing, sending and taking: what the benchmark runs.
pub fn full() -> Vec<u8> {
    let mut rng = Rng::new(65_536);
    let mut script = b"lines 8 items".to_vec();
    for item in 0..128 {
        script.extend_from_slice(format!(" {item}").as_bytes());
    }
    script.push(b'\n');
    let (mut made, mut taken, mut got) = ([0; LINES], [0; LINES], [0; LINES]);
    loop {
        let l = rng.below(LINES);
        let mut lines = String::new();
        if made[l] < 400 {
            made[l] += 1;
            lines += &if made[l] <= 48 {
                format!("{} ins {} {}\n", l + 1, rng.between(1, 100), rng.next() as u32 >> 12)
            } else {
                format!("{} del 1\n", l + 1)
            };
        }
        while taken[l] < made[l] {
            taken[l] += 1;
            lines += &format!("{} up {}\n", l + 1, taken[l]);
        }
        let all: usize = taken.iter().sum();
        for other in (0..LINES).filter(|_| rng.once_in(3)) {
            while got[other] < all - taken[other] {
                got[other] += 1;
                lines += &format!("{} down {}\n", other + 1, got[other]);
            }
            lines += &format!("{} ack\n", other + 1);
        }
        if script.len() + lines.len() > 65_536 {
            script.resize(65_536, b'\n');
            return script;
        }
        script.extend_from_slice(lines.as_bytes());
    }
}
