//! What reading an end from its bytes and writing it back costs the plain implementation.

use super::{middle, unit, TURNS};
use crate::clock::thread as clock;
use crate::plain::client::Client;
use crate::plain::server::Server;
use crate::plain::slip::Plain;
use crate::plain::words::End;
use std::hint::black_box;

const TIMES: u32 = 8_000;

/// Nanoseconds for one reading, and for one reading with one writing.
fn time<E: End>() -> [f64; 2] {
    let mut words = vec![[0; 4]; E::WORDS];
    [false, true].map(|writes| {
        let start = clock();
        for _ in 0..TIMES {
            let mut end = E::ZERO;
            assert!(end.read::<Plain>(black_box(&words)));
            black_box(&end);
            if writes {
                end.write(black_box(&mut words));
            }
        }
        (clock() - start) / TIMES as f64
    })
}

fn rows<E: End>(name: &str) -> String {
    let turns: Vec<[f64; 2]> = (0..TURNS).map(|_| time::<E>()).collect();
    let row = |which: usize, what: &str| {
        let (half, low, high) = middle(&turns.iter().map(|turn| turn[which]).collect::<Vec<f64>>());
        format!("| {name}, {what} | {} ({} to {}) |\n", unit(half), unit(low), unit(high))
    };
    row(0, "read") + &row(1, "read and written")
}

pub fn table() -> String {
    "| end | plain |\n|---|--:|\n".to_string() + &rows::<Client>("client") + &rows::<Server>("server")
}
