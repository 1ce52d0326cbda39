//! The time of methods by value: an end goes in and a new one comes back. The proved ones stand in a library of their own, libtest_timing.a,
//! whose loops call them again and again.

use super::{head_of, row, TURNS};
use crate::clock::thread as clock;
use crate::plain::client::Client;
use crate::plain::packets::Takes;
use crate::plain::server::Server;
use crate::plain::slip::Plain;
use std::hint::black_box;

// A byte slice goes over as its pointer and its length. The ends are opened for two clients with line numbers as ranks and `count` items of 0.
extern "C" {
    fn lub_time_client_insert(count: u8, position: u16, item: u32, times: u32) -> u64;
    fn lub_time_client_take(count: u8, message: *const u8, message_bytes: usize, times: u32) -> u64;
    fn lub_time_server_take(count: u8, message: *const u8, message_bytes: usize, times: u32) -> u64;
}

const TIMES: u32 = 20_000;
const COUNT: u8 = 128;

/// An insert of client 2 at the front, going down to client 1, and one of client 1 going up.
const DOWN: [u8; 17] = [5, 1, 1, 0, 1, 0, 0, 0, 1, 0, 0, 0, 9, 2, 2, 0, 1];
const UP: [u8; 17] = [5, 1, 0, 0, 1, 0, 0, 0, 1, 0, 0, 0, 9, 1, 1, 0, 1];

/// Nanoseconds for one of `TIMES` calls.
fn timed(work: impl FnOnce()) -> f64 {
    let start = clock();
    work();
    (clock() - start) / TIMES as f64
}

fn client() -> Client {
    let mut client = Client::ZERO;
    assert_eq!(client.open::<Plain>(2, 1, &[1, 2], &[0; COUNT as usize]), 0);
    client
}

fn server() -> Server {
    let mut server = Server::ZERO;
    assert_eq!(server.open::<Plain>(2, &[1, 2], &[0; COUNT as usize]), 0);
    server
}

/// A new end each time, as a method by value hands one back.
fn plain<T: Clone>(end: T, call: impl Fn(&mut T) -> u8) -> f64 {
    timed(|| {
        for _ in 0..TIMES {
            let mut new = black_box(&end).clone();
            assert_eq!(call(&mut new), 0);
            black_box(new);
        }
    })
}

fn proved(call: impl Fn() -> u64) -> f64 {
    timed(|| assert_eq!(call() & 255, 0))
}

pub fn table() -> String {
    let mut table = head_of("method by value", &["plain", "proved"]);
    let mut add = |name: &str, one: &dyn Fn() -> f64, other: &dyn Fn() -> f64| {
        let turns: Vec<(f64, f64)> = (0..TURNS).map(|_| (one(), other())).collect();
        table += &row(name, &[turns.iter().map(|turn| turn.0).collect(), turns.iter().map(|turn| turn.1).collect()]);
    };
    // SAFETY: pointer and length are those of a constant
    add("client insert, 128 items", &|| plain(client(), |client| client.insert::<Plain>(64, 5).refusal), &|| {
        proved(|| unsafe { lub_time_client_insert(COUNT, 64, 5, TIMES) })
    });
    add("client take, 128 items", &|| plain(client(), |client| client.take::<Plain>(black_box(&DOWN)).refusal), &|| {
        proved(|| unsafe { lub_time_client_take(COUNT, DOWN.as_ptr(), DOWN.len(), TIMES) })
    });
    add("server take, 128 items", &|| plain(server(), |server| server.take::<Plain>(black_box(&UP)).refusal), &|| {
        proved(|| unsafe { lub_time_server_take(COUNT, UP.as_ptr(), UP.len(), TIMES) })
    });
    table
}
