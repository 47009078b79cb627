//! Times what a program in Rust would use in place of the services: `peers PEER ROW ROUNDS` makes this many rounds of a row in the
//! way of a peer, and prints the nanoseconds that they took. `bench/services` runs it. The rows are those of `bench/mv_bench`. Only
//! the peer `plain` keeps a history.
#![forbid(unsafe_code)]

mod crossbeam;
mod parking;
mod standard;
mod tasks;
mod timing;
mod twin;

use std::{env, process};

fn main() {
    let words: Vec<String> = env::args().skip(1).collect();
    let taken = match words.as_slice() {
        [peer, row, rounds] => rounds.parse().ok().and_then(|rounds| match peer.as_str() {
            "condvar" => standard::by_condvar(row, rounds),
            "park" => standard::by_park(row, rounds),
            "channel" => standard::by_channel(row, rounds),
            "ticket" => standard::by_ticket(row, rounds),
            "crossbeam" => crossbeam::time(row, rounds),
            "parking_lot" => parking::time(row, rounds),
            "tokio" => tasks::time(row, rounds),
            "plain" => twin::time(row, rounds),
            _ => None,
        }),
        _ => None,
    };
    let Some(taken) = taken else {
        eprintln!("usage: peers PEER ROW ROUNDS, of a row that the peer has");
        process::exit(2);
    };
    println!("{}", taken.as_nanos());
}
