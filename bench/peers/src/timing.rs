//! Rounds on one thread, on two and on more, and how long they take. As in the rows of the services, the threads' start is in it.

use std::hint::spin_loop;
use std::thread;
use std::time::{Duration, Instant};

/// How many threads a row of latches has, and how many of them, the first ones, write.
pub fn latch_row(row: &str) -> Option<(u32, u32)> {
    match row {
        "exclusive_2" => Some((2, 2)),
        "exclusive_4" => Some((4, 4)),
        "exclusive_8" => Some((8, 8)),
        "one_writer" => Some((8, 1)),
        "readers" => Some((8, 0)),
        _ => None,
    }
}

/// The section of each row of latches: five calls of `spin_loop`.
pub fn section() {
    for _ in 0..5 {
        spin_loop();
    }
}

pub fn alone(rounds: u32, mut round: impl FnMut()) -> Duration {
    let start = Instant::now();
    for _ in 0..rounds {
        round();
    }
    start.elapsed()
}

pub fn two(rounds: u32, mut first: impl FnMut(), mut second: impl FnMut() + Send) -> Duration {
    let start = Instant::now();
    thread::scope(|scope| {
        scope.spawn(move || {
            for _ in 0..rounds {
                second();
            }
        });
        for _ in 0..rounds {
            first();
        }
    });
    start.elapsed()
}

/// Each of the threads makes all rounds, and gets its number.
pub fn many(threads: u32, rounds: u32, round: impl Fn(u32) + Sync) -> Duration {
    let start = Instant::now();
    thread::scope(|scope| {
        for number in 0..threads {
            let round = &round;
            scope.spawn(move || {
                for _ in 0..rounds {
                    round(number);
                }
            });
        }
    });
    start.elapsed()
}
