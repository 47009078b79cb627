//! Channels of crossbeam, of one place each.

use crate::timing::{alone, two};
use crossbeam_channel::{bounded, Select};
use std::hint::black_box;
use std::time::Duration;

pub fn time(row: &str, rounds: u32) -> Option<Duration> {
    let (there, at_second) = bounded(1);
    let (back, at_first) = bounded(1);
    match row {
        "release_pause" | "post_wait_clear" => Some(alone(rounds, || {
            there.send(7u32).unwrap();
            black_box(at_second.recv().unwrap());
        })),
        "posts" | "pauses" => Some(two(
            rounds,
            || {
                there.send(7).unwrap();
                black_box(at_first.recv().unwrap());
            },
            || back.send(at_second.recv().unwrap()).unwrap(),
        )),
        "wait_any" => Some(select_of_eight(rounds)),
        _ => None,
    }
}

fn select_of_eight(rounds: u32) -> Duration {
    let channels: Vec<_> = (0..8).map(|_| bounded::<u32>(1)).collect();
    let mut next = channels.iter().cycle();
    alone(rounds, || {
        next.next().unwrap().0.send(7).unwrap();
        let mut select = Select::new();
        for (_, receiver) in &channels {
            select.recv(receiver);
        }
        let ready = select.select();
        let at = ready.index();
        black_box(ready.recv(&channels[at].1).unwrap());
    })
}
