//! The services of `bench/plain`, which keep the same history and prove nothing.

use crate::timing::{latch_row, section};
use plain::board::{AtomicBoard, Board};
use plain::element::Token;
use plain::latch::{LatchForm, Mode};
use plain::machine::{Config, MOST_EVENTS};
use plain::services::{LatchToken, Obtained, Task, WaitSlot};
use std::thread;
use std::time::{Duration, Instant};

type BoardTask<'a> = Task<'a, AtomicBoard>;

pub fn time(row: &str, rounds: u32) -> Option<Duration> {
    match row {
        "post_wait_clear" => Some(run(1, |task| post_wait_clear(task, rounds))),
        "release_pause" => Some(run(1, |task| release_pause(task, rounds))),
        "obtain_release" => Some(run(1, |task| obtain_release(task, rounds))),
        "wait_all" => Some(run(1, |task| wait_all(task, rounds))),
        "wait_any" => Some(run(1, |task| wait_any(task, rounds))),
        "posts" => Some(run(2, |task| by_posts(task, rounds))),
        "pauses" => Some(run(2, |task| by_pauses(task, rounds))),
        _ => {
            let (tasks, writers) = latch_row(row)?;
            Some(run(tasks, |task| take_often(task, writers, rounds)))
        }
    }
}

/// The configuration of `bench/mv_bench`.
fn config(callers: u32) -> Config {
    let other = u32::from(callers > 1);
    Config {
        callers,
        elements_per_caller: 1,
        volumes: 1,
        latches: 1,
        quota: 1,
        posted_quota: 0,
        budgets: vec![MOST_EVENTS / callers; callers as usize],
        owners: vec![0, other, other, other, other, other, other, other, other],
        exits: Vec::new(),
    }
}

/// Runs each task on its thread, with its element allocated.
fn run(callers: u32, act: impl Fn(&mut BoardTask) + Sync) -> Duration {
    let config = config(callers);
    config.check().unwrap();
    let board = AtomicBoard::open(&config);
    let mut tasks: Vec<_> = (0..callers)
        .map(|caller| Task::new(&board, &config, caller))
        .collect();
    for task in &mut tasks {
        task.allocate().unwrap();
    }
    let start = Instant::now();
    thread::scope(|scope| {
        for task in &mut tasks {
            let act = &act;
            scope.spawn(move || {
                task.enter();
                act(task);
            });
        }
    });
    start.elapsed()
}

fn await_post(task: &mut BoardTask, ecb: u32, found: &mut Vec<WaitSlot>) {
    task.wait(1, &[ecb], found).unwrap();
    task.clear(ecb).unwrap();
}

fn post_wait_clear(task: &mut BoardTask, rounds: u32) {
    let mut found = Vec::with_capacity(1);
    for _ in 0..rounds {
        task.post(0, 7);
        await_post(task, 0, &mut found);
    }
}

fn release_pause(task: &mut BoardTask, rounds: u32) {
    for generation in 0..rounds {
        task.release(
            Token {
                element: 0,
                generation,
            },
            7,
        )
        .unwrap();
        task.pause(Token {
            element: 0,
            generation,
        })
        .unwrap();
    }
}

fn obtain(task: &mut BoardTask, mode: Mode) -> LatchToken {
    match task.obtain(0, u64::from(task.caller()), mode, LatchForm::Waiting) {
        Ok(Obtained::Granted(token)) => token,
        other => panic!("not granted: {other:?}"),
    }
}

fn obtain_release(task: &mut BoardTask, rounds: u32) {
    for _ in 0..rounds {
        let token = obtain(task, Mode::Exclusive);
        task.release_latch(token, false).unwrap();
    }
}

const EIGHT: [u32; 8] = [1, 2, 3, 4, 5, 6, 7, 8];

fn wait_all(task: &mut BoardTask, rounds: u32) {
    let mut found = Vec::with_capacity(8);
    for _ in 0..rounds {
        for ecb in EIGHT {
            task.post(ecb, 7);
        }
        task.wait(8, &EIGHT, &mut found).unwrap();
        for ecb in EIGHT {
            task.clear(ecb).unwrap();
        }
    }
}

fn wait_any(task: &mut BoardTask, rounds: u32) {
    let mut found = Vec::with_capacity(8);
    for round in 0..rounds {
        let ecb = 1 + round % 8;
        task.post(ecb, 7);
        task.wait(1, &EIGHT, &mut found).unwrap();
        task.clear(ecb).unwrap();
    }
}

fn by_posts(task: &mut BoardTask, rounds: u32) {
    let mut found = Vec::with_capacity(1);
    for _ in 0..rounds {
        if task.caller() == 0 {
            task.post(8, 7);
            await_post(task, 0, &mut found);
        } else {
            await_post(task, 8, &mut found);
            task.post(0, 7);
        }
    }
}

fn by_pauses(task: &mut BoardTask, rounds: u32) {
    for generation in 0..rounds {
        if task.caller() == 0 {
            task.release(
                Token {
                    element: 1,
                    generation,
                },
                7,
            )
            .unwrap();
            task.pause(Token {
                element: 0,
                generation,
            })
            .unwrap();
        } else {
            task.pause(Token {
                element: 1,
                generation,
            })
            .unwrap();
            task.release(
                Token {
                    element: 0,
                    generation,
                },
                7,
            )
            .unwrap();
        }
    }
}

fn take_often(task: &mut BoardTask, writers: u32, rounds: u32) {
    let mode = if task.caller() < writers {
        Mode::Exclusive
    } else {
        Mode::Shared
    };
    for _ in 0..rounds {
        let token = obtain(task, mode);
        section();
        task.release_latch(token, false).unwrap();
    }
}
