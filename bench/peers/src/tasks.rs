//! Tasks of tokio, whose locks are fair too. Two tasks that wait for each other take turns on one thread; those of the rows of latches
//! share the threads of a runtime.

use crate::timing::{latch_row, section};
use std::future::Future;
use std::hint::black_box;
use std::sync::Arc;
use std::time::{Duration, Instant};
use tokio::runtime::{Builder, Runtime};
use tokio::sync::{Mutex, Notify, RwLock};

fn one_thread() -> Runtime {
    Builder::new_current_thread().build().unwrap()
}

fn all_threads() -> Runtime {
    Builder::new_multi_thread().build().unwrap()
}

pub fn time(row: &str, rounds: u32) -> Option<Duration> {
    match row {
        "post_wait_clear" | "release_pause" => Some(one_thread().block_on(notice(rounds))),
        "obtain_release" => Some(one_thread().block_on(free_lock(rounds))),
        "wait_all" => Some(one_thread().block_on(join_of_eight(rounds))),
        "wait_any" => Some(one_thread().block_on(select_of_eight(rounds))),
        "posts" | "pauses" => Some(all_threads().block_on(hand_over(rounds))),
        "polled" => Some(one_thread().block_on(hand_over(rounds))),
        _ => by_locks(row, rounds),
    }
}

async fn notice(rounds: u32) -> Duration {
    let event = Notify::new();
    let start = Instant::now();
    for _ in 0..rounds {
        event.notify_one();
        event.notified().await;
    }
    start.elapsed()
}

async fn free_lock(rounds: u32) -> Duration {
    let lock = black_box(Mutex::new(()));
    let start = Instant::now();
    for _ in 0..rounds {
        drop(black_box(lock.lock().await));
    }
    start.elapsed()
}

fn eight() -> [Notify; 8] {
    std::array::from_fn(|_| Notify::new())
}

async fn join_of_eight(rounds: u32) -> Duration {
    let events = eight();
    let [a, b, c, d, e, f, g, h] = &events;
    let start = Instant::now();
    for _ in 0..rounds {
        for event in &events {
            event.notify_one();
        }
        tokio::join!(
            a.notified(),
            b.notified(),
            c.notified(),
            d.notified(),
            e.notified(),
            f.notified(),
            g.notified(),
            h.notified()
        );
    }
    start.elapsed()
}

async fn select_of_eight(rounds: u32) -> Duration {
    let events = eight();
    let [a, b, c, d, e, f, g, h] = &events;
    let start = Instant::now();
    for (_, event) in (0..rounds).zip(events.iter().cycle()) {
        event.notify_one();
        tokio::select! {
            _ = a.notified() => {}
            _ = b.notified() => {}
            _ = c.notified() => {}
            _ = d.notified() => {}
            _ = e.notified() => {}
            _ = f.notified() => {}
            _ = g.notified() => {}
            _ = h.notified() => {}
        }
    }
    start.elapsed()
}

async fn hand_over(rounds: u32) -> Duration {
    let (there, back) = (Arc::new(Notify::new()), Arc::new(Notify::new()));
    let (posted, answered) = (there.clone(), back.clone());
    let start = Instant::now();
    let first = tokio::spawn(async move {
        for _ in 0..rounds {
            there.notify_one();
            back.notified().await;
        }
    });
    let second = tokio::spawn(async move {
        for _ in 0..rounds {
            posted.notified().await;
            answered.notify_one();
        }
    });
    first.await.unwrap();
    second.await.unwrap();
    start.elapsed()
}

async fn run_all<F>(tasks: u32, task: impl Fn(u32) -> F) -> Duration
where
    F: Future<Output = ()> + Send + 'static,
{
    let start = Instant::now();
    let running: Vec<_> = (0..tasks)
        .map(|number| tokio::spawn(task(number)))
        .collect();
    for one in running {
        one.await.unwrap();
    }
    start.elapsed()
}

fn by_locks(row: &str, rounds: u32) -> Option<Duration> {
    let (tasks, writers) = latch_row(row)?;
    if writers == tasks {
        let lock = Arc::new(Mutex::new(()));
        return Some(all_threads().block_on(run_all(tasks, |_| write_often(lock.clone(), rounds))));
    }
    let lock = Arc::new(RwLock::new(()));
    Some(all_threads().block_on(run_all(tasks, |number| {
        share_often(lock.clone(), number < writers, rounds)
    })))
}

async fn write_often(lock: Arc<Mutex<()>>, rounds: u32) {
    for _ in 0..rounds {
        let _held = lock.lock().await;
        section();
    }
}

async fn share_often(lock: Arc<RwLock<()>>, writes: bool, rounds: u32) {
    for _ in 0..rounds {
        if writes {
            let _held = lock.write().await;
            section();
        } else {
            let _held = lock.read().await;
            section();
        }
    }
}
