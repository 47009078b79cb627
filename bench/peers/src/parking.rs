//! parking_lot: a mutex and a condition variable, and locks that are handed over fairly.

use crate::timing::{alone, latch_row, many, section, two};
use parking_lot::{Condvar, Mutex, MutexGuard, RwLock, RwLockReadGuard, RwLockWriteGuard};
use std::hint::black_box;
use std::time::Duration;

/// A code that one thread waits for and another posts.
struct Event {
    code: Mutex<Option<u32>>,
    posted: Condvar,
}

impl Event {
    fn new() -> Event {
        Event {
            code: Mutex::new(None),
            posted: Condvar::new(),
        }
    }

    fn post(&self, code: u32) {
        *self.code.lock() = Some(code);
        self.posted.notify_one();
    }

    /// Waits for the code, and takes it.
    fn wait(&self) -> u32 {
        let mut code = self.code.lock();
        loop {
            if let Some(found) = code.take() {
                return found;
            }
            self.posted.wait(&mut code);
        }
    }
}

pub fn time(row: &str, rounds: u32) -> Option<Duration> {
    let (there, back) = (black_box(Event::new()), Event::new());
    match row {
        "post_wait_clear" => Some(alone(rounds, || {
            there.post(7);
            black_box(there.wait());
        })),
        "posts" | "pauses" => Some(two(
            rounds,
            || {
                there.post(7);
                black_box(back.wait());
            },
            || back.post(there.wait()),
        )),
        "obtain_release" => {
            let lock = black_box(Mutex::new(()));
            Some(alone(rounds, || MutexGuard::unlock_fair(lock.lock())))
        }
        _ => by_locks(row, rounds),
    }
}

fn by_locks(row: &str, rounds: u32) -> Option<Duration> {
    let (threads, writers) = latch_row(row)?;
    if writers == threads {
        let lock = Mutex::new(());
        return Some(many(threads, rounds, |_| {
            let held = lock.lock();
            section();
            MutexGuard::unlock_fair(held);
        }));
    }
    let lock = RwLock::new(());
    Some(many(threads, rounds, |number| {
        if number < writers {
            let held = lock.write();
            section();
            RwLockWriteGuard::unlock_fair(held);
        } else {
            let held = lock.read();
            section();
            RwLockReadGuard::unlock_fair(held);
        }
    }))
}
