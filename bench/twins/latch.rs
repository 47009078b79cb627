//! The contended latch of `crates/mv_task`'s tests, in plain Rust: two threads take a ticket lock in turn, each as many times
//! as the argument says. It prints nothing; `bench/run` times it.

use std::sync::atomic::{AtomicU32, Ordering};
use std::{env, thread};

/// Those who come take a number, and enter in the order of their numbers.
struct TicketLock {
    next: AtomicU32,
    serving: AtomicU32,
}

impl TicketLock {
    const fn new() -> TicketLock {
        TicketLock {
            next: AtomicU32::new(0),
            serving: AtomicU32::new(0),
        }
    }

    /// Waits for its turn.
    fn take(&self) {
        let ticket = self.next.fetch_add(1, Ordering::SeqCst);
        while self.serving.load(Ordering::SeqCst) != ticket {
            thread::yield_now();
        }
    }

    /// Lets the next one in.
    fn give_back(&self) {
        self.serving.fetch_add(1, Ordering::SeqCst);
    }
}

fn main() {
    let rounds: u32 = env::args().nth(1).unwrap().parse().unwrap();
    let lock = TicketLock::new();
    let take_often = || {
        for _ in 0..rounds {
            lock.take();
            lock.give_back();
        }
    };
    thread::scope(|scope| {
        scope.spawn(take_often);
        take_often();
    });
}
