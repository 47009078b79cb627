//! What std offers: a mutex and a condition variable, parked threads, bounded channels; and a ticket lock of atomic words.

use crate::timing::{alone, latch_row, many, section, two};
use std::hint::black_box;
use std::sync::atomic::{AtomicU32, Ordering};
use std::sync::mpsc::sync_channel;
use std::sync::{Condvar, Mutex};
use std::thread;
use std::time::{Duration, Instant};

/// A code that one thread waits for and another posts.
struct Event {
    code: Mutex<Option<u32>>,
    posted: Condvar,
}

impl Event {
    fn new() -> Event {
        Event {
            code: Mutex::new(None),
            posted: Condvar::new(),
        }
    }

    fn post(&self, code: u32) {
        *self.code.lock().unwrap() = Some(code);
        self.posted.notify_one();
    }

    /// Waits for the code, and takes it.
    fn wait(&self) -> u32 {
        let mut code = self.code.lock().unwrap();
        loop {
            if let Some(found) = code.take() {
                return found;
            }
            code = self.posted.wait(code).unwrap();
        }
    }
}

pub fn by_condvar(row: &str, rounds: u32) -> Option<Duration> {
    let (there, back) = (black_box(Event::new()), Event::new());
    match row {
        "post_wait_clear" => Some(alone(rounds, || {
            there.post(7);
            black_box(there.wait());
        })),
        "posts" | "pauses" => Some(two(
            rounds,
            || {
                there.post(7);
                black_box(back.wait());
            },
            || back.post(there.wait()),
        )),
        _ => None,
    }
}

/// A word on a cache line for itself, which is 0 until a code comes.
#[repr(align(128))]
struct Word(AtomicU32);

impl Word {
    fn put(&self, code: u32) {
        self.0.store(code, Ordering::SeqCst);
    }

    /// Parks until there is a code, and takes it.
    fn take(&self) -> u32 {
        loop {
            let code = self.0.swap(0, Ordering::SeqCst);
            if code != 0 {
                return code;
            }
            thread::park();
        }
    }
}

pub fn by_park(row: &str, rounds: u32) -> Option<Duration> {
    if !["posts", "pauses"].contains(&row) {
        return None;
    }
    let (there, back) = (Word(AtomicU32::new(0)), Word(AtomicU32::new(0)));
    let first = thread::current();
    let start = Instant::now();
    thread::scope(|scope| {
        let second = scope.spawn(|| {
            for _ in 0..rounds {
                back.put(there.take());
                first.unpark();
            }
        });
        for _ in 0..rounds {
            there.put(7);
            second.thread().unpark();
            black_box(back.take());
        }
    });
    Some(start.elapsed())
}

pub fn by_channel(row: &str, rounds: u32) -> Option<Duration> {
    if row != "release_pause" {
        return None;
    }
    let (sender, receiver) = sync_channel(1);
    Some(alone(rounds, || {
        sender.send(7u32).unwrap();
        black_box(receiver.recv().unwrap());
    }))
}

/// The threads take numbers, and enter in the order of their numbers.
struct TicketLock {
    next: AtomicU32,
    serving: AtomicU32,
}

impl TicketLock {
    fn take(&self) {
        let ticket = self.next.fetch_add(1, Ordering::SeqCst);
        while self.serving.load(Ordering::SeqCst) != ticket {
            thread::yield_now();
        }
    }

    fn give_back(&self) {
        self.serving.fetch_add(1, Ordering::SeqCst);
    }
}

pub fn by_ticket(row: &str, rounds: u32) -> Option<Duration> {
    let lock = TicketLock {
        next: AtomicU32::new(0),
        serving: AtomicU32::new(0),
    };
    let (threads, writers) = latch_row(row)?;
    if writers < threads {
        return None;
    }
    Some(many(threads, rounds, |_| {
        lock.take();
        section();
        lock.give_back();
    }))
}
