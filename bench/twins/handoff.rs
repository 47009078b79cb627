//! The hand-off by posts of `crates/mv_task`'s tests, in plain Rust: two threads hand over to each other and back, each by a
//! mutex and a condition variable of its own, as many times as its argument says. It prints nothing; `bench/run` times it.

use std::sync::{Condvar, Mutex};
use std::{env, thread};

/// A word that one thread waits for and another posts.
struct Event {
    code: Mutex<Option<u32>>,
    posted: Condvar,
}

impl Event {
    fn new() -> Event {
        Event {
            code: Mutex::new(None),
            posted: Condvar::new(),
        }
    }

    fn post(&self, code: u32) {
        *self.code.lock().unwrap() = Some(code);
        self.posted.notify_one();
    }

    /// Waits for the code, and takes it.
    fn wait(&self) -> u32 {
        let mut code = self.code.lock().unwrap();
        loop {
            if let Some(found) = code.take() {
                return found;
            }
            code = self.posted.wait(code).unwrap();
        }
    }
}

fn main() {
    let rounds: u32 = env::args().nth(1).unwrap().parse().unwrap();
    let (there, back) = (Event::new(), Event::new());
    thread::scope(|scope| {
        scope.spawn(|| {
            for round in 0..rounds {
                there.post(round);
                assert_eq!(back.wait(), round);
            }
        });
        scope.spawn(|| {
            for _ in 0..rounds {
                let round = there.wait();
                back.post(round);
            }
        });
    });
}
