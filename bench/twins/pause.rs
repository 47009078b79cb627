//! The hand-off by pauses of `crates/mv_task`'s tests, in plain Rust: two threads hand over to each other and back, each by an
//! atomic word of its own on which it parks, as many times as its argument says. It prints nothing; `bench/run` times it.

use std::sync::atomic::{AtomicU32, Ordering};
use std::thread::Thread;
use std::{env, thread};

/// A word that is 0 until a code comes.
struct Element {
    code: AtomicU32,
}

impl Element {
    fn new() -> Element {
        Element {
            code: AtomicU32::new(0),
        }
    }

    /// Releases its owner's pause.
    fn release(&self, owner: &Thread, code: u32) {
        self.code.store(code, Ordering::SeqCst);
        owner.unpark();
    }

    /// Parks until there is a code, and takes it.
    fn pause(&self) -> u32 {
        loop {
            let code = self.code.swap(0, Ordering::SeqCst);
            if code != 0 {
                return code;
            }
            thread::park();
        }
    }
}

fn main() {
    let rounds: u32 = env::args().nth(1).unwrap().parse().unwrap();
    let (there, back) = (Element::new(), Element::new());
    let first = thread::current();
    thread::scope(|scope| {
        let second = scope.spawn(|| {
            for _ in 0..rounds {
                let code = there.pause();
                back.release(&first, code);
            }
        });
        for _ in 0..rounds {
            there.release(second.thread(), 7);
            assert_eq!(back.pause(), 7);
        }
    });
}
