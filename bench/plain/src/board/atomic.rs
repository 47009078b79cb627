//! ECBs, elements and volumes as words that are changed by single exchanges, the latch lists under a spin lock, and a
//! log per caller. The places in the words say how the logs interleave.

use super::{wakes_room, Board, Closed, Seat};
use crate::ecb::{self, completion, EcbOp, EcbReply};
use crate::element::{self, ElementOp, ElementReply, ElementState, Phase};
use crate::latch::{LatchOp, LatchReply, LatchSet};
use crate::machine::{apply_volume, Config, Entry, Event, History, VolumeOp, VolumeReply};
use crate::word::{self, ONE_PLACE};
use std::sync::atomic::{AtomicBool, AtomicU64, Ordering};
use std::sync::{Mutex, MutexGuard, OnceLock};
use std::thread::{self, Thread};

pub struct AtomicBoard {
    ecbs: Vec<AtomicU64>,
    elements: Vec<AtomicU64>,
    volumes: Vec<AtomicU64>,
    latches: Mutex<Latches>,
    sleepers: Vec<Sleeper>,
}

struct Latches {
    set: LatchSet,
    place: u32,
}

/// How one caller's thread is woken. Apart from the others, since it is written at each wake.
#[repr(align(128))]
#[derive(Default)]
struct Sleeper {
    thread: OnceLock<Thread>,
    /// The caller's queued latch request was granted or taken away, and the caller has not seen it yet.
    latch: AtomicBool,
}

impl Seat {
    fn log(&mut self, place: u32, event: Event) {
        let caller = self.caller;
        self.log.push(Entry { caller, place, event });
    }
}

/// One event on a word: tries again from what it found until its exchange succeeds.
fn change<R>(cell: &AtomicU64, mut apply: impl FnMut(u64) -> (u64, R)) -> (u32, R) {
    let mut old = cell.load(Ordering::Acquire);
    loop {
        let (state, reply) = apply(word::state(old));
        let new = word::next(old, state);
        match cell.compare_exchange_weak(old, new, Ordering::AcqRel, Ordering::Acquire) {
            Ok(_) => return (word::place(old), reply),
            Err(found) => old = found,
        }
    }
}

/// One event on the word, if it is the expected one.
fn exchange<R>(cell: &AtomicU64, expected: u64, apply: impl FnOnce(u64) -> (u64, R)) -> Result<(u32, R), u64> {
    let (state, reply) = apply(word::state(expected));
    let new = word::next(expected, state);
    cell.compare_exchange(expected, new, Ordering::AcqRel, Ordering::Acquire)?;
    Ok((word::place(expected), reply))
}

/// An event that changes nothing but the place.
fn touch(cell: &AtomicU64) -> u64 {
    cell.fetch_add(ONE_PLACE, Ordering::AcqRel)
}

fn on_ecb(op: EcbOp) -> impl Fn(u64) -> (u64, EcbReply) {
    move |state| {
        let (state, reply) = ecb::apply(op, state as u32);
        (u64::from(state), reply)
    }
}

fn on_element(op: ElementOp) -> impl Fn(u64) -> (u64, ElementReply) {
    move |state| {
        let (state, reply) = element::apply(op, ElementState::unpack(state));
        (state.pack(), reply)
    }
}

fn words(count: u32) -> Vec<AtomicU64> {
    (0..count).map(|_| AtomicU64::new(0)).collect()
}

/// Spins for longer and longer, then yields a few times.
struct Backoff {
    step: u32,
}

/// After the last spin the thread has been told to pause 127 times.
const SPINS: u32 = 7;

/// After the spins, and before it parks.
const YIELDS: u32 = 14;

impl Backoff {
    fn new() -> Self {
        Backoff { step: 0 }
    }

    /// False where it is time to park.
    fn snooze(&mut self) -> bool {
        if self.step < SPINS {
            for _ in 0..1 << self.step {
                std::hint::spin_loop();
            }
        } else if self.step < SPINS + YIELDS {
            thread::yield_now();
        } else {
            return false;
        }
        self.step += 1;
        true
    }
}

impl AtomicBoard {
    /// Parks the thread until the thing is ready, after a few tries.
    fn wait_until(&self, mut ready: impl FnMut() -> bool) {
        let mut backoff = Backoff::new();
        while !ready() {
            if !backoff.snooze() {
                thread::park();
            }
        }
    }

    /// The latch lists, spinning while another thread has them.
    fn latches(&self) -> MutexGuard<'_, Latches> {
        let mut backoff = Backoff::new();
        loop {
            if let Ok(latches) = self.latches.try_lock() {
                return latches;
            }
            if !backoff.snooze() {
                thread::yield_now();
            }
        }
    }

    fn ecb_word(&self, ecb: u32) -> u32 {
        self.ecbs[ecb as usize].load(Ordering::Acquire) as u32
    }
}

impl Board for AtomicBoard {
    fn open(config: &Config) -> Self {
        AtomicBoard {
            ecbs: words(config.ecbs()),
            elements: words(config.elements()),
            volumes: words(config.volumes),
            latches: Mutex::new(Latches { set: config.latch_set(), place: 0 }),
            sleepers: (0..config.callers).map(|_| Sleeper::default()).collect(),
        }
    }

    fn seat(&self, config: &Config, caller: u32) -> Seat {
        Seat {
            caller,
            log: Vec::with_capacity(config.budgets[caller as usize] as usize),
            wakes: Vec::with_capacity(wakes_room(config)),
        }
    }

    fn enter(&self, caller: u32) {
        self.sleepers[caller as usize].thread.get_or_init(thread::current);
    }

    fn ecb(&self, seat: &mut Seat, ecb: u32, op: EcbOp) -> EcbReply {
        let cell = &self.ecbs[ecb as usize];
        let (place, reply) = if op == EcbOp::Test {
            let old = touch(cell);
            (word::place(old), EcbReply::Word(old as u32))
        } else {
            change(cell, on_ecb(op))
        };
        seat.log(place, Event::Ecb(ecb, op, reply));
        reply
    }

    fn element(&self, seat: &mut Seat, element: u32, op: ElementOp) -> ElementReply {
        let cell = &self.elements[element as usize];
        let (place, reply) = if op == ElementOp::Test {
            let old = touch(cell);
            (word::place(old), ElementReply::State(ElementState::unpack(word::state(old))))
        } else {
            change(cell, on_element(op))
        };
        seat.log(place, Event::Element(element, op, reply));
        reply
    }

    fn volume(&self, seat: &mut Seat, volume: u32, op: VolumeOp) -> VolumeReply {
        let cell = &self.volumes[volume as usize];
        let (place, reply) = if op == VolumeOp::Read {
            let old = touch(cell);
            (word::place(old), VolumeReply::Value(old as u32))
        } else {
            change(cell, |state| {
                let (number, reply) = apply_volume(op, state as u32);
                (u64::from(number), reply)
            })
        };
        seat.log(place, Event::Volume(volume, op, reply));
        reply
    }

    fn latch(&self, seat: &mut Seat, op: LatchOp) -> LatchReply {
        let mut latches = self.latches();
        let place = latches.place;
        let reply = latches.set.apply(seat.caller, place, op, &mut seat.wakes);
        latches.place += 1;
        drop(latches);
        seat.log(place, Event::Latch(op, reply));
        reply
    }

    fn try_ecb(&self, seat: &mut Seat, ecb: u32, op: EcbOp, expected: u64) -> Result<EcbReply, u64> {
        let (place, reply) = exchange(&self.ecbs[ecb as usize], expected, on_ecb(op))?;
        seat.log(place, Event::Ecb(ecb, op, reply));
        Ok(reply)
    }

    fn try_element(&self, seat: &mut Seat, element: u32, op: ElementOp, expected: u64) -> Result<ElementReply, u64> {
        let (place, reply) = exchange(&self.elements[element as usize], expected, on_element(op))?;
        seat.log(place, Event::Element(element, op, reply));
        Ok(reply)
    }

    // A wake is never lost. The waiter's last own event on the word (its Arm or Pause) comes before the event that
    // the waiter waits for, so the thread that makes the latter sees the waiter's handle.

    fn await_ecbs(&self, _: u32, ecbs: &[u32], count: usize) {
        self.wait_until(|| {
            let complete = |&&ecb: &&u32| completion(self.ecb_word(ecb)).is_some();
            ecbs.iter().filter(complete).count() >= count
        });
    }

    fn await_release(&self, _: u32, element: u32) {
        self.wait_until(|| {
            let old = self.elements[element as usize].load(Ordering::Acquire);
            ElementState::unpack(word::state(old)).phase == Phase::Released
        });
    }

    /// A queued request of the Waiting form gets exactly one wake, and a caller has at most one that it waits for.
    fn await_latch(&self, caller: u32, _: u32, _: u32) {
        let flag = &self.sleepers[caller as usize].latch;
        self.wait_until(|| flag.load(Ordering::Acquire));
        flag.store(false, Ordering::Relaxed);
    }

    fn wake(&self, caller: u32) {
        if let Some(thread) = self.sleepers[caller as usize].thread.get() {
            thread.unpark();
        }
    }

    fn wake_at_latch(&self, caller: u32) {
        self.sleepers[caller as usize].latch.store(true, Ordering::Release);
        self.wake(caller);
    }

    fn close(self, _: &Config, seats: Vec<Seat>) -> Closed {
        let logs = seats.into_iter().map(|seat| seat.log).collect();
        let volumes = self.volumes.into_iter().map(|word| word.into_inner() as u32).collect();
        Closed { history: History { logs }, volumes }
    }
}
