//! The shared objects that all tasks make their events on.

mod atomic;

pub use atomic::AtomicBoard;

use crate::ecb::{EcbOp, EcbReply};
use crate::element::{ElementOp, ElementReply};
use crate::latch::{LatchOp, LatchReply, Wake};
use crate::machine::{Config, Entry, History, VolumeOp, VolumeReply};

/// One caller's place at a board.
pub struct Seat {
    pub caller: u32,
    /// The caller's entries in their order.
    log: Vec<Entry>,
    /// Whom the caller's last latch event asks to be told.
    pub wakes: Vec<Wake>,
}

/// What is left when all callers have ended.
pub struct Closed {
    pub history: History,
    pub volumes: Vec<u32>,
}

/// Every event is one change of one object, and all of them together are a history of the one-thread machine.
pub trait Board: Sync + Sized {
    fn open(config: &Config) -> Self;

    fn seat(&self, config: &Config, caller: u32) -> Seat;

    /// Called once by the thread that runs the caller, before anything else.
    fn enter(&self, caller: u32);

    fn ecb(&self, seat: &mut Seat, ecb: u32, op: EcbOp) -> EcbReply;

    fn element(&self, seat: &mut Seat, element: u32, op: ElementOp) -> ElementReply;

    fn volume(&self, seat: &mut Seat, volume: u32, op: VolumeOp) -> VolumeReply;

    fn latch(&self, seat: &mut Seat, op: LatchOp) -> LatchReply;

    /// The event, if the object's word is the expected one; otherwise the word that was found.
    fn try_ecb(&self, seat: &mut Seat, ecb: u32, op: EcbOp, expected: u64) -> Result<EcbReply, u64>;

    fn try_element(&self, seat: &mut Seat, element: u32, op: ElementOp, expected: u64) -> Result<ElementReply, u64>;

    /// Returns when `count` of the caller's own ECBs are complete.
    fn await_ecbs(&self, caller: u32, ecbs: &[u32], count: usize);

    /// Returns when the caller's own paused element is released.
    fn await_release(&self, caller: u32, element: u32);

    /// Returns when the caller's queued request is granted or gone.
    fn await_latch(&self, caller: u32, latch: u32, id: u32);

    /// To be called after an event that may end the caller's wait for an ECB or an element.
    fn wake(&self, caller: u32);

    /// To be called after an event that granted or took away the caller's queued request.
    fn wake_at_latch(&self, caller: u32);

    /// The seats are given in the order of their callers.
    fn close(self, config: &Config, seats: Vec<Seat>) -> Closed;
}

fn wakes_room(config: &Config) -> usize {
    (config.callers * config.quota) as usize
}
