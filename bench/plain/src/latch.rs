//! A latch set: per latch one list of requests in order of arrival, of which a prefix is granted.

#[derive(Clone, Copy, Debug, PartialEq, Eq)]
pub enum Mode {
    Shared,
    Exclusive,
}

#[derive(Clone, Copy, Debug, PartialEq, Eq)]
pub enum LatchForm {
    Conditional,
    Waiting,
    /// Returns at once; the ECB is posted at the grant.
    Posted(u32),
}

#[derive(Clone, Copy, Debug, PartialEq, Eq)]
pub struct Request {
    pub id: u32,
    pub caller: u32,
    pub requestor: u64,
    pub mode: Mode,
    pub form: LatchForm,
}

#[derive(Clone, Copy, Debug, PartialEq, Eq)]
pub enum LatchOp {
    Obtain { latch: u32, requestor: u64, mode: Mode, form: LatchForm },
    Confirm { latch: u32, id: u32 },
    Release { latch: u32, id: u32, conditional: bool },
    Purge { requestor: u64 },
}

#[derive(Clone, Copy, Debug, PartialEq, Eq)]
pub enum LatchReply {
    Granted(u32),
    Queued(u32),
    NotNow(u32),
    Waiting,
    Gone,
    Released { granted: u32 },
    Purged { removed: u32, granted: u32 },
}

/// Somebody to be told after a release or purge: by a post of the ECB, or else by waking the caller.
#[derive(Clone, Copy, Debug, PartialEq, Eq)]
pub struct Wake {
    pub caller: u32,
    pub ecb: Option<u32>,
    pub code: u32,
}

impl Wake {
    fn of(request: &Request, code: u32) -> Self {
        let ecb = match request.form {
            LatchForm::Posted(ecb) => Some(ecb),
            _ => None,
        };
        Wake { caller: request.caller, ecb, code }
    }
}

pub const MOST_LATCHES: usize = 8;

#[derive(Clone, Copy, Default)]
struct Held {
    requests: u32,
    posted: u32,
}

pub struct LatchSet {
    lists: Vec<Vec<Request>>,
    held: Vec<Held>,
    quota: u32,
    posted_quota: u32,
}

/// How many requests at the head of the list are granted.
fn granted(list: &[Request]) -> usize {
    match list.first() {
        None => 0,
        Some(first) if first.mode == Mode::Exclusive => 1,
        Some(_) => list.iter().take_while(|request| request.mode == Mode::Shared).count(),
    }
}

impl LatchSet {
    pub fn new(latches: u32, callers: u32, quota: u32, posted_quota: u32) -> Self {
        let room = callers as usize * quota as usize;
        LatchSet {
            lists: (0..latches).map(|_| Vec::with_capacity(room)).collect(),
            held: vec![Held::default(); callers as usize],
            quota,
            posted_quota,
        }
    }

    pub fn requests(&self, latch: u32) -> &[Request] {
        &self.lists[latch as usize]
    }

    /// Whether the latch exists and the caller's quotas leave room.
    pub fn admits(&self, caller: u32, op: LatchOp) -> bool {
        match op {
            LatchOp::Purge { .. } => true,
            LatchOp::Confirm { latch, .. } | LatchOp::Release { latch, .. } => self.exists(latch),
            LatchOp::Obtain { latch, form, .. } => {
                let held = &self.held[caller as usize];
                self.exists(latch)
                    && held.requests < self.quota
                    && (!matches!(form, LatchForm::Posted(_)) || held.posted < self.posted_quota)
            }
        }
    }

    fn exists(&self, latch: u32) -> bool {
        (latch as usize) < self.lists.len()
    }

    /// One admitted operation; `id` is that of a new request. `wakes` is emptied and filled.
    pub fn apply(&mut self, caller: u32, id: u32, op: LatchOp, wakes: &mut Vec<Wake>) -> LatchReply {
        wakes.clear();
        match op {
            LatchOp::Obtain { latch, requestor, mode, form } => {
                self.obtain(latch, Request { id, caller, requestor, mode, form })
            }
            LatchOp::Confirm { latch, id } => self.confirm(caller, latch, id),
            LatchOp::Release { latch, id, conditional } => self.release(caller, latch, id, conditional, wakes),
            LatchOp::Purge { requestor } => self.purge(requestor, wakes),
        }
    }

    fn obtain(&mut self, latch: u32, request: Request) -> LatchReply {
        let list = &mut self.lists[latch as usize];
        let blocker = match request.mode {
            Mode::Exclusive => list.first(),
            Mode::Shared => list.iter().find(|other| other.mode == Mode::Exclusive),
        };
        let reply = match blocker {
            None => LatchReply::Granted(request.id),
            Some(blocker) if request.form == LatchForm::Conditional => return LatchReply::NotNow(blocker.id),
            Some(_) => LatchReply::Queued(request.id),
        };
        list.push(request);
        let held = &mut self.held[request.caller as usize];
        held.requests += 1;
        held.posted += u32::from(matches!(request.form, LatchForm::Posted(_)));
        reply
    }

    fn position(&self, caller: u32, latch: u32, id: u32) -> Option<usize> {
        self.lists[latch as usize].iter().position(|request| request.id == id && request.caller == caller)
    }

    /// Whether the caller's request stands in the list and is not granted.
    pub fn waits(&self, caller: u32, latch: u32, id: u32) -> bool {
        self.confirm(caller, latch, id) == LatchReply::Waiting
    }

    fn confirm(&self, caller: u32, latch: u32, id: u32) -> LatchReply {
        match self.position(caller, latch, id) {
            None => LatchReply::Gone,
            Some(position) if position < granted(self.requests(latch)) => LatchReply::Granted(id),
            Some(_) => LatchReply::Waiting,
        }
    }

    fn release(&mut self, caller: u32, latch: u32, id: u32, conditional: bool, wakes: &mut Vec<Wake>) -> LatchReply {
        let Some(position) = self.position(caller, latch, id) else {
            return LatchReply::Gone;
        };
        let list = &mut self.lists[latch as usize];
        let before = granted(list);
        let waits = position >= before;
        if waits && conditional {
            return LatchReply::Waiting;
        }
        let request = list.remove(position);
        self.held[caller as usize].give_back(&request);
        let kept = if waits { before } else { before - 1 };
        let fresh = &list[kept..granted(list)];
        wakes.extend(fresh.iter().map(|request| Wake::of(request, 0)));
        LatchReply::Released { granted: fresh.len() as u32 }
    }

    fn purge(&mut self, requestor: u64, wakes: &mut Vec<Wake>) -> LatchReply {
        let mut removed = 0;
        let mut kept = [0; MOST_LATCHES];
        for (list, kept) in self.lists.iter_mut().zip(&mut kept) {
            let before = granted(list);
            let mut position = 0;
            list.retain(|request| {
                let held = position < before;
                position += 1;
                if request.requestor != requestor {
                    *kept += usize::from(held);
                    return true;
                }
                removed += 1;
                self.held[request.caller as usize].give_back(request);
                if !held {
                    wakes.push(Wake::of(request, 1));
                }
                false
            });
        }
        let mut newly = 0;
        for (list, kept) in self.lists.iter().zip(kept) {
            let fresh = &list[kept..granted(list)];
            newly += fresh.len() as u32;
            wakes.extend(fresh.iter().map(|request| Wake::of(request, 0)));
        }
        LatchReply::Purged { removed, granted: newly }
    }
}

impl Held {
    fn give_back(&mut self, request: &Request) {
        self.requests -= 1;
        self.posted -= u32::from(matches!(request.form, LatchForm::Posted(_)));
    }
}
