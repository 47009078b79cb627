use crate::declared::{self, Handle};
use crate::verdict::{OpenError, Verdict};
use std::error::Error;
use std::fmt;
use std::ptr::null_mut;

/// An object, by its number.
#[derive(Clone, Copy, Debug, PartialEq, Eq)]
pub enum Object {
    /// An event control block.
    Ecb(u32),
    /// A pause element.
    Element(u32),
    /// A shared number of 32 bits.
    Volume(u32),
    /// The latch set.
    Latches,
}

/// An operation on an object.
#[derive(Clone, Copy, Debug, PartialEq, Eq)]
pub enum Operation {
    /// On the event control block of this number.
    Ecb(u32, EcbOp),
    /// On the pause element of this number.
    Element(u32, ElementOp),
    /// On the volume of this number.
    Volume(u32, VolumeOp),
    /// On the latch set.
    Latch(LatchOp),
}

/// What is done with an event control block.
#[derive(Clone, Copy, Debug, PartialEq, Eq)]
pub enum EcbOp {
    /// Sets the wait bit.
    Arm,
    /// Sets the wait bit, with an exit, counted from 1, that a post starts.
    Extend(u32),
    /// Ends a wait.
    Settle,
    /// Sets the block to zero.
    Clear,
    /// Completes the block with a code below 2^30.
    Post(u32),
    /// Reads the fullword.
    Test,
}

/// What is done with a pause element.
#[derive(Clone, Copy, Debug, PartialEq, Eq)]
pub enum ElementOp {
    /// Allocates it.
    Open,
    /// Pauses with the token of this generation.
    Pause(u32),
    /// Ends the pause of this generation.
    Resume(u32),
    /// Releases the pause of a generation with a code below 2^24.
    Release {
        /// The generation of the token.
        generation: u32,
        /// The release code.
        code: u32,
    },
    /// Frees it, at this generation.
    Close(u32),
    /// Reads the state.
    Test,
}

/// What is done with a volume.
#[derive(Clone, Copy, Debug, PartialEq, Eq)]
pub enum VolumeOp {
    /// Reads the number.
    Read,
    /// Writes the number.
    Write(u32),
}

/// How a requestor holds a latch.
#[derive(Clone, Copy, Debug, PartialEq, Eq)]
pub enum Mode {
    /// Beside other shared holders.
    Shared,
    /// Alone.
    Exclusive,
}

/// What becomes of a request that is not granted at once.
#[derive(Clone, Copy, Debug, PartialEq, Eq)]
pub enum RequestForm {
    /// It is dropped.
    Conditional,
    /// It is queued, and its task is woken at the grant.
    Waiting,
    /// It is queued, and this event control block is posted at the grant.
    Posted(u32),
}

/// What is done with the latch set.
#[derive(Clone, Copy, Debug, PartialEq, Eq)]
pub enum LatchOp {
    /// Requests a latch.
    Obtain {
        /// The latch.
        latch: u32,
        /// Eight bytes, by which a purge names the request.
        requestor: u64,
        /// How it is to be held.
        mode: Mode,
        /// What becomes of the request if it is not granted at once.
        form: RequestForm,
    },
    /// Asks how the caller's own request stands.
    Confirm {
        /// The latch.
        latch: u32,
        /// The number of the request.
        request: u32,
    },
    /// Takes the caller's own request out.
    Release {
        /// The latch.
        latch: u32,
        /// The number of the request.
        request: u32,
        /// Whether a request that waits is left where it is.
        conditional: bool,
    },
    /// Takes all requests of a requestor out of all latches.
    Purge {
        /// The requestor.
        requestor: u64,
    },
}

/// The place of an event, and its reply.
#[derive(Clone, Copy, Debug, PartialEq, Eq)]
pub struct Answer {
    /// How many events the object had before this one.
    pub place: u32,
    /// The reply.
    pub reply: Reply,
}

/// A reply.
#[derive(Clone, Copy, Debug, PartialEq, Eq)]
pub enum Reply {
    /// Of an event control block.
    Ecb(EcbReply),
    /// Of a pause element.
    Element(ElementReply),
    /// Of a volume.
    Volume(VolumeReply),
    /// Of the latch set.
    Latch(LatchReply),
}

/// A reply of an event control block.
#[derive(Clone, Copy, Debug, PartialEq, Eq)]
pub enum EcbReply {
    /// The wait bit is set.
    Armed,
    /// The block waits with this exit.
    Linked(u32),
    /// The block is complete with this code.
    Complete(u32),
    /// A task waits already.
    Waiting,
    /// The block is not complete.
    Open,
    /// The block is complete, and no task waited.
    Posted,
    /// The block is complete, a task that waited has to be woken, and this exit has to be run if it is not 0.
    Woke(u32),
    /// The block was complete, with this code.
    Already(u32),
    /// The fullword.
    Word(u32),
}

/// A phase of a pause element.
#[derive(Clone, Copy, Debug, PartialEq, Eq)]
pub enum Phase {
    /// Not allocated.
    Free = 0,
    /// Allocated, and neither paused nor released.
    Reset = 1,
    /// Released before its pause.
    Prereleased = 2,
    /// A task pauses.
    Paused = 3,
    /// The pause was released.
    Released = 4,
}

/// A reply of a pause element.
#[derive(Clone, Copy, Debug, PartialEq, Eq)]
pub enum ElementReply {
    /// Allocated, at this generation.
    Opened(u32),
    /// Allocated already.
    InUse,
    /// The task has to pause.
    Parked,
    /// The pause was released.
    Given {
        /// The release code.
        code: u32,
        /// The generation of the next token.
        next: u32,
    },
    /// The token is spent; the element is at this generation.
    Spent(u32),
    /// A task pauses with the token.
    Busy,
    /// The pause was not released yet.
    NotYet,
    /// Released before its pause.
    Early,
    /// Released, and the task that pauses has to be woken.
    Woke,
    /// Released already.
    Already,
    /// Freed.
    Closed,
    /// The state.
    State {
        /// The generation.
        generation: u32,
        /// The phase.
        phase: Phase,
        /// The release code that is kept.
        code: u32,
    },
}

/// A reply of a volume.
#[derive(Clone, Copy, Debug, PartialEq, Eq)]
pub enum VolumeReply {
    /// The number.
    Value(u32),
    /// The number was written.
    Stored,
}

/// A reply of the latch set. A request is named by its number.
#[derive(Clone, Copy, Debug, PartialEq, Eq)]
pub enum LatchReply {
    /// This request holds the latch.
    Granted(u32),
    /// This request was queued.
    Queued(u32),
    /// Nothing was queued, since this request is in the way.
    NotNow(u32),
    /// The request waits.
    Waiting,
    /// There is no such request of this caller.
    Gone,
    /// The request was taken out.
    Released {
        /// How many others were granted by that.
        granted: u32,
    },
    /// The requests of the requestor were taken out.
    Purged {
        /// How many.
        removed: u32,
        /// How many others were granted by that.
        granted: u32,
    },
}

/// What became of a request that waited.
#[derive(Clone, Copy, Debug, PartialEq, Eq)]
pub enum WakeCode {
    /// It was granted.
    Granted = 0,
    /// It was purged.
    Purged = 1,
}

/// What has to be done for a request that the last operation on the latch set granted, or purged while it waited.
#[derive(Clone, Copy, Debug, PartialEq, Eq)]
pub struct Wake {
    /// The caller that made the request.
    pub caller: u32,
    /// The number of the request.
    pub request: u32,
    /// What became of the request. A block is posted with the number of this code.
    pub code: WakeCode,
    /// The event control block that has to be posted. If there is none, the caller has to be woken.
    pub ecb: Option<u32>,
}

/// A request in the list of a latch.
#[derive(Clone, Copy, Debug, PartialEq, Eq)]
pub struct Request {
    /// The number of the request.
    pub request: u32,
    /// The caller that made it.
    pub caller: u32,
    /// Its requestor.
    pub requestor: u64,
    /// How it holds the latch, once granted.
    pub mode: Mode,
    /// What was asked for in case that it is not granted at once.
    pub form: RequestForm,
}

/// Why an operation was not made. Nothing changed then.
#[derive(Clone, Copy, Debug, PartialEq, Eq)]
pub enum StepError {
    /// There is no such caller or object, or the caller may not do this.
    NotAdmitted,
    /// The object has had 524,287 events.
    Full,
}

impl fmt::Display for StepError {
    fn fmt(&self, f: &mut fmt::Formatter<'_>) -> fmt::Result {
        f.write_str(match self {
            StepError::NotAdmitted => "the operation is not admitted",
            StepError::Full => "the object has had 524,287 events",
        })
    }
}

impl Error for StepError {}

impl Object {
    fn numbers(self) -> (u32, u32) {
        match self {
            Object::Ecb(number) => (0, number),
            Object::Element(number) => (1, number),
            Object::Volume(number) => (2, number),
            Object::Latches => (3, 0),
        }
    }
}

impl Operation {
    /// Returns the object.
    pub fn object(&self) -> Object {
        match self {
            Operation::Ecb(number, _) => Object::Ecb(*number),
            Operation::Element(number, _) => Object::Element(*number),
            Operation::Volume(number, _) => Object::Volume(*number),
            Operation::Latch(_) => Object::Latches,
        }
    }

    pub(crate) fn declared(&self, caller: u32) -> declared::Operation {
        let (kind, object) = self.object().numbers();
        let mut made = declared::Operation {
            caller,
            kind,
            object,
            ..Default::default()
        };
        (made.operation, made.a, made.b) = match *self {
            Operation::Ecb(_, op) => match op {
                EcbOp::Arm => (0, 0, 0),
                EcbOp::Extend(exit) => (1, exit, 0),
                EcbOp::Settle => (2, 0, 0),
                EcbOp::Clear => (3, 0, 0),
                EcbOp::Post(code) => (4, code, 0),
                EcbOp::Test => (5, 0, 0),
            },
            Operation::Element(_, op) => match op {
                ElementOp::Open => (0, 0, 0),
                ElementOp::Pause(generation) => (1, generation, 0),
                ElementOp::Resume(generation) => (2, generation, 0),
                ElementOp::Release { generation, code } => (3, generation, code),
                ElementOp::Close(generation) => (4, generation, 0),
                ElementOp::Test => (5, 0, 0),
            },
            Operation::Volume(_, op) => match op {
                VolumeOp::Read => (0, 0, 0),
                VolumeOp::Write(number) => (1, number, 0),
            },
            Operation::Latch(LatchOp::Obtain {
                latch,
                requestor,
                mode,
                form,
            }) => {
                made.requestor = requestor;
                (made.c, made.d) = match form {
                    RequestForm::Conditional => (0, 0),
                    RequestForm::Waiting => (1, 0),
                    RequestForm::Posted(ecb) => (2, ecb),
                };
                (0, latch, u32::from(mode == Mode::Exclusive))
            }
            Operation::Latch(LatchOp::Confirm { latch, request }) => (1, latch, request),
            Operation::Latch(LatchOp::Release {
                latch,
                request,
                conditional,
            }) => {
                made.c = u32::from(conditional);
                (2, latch, request)
            }
            Operation::Latch(LatchOp::Purge { requestor }) => {
                made.requestor = requestor;
                (3, 0, 0)
            }
        };
        made
    }
}

impl Answer {
    // The numbers are those of the library's contract, so there are no others.
    fn of(kind: u32, answer: &declared::Answer) -> Answer {
        let declared::Answer {
            place,
            reply,
            a,
            b,
            c,
        } = *answer;
        let reply = match kind {
            0 => Reply::Ecb(match reply {
                0 => EcbReply::Armed,
                1 => EcbReply::Linked(a),
                2 => EcbReply::Complete(a),
                3 => EcbReply::Waiting,
                4 => EcbReply::Open,
                5 => EcbReply::Posted,
                6 => EcbReply::Woke(a),
                7 => EcbReply::Already(a),
                _ => EcbReply::Word(a),
            }),
            1 => Reply::Element(match reply {
                0 => ElementReply::Opened(a),
                1 => ElementReply::InUse,
                2 => ElementReply::Parked,
                3 => ElementReply::Given { code: a, next: b },
                4 => ElementReply::Spent(a),
                5 => ElementReply::Busy,
                6 => ElementReply::NotYet,
                7 => ElementReply::Early,
                8 => ElementReply::Woke,
                9 => ElementReply::Already,
                10 => ElementReply::Closed,
                _ => ElementReply::State {
                    generation: a,
                    phase: match b {
                        0 => Phase::Free,
                        1 => Phase::Reset,
                        2 => Phase::Prereleased,
                        3 => Phase::Paused,
                        _ => Phase::Released,
                    },
                    code: c,
                },
            }),
            2 => Reply::Volume(match reply {
                0 => VolumeReply::Value(a),
                _ => VolumeReply::Stored,
            }),
            _ => Reply::Latch(match reply {
                0 => LatchReply::Granted(a),
                1 => LatchReply::Queued(a),
                2 => LatchReply::NotNow(a),
                3 => LatchReply::Waiting,
                4 => LatchReply::Gone,
                5 => LatchReply::Released { granted: a },
                _ => LatchReply::Purged {
                    removed: a,
                    granted: b,
                },
            }),
        };
        Answer { place, reply }
    }

    /// Returns the kind of the object that the reply is of, and the numbers.
    pub(crate) fn declared(&self) -> (u32, declared::Answer) {
        let (kind, (reply, a, b, c)) = match self.reply {
            Reply::Ecb(reply) => (0, reply.numbers()),
            Reply::Element(reply) => (1, reply.numbers()),
            Reply::Volume(VolumeReply::Value(number)) => (2, (0, number, 0, 0)),
            Reply::Volume(VolumeReply::Stored) => (2, (1, 0, 0, 0)),
            Reply::Latch(reply) => (3, reply.numbers()),
        };
        let place = self.place;
        (
            kind,
            declared::Answer {
                place,
                reply,
                a,
                b,
                c,
            },
        )
    }
}

impl EcbReply {
    fn numbers(self) -> (u32, u32, u32, u32) {
        match self {
            EcbReply::Armed => (0, 0, 0, 0),
            EcbReply::Linked(exit) => (1, exit, 0, 0),
            EcbReply::Complete(code) => (2, code, 0, 0),
            EcbReply::Waiting => (3, 0, 0, 0),
            EcbReply::Open => (4, 0, 0, 0),
            EcbReply::Posted => (5, 0, 0, 0),
            EcbReply::Woke(exit) => (6, exit, 0, 0),
            EcbReply::Already(code) => (7, code, 0, 0),
            EcbReply::Word(word) => (8, word, 0, 0),
        }
    }
}

impl ElementReply {
    fn numbers(self) -> (u32, u32, u32, u32) {
        match self {
            ElementReply::Opened(generation) => (0, generation, 0, 0),
            ElementReply::InUse => (1, 0, 0, 0),
            ElementReply::Parked => (2, 0, 0, 0),
            ElementReply::Given { code, next } => (3, code, next, 0),
            ElementReply::Spent(generation) => (4, generation, 0, 0),
            ElementReply::Busy => (5, 0, 0, 0),
            ElementReply::NotYet => (6, 0, 0, 0),
            ElementReply::Early => (7, 0, 0, 0),
            ElementReply::Woke => (8, 0, 0, 0),
            ElementReply::Already => (9, 0, 0, 0),
            ElementReply::Closed => (10, 0, 0, 0),
            ElementReply::State {
                generation,
                phase,
                code,
            } => (11, generation, phase as u32, code),
        }
    }
}

impl LatchReply {
    fn numbers(self) -> (u32, u32, u32, u32) {
        match self {
            LatchReply::Granted(request) => (0, request, 0, 0),
            LatchReply::Queued(request) => (1, request, 0, 0),
            LatchReply::NotNow(request) => (2, request, 0, 0),
            LatchReply::Waiting => (3, 0, 0, 0),
            LatchReply::Gone => (4, 0, 0, 0),
            LatchReply::Released { granted } => (5, granted, 0, 0),
            LatchReply::Purged { removed, granted } => (6, removed, granted, 0),
        }
    }
}

/// The machine of one thread, after the entries of a journal. It stays on its thread.
#[derive(Debug)]
pub struct Machine(Handle);

impl fmt::Debug for Handle {
    fn fmt(&self, f: &mut fmt::Formatter<'_>) -> fmt::Result {
        self.at.fmt(f)
    }
}

impl Machine {
    /// Opens the machine after the entries of a legal journal. A journal with `END 0` opens a new machine.
    ///
    /// # Errors
    ///
    /// The verdict, if the text is not the journal of a legal history, or `OutOfMemory`.
    pub fn open(journal: &[u8]) -> Result<Machine, OpenError> {
        let mut machine = Machine(Handle { at: null_mut() });
        let mut verdict = declared::Verdict::default();
        // SAFETY: as at `judge`; a null handle holds no machine.
        let status = unsafe {
            declared::tongsthyme_machine_open(
                journal.as_ptr(),
                journal.len(),
                &mut machine.0,
                &mut verdict,
            )
        };
        match Verdict::of(status, &verdict) {
            Ok(Verdict::Legal { .. }) => Ok(machine),
            Ok(other) => Err(OpenError::NotLegal(other)),
            Err(_) => Err(OpenError::OutOfMemory),
        }
    }

    /// Makes an operation of a caller. It never waits: a reply says that the caller has to.
    ///
    /// # Errors
    ///
    /// `StepError`. Nothing changed then.
    pub fn step(&mut self, caller: u32, operation: Operation) -> Result<Answer, StepError> {
        let operation = operation.declared(caller);
        let mut answer = declared::Answer::default();
        // SAFETY: the library made the handle, and it is lent to this call alone.
        match unsafe { declared::tongsthyme_machine_step(&mut self.0, &operation, &mut answer) } {
            0 => Ok(Answer::of(operation.kind, &answer)),
            2 => Err(StepError::Full),
            // 1, by the library's contract: each number of an `Operation` has a meaning, and an open handle holds a machine.
            _ => Err(StepError::NotAdmitted),
        }
    }

    /// Shows the place of an object, and its state as the reply of a test or of a read. Returns `None` for the latch set, or if there is no
    /// such object.
    ///
    /// Nothing changes. `&mut` is for the handle, which the library may write during the call.
    #[must_use]
    pub fn object(&mut self, object: Object) -> Option<Answer> {
        let (kind, number) = object.numbers();
        let mut answer = declared::Answer::default();
        // SAFETY: as at `step`.
        match unsafe { declared::tongsthyme_machine_object(&mut self.0, kind, number, &mut answer) }
        {
            0 => Some(Answer::of(kind, &answer)),
            _ => None,
        }
    }

    /// Shows what has to be done for the requests that the last operation on the latch set granted, or purged while they waited.
    /// Nothing changes.
    pub fn wakes(&mut self) -> Vec<Wake> {
        (0..)
            .map_while(|index| {
                let mut wake = declared::Wake::default();
                // SAFETY: as at `step`.
                let status =
                    unsafe { declared::tongsthyme_machine_wake(&mut self.0, index, &mut wake) };
                (status == 0).then(|| Wake {
                    caller: wake.caller,
                    request: wake.request,
                    code: if wake.code == 0 {
                        WakeCode::Granted
                    } else {
                        WakeCode::Purged
                    },
                    ecb: (wake.posts == 1).then_some(wake.ecb),
                })
            })
            .collect()
    }

    /// Shows the requests in the list of a latch, in order of arrival. Nothing changes.
    pub fn requests(&mut self, latch: u32) -> Vec<Request> {
        (0..)
            .map_while(|index| {
                let mut request = declared::Request::default();
                // SAFETY: as at `step`.
                let status = unsafe {
                    declared::tongsthyme_machine_request(&mut self.0, latch, index, &mut request)
                };
                (status == 0).then_some(Request {
                    request: request.request,
                    caller: request.caller,
                    requestor: request.requestor,
                    mode: if request.mode == 0 {
                        Mode::Shared
                    } else {
                        Mode::Exclusive
                    },
                    form: match request.form {
                        0 => RequestForm::Conditional,
                        1 => RequestForm::Waiting,
                        _ => RequestForm::Posted(request.ecb),
                    },
                })
            })
            .collect()
    }
}

impl Drop for Machine {
    fn drop(&mut self) {
        // SAFETY: as at `step`. A handle that holds no machine may be closed too.
        unsafe { declared::tongsthyme_machine_close(&mut self.0) }
    }
}
