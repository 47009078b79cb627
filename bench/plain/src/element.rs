//! The pause element: a token serves one pause, and the pause hands out the next token.

#[derive(Clone, Copy, Debug, PartialEq, Eq)]
pub struct Token {
    pub element: u32,
    pub generation: u32,
}

#[derive(Clone, Copy, Debug, PartialEq, Eq)]
pub enum Phase {
    Free,
    Reset,
    Prereleased,
    Paused,
    Released,
}

#[derive(Clone, Copy, Debug, PartialEq, Eq)]
pub struct ElementState {
    pub generation: u32,
    pub phase: Phase,
    pub code: u32,
}

#[derive(Clone, Copy, Debug, PartialEq, Eq)]
pub enum ElementOp {
    Open,
    Pause(u32),
    Resume(u32),
    Release(u32, u32),
    Close(u32),
    Test,
}

#[derive(Clone, Copy, Debug, PartialEq, Eq)]
pub enum ElementReply {
    Opened(u32),
    InUse,
    Parked,
    Given { code: u32, next: u32 },
    Spent(u32),
    Busy,
    NotYet,
    Early,
    Woke,
    Already,
    Closed,
    State(ElementState),
}

/// Release codes are below this.
pub const CODES: u32 = 1 << 24;
/// Generations are at most this.
pub const LAST_GENERATION: u32 = (1 << 18) - 1;

const GENERATION_SHIFT: u32 = 27;
const PHASE_SHIFT: u32 = 24;

impl ElementState {
    pub fn new(generation: u32, phase: Phase, code: u32) -> Self {
        ElementState { generation, phase, code }
    }

    pub fn pack(self) -> u64 {
        u64::from(self.generation) << GENERATION_SHIFT | (self.phase as u64) << PHASE_SHIFT | u64::from(self.code)
    }

    pub fn unpack(state: u64) -> Self {
        let phase = match (state >> PHASE_SHIFT) & 7 {
            0 => Phase::Free,
            1 => Phase::Reset,
            2 => Phase::Prereleased,
            3 => Phase::Paused,
            _ => Phase::Released,
        };
        let generation = (state >> GENERATION_SHIFT) as u32;
        let code = state as u32 & (CODES - 1);
        ElementState { generation, phase, code }
    }
}

/// One operation on the element: the new state and the reply.
pub fn apply(op: ElementOp, state: ElementState) -> (ElementState, ElementReply) {
    use ElementReply as Reply;
    let ElementState { generation, phase, code } = state;
    let token = match op {
        ElementOp::Test => return (state, Reply::State(state)),
        ElementOp::Open if phase == Phase::Free => {
            return (ElementState::new(generation, Phase::Reset, 0), Reply::Opened(generation));
        }
        ElementOp::Open => return (state, Reply::InUse),
        ElementOp::Pause(token) | ElementOp::Resume(token) | ElementOp::Release(token, _) | ElementOp::Close(token) => {
            token
        }
    };
    if phase == Phase::Free || token != generation {
        return (state, Reply::Spent(generation));
    }
    let next = generation + 1;
    let given = (ElementState::new(next, Phase::Reset, 0), Reply::Given { code, next });
    match (op, phase) {
        (ElementOp::Pause(_), Phase::Reset) => (ElementState::new(generation, Phase::Paused, 0), Reply::Parked),
        (ElementOp::Pause(_), Phase::Prereleased) => given,
        (ElementOp::Resume(_), Phase::Released) => given,
        (ElementOp::Resume(_), Phase::Paused) => (state, Reply::NotYet),
        (ElementOp::Release(_, code), Phase::Reset) => {
            (ElementState::new(generation, Phase::Prereleased, code), Reply::Early)
        }
        (ElementOp::Release(_, code), Phase::Paused) => {
            (ElementState::new(generation, Phase::Released, code), Reply::Woke)
        }
        (ElementOp::Release(..), _) => (state, Reply::Already),
        (ElementOp::Close(_), Phase::Reset | Phase::Prereleased) => {
            (ElementState::new(next, Phase::Free, 0), Reply::Closed)
        }
        _ => (state, Reply::Busy),
    }
}
