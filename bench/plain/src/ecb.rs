//! The event control block: one fullword with a wait bit, a completion bit and thirty bits of code.

const WAIT: u32 = 1 << 31;
const COMPLETE: u32 = 1 << 30;
const CODE: u32 = COMPLETE - 1;

/// Completion codes are below this.
pub const CODES: u32 = COMPLETE;

#[derive(Clone, Copy, Debug, PartialEq, Eq)]
pub enum EcbOp {
    Arm,
    Extend(u32),
    Settle,
    Clear,
    Post(u32),
    Test,
}

#[derive(Clone, Copy, Debug, PartialEq, Eq)]
pub enum EcbReply {
    Armed,
    Linked(u32),
    Complete(u32),
    Waiting,
    Open,
    Posted,
    Woke(u32),
    Already(u32),
    Word(u32),
}

/// The completion code of a complete ECB.
pub fn completion(word: u32) -> Option<u32> {
    (word & COMPLETE != 0).then_some(word & CODE)
}

/// One operation on the word: the new word and the reply.
pub fn apply(op: EcbOp, word: u32) -> (u32, EcbReply) {
    match op {
        EcbOp::Test => return (word, EcbReply::Word(word)),
        EcbOp::Clear => return (0, EcbReply::Word(word)),
        _ => {}
    }
    if let Some(code) = completion(word) {
        return match op {
            EcbOp::Post(_) => (word, EcbReply::Already(code)),
            _ => (word, EcbReply::Complete(code)),
        };
    }
    let waited = word & WAIT != 0;
    let exit = word & CODE;
    match op {
        EcbOp::Post(code) if waited => (COMPLETE | code, EcbReply::Woke(exit)),
        EcbOp::Post(code) => (COMPLETE | code, EcbReply::Posted),
        _ if exit != 0 => (word, EcbReply::Linked(exit)),
        EcbOp::Settle => (0, EcbReply::Open),
        _ if waited => (word, EcbReply::Waiting),
        EcbOp::Extend(exit) => (WAIT | exit, EcbReply::Armed),
        _ => (WAIT, EcbReply::Armed),
    }
}
