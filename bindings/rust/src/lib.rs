//! The proved judge of journals, the proved machine of one thread, one operation at a time, and the lines of journals.
//!
//! The library itself is written in Rattle, and its contracts are proved. This crate declares it to Rust, in safe functions. No compiler
//! compares the declarations with the library's; tests do.
//!
//! ```
//! use tongsthyme::{judge, EcbOp, EcbReply, Machine, Operation, Reply, Verdict};
//!
//! let journal = b"JOURNAL 1\nCALLERS 2\nELEMENTS 1\nVOLUMES 1\nLATCHES 1\nQUOTA 1 0\nBUDGET 9\nBUDGET 9\nECB 0\nEVENTS\n\
//!     0 E0 0 ARM = ARMED\nEND 1\n";
//! assert_eq!(judge(journal)?, Verdict::Legal { events: 1 });
//!
//! let mut machine = Machine::open(journal)?;
//! let answer = machine.step(1, Operation::Ecb(0, EcbOp::Post(7)))?;
//! assert_eq!(answer.place, 1);
//! assert_eq!(answer.reply, Reply::Ecb(EcbReply::Woke(0)));
//! # Ok::<(), Box<dyn std::error::Error>>(())
//! ```

mod declared;
mod line;
mod machine;
mod verdict;

pub use line::{line, LineError};
pub use machine::{
    Answer, EcbOp, EcbReply, ElementOp, ElementReply, LatchOp, LatchReply, Machine, Mode, Object,
    Operation, Phase, Reply, Request, RequestForm, StepError, VolumeOp, VolumeReply, Wake,
    WakeCode,
};
pub use verdict::{judge, Fault, OpenError, OutOfMemory, Verdict};
