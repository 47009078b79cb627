use crate::declared;
use std::error::Error;
use std::fmt;

/// What a text is.
#[must_use]
#[derive(Clone, Copy, Debug, PartialEq, Eq)]
pub enum Verdict {
    /// The journal of a legal history, in version 2 with the right call numbers.
    Legal {
        /// The number of its events.
        events: u32,
    },
    /// A journal in which an entry is not what the services do, or has another call number.
    Illegal {
        /// The line of the first such entry, counted from 1.
        line: u32,
    },
    /// Not a journal.
    Malformed {
        /// The line of the first fault, counted from 1.
        line: u32,
        /// Its kind.
        fault: Fault,
    },
    /// More than 67,108,864 bytes, which were not read.
    TooLong,
}

/// Why a text is not a journal. The numbers are those of docs/FORMATS.md.
#[derive(Clone, Copy, Debug, PartialEq, Eq)]
pub enum Fault {
    /// The line does not have a form that is allowed at its place.
    Form = 1,
    /// A number has a leading zero or is beyond its range.
    Number = 2,
    /// At `EVENTS`: the configuration is refused.
    Configuration = 3,
    /// At `END`: the number is not that of the events.
    Count = 4,
    /// The line does not end with LF, or the text ends before its `END` line.
    Cut = 5,
}

/// Memory ran out before the text was judged.
#[derive(Clone, Copy, Debug, PartialEq, Eq)]
pub struct OutOfMemory;

/// Why a machine was not opened: the verdict on the text, which is not `Legal`, or memory ran out.
#[derive(Clone, Copy, Debug, PartialEq, Eq)]
pub enum OpenError {
    /// The text is not the journal of a legal history.
    NotLegal(Verdict),
    /// Memory ran out.
    OutOfMemory,
}

impl fmt::Display for Fault {
    fn fmt(&self, f: &mut fmt::Formatter<'_>) -> fmt::Result {
        f.write_str(match self {
            Fault::Form => "no form that is allowed there",
            Fault::Number => "a number with a leading zero or beyond its range",
            Fault::Configuration => "a configuration that is refused",
            Fault::Count => "another number of events",
            Fault::Cut => "cut off",
        })
    }
}

impl fmt::Display for Verdict {
    fn fmt(&self, f: &mut fmt::Formatter<'_>) -> fmt::Result {
        match self {
            Verdict::Legal { events } => write!(f, "legal, {events} events"),
            Verdict::Illegal { line } => write!(f, "illegal at line {line}"),
            Verdict::Malformed { line, fault } => {
                write!(f, "malformed at line {line}, kind {}", *fault as u32)
            }
            Verdict::TooLong => f.write_str("too long"),
        }
    }
}

impl fmt::Display for OutOfMemory {
    fn fmt(&self, f: &mut fmt::Formatter<'_>) -> fmt::Result {
        f.write_str("out of memory")
    }
}

impl fmt::Display for OpenError {
    fn fmt(&self, f: &mut fmt::Formatter<'_>) -> fmt::Result {
        match self {
            OpenError::NotLegal(verdict) => verdict.fmt(f),
            OpenError::OutOfMemory => OutOfMemory.fmt(f),
        }
    }
}

impl Error for OutOfMemory {}

impl Error for OpenError {}

impl Verdict {
    pub(crate) fn of(status: u32, verdict: &declared::Verdict) -> Result<Verdict, OutOfMemory> {
        Ok(match status {
            0 => Verdict::Legal {
                events: verdict.events,
            },
            1 => Verdict::Illegal { line: verdict.line },
            2 => Verdict::Malformed {
                line: verdict.line,
                fault: match verdict.kind {
                    1 => Fault::Form,
                    2 => Fault::Number,
                    3 => Fault::Configuration,
                    4 => Fault::Count,
                    _ => Fault::Cut,
                },
            },
            3 => Verdict::TooLong,
            _ => return Err(OutOfMemory),
        })
    }
}

/// Judges the text of a journal.
///
/// # Errors
///
/// `OutOfMemory`.
///
/// # Examples
///
/// ```
/// use tongsthyme::{judge, Fault, Verdict};
///
/// assert_eq!(judge(b"JOURNAL 3\n"), Ok(Verdict::Malformed { line: 1, fault: Fault::Form }));
/// ```
pub fn judge(journal: &[u8]) -> Result<Verdict, OutOfMemory> {
    let mut verdict = declared::Verdict::default();
    // SAFETY: the function requires what the types of its parameters say. The pointer and the length are those of one slice, and no
    // pointer is kept.
    let status =
        unsafe { declared::tongsthyme_judge(journal.as_ptr(), journal.len(), &mut verdict) };
    Verdict::of(status, &verdict)
}
