use crate::declared;
use crate::machine::{Answer, Operation};
use std::error::Error;
use std::fmt;

/// Room for any line: `TONGSTHYME_LINE_ROOM`.
const ROOM: usize = 128;

/// Why a line was not written.
#[derive(Clone, Copy, Debug, PartialEq, Eq)]
pub enum LineError {
    /// There is no such event: the reply is of another kind of object than the operation, or is a state with a code that its phase does not
    /// keep.
    NoSuchEvent,
    /// Memory ran out.
    OutOfMemory,
}

impl fmt::Display for LineError {
    fn fmt(&self, f: &mut fmt::Formatter<'_>) -> fmt::Result {
        f.write_str(match self {
            LineError::NoSuchEvent => "there is no event of this operation and this reply",
            LineError::OutOfMemory => "out of memory",
        })
    }
}

impl Error for LineError {}

/// Returns the line of an event in a journal of version 1, with its LF. The event is a step, or one of another implementation that has made
/// the operation and given the answer.
///
/// # Errors
///
/// `LineError`. After a step there is no `NoSuchEvent`.
///
/// # Examples
///
/// ```
/// use tongsthyme::{line, Answer, EcbOp, EcbReply, Operation, Reply};
///
/// let answer = Answer { place: 4, reply: Reply::Ecb(EcbReply::Posted) };
/// assert_eq!(line(1, Operation::Ecb(0, EcbOp::Post(7)), answer)?, "1 E0 4 POST 7 = POSTED\n");
/// # Ok::<(), tongsthyme::LineError>(())
/// ```
pub fn line(caller: u32, operation: Operation, answer: Answer) -> Result<String, LineError> {
    let operation = operation.declared(caller);
    let (kind, answer) = answer.declared();
    if kind != operation.kind {
        return Err(LineError::NoSuchEvent);
    }
    let mut text = vec![0; ROOM];
    let mut length = 0;
    // SAFETY: as at `judge`. The pointer and the room are those of one slice.
    let status = unsafe {
        declared::tongsthyme_line(
            &operation,
            &answer,
            text.as_mut_ptr(),
            text.len(),
            &mut length,
        )
    };
    match status {
        0 => {
            text.truncate(length);
            Ok(String::from_utf8(text).expect("a line is ASCII"))
        }
        3 => Err(LineError::NoSuchEvent),
        // 7: the room is enough for any line.
        _ => Err(LineError::OutOfMemory),
    }
}
