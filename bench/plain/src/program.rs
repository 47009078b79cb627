//! The top call: the words of the command line, the streams, and the status.

use crate::board::AtomicBoard;
use crate::calls::Numbering;
use crate::deck::{load_deck, read_deck, DeckFault};
use crate::journal::{self, Reader, TextFault, Writer};
use crate::latch::Wake;
use crate::machine::{Entry, State};
use crate::report::{write_report, write_summary};
use crate::script::{read_script, run_script, write_answers, ScriptFault};
use crate::spool::{run_deck, Gate};
use crate::text;
use std::fmt;
use std::io::{Read, Write};

#[derive(Clone, Copy, Debug, PartialEq, Eq)]
pub enum Status {
    Done,
    Words,
    Deck(DeckFault),
    TooLong,
    ReadFailed,
    ReportFailed,
    JournalFailed,
    Script(ScriptFault),
    Illegal(u32),
    Text(TextFault),
}

impl Status {
    pub fn exit(self) -> u8 {
        match self {
            Status::Done => 0,
            Status::Words => 2,
            Status::Deck(_) => 3,
            Status::TooLong => 4,
            Status::ReadFailed => 5,
            Status::ReportFailed => 6,
            Status::JournalFailed => 7,
            Status::Script(_) => 9,
            Status::Illegal(_) => 10,
            Status::Text(_) => 11,
        }
    }
}

/// The line on notes; none at Done.
impl fmt::Display for Status {
    fn fmt(&self, f: &mut fmt::Formatter) -> fmt::Result {
        match *self {
            Status::Done => Ok(()),
            Status::Words => f.write_str("USAGE: spool I, script, replay, convert, load N I, polled I S\n"),
            Status::Deck(DeckFault { line, kind }) => writeln!(f, "DECK LINE {line} KIND {kind}"),
            Status::TooLong => f.write_str("INPUT TOO LONG\n"),
            Status::ReadFailed => f.write_str("READ FAILED\n"),
            Status::ReportFailed => f.write_str("REPORT FAILED\n"),
            Status::JournalFailed => f.write_str("JOURNAL FAILED\n"),
            Status::Script(ScriptFault { line, kind }) => writeln!(f, "SCRIPT LINE {line} KIND {kind}"),
            Status::Illegal(line) => writeln!(f, "ILLEGAL AT LINE {line}"),
            Status::Text(TextFault { line, kind }) => writeln!(f, "JOURNAL LINE {line} KIND {kind}"),
        }
    }
}

#[derive(Clone, Copy, Debug, PartialEq, Eq)]
pub enum Command {
    Spool(u32),
    Script,
    Replay,
    Convert,
    Load(u32, u32),
}

pub fn command_of(words: &[String]) -> Option<Command> {
    let words: Vec<&[u8]> = words.iter().map(|word| word.as_bytes()).collect();
    let number = |word, most| match text::number(word, most) {
        Some(number @ 1..) => Some(number as u32),
        _ => None,
    };
    match words[..] {
        [b"spool", initiators] => Some(Command::Spool(number(initiators, 8)?)),
        [b"script"] => Some(Command::Script),
        [b"replay"] => Some(Command::Replay),
        [b"convert"] => Some(Command::Convert),
        [b"load", jobs, initiators] => Some(Command::Load(number(jobs, 2000)?, number(initiators, 8)?)),
        _ => None,
    }
}

const MOST_TEXT: u64 = 1 << 20;
const MOST_JOURNAL: u64 = 1 << 26;

/// The streams of a run: its input, its two outputs, and the place for the line of a refusal.
pub struct Streams<I, R, K, N> {
    pub input: I,
    pub report: R,
    pub journal: K,
    pub notes: N,
}

pub fn run_program<I: Read, R: Write, K: Write, N: Write>(
    words: &[String],
    streams: &mut Streams<I, R, K, N>,
    gate: &impl Gate,
) -> Status {
    let status = match run_command(words, streams, gate) {
        Ok(()) => Status::Done,
        Err(status) => status,
    };
    // A failure of notes changes no status.
    let _ = write_out(&mut streams.notes, status.to_string().as_bytes());
    status
}

fn run_command<I: Read, R: Write, K: Write, N: Write>(
    words: &[String],
    streams: &mut Streams<I, R, K, N>,
    gate: &impl Gate,
) -> Result<(), Status> {
    let input = &mut streams.input;
    let (report, journal) = match command_of(words).ok_or(Status::Words)? {
        Command::Spool(initiators) => {
            let bytes = read_limited(input, MOST_TEXT)?;
            let deck = read_deck(&bytes, initiators).map_err(Status::Deck)?;
            let run = run_deck::<AtomicBoard, _>(&deck, initiators, gate);
            (write_report(&deck, &run.outcome), journal::write(&run.config, &run.history))
        }
        Command::Load(jobs, initiators) => {
            let bytes = load_deck(jobs);
            let deck = read_deck(&bytes, initiators).map_err(Status::Deck)?;
            let run = run_deck::<AtomicBoard, _>(&deck, initiators, gate);
            (write_summary(jobs, initiators, &run.outcome), journal::write(&run.config, &run.history))
        }
        Command::Script => {
            let bytes = read_limited(input, MOST_TEXT)?;
            let script = read_script(&bytes).map_err(Status::Script)?;
            let run = run_script::<AtomicBoard>(&script);
            (write_answers(&run.answers), journal::write(&script.config, &run.history))
        }
        Command::Replay => {
            let bytes = read_limited(input, MOST_JOURNAL)?;
            let events = replay(&bytes)?;
            (format!("LEGAL {events} EVENTS\n").into_bytes(), Vec::new())
        }
        Command::Convert => (convert(&read_limited(input, MOST_JOURNAL)?)?, Vec::new()),
    };
    write_out(&mut streams.report, &report).map_err(|_| Status::ReportFailed)?;
    write_out(&mut streams.journal, &journal).map_err(|_| Status::JournalFailed)
}

fn read_limited(input: &mut impl Read, limit: u64) -> Result<Vec<u8>, Status> {
    let mut bytes = Vec::new();
    input.take(limit + 1).read_to_end(&mut bytes).map_err(|_| Status::ReadFailed)?;
    if bytes.len() as u64 > limit {
        return Err(Status::TooLong);
    }
    Ok(bytes)
}

fn write_out(sink: &mut impl Write, bytes: &[u8]) -> std::io::Result<()> {
    sink.write_all(bytes)?;
    sink.flush()
}

/// Reads a whole journal and gives each legal entry to `each`; answers how many there are. The whole text is read
/// before an illegal entry is told.
fn check(reader: &mut Reader, mut each: impl FnMut(&Entry, &[Wake])) -> Result<u32, Status> {
    let config = reader.config().clone();
    let mut state = State::opening(&config);
    let mut wakes = Vec::new();
    let mut numbering = Numbering::new(&config);
    let mut events = 0;
    let mut illegal = None;
    while let Some(line) = reader.entry().map_err(Status::Text)? {
        events += 1;
        if illegal.is_some() {
            continue;
        }
        let legal = state.replays(&config, &line.entry, &mut wakes)
            && line.call.is_none_or(|call| numbering.number(&line.entry, &wakes) == call);
        if legal {
            each(&line.entry, &wakes);
        } else {
            illegal = Some(line.number);
        }
    }
    illegal.map_or(Ok(events), |line| Err(Status::Illegal(line)))
}

fn replay(bytes: &[u8]) -> Result<u32, Status> {
    check(&mut Reader::open(bytes).map_err(Status::Text)?, |_, _| {})
}

/// The journal as text of version 2.
fn convert(bytes: &[u8]) -> Result<Vec<u8>, Status> {
    let mut reader = Reader::open(bytes).map_err(Status::Text)?;
    let config = reader.config().clone();
    let mut numbering = Numbering::new(&config);
    let mut writer = Writer::begin(&config, bytes.len());
    check(&mut reader, |entry, wakes| writer.entry(entry, numbering.number(entry, wakes)))?;
    Ok(writer.end())
}
