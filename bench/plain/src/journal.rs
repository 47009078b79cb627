//! The journal text: writing it, and reading it with its first fault.

use crate::calls::Numbering;
use crate::ecb::{self, EcbOp, EcbReply};
use crate::element::{self, ElementOp, ElementReply, ElementState, Phase};
use crate::latch::{LatchForm, LatchOp, LatchReply, Mode};
use crate::machine::{Config, Entry, Event, Exit, History, VolumeOp, VolumeReply, MOST_EVENTS};
use crate::text::{push_field, push_number};

/// Version 2 has a call number in each entry line.
#[derive(Clone, Copy, Debug, PartialEq, Eq)]
pub enum Version {
    One,
    Two,
}

// ---- writing ----

/// The journal's text, of version 2.
pub fn write(config: &Config, history: &History) -> Vec<u8> {
    let mut writer = Writer::begin(config, 40 * history.len());
    let mut numbering = Numbering::new(config);
    // Of the machine only the latch lists are wanted, for the wakes.
    let mut latches = config.latch_set();
    let mut wakes = Vec::new();
    for entry in history.merged(config) {
        if let Event::Latch(op, _) = entry.event {
            latches.apply(entry.caller, entry.place, op, &mut wakes);
        }
        writer.entry(entry, numbering.number(entry, &wakes));
    }
    writer.end()
}

/// A journal's text as it is written, entry by entry.
pub struct Writer {
    out: Vec<u8>,
    entries: u64,
}

impl Writer {
    /// Writes all up to `EVENTS`, with room for so many bytes more.
    pub fn begin(config: &Config, room: usize) -> Self {
        let mut out = Vec::with_capacity(room + 1024 + 8 * config.owners.len() + 24 * config.exits.len());
        write_config(&mut out, config);
        Writer { out, entries: 0 }
    }

    /// One entry, with its call number.
    pub fn entry(&mut self, entry: &Entry, call: u32) {
        write_entry(&mut self.out, entry, call);
        self.entries += 1;
    }

    pub fn end(self) -> Vec<u8> {
        let Writer { mut out, entries } = self;
        out.extend_from_slice(b"END");
        push_field(&mut out, entries);
        out.push(b'\n');
        out
    }
}

fn write_config(out: &mut Vec<u8>, config: &Config) {
    let mut line = |word: &[u8], numbers: &[u32]| {
        out.extend_from_slice(word);
        for &number in numbers {
            push_field(out, number);
        }
        out.push(b'\n');
    };
    line(b"JOURNAL", &[2]);
    line(b"CALLERS", &[config.callers]);
    line(b"ELEMENTS", &[config.elements_per_caller]);
    line(b"VOLUMES", &[config.volumes]);
    line(b"LATCHES", &[config.latches]);
    line(b"QUOTA", &[config.quota, config.posted_quota]);
    for &budget in &config.budgets {
        line(b"BUDGET", &[budget]);
    }
    for &owner in &config.owners {
        line(b"ECB", &[owner]);
    }
    for exit in &config.exits {
        out.extend_from_slice(b"EXIT");
        push_field(out, exit.source);
        for &target in &exit.targets {
            push_field(out, target);
        }
        out.push(b'\n');
    }
    out.extend_from_slice(b"EVENTS\n");
}

fn write_entry(out: &mut Vec<u8>, entry: &Entry, call: u32) {
    push_number(out, u64::from(entry.caller));
    out.push(b'.');
    push_number(out, u64::from(call));
    let object = |out: &mut Vec<u8>, letter: u8, number: u32| {
        out.extend_from_slice(&[b' ', letter]);
        push_number(out, u64::from(number));
        push_field(out, entry.place);
    };
    match entry.event {
        Event::Ecb(ecb, op, reply) => {
            object(out, b'E', ecb);
            write_ecb_op(out, op);
            out.extend_from_slice(b" =");
            write_ecb_reply(out, reply);
        }
        Event::Element(element, op, reply) => {
            object(out, b'P', element);
            write_element_op(out, op);
            out.extend_from_slice(b" =");
            write_element_reply(out, reply);
        }
        Event::Volume(volume, op, reply) => {
            object(out, b'V', volume);
            match op {
                VolumeOp::Read => out.extend_from_slice(b" READ ="),
                VolumeOp::Write(number) => {
                    out.extend_from_slice(b" WRITE");
                    push_field(out, number);
                    out.extend_from_slice(b" =");
                }
            }
            match reply {
                VolumeReply::Value(number) => with_number(out, b" VALUE", number),
                VolumeReply::Stored => out.extend_from_slice(b" STORED"),
            }
        }
        Event::Latch(op, reply) => {
            out.extend_from_slice(b" L");
            push_field(out, entry.place);
            write_latch_op(out, op);
            out.extend_from_slice(b" =");
            write_latch_reply(out, reply);
        }
    }
    out.push(b'\n');
}

fn with_number(out: &mut Vec<u8>, word: &[u8], number: u32) {
    out.extend_from_slice(word);
    push_field(out, number);
}

fn with_numbers(out: &mut Vec<u8>, word: &[u8], first: u32, second: u32) {
    with_number(out, word, first);
    push_field(out, second);
}

fn write_ecb_op(out: &mut Vec<u8>, op: EcbOp) {
    match op {
        EcbOp::Arm => out.extend_from_slice(b" ARM"),
        EcbOp::Extend(exit) => with_number(out, b" EXTEND", exit),
        EcbOp::Settle => out.extend_from_slice(b" SETTLE"),
        EcbOp::Clear => out.extend_from_slice(b" CLEAR"),
        EcbOp::Post(code) => with_number(out, b" POST", code),
        EcbOp::Test => out.extend_from_slice(b" TEST"),
    }
}

fn write_ecb_reply(out: &mut Vec<u8>, reply: EcbReply) {
    match reply {
        EcbReply::Armed => out.extend_from_slice(b" ARMED"),
        EcbReply::Linked(exit) => with_number(out, b" LINKED", exit),
        EcbReply::Complete(code) => with_number(out, b" COMPLETE", code),
        EcbReply::Waiting => out.extend_from_slice(b" WAITING"),
        EcbReply::Open => out.extend_from_slice(b" OPEN"),
        EcbReply::Posted => out.extend_from_slice(b" POSTED"),
        EcbReply::Woke(exit) => with_number(out, b" WOKE", exit),
        EcbReply::Already(code) => with_number(out, b" ALREADY", code),
        EcbReply::Word(word) => with_number(out, b" WORD", word),
    }
}

fn write_element_op(out: &mut Vec<u8>, op: ElementOp) {
    match op {
        ElementOp::Open => out.extend_from_slice(b" OPEN"),
        ElementOp::Pause(generation) => with_number(out, b" PAUSE", generation),
        ElementOp::Resume(generation) => with_number(out, b" RESUME", generation),
        ElementOp::Release(generation, code) => with_numbers(out, b" RELEASE", generation, code),
        ElementOp::Close(generation) => with_number(out, b" CLOSE", generation),
        ElementOp::Test => out.extend_from_slice(b" TEST"),
    }
}

pub fn phase_name(phase: Phase) -> &'static str {
    match phase {
        Phase::Free => "FREE",
        Phase::Reset => "RESET",
        Phase::Prereleased => "PRERELEASED",
        Phase::Paused => "PAUSED",
        Phase::Released => "RELEASED",
    }
}

fn write_element_reply(out: &mut Vec<u8>, reply: ElementReply) {
    match reply {
        ElementReply::Opened(generation) => with_number(out, b" OPENED", generation),
        ElementReply::InUse => out.extend_from_slice(b" INUSE"),
        ElementReply::Parked => out.extend_from_slice(b" PARKED"),
        ElementReply::Given { code, next } => with_numbers(out, b" GIVEN", code, next),
        ElementReply::Spent(generation) => with_number(out, b" SPENT", generation),
        ElementReply::Busy => out.extend_from_slice(b" BUSY"),
        ElementReply::NotYet => out.extend_from_slice(b" NOTYET"),
        ElementReply::Early => out.extend_from_slice(b" EARLY"),
        ElementReply::Woke => out.extend_from_slice(b" WOKE"),
        ElementReply::Already => out.extend_from_slice(b" ALREADY"),
        ElementReply::Closed => out.extend_from_slice(b" CLOSED"),
        ElementReply::State(state) => {
            with_number(out, b" STATE", state.generation);
            out.push(b' ');
            out.extend_from_slice(phase_name(state.phase).as_bytes());
            push_field(out, state.code);
        }
    }
}

fn write_latch_op(out: &mut Vec<u8>, op: LatchOp) {
    match op {
        LatchOp::Obtain { latch, requestor, mode, form } => {
            with_number(out, b" OBTAIN", latch);
            push_field(out, requestor);
            out.extend_from_slice(match mode {
                Mode::Shared => b" S",
                Mode::Exclusive => b" X",
            });
            match form {
                LatchForm::Conditional => out.extend_from_slice(b" C"),
                LatchForm::Waiting => out.extend_from_slice(b" W"),
                LatchForm::Posted(ecb) => {
                    out.extend_from_slice(b" P");
                    push_number(out, u64::from(ecb));
                }
            }
        }
        LatchOp::Confirm { latch, id } => with_numbers(out, b" CONFIRM", latch, id),
        LatchOp::Release { latch, id, conditional } => {
            with_numbers(out, b" RELEASE", latch, id);
            out.extend_from_slice(if conditional { b" C" } else { b" U" });
        }
        LatchOp::Purge { requestor } => {
            out.extend_from_slice(b" PURGE");
            push_field(out, requestor);
        }
    }
}

fn write_latch_reply(out: &mut Vec<u8>, reply: LatchReply) {
    match reply {
        LatchReply::Granted(id) => with_number(out, b" GRANTED", id),
        LatchReply::Queued(id) => with_number(out, b" QUEUED", id),
        LatchReply::NotNow(id) => with_number(out, b" NOTNOW", id),
        LatchReply::Waiting => out.extend_from_slice(b" WAITING"),
        LatchReply::Gone => out.extend_from_slice(b" GONE"),
        LatchReply::Released { granted } => with_number(out, b" RELEASED", granted),
        LatchReply::Purged { removed, granted } => with_numbers(out, b" PURGED", removed, granted),
    }
}

// ---- reading ----

#[derive(Clone, Copy, Debug, PartialEq, Eq)]
pub struct TextFault {
    pub line: u32,
    pub kind: u32,
}

/// A journal that is read line by line: its config at once, its entries on demand.
pub struct Reader<'a> {
    cursor: Cursor<'a>,
    version: Version,
    config: Config,
    /// The number of the next line.
    line: u32,
    entries: u32,
}

/// An entry with its line and, in version 2, its call number.
pub struct Line {
    pub number: u32,
    pub entry: Entry,
    pub call: Option<u32>,
}

impl<'a> Reader<'a> {
    /// Reads all lines up to `EVENTS`.
    pub fn open(bytes: &'a [u8]) -> Result<Self, TextFault> {
        let mut reader = Reader {
            cursor: Cursor::new(bytes),
            version: Version::One,
            config: Config::default(),
            line: 1,
            entries: 0,
        };
        reader.version = reader.take(|cursor| match cursor.word() {
            b"JOURNAL" => match cursor.spaced_word()? {
                b"1" => Some(Version::One),
                b"2" => Some(Version::Two),
                _ => None,
            },
            _ => None,
        })?;
        reader.config.callers = reader.head(b"CALLERS")?;
        reader.config.elements_per_caller = reader.head(b"ELEMENTS")?;
        reader.config.volumes = reader.head(b"VOLUMES")?;
        reader.config.latches = reader.head(b"LATCHES")?;
        (reader.config.quota, reader.config.posted_quota) = reader.take(|cursor| {
            cursor.expect(b"QUOTA")?;
            Some((cursor.u32()?, cursor.u32()?))
        })?;
        reader.lists()?;
        Ok(reader)
    }

    pub fn config(&self) -> &Config {
        &self.config
    }

    fn head(&mut self, word: &[u8]) -> Result<u32, TextFault> {
        self.take(|cursor| {
            cursor.expect(word)?;
            cursor.u32()
        })
    }

    fn lists(&mut self) -> Result<(), TextFault> {
        enum Part {
            Budget(u32),
            Ecb(u32),
            Exit(Exit),
            Events,
        }
        let mut least = 0;
        loop {
            let part = self.take(|cursor| {
                let (order, part) = match cursor.word() {
                    b"BUDGET" => (0, Part::Budget(cursor.u32()?)),
                    b"ECB" => (1, Part::Ecb(cursor.u32()?)),
                    b"EXIT" => {
                        let source = cursor.u32()?;
                        let mut targets = vec![cursor.u32()?];
                        while cursor.peek() == Some(b' ') {
                            targets.push(cursor.u32()?);
                        }
                        (2, Part::Exit(Exit { source, targets }))
                    }
                    b"EVENTS" => (3, Part::Events),
                    _ => return None,
                };
                if order < least {
                    return None;
                }
                least = order;
                Some(part)
            })?;
            match part {
                Part::Budget(budget) => self.config.budgets.push(budget),
                Part::Ecb(owner) => self.config.owners.push(owner),
                Part::Exit(exit) => self.config.exits.push(exit),
                Part::Events => {
                    return match self.config.check() {
                        Ok(()) => Ok(()),
                        Err(_) => Err(TextFault { line: self.line - 1, kind: 3 }),
                    };
                }
            }
        }
    }

    /// The next entry, or none at the end of the whole text.
    pub fn entry(&mut self) -> Result<Option<Line>, TextFault> {
        let number = self.line;
        let version = self.version;
        let line = self.take(|cursor| match cursor.peek() {
            Some(b'E') => {
                cursor.expect(b"END")?;
                Some(Err(cursor.u32()?))
            }
            _ => cursor.entry(version).map(Ok),
        })?;
        match line {
            Ok((entry, call)) => {
                self.entries += 1;
                Ok(Some(Line { number, entry, call }))
            }
            Err(count) if count != self.entries => Err(TextFault { line: number, kind: 4 }),
            Err(_) if self.cursor.at < self.cursor.bytes.len() => {
                let kind = if self.cursor.has_line() { 1 } else { 5 };
                Err(TextFault { line: self.line, kind })
            }
            Err(_) => Ok(None),
        }
    }

    /// One line by its form, which leaves the cursor before the line's LF. None says that it is not the form.
    fn take<T>(&mut self, form: impl FnOnce(&mut Cursor<'a>) -> Option<T>) -> Result<T, TextFault> {
        let start = self.cursor.at;
        self.cursor.out_of_range = false;
        let value = form(&mut self.cursor).filter(|_| self.cursor.peek() == Some(b'\n'));
        match value {
            Some(value) if !self.cursor.out_of_range => {
                self.cursor.at += 1;
                self.line += 1;
                Ok(value)
            }
            Some(_) => Err(TextFault { line: self.line, kind: 2 }),
            None => {
                self.cursor.at = start;
                let kind = if self.cursor.has_line() { 1 } else { 5 };
                Err(TextFault { line: self.line, kind })
            }
        }
    }
}

struct Cursor<'a> {
    bytes: &'a [u8],
    at: usize,
    /// A number of this line had a leading zero or was beyond its range.
    out_of_range: bool,
}

const CODE: u64 = ecb::CODES as u64 - 1;
const RELEASE_CODE: u64 = element::CODES as u64 - 1;
const GENERATION: u64 = element::LAST_GENERATION as u64;
const PLACE: u64 = MOST_EVENTS as u64 - 1;
const FULL: u64 = u32::MAX as u64;

impl<'a> Cursor<'a> {
    fn new(bytes: &'a [u8]) -> Self {
        Cursor { bytes, at: 0, out_of_range: false }
    }

    fn peek(&self) -> Option<u8> {
        self.bytes.get(self.at).copied()
    }

    fn has_line(&self) -> bool {
        self.bytes[self.at..].contains(&b'\n')
    }

    /// All up to the next space or LF.
    fn word(&mut self) -> &'a [u8] {
        let rest = &self.bytes[self.at..];
        let length = rest.iter().position(|&byte| byte == b' ' || byte == b'\n').unwrap_or(rest.len());
        self.at += length;
        &rest[..length]
    }

    fn byte(&mut self, byte: u8) -> Option<()> {
        if self.peek() != Some(byte) {
            return None;
        }
        self.at += 1;
        Some(())
    }

    fn expect(&mut self, word: &[u8]) -> Option<()> {
        (self.word() == word).then_some(())
    }

    fn spaced_word(&mut self) -> Option<&'a [u8]> {
        self.byte(b' ')?;
        Some(self.word())
    }

    /// Digits. A leading zero or a value outside the range is noted and is no matter of form.
    fn digits(&mut self, least: u64, most: u64) -> Option<u64> {
        let start = self.at;
        let mut value = 0u64;
        let mut overflow = false;
        while let Some(byte) = self.peek() {
            let digit = byte.wrapping_sub(b'0');
            if digit > 9 {
                break;
            }
            self.at += 1;
            if self.at - start < 20 {
                value = value * 10 + u64::from(digit);
            } else {
                match value.checked_mul(10).and_then(|value| value.checked_add(u64::from(digit))) {
                    Some(next) => value = next,
                    None => overflow = true,
                }
            }
        }
        let length = self.at - start;
        if length == 0 {
            return None;
        }
        if overflow || value < least || value > most || (length > 1 && self.bytes[start] == b'0') {
            self.out_of_range = true;
        }
        Some(value)
    }

    fn below(&mut self, most: u64) -> Option<u32> {
        self.range(0, most)
    }

    /// A space and a number.
    fn range(&mut self, least: u64, most: u64) -> Option<u32> {
        self.byte(b' ')?;
        Some(self.digits(least, most)? as u32)
    }

    fn u32(&mut self) -> Option<u32> {
        self.below(FULL)
    }

    fn entry(&mut self, version: Version) -> Option<(Entry, Option<u32>)> {
        let caller = self.digits(0, FULL)? as u32;
        let call = match version {
            Version::One => None,
            Version::Two => {
                self.byte(b'.')?;
                Some(self.digits(0, FULL)? as u32)
            }
        };
        self.byte(b' ')?;
        let letter = self.peek()?;
        self.at += 1;
        let object = if letter == b'L' { 0 } else { self.digits(0, FULL)? as u32 };
        let place = self.below(PLACE)?;
        self.byte(b' ')?;
        let event = match letter {
            b'E' => {
                let op = self.ecb_op()?;
                self.equals()?;
                Event::Ecb(object, op, self.ecb_reply()?)
            }
            b'P' => {
                let op = self.element_op()?;
                self.equals()?;
                Event::Element(object, op, self.element_reply()?)
            }
            b'V' => {
                let op = match self.word() {
                    b"READ" => VolumeOp::Read,
                    b"WRITE" => VolumeOp::Write(self.u32()?),
                    _ => return None,
                };
                self.equals()?;
                let reply = match self.word() {
                    b"VALUE" => VolumeReply::Value(self.u32()?),
                    b"STORED" => VolumeReply::Stored,
                    _ => return None,
                };
                Event::Volume(object, op, reply)
            }
            b'L' => {
                let op = self.latch_op()?;
                self.equals()?;
                Event::Latch(op, self.latch_reply()?)
            }
            _ => return None,
        };
        Some((Entry { caller, place, event }, call))
    }

    fn equals(&mut self) -> Option<()> {
        if !self.bytes[self.at..].starts_with(b" = ") {
            return None;
        }
        self.at += 3;
        Some(())
    }

    fn ecb_op(&mut self) -> Option<EcbOp> {
        Some(match self.word() {
            b"ARM" => EcbOp::Arm,
            b"EXTEND" => EcbOp::Extend(self.range(1, CODE)?),
            b"SETTLE" => EcbOp::Settle,
            b"CLEAR" => EcbOp::Clear,
            b"POST" => EcbOp::Post(self.below(CODE)?),
            b"TEST" => EcbOp::Test,
            _ => return None,
        })
    }

    fn ecb_reply(&mut self) -> Option<EcbReply> {
        Some(match self.word() {
            b"ARMED" => EcbReply::Armed,
            b"LINKED" => EcbReply::Linked(self.range(1, CODE)?),
            b"COMPLETE" => EcbReply::Complete(self.below(CODE)?),
            b"WAITING" => EcbReply::Waiting,
            b"OPEN" => EcbReply::Open,
            b"POSTED" => EcbReply::Posted,
            b"WOKE" => EcbReply::Woke(self.below(CODE)?),
            b"ALREADY" => EcbReply::Already(self.below(CODE)?),
            b"WORD" => EcbReply::Word(self.u32()?),
            _ => return None,
        })
    }

    fn element_op(&mut self) -> Option<ElementOp> {
        Some(match self.word() {
            b"OPEN" => ElementOp::Open,
            b"PAUSE" => ElementOp::Pause(self.u32()?),
            b"RESUME" => ElementOp::Resume(self.u32()?),
            b"RELEASE" => ElementOp::Release(self.u32()?, self.below(RELEASE_CODE)?),
            b"CLOSE" => ElementOp::Close(self.u32()?),
            b"TEST" => ElementOp::Test,
            _ => return None,
        })
    }

    fn element_reply(&mut self) -> Option<ElementReply> {
        Some(match self.word() {
            b"OPENED" => ElementReply::Opened(self.below(GENERATION)?),
            b"INUSE" => ElementReply::InUse,
            b"PARKED" => ElementReply::Parked,
            b"GIVEN" => ElementReply::Given { code: self.below(RELEASE_CODE)?, next: self.below(GENERATION)? },
            b"SPENT" => ElementReply::Spent(self.below(GENERATION)?),
            b"BUSY" => ElementReply::Busy,
            b"NOTYET" => ElementReply::NotYet,
            b"EARLY" => ElementReply::Early,
            b"WOKE" => ElementReply::Woke,
            b"ALREADY" => ElementReply::Already,
            b"CLOSED" => ElementReply::Closed,
            b"STATE" => {
                let generation = self.below(GENERATION)?;
                let phase = match self.spaced_word()? {
                    b"FREE" => Phase::Free,
                    b"RESET" => Phase::Reset,
                    b"PRERELEASED" => Phase::Prereleased,
                    b"PAUSED" => Phase::Paused,
                    b"RELEASED" => Phase::Released,
                    _ => return None,
                };
                let coded = matches!(phase, Phase::Prereleased | Phase::Released);
                let code = self.below(if coded { RELEASE_CODE } else { 0 })?;
                ElementReply::State(ElementState { generation, phase, code })
            }
            _ => return None,
        })
    }

    fn latch_op(&mut self) -> Option<LatchOp> {
        Some(match self.word() {
            b"OBTAIN" => {
                let latch = self.u32()?;
                let requestor = self.requestor()?;
                let mode = match self.spaced_word()? {
                    b"S" => Mode::Shared,
                    b"X" => Mode::Exclusive,
                    _ => return None,
                };
                self.byte(b' ')?;
                let letter = self.peek()?;
                self.at += 1;
                let form = match letter {
                    b'C' => LatchForm::Conditional,
                    b'W' => LatchForm::Waiting,
                    b'P' => LatchForm::Posted(self.digits(0, FULL)? as u32),
                    _ => return None,
                };
                LatchOp::Obtain { latch, requestor, mode, form }
            }
            b"CONFIRM" => LatchOp::Confirm { latch: self.u32()?, id: self.u32()? },
            b"RELEASE" => {
                let (latch, id) = (self.u32()?, self.u32()?);
                let conditional = match self.spaced_word()? {
                    b"C" => true,
                    b"U" => false,
                    _ => return None,
                };
                LatchOp::Release { latch, id, conditional }
            }
            b"PURGE" => LatchOp::Purge { requestor: self.requestor()? },
            _ => return None,
        })
    }

    fn requestor(&mut self) -> Option<u64> {
        self.byte(b' ')?;
        self.digits(0, u64::MAX)
    }

    fn latch_reply(&mut self) -> Option<LatchReply> {
        Some(match self.word() {
            b"GRANTED" => LatchReply::Granted(self.u32()?),
            b"QUEUED" => LatchReply::Queued(self.u32()?),
            b"NOTNOW" => LatchReply::NotNow(self.u32()?),
            b"WAITING" => LatchReply::Waiting,
            b"GONE" => LatchReply::Gone,
            b"RELEASED" => LatchReply::Released { granted: self.u32()? },
            b"PURGED" => LatchReply::Purged { removed: self.u32()?, granted: self.u32()? },
            _ => return None,
        })
    }
}
