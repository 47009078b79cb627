//! Decks of jobs: reading them with their first fault, and the load deck.

use crate::journal::Version;
use crate::latch::Mode;
use crate::machine::MOST_EVENTS;
use crate::text;
use std::collections::HashMap;

#[derive(Clone, Copy, Debug, PartialEq, Eq)]
pub enum Step<'a> {
    Print(&'a [u8]),
    Use(u32, Mode),
    Free(u32),
    Count(u32, u32),
    Scan(u32),
    /// The end code.
    Abend(u32),
    /// The return code.
    Return(u32),
}

impl Step<'_> {
    /// Abend and Return end the job.
    fn ends(self) -> bool {
        matches!(self, Step::Abend(_) | Step::Return(_))
    }

    /// The most events that the step makes.
    pub fn events(self) -> u32 {
        match self {
            Step::Use(..) | Step::Count(..) | Step::Scan(_) => 2,
            Step::Free(_) => 1,
            Step::Print(_) | Step::Abend(_) | Step::Return(_) => 0,
        }
    }
}

/// An earlier job, and the highest end of it with which this job is still run.
#[derive(Clone, Copy, Debug, PartialEq, Eq)]
pub struct After {
    pub job: u32,
    pub most: u32,
}

#[derive(Clone, Debug, PartialEq, Eq)]
pub struct Job<'a> {
    pub name: &'a [u8],
    pub after: Vec<After>,
    pub steps: Vec<Step<'a>>,
}

#[derive(Clone, Debug, Default, PartialEq, Eq)]
pub struct Deck<'a> {
    pub jobs: Vec<Job<'a>>,
}

#[derive(Clone, Copy, Debug, PartialEq, Eq)]
pub struct DeckFault {
    pub line: u32,
    pub kind: u32,
}

/// The end code of an abend.
pub const ABEND: u32 = 1 << 24;
/// The end code of a job that was not run.
pub const NOT_RUN: u32 = 1 << 25;

pub const MOST_AFTER: usize = 8;
pub const LATCHES: u32 = 8;

/// A line as its words and numbers say, asked on its own.
enum Statement<'a> {
    Comment,
    Null,
    Deck,
    Job(&'a [u8], Vec<Part<'a>>),
    Step(Step<'a>),
}

/// A part of an AFTER list. The code may be none, which is a fault of a higher kind than those of the name.
struct Part<'a> {
    name: &'a [u8],
    most: Option<u32>,
}

/// The jobs of a deck for so many initiators, or its first fault.
pub fn read_deck(bytes: &[u8], initiators: u32) -> Result<Deck<'_>, DeckFault> {
    let mut reader = Reader {
        initiators,
        version: Version::One,
        deck: Deck::default(),
        numbers: HashMap::new(),
        held: [None; LATCHES as usize],
        weight: 9 * u64::from(initiators),
        begun: false,
        ended: false,
    };
    for (line, bytes) in text::lines(bytes) {
        reader.line(bytes).map_err(|kind| DeckFault { line, kind })?;
    }
    if !reader.ended {
        return Err(DeckFault { line: text::count_lines(bytes) + 1, kind: 12 });
    }
    Ok(reader.deck)
}

struct Reader<'a> {
    initiators: u32,
    version: Version,
    deck: Deck<'a>,
    numbers: HashMap<&'a [u8], u32>,
    /// What the last job holds.
    held: [Option<Mode>; LATCHES as usize],
    weight: u64,
    /// A statement has come.
    begun: bool,
    /// The null statement has come.
    ended: bool,
}

impl<'a> Reader<'a> {
    fn line(&mut self, line: &'a [u8]) -> Result<(), u32> {
        let line = text::plain(line)?;
        if line.is_empty() {
            return Ok(());
        }
        let statement = self.statement(line)?;
        if matches!(statement, Statement::Comment) {
            return Ok(());
        }
        let first = !std::mem::replace(&mut self.begun, true);
        match statement {
            Statement::Comment => Ok(()),
            Statement::Null if self.ended => Err(11),
            Statement::Null => {
                self.ended = true;
                Ok(())
            }
            Statement::Deck => self.version_line(first),
            Statement::Job(name, parts) => self.job(name, parts),
            Statement::Step(step) => self.step(step),
        }
    }

    fn version_line(&mut self, first: bool) -> Result<(), u32> {
        if first {
            self.version = Version::Two;
            return Ok(());
        }
        Err(if self.ended {
            11
        } else if self.last_job_ended() {
            13
        } else {
            15
        })
    }

    fn last_job_ended(&self) -> bool {
        let last = self.deck.jobs.last().and_then(|job| job.steps.last());
        last.is_some_and(|step| step.ends())
    }

    fn job(&mut self, name: &'a [u8], parts: Vec<Part<'a>>) -> Result<(), u32> {
        if !is_name(name) || !parts.iter().all(|part| is_name(part.name)) {
            return Err(4);
        }
        let coded = parts.iter().all(|part| part.most.is_some());
        if self.ended {
            return Err(if coded { 11 } else { 8 });
        }
        let number = self.deck.jobs.len() as u32;
        if self.numbers.insert(name, number).is_some() {
            return Err(5);
        }
        let after = self.after(number, &parts)?;
        if !coded {
            return Err(8);
        }
        self.weigh(8 + 9 * self.initiators + 2 * after.len() as u32)?;
        self.held = [None; LATCHES as usize];
        self.deck.jobs.push(Job { name, after, steps: Vec::new() });
        Ok(())
    }

    /// The AFTER list of that job.
    fn after(&self, number: u32, parts: &[Part]) -> Result<Vec<After>, u32> {
        let earlier = |part: &Part| self.numbers.get(part.name).copied().filter(|&job| job < number);
        let jobs: Vec<u32> = parts.iter().map(earlier).collect::<Option<_>>().ok_or(6u32)?;
        if jobs.len() > MOST_AFTER || (1..jobs.len()).any(|at| jobs[..at].contains(&jobs[at])) {
            return Err(7);
        }
        let most = parts.iter().map(|part| part.most.unwrap_or(0));
        Ok(jobs.into_iter().zip(most).map(|(job, most)| After { job, most }).collect())
    }

    fn step(&mut self, step: Step<'a>) -> Result<(), u32> {
        if self.ended || self.deck.jobs.is_empty() {
            return Err(11);
        }
        if self.last_job_ended() {
            return Err(13);
        }
        match step {
            Step::Use(latch, mode) => {
                if self.held[latch as usize..].iter().any(Option::is_some) {
                    return Err(9);
                }
                self.held[latch as usize] = Some(mode);
            }
            Step::Free(latch) => {
                self.held[latch as usize].take().ok_or(10u32)?;
            }
            Step::Count(volume, _) if self.held[volume as usize] != Some(Mode::Exclusive) => return Err(10),
            Step::Scan(volume) if self.held[volume as usize].is_none() => return Err(10),
            _ => {}
        }
        self.weigh(self.initiators * step.events())?;
        if let Some(job) = self.deck.jobs.last_mut() {
            job.steps.push(step);
        }
        Ok(())
    }

    fn weigh(&mut self, more: u32) -> Result<(), u32> {
        self.weight += u64::from(more);
        if self.weight > u64::from(MOST_EVENTS) {
            return Err(14);
        }
        Ok(())
    }

    /// Kinds 3, 4 (of a JOB's own form) and 8 of a line.
    fn statement(&self, line: &'a [u8]) -> Result<Statement<'a>, u32> {
        if line.starts_with(b"//*") {
            return Ok(Statement::Comment);
        }
        let rest = line.strip_prefix(b"//").ok_or(3u32)?;
        if rest.is_empty() {
            return Ok(Statement::Null);
        }
        if rest[0] != b' ' {
            return self.job_statement(rest);
        }
        let operation = rest.iter().position(|&byte| byte != b' ').map_or(&[][..], |start| &rest[start..]);
        if let Some(text) = operation.strip_prefix(b"PRINT") {
            return match text {
                [] => Ok(Statement::Step(Step::Print(text))),
                [b' ', text @ ..] => Ok(Statement::Step(Step::Print(text))),
                _ => Err(3),
            };
        }
        let mut words = text::words(operation);
        let words = [words.next(), words.next(), words.next(), words.next()];
        let step = match words {
            [Some(b"USE"), Some(latch), Some(b"S"), None] => Step::Use(small(latch)?, Mode::Shared),
            [Some(b"USE"), Some(latch), Some(b"X"), None] => Step::Use(small(latch)?, Mode::Exclusive),
            [Some(b"FREE"), Some(latch), None, None] => Step::Free(small(latch)?),
            [Some(b"COUNT"), Some(volume), Some(amount), None] => Step::Count(small(volume)?, amount_of(amount)?),
            [Some(b"SCAN"), Some(volume), None, None] => Step::Scan(small(volume)?),
            [Some(b"ABEND"), Some(code), None, None] => Step::Abend(abend_code(code).ok_or(8u32)?),
            [Some(b"RETURN"), Some(code), None, None] if self.version == Version::Two => {
                Step::Return(return_code(code).ok_or(8u32)?)
            }
            [Some(b"DECK"), Some(version), None, None] => {
                return if version == b"2" { Ok(Statement::Deck) } else { Err(8) };
            }
            _ => return Err(3),
        };
        Ok(Statement::Step(step))
    }

    fn job_statement(&self, rest: &'a [u8]) -> Result<Statement<'a>, u32> {
        let mut words = text::words(rest);
        let (name, parts) = match [words.next(), words.next(), words.next(), words.next()] {
            [Some(name), Some(b"JOB"), None, None] => (name, Vec::new()),
            [Some(name), Some(b"JOB"), Some(after), None] => {
                let list = after.strip_prefix(b"AFTER=").ok_or(3u32)?;
                (name, list.split(|&byte| byte == b',').map(|part| self.part(part)).collect())
            }
            _ => return Err(3),
        };
        Ok(Statement::Job(name, parts))
    }

    fn part(&self, part: &'a [u8]) -> Part<'a> {
        let colon = match self.version {
            Version::One => None,
            Version::Two => part.iter().position(|&byte| byte == b':'),
        };
        match colon {
            None => Part { name: part, most: Some(0) },
            Some(colon) => Part { name: &part[..colon], most: return_code(&part[colon + 1..]) },
        }
    }
}

fn is_name(word: &[u8]) -> bool {
    let letter = |byte: &u8| byte.is_ascii_uppercase() || b"@#$".contains(byte);
    (1..=8).contains(&word.len()) && letter(&word[0]) && word.iter().all(|byte| letter(byte) || byte.is_ascii_digit())
}

/// A latch or a volume.
fn small(word: &[u8]) -> Result<u32, u32> {
    text::number(word, u64::from(LATCHES) - 1).map(|number| number as u32).ok_or(8)
}

fn amount_of(word: &[u8]) -> Result<u32, u32> {
    match text::number(word, 9999) {
        Some(number @ 1..) => Ok(number as u32),
        _ => Err(8),
    }
}

fn return_code(word: &[u8]) -> Option<u32> {
    text::number(word, 4095).map(|number| number as u32)
}

fn abend_code(word: &[u8]) -> Option<u32> {
    match word {
        [b'U', digits @ ..] if digits.len() == 4 => {
            let user = digits
                .iter()
                .try_fold(0, |value, &byte| byte.is_ascii_digit().then(|| value * 10 + u32::from(byte - b'0')))?;
            (user <= 4095).then_some(ABEND + user)
        }
        [b'S', digits @ ..] if digits.len() == 3 => {
            let system = digits.iter().try_fold(0, |value, &byte| {
                let digit = match byte {
                    b'0'..=b'9' => byte - b'0',
                    b'A'..=b'F' => byte - b'A' + 10,
                    _ => return None,
                };
                Some(value * 16 + u32::from(digit))
            })?;
            (system > 0).then_some(ABEND + system * 4096)
        }
        _ => None,
    }
}

/// The deck that the load command runs.
pub fn load_deck(jobs: u32) -> Vec<u8> {
    let mut deck = String::new();
    for i in 0..jobs {
        let volume = i % 8;
        let after = if i >= 3 && i % 5 == 3 { format!(" AFTER=J{:05}", i - 3) } else { String::new() };
        deck += &format!("//J{i:05} JOB{after}\n// USE {volume} X\n// COUNT {volume} {}\n", 1 + i % 9);
        if i % 4 == 1 {
            deck += &format!("// SCAN {volume}\n");
        }
        deck += &format!("// PRINT WORK {i}\n");
        if i % 7 == 6 {
            deck += &format!("// ABEND U{i:04}\n");
        } else {
            deck += &format!("// FREE {volume}\n");
        }
    }
    deck += "//\n";
    deck.into_bytes()
}
