//! Scripts of raw service calls: reading them with their first fault, running them, and their answers.

use crate::board::{Board, Closed, Seat};
use crate::element::{ElementState, Token};
use crate::journal::phase_name;
use crate::latch::{LatchForm, Mode};
use crate::machine::{Config, Exit, History, MOST_EVENTS};
use crate::services::*;
use crate::text::{self, push_field, push_number};
use crate::word;
use std::thread;

#[derive(Clone, Debug, PartialEq, Eq)]
pub enum Call {
    Wait { count: u32, ecbs: Vec<u32> },
    Post { ecb: u32, code: u32 },
    TryPost { ecb: u32, place: u32, code: u32 },
    Clear(u32),
    Extend { ecb: u32, exit: u32 },
    Test(u32),
    Read(u32),
    Write { volume: u32, number: u32 },
    Alloc,
    Pause(Token),
    Release { token: Token, code: u32 },
    TryRelease { token: Token, place: u32, code: u32 },
    Transfer { current: Option<Token>, target: Token, code: u32 },
    Dealloc(Token),
    TestElement(u32),
    Obtain { latch: u32, requestor: u64, mode: Mode, form: LatchForm },
    Check(u32),
    Free { obtain: u32, conditional: bool },
    Purge(u64),
    EndTask { requestor: u64, mother: Option<u32>, code: u32 },
}

#[derive(Clone, Debug, PartialEq, Eq)]
pub enum Answer {
    Waited(Vec<WaitSlot>),
    TooMany,
    Doubled(u32),
    NotOwnerAt(u32),
    ExtendedAt(u32),
    Posted,
    Woke,
    AlreadyPosted(u32),
    Moved(u64),
    Word(u32),
    NotOwner,
    Done,
    BadExit,
    Extended,
    Complete(u32),
    Value(u32),
    Token(Token),
    NoElement,
    Given { code: u32, next: Token },
    Spent(u32),
    Early,
    AlreadyReleased,
    TargetSpent(u32),
    TargetAlready,
    State(ElementState),
    Granted,
    Pending,
    BadLatch,
    Quota,
    NotNow(u32),
    Purged,
    Waiting,
    Gone,
    NoToken,
    Released(u32),
    PurgedCounts { removed: u32, granted: u32 },
}

#[derive(Clone, Copy, Debug, PartialEq, Eq)]
pub struct ScriptFault {
    pub line: u32,
    pub kind: u32,
}

pub struct Script {
    pub config: Config,
    pub tasks: Vec<Vec<Call>>,
}

const MOST_TASKS: u64 = 8;
const MOST_CALLS: usize = 128;
const MOST_ECBS: usize = 64;
const MOST_EXITS: usize = 16;
const MOST_TARGETS: usize = 4;
const MOST_WAIT: usize = 8;
const ELEMENTS: u32 = 4;
const VOLUMES: u32 = 8;
const LATCHES: u32 = 8;

// ---- reading ----

/// A line by its words and numbers.
enum Statement {
    Script(u32),
    Ecb(u32),
    Exit(Exit),
    Task,
    Call(Call),
    End,
}

/// How far the text has come.
#[derive(Clone, Copy, PartialEq, Eq, PartialOrd, Ord)]
enum Stage {
    Start,
    Ecbs,
    Exits,
    Tasks,
    Ended,
}

pub fn read_script(bytes: &[u8]) -> Result<Script, ScriptFault> {
    let mut reader = Reader {
        stage: Stage::Start,
        script: Script {
            config: Config {
                callers: 0,
                elements_per_caller: ELEMENTS,
                volumes: VOLUMES,
                latches: LATCHES,
                quota: 8,
                posted_quota: 4,
                ..Config::default()
            },
            tasks: Vec::new(),
        },
        reaches: Vec::new(),
        release_cost: 0,
        obtains: 0,
        cost: 0,
    };
    for (line, bytes) in text::lines(bytes) {
        reader.line(bytes).map_err(|kind| ScriptFault { line, kind })?;
    }
    if reader.stage != Stage::Ended {
        return Err(ScriptFault { line: text::count_lines(bytes) + 1, kind: 9 });
    }
    Ok(reader.script)
}

struct Reader {
    stage: Stage,
    script: Script,
    /// From the first TASK line on.
    reaches: Vec<u32>,
    release_cost: u32,
    /// OBTAIN calls of the last task.
    obtains: u32,
    /// The sum of all costs so far.
    cost: u64,
}

impl Reader {
    fn line(&mut self, line: &[u8]) -> Result<(), u32> {
        let line = text::plain(line)?;
        if line.is_empty() {
            return Ok(());
        }
        let statement = self.statement(line)?;
        let (earliest, latest) = match statement {
            Statement::Script(_) => (Stage::Start, Stage::Start),
            Statement::Ecb(_) => (Stage::Ecbs, Stage::Ecbs),
            Statement::Exit(_) => (Stage::Ecbs, Stage::Exits),
            Statement::Task | Statement::End => (Stage::Ecbs, Stage::Tasks),
            Statement::Call(_) => (Stage::Tasks, Stage::Tasks),
        };
        if self.stage < earliest || self.stage > latest {
            return Err(5);
        }
        let Script { config, tasks } = &mut self.script;
        match statement {
            Statement::Script(count) => {
                config.callers = count;
                self.stage = Stage::Ecbs;
            }
            Statement::Ecb(_) if config.owners.len() == MOST_ECBS => return Err(6),
            Statement::Ecb(owner) => config.owners.push(owner),
            Statement::Exit(_) if config.exits.len() == MOST_EXITS => return Err(6),
            Statement::Exit(exit) => {
                if exit.targets.iter().any(|&target| target <= exit.source) {
                    return Err(7);
                }
                config.exits.push(exit);
                self.stage = Stage::Exits;
            }
            Statement::Task if tasks.len() == config.callers as usize => return Err(6),
            Statement::Task => {
                if tasks.is_empty() {
                    self.reaches = config.reaches();
                    self.release_cost = config.release_cost();
                }
                tasks.push(Vec::new());
                config.budgets.push(0);
                self.obtains = 0;
                self.stage = Stage::Tasks;
            }
            Statement::End if tasks.len() < config.callers as usize => return Err(6),
            Statement::End => self.stage = Stage::Ended,
            Statement::Call(call) => self.call(call)?,
        }
        Ok(())
    }

    fn call(&mut self, call: Call) -> Result<(), u32> {
        let cost = self.cost(&call);
        let task = self.script.tasks.len() - 1;
        let calls = &mut self.script.tasks[task];
        if calls.len() == MOST_CALLS {
            return Err(6);
        }
        match call {
            Call::Check(obtain) | Call::Free { obtain, .. } if !(1..=self.obtains).contains(&obtain) => {
                return Err(8);
            }
            Call::Obtain { .. } => self.obtains += 1,
            _ => {}
        }
        self.cost += u64::from(cost);
        if self.cost > u64::from(MOST_EVENTS) {
            return Err(10);
        }
        self.script.config.budgets[task] += cost;
        calls.push(call);
        Ok(())
    }

    /// The most events of the call.
    fn cost(&self, call: &Call) -> u32 {
        let reach = |ecb: u32| self.reaches[ecb as usize];
        match *call {
            Call::Wait { ref ecbs, .. } => 2 * ecbs.len() as u32,
            Call::Post { ecb, .. } => reach(ecb),
            Call::Pause(_) | Call::Obtain { form: LatchForm::Waiting, .. } => 2,
            Call::Transfer { current: Some(_), .. } => 3,
            Call::Free { .. } | Call::Purge(_) => self.release_cost,
            Call::EndTask { mother, .. } => ELEMENTS + self.release_cost + mother.map_or(0, reach),
            _ => 1,
        }
    }

    /// Kinds 3 and 4 of a line.
    fn statement(&self, line: &[u8]) -> Result<Statement, u32> {
        if line[0] == b' ' {
            return Err(3);
        }
        let config = &self.script.config;
        let mut fields = Fields {
            words: text::words(line).collect(),
            at: 0,
            tasks: u64::from(config.callers),
            ecbs: config.owners.len() as u64,
            bad: false,
        };
        let statement = fields.statement().ok_or(3u32)?;
        if fields.at < fields.words.len() {
            return Err(3);
        }
        if fields.bad {
            return Err(4);
        }
        Ok(statement)
    }
}

/// The words of a line, taken from the left. None says that the line has none of the forms.
struct Fields<'a> {
    words: Vec<&'a [u8]>,
    at: usize,
    tasks: u64,
    ecbs: u64,
    /// A number had a leading zero, was out of its range, or named nothing that there is.
    bad: bool,
}

const CODE: u64 = crate::ecb::CODES as u64 - 1;
const RELEASE_CODE: u64 = crate::element::CODES as u64 - 1;
const LAST_TOKEN: u64 = crate::element::LAST_GENERATION as u64 - 1;
const PLACE: u64 = MOST_EVENTS as u64 - 1;
const FULL: u64 = u32::MAX as u64;

impl<'a> Fields<'a> {
    fn left(&self) -> usize {
        self.words.len() - self.at
    }

    fn word(&mut self) -> Option<&'a [u8]> {
        let word = self.words.get(self.at).copied()?;
        self.at += 1;
        Some(word)
    }

    /// A word of digits as a number.
    fn digits(&mut self, word: &[u8], least: u64, most: u64) -> Option<u64> {
        if word.is_empty() || !word.iter().all(u8::is_ascii_digit) {
            return None;
        }
        match text::number(word, most) {
            Some(number) if number >= least => Some(number),
            _ => {
                self.bad = true;
                Some(least)
            }
        }
    }

    fn wide(&mut self, most: u64) -> Option<u64> {
        let word = self.word()?;
        self.digits(word, 0, most)
    }

    fn number(&mut self, most: u64) -> Option<u32> {
        self.wide(most).map(|number| number as u32)
    }

    /// A number of something that there are `count` of.
    fn one_of(&mut self, count: u64) -> Option<u32> {
        let word = self.word()?;
        self.named(word, count)
    }

    fn named(&mut self, word: &[u8], count: u64) -> Option<u32> {
        let number = self.digits(word, 0, count.saturating_sub(1))?;
        self.bad |= count == 0;
        Some(number as u32)
    }

    fn ecb(&mut self) -> Option<u32> {
        self.one_of(self.ecbs)
    }

    fn elements(&self) -> u64 {
        self.tasks * u64::from(ELEMENTS)
    }

    fn code(&mut self) -> Option<u32> {
        self.number(CODE)
    }

    fn release_code(&mut self) -> Option<u32> {
        self.number(RELEASE_CODE)
    }

    fn token(&mut self) -> Option<Token> {
        let word = self.word()?;
        let dot = word.iter().position(|&byte| byte == b'.')?;
        let element = self.named(&word[..dot], self.elements())?;
        let generation = self.digits(&word[dot + 1..], 0, LAST_TOKEN)? as u32;
        Some(Token { element, generation })
    }

    /// What `some` reads, or a dash for nothing.
    fn unless_dash<T>(&mut self, some: impl FnOnce(&mut Self) -> Option<T>) -> Option<Option<T>> {
        if self.words.get(self.at) == Some(&&b"-"[..]) {
            self.at += 1;
            return Some(None);
        }
        some(self).map(Some)
    }

    /// All words that are left, at least and at most so many, as ECBs.
    fn list(&mut self, least: usize, most: usize) -> Option<Vec<u32>> {
        if !(least..=most).contains(&self.left()) {
            return None;
        }
        (0..self.left()).map(|_| self.ecb()).collect()
    }

    fn statement(&mut self) -> Option<Statement> {
        Some(match self.word()? {
            b"SCRIPT" => {
                let word = self.word()?;
                Statement::Script(self.digits(word, 1, MOST_TASKS)? as u32)
            }
            b"ECB" => Statement::Ecb(self.one_of(self.tasks)?),
            b"EXIT" => {
                let source = self.ecb()?;
                Statement::Exit(Exit { source, targets: self.list(1, MOST_TARGETS)? })
            }
            b"TASK" => Statement::Task,
            b"END" => Statement::End,
            word => Statement::Call(self.call(word)?),
        })
    }

    fn call(&mut self, word: &[u8]) -> Option<Call> {
        Some(match word {
            b"WAIT" => Call::Wait { count: self.number(99)?, ecbs: self.list(0, MOST_WAIT)? },
            b"POST" => Call::Post { ecb: self.ecb()?, code: self.code()? },
            b"TRYPOST" => Call::TryPost { ecb: self.ecb()?, place: self.number(PLACE)?, code: self.code()? },
            b"CLEAR" => Call::Clear(self.ecb()?),
            b"EXTEND" => Call::Extend { ecb: self.ecb()?, exit: self.number(FULL)? },
            b"TEST" => Call::Test(self.ecb()?),
            b"READ" => Call::Read(self.one_of(u64::from(VOLUMES))?),
            b"WRITE" => Call::Write { volume: self.one_of(u64::from(VOLUMES))?, number: self.number(FULL)? },
            b"ALLOC" => Call::Alloc,
            b"PAUSE" => Call::Pause(self.token()?),
            b"RELEASE" => Call::Release { token: self.token()?, code: self.release_code()? },
            b"TRYRELEASE" => {
                Call::TryRelease { token: self.token()?, place: self.number(PLACE)?, code: self.release_code()? }
            }
            b"TRANSFER" => Call::Transfer {
                current: self.unless_dash(Self::token)?,
                target: self.token()?,
                code: self.release_code()?,
            },
            b"DEALLOC" => Call::Dealloc(self.token()?),
            b"TESTP" => Call::TestElement(self.one_of(self.elements())?),
            b"OBTAIN" => Call::Obtain {
                latch: self.number(99)?,
                requestor: self.wide(u64::MAX)?,
                mode: match self.word()? {
                    b"S" => Mode::Shared,
                    b"X" => Mode::Exclusive,
                    _ => return None,
                },
                form: match self.word()? {
                    b"COND" => LatchForm::Conditional,
                    b"WAIT" => LatchForm::Waiting,
                    b"ECB" => LatchForm::Posted(self.ecb()?),
                    _ => return None,
                },
            },
            b"CHECK" => Call::Check(self.number(FULL)?),
            b"FREE" => Call::Free {
                obtain: self.number(FULL)?,
                conditional: match self.word()? {
                    b"C" => true,
                    b"U" => false,
                    _ => return None,
                },
            },
            b"PURGE" => Call::Purge(self.wide(u64::MAX)?),
            b"EOT" => Call::EndTask {
                requestor: self.wide(u64::MAX)?,
                mother: self.unless_dash(Self::ecb)?,
                code: self.code()?,
            },
            _ => return None,
        })
    }
}

// ---- running ----

pub struct ScriptRun {
    pub history: History,
    /// One list per task.
    pub answers: Vec<Vec<Answer>>,
}

pub fn run_script<B: Board>(script: &Script) -> ScriptRun {
    let config = &script.config;
    let board = B::open(config);
    let ended: Vec<(Seat, Vec<Answer>)> = thread::scope(|scope| {
        let mut running = Vec::new();
        for (caller, calls) in (0..).zip(&script.tasks) {
            let task = Task::new(&board, config, caller);
            running.push(scope.spawn(move || run_task(task, calls)));
        }
        running.into_iter().map(|task| task.join().expect("a task of a script does not panic")).collect()
    });
    let (seats, answers) = ended.into_iter().unzip();
    let Closed { history, .. } = board.close(config, seats);
    ScriptRun { history, answers }
}

fn run_task<B: Board>(mut task: Task<'_, B>, calls: &[Call]) -> (Seat, Vec<Answer>) {
    task.enter();
    let mut tokens = Vec::new();
    let answers = calls.iter().map(|call| answer(&mut task, &mut tokens, call)).collect();
    (task.into_seat(), answers)
}

fn answer<B: Board>(task: &mut Task<'_, B>, tokens: &mut Vec<Option<LatchToken>>, call: &Call) -> Answer {
    match *call {
        Call::Wait { count, ref ecbs } => {
            let mut slots = Vec::with_capacity(ecbs.len());
            match task.wait(count, ecbs, &mut slots) {
                Ok(()) => Answer::Waited(slots),
                Err(WaitRefusal::TooMany) => Answer::TooMany,
                Err(WaitRefusal::Doubled(position)) => Answer::Doubled(position),
                Err(WaitRefusal::NotOwner(position)) => Answer::NotOwnerAt(position),
                Err(WaitRefusal::Extended(position)) => Answer::ExtendedAt(position),
            }
        }
        Call::Post { ecb, code } => posted(task.post(ecb, code)),
        Call::TryPost { ecb, place, code } => match task.try_post(ecb, word::pack(place, 0), code) {
            Ok(answer) => posted(answer),
            Err(Moved(word)) => Answer::Moved(word),
        },
        Call::Clear(ecb) => task.clear(ecb).map_or(Answer::NotOwner, Answer::Word),
        Call::Extend { ecb, exit } => match task.extend(ecb, exit) {
            Ok(()) => Answer::Done,
            Err(ExtendRefusal::NotOwner) => Answer::NotOwner,
            Err(ExtendRefusal::BadExit) => Answer::BadExit,
            Err(ExtendRefusal::Extended) => Answer::Extended,
            Err(ExtendRefusal::Complete(code)) => Answer::Complete(code),
        },
        Call::Test(ecb) => Answer::Word(task.test_ecb(ecb)),
        Call::Read(volume) => Answer::Value(task.read_volume(volume)),
        Call::Write { volume, number } => {
            task.write_volume(volume, number);
            Answer::Done
        }
        Call::Alloc => task.allocate().map_or(Answer::NoElement, Answer::Token),
        Call::Pause(token) => match task.pause(token) {
            Ok(given) => given_answer(given),
            Err(refusal) => paused(refusal),
        },
        Call::Release { token, code } => released(task.release(token, code)),
        Call::TryRelease { token, place, code } => {
            let state = ElementState::new(token.generation, crate::element::Phase::Reset, 0);
            match task.try_release(token, word::pack(place, state.pack()), code) {
                Ok(answer) => released(answer),
                Err(Moved(word)) => Answer::Moved(word),
            }
        }
        Call::Transfer { current, target, code } => match task.transfer(current, target, code) {
            Ok(given) => given.map_or(Answer::Done, given_answer),
            Err(TransferRefusal::NotOwner) => Answer::NotOwner,
            Err(TransferRefusal::Spent(generation)) => Answer::Spent(generation),
            Err(TransferRefusal::TargetSpent(generation)) => Answer::TargetSpent(generation),
            Err(TransferRefusal::TargetAlready) => Answer::TargetAlready,
        },
        Call::Dealloc(token) => task.deallocate(token).map_or_else(paused, |()| Answer::Done),
        Call::TestElement(element) => Answer::State(task.test_element(element)),
        Call::Obtain { latch, requestor, mode, form } => {
            let result = task.obtain(latch, requestor, mode, form);
            tokens.push(match result {
                Ok(Obtained::Granted(token) | Obtained::Pending(token)) => Some(token),
                Err(_) => None,
            });
            match result {
                Ok(Obtained::Granted(_)) => Answer::Granted,
                Ok(Obtained::Pending(_)) => Answer::Pending,
                Err(ObtainRefusal::BadLatch) => Answer::BadLatch,
                Err(ObtainRefusal::NotOwner) => Answer::NotOwner,
                Err(ObtainRefusal::Quota) => Answer::Quota,
                Err(ObtainRefusal::NotNow(id)) => Answer::NotNow(id),
                Err(ObtainRefusal::Purged) => Answer::Purged,
            }
        }
        Call::Check(obtain) => match tokens[obtain as usize - 1].map(|token| task.check_latch(token)) {
            Some(Standings::Granted) => Answer::Granted,
            Some(Standings::Waiting) => Answer::Waiting,
            Some(Standings::Gone) => Answer::Gone,
            None => Answer::NoToken,
        },
        Call::Free { obtain, conditional } => {
            match tokens[obtain as usize - 1].map(|token| task.release_latch(token, conditional)) {
                Some(Ok(granted)) => Answer::Released(granted),
                Some(Err(ReleaseLatchRefusal::Gone)) => Answer::Gone,
                Some(Err(ReleaseLatchRefusal::StillWaiting)) => Answer::Waiting,
                None => Answer::NoToken,
            }
        }
        Call::Purge(requestor) => purged(task.purge(requestor)),
        Call::EndTask { requestor, mother, code } => purged(task.end_of_task(requestor, mother, code)),
    }
}

fn posted(answer: PostAnswer) -> Answer {
    match answer {
        PostAnswer::Posted => Answer::Posted,
        PostAnswer::Woke => Answer::Woke,
        PostAnswer::Already(code) => Answer::AlreadyPosted(code),
    }
}

fn paused(refusal: PauseRefusal) -> Answer {
    match refusal {
        PauseRefusal::NotOwner => Answer::NotOwner,
        PauseRefusal::Spent(generation) => Answer::Spent(generation),
    }
}

fn given_answer(given: Given) -> Answer {
    Answer::Given { code: given.code, next: given.next }
}

fn released(result: Result<ReleaseAnswer, ReleaseRefusal>) -> Answer {
    match result {
        Ok(ReleaseAnswer::Early) => Answer::Early,
        Ok(ReleaseAnswer::Woke) => Answer::Woke,
        Err(ReleaseRefusal::Spent(generation)) => Answer::Spent(generation),
        Err(ReleaseRefusal::Already) => Answer::AlreadyReleased,
    }
}

fn purged(Purged { removed, granted }: Purged) -> Answer {
    Answer::PurgedCounts { removed, granted }
}

// ---- answers ----

pub fn write_answers(answers: &[Vec<Answer>]) -> Vec<u8> {
    let mut out = Vec::new();
    for (task, answers) in (0u64..).zip(answers) {
        for (call, answer) in (1u64..).zip(answers) {
            push_number(&mut out, task);
            push_field(&mut out, call);
            out.push(b' ');
            write_answer(&mut out, answer);
            out.push(b'\n');
        }
    }
    out
}

fn write_answer(out: &mut Vec<u8>, answer: &Answer) {
    let (text, numbers): (&str, &[u32]) = match *answer {
        Answer::Waited(ref slots) => {
            out.extend_from_slice(b"WAITED");
            for slot in slots {
                match *slot {
                    WaitSlot::Complete(code) => {
                        out.extend_from_slice(b" C");
                        push_number(out, u64::from(code));
                    }
                    WaitSlot::Open => out.extend_from_slice(b" O"),
                }
            }
            return;
        }
        Answer::Token(token) => {
            out.extend_from_slice(b"TOKEN ");
            return write_token(out, token);
        }
        Answer::Given { code, next } => {
            out.extend_from_slice(b"GIVEN");
            push_field(out, code);
            out.push(b' ');
            return write_token(out, next);
        }
        Answer::State(ElementState { generation, phase, code }) => {
            out.extend_from_slice(b"STATE");
            push_field(out, generation);
            out.push(b' ');
            out.extend_from_slice(phase_name(phase).as_bytes());
            return push_field(out, code);
        }
        Answer::Moved(word) => {
            out.extend_from_slice(b"MOVED");
            push_field(out, word::place(word));
            return push_field(out, word::state(word));
        }
        Answer::TooMany => ("TOOMANY", &[]),
        Answer::Doubled(position) => ("DOUBLED", &[position]),
        Answer::NotOwnerAt(position) => ("NOTOWNER", &[position]),
        Answer::ExtendedAt(position) => ("EXTENDED", &[position]),
        Answer::Posted => ("POSTED", &[]),
        Answer::Woke => ("WOKE", &[]),
        Answer::AlreadyPosted(code) => ("ALREADY", &[code]),
        Answer::Word(word) => ("WORD", &[word]),
        Answer::NotOwner => ("NOTOWNER", &[]),
        Answer::Done => ("DONE", &[]),
        Answer::BadExit => ("BADEXIT", &[]),
        Answer::Extended => ("EXTENDED", &[]),
        Answer::Complete(code) => ("COMPLETE", &[code]),
        Answer::Value(number) => ("VALUE", &[number]),
        Answer::NoElement => ("NOELEMENT", &[]),
        Answer::Spent(generation) => ("SPENT", &[generation]),
        Answer::Early => ("EARLY", &[]),
        Answer::AlreadyReleased => ("ALREADY", &[]),
        Answer::TargetSpent(generation) => ("TARGET SPENT", &[generation]),
        Answer::TargetAlready => ("TARGET ALREADY", &[]),
        Answer::Granted => ("GRANTED", &[]),
        Answer::Pending => ("PENDING", &[]),
        Answer::BadLatch => ("BADLATCH", &[]),
        Answer::Quota => ("QUOTA", &[]),
        Answer::NotNow(id) => ("NOTNOW", &[id]),
        Answer::Purged => ("PURGED", &[]),
        Answer::Waiting => ("WAITING", &[]),
        Answer::Gone => ("GONE", &[]),
        Answer::NoToken => ("NOTOKEN", &[]),
        Answer::Released(granted) => ("RELEASED", &[granted]),
        Answer::PurgedCounts { removed, granted } => ("PURGED", &[removed, granted]),
    };
    out.extend_from_slice(text.as_bytes());
    for &number in numbers {
        push_field(out, number);
    }
}

fn write_token(out: &mut Vec<u8>, token: Token) {
    push_number(out, u64::from(token.element));
    out.push(b'.');
    push_number(out, u64::from(token.generation));
}
