//! A deck run by a reader, a scheduler, initiators and a writer, each on a thread of its own.

use crate::board::{Board, Closed, Seat};
use crate::deck::{Deck, Step, NOT_RUN};
use crate::latch::LatchForm;
use crate::machine::{Config, Exit, History};
use crate::report::Outcome;
use crate::services::{Given, Obtained, Task, WaitSlot};
use std::thread;

/// A point that a task of the spool comes by, with a job's number.
#[derive(Clone, Copy, Debug, PartialEq, Eq)]
pub enum Point {
    Entered(u32),
    Dispatched(u32),
    Started(u32),
    Ended(u32),
    Written(u32),
}

/// Something that may hold tasks at their points.
pub trait Gate: Sync {
    fn pass(&self, who: u32, point: Point);
}

pub struct OpenGate;

impl Gate for OpenGate {
    fn pass(&self, _: u32, _: Point) {}
}

pub struct SpoolRun {
    pub config: Config,
    pub history: History,
    pub outcome: Outcome,
}

const READER: u32 = 0;
const SCHEDULER: u32 = 1;
const FIRST_INITIATOR: u32 = 2;

/// The release code's mark of a job that is not to be run.
const SKIP: u32 = 1 << 23;

/// The numbers of the spool's ECBs.
#[derive(Clone, Copy)]
struct Ecbs {
    jobs: u32,
}

impl Ecbs {
    fn entered(self, job: u32) -> u32 {
        job
    }

    fn done(self, job: u32) -> u32 {
        self.jobs + job
    }

    fn end_for_scheduler(self, job: u32) -> u32 {
        2 * self.jobs + 2 * job
    }

    fn end_for_writer(self, job: u32) -> u32 {
        2 * self.jobs + 2 * job + 1
    }

    fn idle(self, initiator: u32) -> u32 {
        4 * self.jobs + initiator
    }
}

/// The exit that hands the end of a job on.
fn exit_of(job: u32) -> u32 {
    job + 1
}

fn requestor_of(job: u32) -> u64 {
    u64::from(job) + 1
}

pub fn spool_config(deck: &Deck, initiators: u32) -> Config {
    let jobs = deck.jobs.len() as u32;
    let ecbs = Ecbs { jobs };
    let writer = FIRST_INITIATOR + initiators;
    let after: usize = deck.jobs.iter().map(|job| job.after.len()).sum();
    let steps: u32 = deck.jobs.iter().flat_map(|job| &job.steps).map(|step| step.events()).sum();
    let mut budgets = vec![5 + 7 * jobs + steps; initiators as usize + 3];
    budgets[READER as usize] = jobs;
    budgets[SCHEDULER as usize] = 5 * jobs + 2 * jobs * initiators + 2 * after as u32 + 4 * initiators;
    budgets[writer as usize] = 2 * jobs;
    let mut owners = vec![SCHEDULER; ecbs.idle(initiators) as usize];
    for job in 0..jobs {
        owners[ecbs.end_for_writer(job) as usize] = writer;
    }
    let exit =
        |job| Exit { source: ecbs.done(job), targets: vec![ecbs.end_for_scheduler(job), ecbs.end_for_writer(job)] };
    Config {
        callers: initiators + 3,
        elements_per_caller: 1,
        volumes: 8,
        latches: 8,
        quota: 8,
        posted_quota: 0,
        budgets,
        owners,
        exits: (0..jobs).map(exit).collect(),
    }
}

/// What an initiator notes of a job that it was given.
pub struct Record {
    pub job: u32,
    /// How many of its steps were done.
    pub done: u32,
}

pub fn run_deck<B: Board, G: Gate>(deck: &Deck, initiators: u32, gate: &G) -> SpoolRun {
    let config = spool_config(deck, initiators);
    let board = B::open(&config);
    let (ends, records, seats) = run_tasks(&board, &config, deck, initiators, gate);
    let Closed { history, volumes } = board.close(&config, seats);
    let outcome = Outcome::of(deck, ends, &records, volumes);
    SpoolRun { config, history, outcome }
}

/// The ends that the writer saw, what each initiator noted, and the seats.
pub fn run_tasks<B: Board, G: Gate>(
    board: &B,
    config: &Config,
    deck: &Deck,
    initiators: u32,
    gate: &G,
) -> (Vec<u32>, Vec<Vec<Record>>, Vec<Seat>) {
    let task = |caller| Worker {
        task: Task::new(board, config, caller),
        deck,
        ecbs: Ecbs { jobs: deck.jobs.len() as u32 },
        initiators,
        gate,
        slots: Vec::with_capacity(8),
    };
    thread::scope(|scope| {
        let reader = scope.spawn({
            let worker = task(READER);
            move || worker.read()
        });
        let scheduler = scope.spawn({
            let worker = task(SCHEDULER);
            move || worker.schedule()
        });
        let workers: Vec<_> = (0..initiators).map(|initiator| task(FIRST_INITIATOR + initiator)).collect();
        let initiating: Vec<_> = workers.into_iter().map(|worker| scope.spawn(move || worker.initiate())).collect();
        let writer = scope.spawn({
            let worker = task(FIRST_INITIATOR + initiators);
            move || worker.write()
        });
        let ended = "a task of the spool does not panic";
        let mut seats = vec![reader.join().expect(ended), scheduler.join().expect(ended)];
        let mut records = Vec::new();
        for initiator in initiating {
            let (seat, record) = initiator.join().expect(ended);
            seats.push(seat);
            records.push(record);
        }
        let (seat, ends) = writer.join().expect(ended);
        seats.push(seat);
        (ends, records, seats)
    })
}

/// One task of the spool.
struct Worker<'a, B: Board, G: Gate> {
    task: Task<'a, B>,
    deck: &'a Deck<'a>,
    ecbs: Ecbs,
    initiators: u32,
    gate: &'a G,
    slots: Vec<WaitSlot>,
}

const SOUND: &str = "the spool's own calls are not refused";

impl<B: Board, G: Gate> Worker<'_, B, G> {
    fn jobs(&self) -> u32 {
        self.ecbs.jobs
    }

    fn pass(&self, point: Point) {
        self.gate.pass(self.task.caller(), point);
    }

    /// Waits for one ECB and gives its code.
    fn wait_for(&mut self, ecb: u32) -> u32 {
        self.wait_for_one_of(&[ecb]).1
    }

    /// Waits for one of the ECBs and gives the position and code of the first complete one.
    fn wait_for_one_of(&mut self, ecbs: &[u32]) -> (u32, u32) {
        self.task.wait(1, ecbs, &mut self.slots).expect(SOUND);
        let complete = |(position, slot): (u32, &WaitSlot)| match *slot {
            WaitSlot::Complete(code) => Some((position, code)),
            WaitSlot::Open => None,
        };
        (0..).zip(&self.slots).find_map(complete).expect(SOUND)
    }

    fn read(mut self) -> Seat {
        self.task.enter();
        for job in 0..self.jobs() {
            self.pass(Point::Entered(job));
            self.task.post(self.ecbs.entered(job), 0);
        }
        self.task.into_seat()
    }

    fn schedule(mut self) -> Seat {
        self.task.enter();
        let idle: Vec<u32> = (0..self.initiators).map(|initiator| self.ecbs.idle(initiator)).collect();
        for (number, job) in (0..).zip(&self.deck.jobs) {
            self.wait_for(self.ecbs.entered(number));
            let mut code = number + 1;
            if !job.after.is_empty() {
                let ends: Vec<u32> = job.after.iter().map(|after| self.ecbs.end_for_scheduler(after.job)).collect();
                self.task.wait(ends.len() as u32, &ends, &mut self.slots).expect(SOUND);
                let accepted = job.after.iter().zip(&self.slots).all(|(after, slot)| match *slot {
                    WaitSlot::Complete(end) => end <= after.most,
                    WaitSlot::Open => false,
                });
                if !accepted {
                    code += SKIP;
                }
            }
            self.task.extend(self.ecbs.done(number), exit_of(number)).expect(SOUND);
            let (initiator, generation) = self.wait_for_one_of(&idle);
            self.task.clear(self.ecbs.idle(initiator)).expect(SOUND);
            self.pass(Point::Dispatched(number));
            self.release(initiator, generation, code);
        }
        for initiator in 0..self.initiators {
            let generation = self.wait_for(self.ecbs.idle(initiator));
            self.task.clear(self.ecbs.idle(initiator)).expect(SOUND);
            self.release(initiator, generation, 0);
        }
        self.task.into_seat()
    }

    fn release(&mut self, initiator: u32, generation: u32, code: u32) {
        let token = crate::element::Token { element: FIRST_INITIATOR + initiator, generation };
        self.task.release(token, code).expect(SOUND);
    }

    fn initiate(mut self) -> (Seat, Vec<Record>) {
        self.task.enter();
        let mut records = Vec::with_capacity(self.deck.jobs.len());
        let idle = self.ecbs.idle(self.task.caller() - FIRST_INITIATOR);
        let mut token = self.task.allocate().expect(SOUND);
        loop {
            self.task.post(idle, token.generation);
            let Given { code, next } = self.task.pause(token).expect(SOUND);
            token = next;
            if code == 0 {
                break;
            }
            let job = (code & (SKIP - 1)) - 1;
            self.pass(Point::Started(job));
            let (end, done) = if code & SKIP != 0 { (NOT_RUN, 0) } else { self.run_job(job) };
            records.push(Record { job, done });
            self.pass(Point::Ended(job));
            self.task.end_of_job(requestor_of(job), self.ecbs.done(job), end);
        }
        self.task.deallocate(token).expect(SOUND);
        (self.task.into_seat(), records)
    }

    /// Does the job's steps up to one that ends it: the end code, and how many steps were done.
    fn run_job(&mut self, job: u32) -> (u32, u32) {
        let mut held = [None; crate::deck::LATCHES as usize];
        for (number, step) in (0..).zip(&self.deck.jobs[job as usize].steps) {
            match *step {
                Step::Print(_) => {}
                Step::Use(latch, mode) => {
                    let obtained = self.task.obtain(latch, requestor_of(job), mode, LatchForm::Waiting);
                    match obtained.expect(SOUND) {
                        Obtained::Granted(token) | Obtained::Pending(token) => held[latch as usize] = Some(token),
                    }
                }
                Step::Free(latch) => {
                    let token = held[latch as usize].take().expect(SOUND);
                    self.task.release_latch(token, false).expect(SOUND);
                }
                Step::Count(volume, amount) => {
                    let number = self.task.read_volume(volume);
                    self.task.write_volume(volume, number + amount);
                }
                Step::Scan(volume) => {
                    let first = self.task.read_volume(volume);
                    assert_eq!(first, self.task.read_volume(volume), "a held volume is steady");
                }
                Step::Abend(end) | Step::Return(end) => return (end, number),
            }
        }
        (0, self.deck.jobs[job as usize].steps.len() as u32)
    }

    fn write(mut self) -> (Seat, Vec<u32>) {
        self.task.enter();
        let mut ends = Vec::with_capacity(self.deck.jobs.len());
        for job in 0..self.jobs() {
            ends.push(self.wait_for(self.ecbs.end_for_writer(job)));
            self.pass(Point::Written(job));
        }
        (self.task.into_seat(), ends)
    }
}
