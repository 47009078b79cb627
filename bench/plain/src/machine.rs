//! The one-thread machine: a configuration, the entries of a history, and the state that a history leads to.

use crate::ecb::{self, EcbOp, EcbReply};
use crate::element::{self, ElementOp, ElementReply, ElementState};
use crate::latch::{LatchForm, LatchOp, LatchReply, LatchSet, Wake};
use crate::word;

#[derive(Clone, Debug, PartialEq, Eq)]
pub struct Exit {
    pub source: u32,
    pub targets: Vec<u32>,
}

#[derive(Clone, Debug, Default, PartialEq, Eq)]
pub struct Config {
    pub callers: u32,
    pub elements_per_caller: u32,
    pub volumes: u32,
    pub latches: u32,
    pub quota: u32,
    pub posted_quota: u32,
    /// One per caller.
    pub budgets: Vec<u32>,
    /// One caller per ECB.
    pub owners: Vec<u32>,
    /// Exit x is `exits[x - 1]`.
    pub exits: Vec<Exit>,
}

#[derive(Clone, Copy, Debug, PartialEq, Eq)]
pub enum Limit {
    Callers,
    Elements,
    Volumes,
    Latches,
    Quota,
    Posted,
    Budgets,
    Ecbs,
    Exits,
    Targets,
}

#[derive(Clone, Copy, Debug, PartialEq, Eq)]
pub enum CheckRefusal {
    Limit(Limit),
    BadOwner(u32),
    BadExit(u32),
    Budget(u64),
}

/// The events of a run are at most this many.
pub const MOST_EVENTS: u32 = 524_287;

impl Config {
    pub fn check(&self) -> Result<(), CheckRefusal> {
        let limits = [
            (Limit::Callers, (1..=16).contains(&self.callers)),
            (Limit::Elements, (1..=16).contains(&self.elements_per_caller)),
            (Limit::Volumes, (1..=8).contains(&self.volumes)),
            (Limit::Latches, (1..=8).contains(&self.latches)),
            (Limit::Quota, (1..=16).contains(&self.quota)),
            (Limit::Posted, self.posted_quota <= self.quota),
            (Limit::Budgets, self.budgets.len() == self.callers as usize),
            (Limit::Ecbs, self.owners.len() <= 131_072),
            (Limit::Exits, self.exits.len() <= 32_768),
            (Limit::Targets, self.exits.iter().all(|exit| (1..=8).contains(&exit.targets.len()))),
        ];
        if let Some((limit, _)) = limits.into_iter().find(|(_, holds)| !holds) {
            return Err(CheckRefusal::Limit(limit));
        }
        if let Some(ecb) = self.owners.iter().position(|&owner| owner >= self.callers) {
            return Err(CheckRefusal::BadOwner(ecb as u32));
        }
        let ecbs = self.owners.len() as u32;
        let good = |exit: &Exit| {
            exit.source < ecbs && exit.targets.iter().all(|&target| target < ecbs && target > exit.source)
        };
        if let Some(exit) = self.exits.iter().position(|exit| !good(exit)) {
            return Err(CheckRefusal::BadExit(exit as u32 + 1));
        }
        let sum: u64 = self.budgets.iter().map(|&budget| u64::from(budget)).sum();
        if sum > u64::from(MOST_EVENTS) {
            return Err(CheckRefusal::Budget(sum));
        }
        Ok(())
    }

    pub fn ecbs(&self) -> u32 {
        self.owners.len() as u32
    }

    pub fn elements(&self) -> u32 {
        self.callers * self.elements_per_caller
    }

    pub fn owner(&self, ecb: u32) -> u32 {
        self.owners[ecb as usize]
    }

    pub fn element_owner(&self, element: u32) -> u32 {
        element / self.elements_per_caller
    }

    pub fn exit(&self, number: u32) -> Option<&Exit> {
        self.exits.get((number as usize).checked_sub(1)?)
    }

    pub fn latch_set(&self) -> LatchSet {
        LatchSet::new(self.latches, self.callers, self.quota, self.posted_quota)
    }

    /// Per ECB the most events that a post of it can make, cut just above the most events of a run.
    pub fn reaches(&self) -> Vec<u32> {
        let mut reaches = vec![1; self.owners.len()];
        let mut exits: Vec<&Exit> = self.exits.iter().collect();
        exits.sort_by_key(|exit| std::cmp::Reverse(exit.source));
        for exit in exits {
            let sum: u64 = exit.targets.iter().map(|&target| u64::from(reaches[target as usize])).sum();
            let reach = (sum + 1).min(u64::from(MOST_EVENTS) + 1) as u32;
            let best: &mut u32 = &mut reaches[exit.source as usize];
            *best = reach.max(*best);
        }
        reaches
    }

    /// The most events of a release or purge of latches.
    pub fn release_cost(&self) -> u32 {
        let reach = self.reaches().into_iter().max().unwrap_or(0);
        let cost = 1 + u64::from(self.callers) * u64::from(self.posted_quota) * u64::from(reach);
        cost.min(u64::from(MOST_EVENTS) + 1) as u32
    }
}

#[derive(Clone, Copy, Debug, PartialEq, Eq)]
pub enum VolumeOp {
    Read,
    Write(u32),
}

#[derive(Clone, Copy, Debug, PartialEq, Eq)]
pub enum VolumeReply {
    Value(u32),
    Stored,
}

pub fn apply_volume(op: VolumeOp, number: u32) -> (u32, VolumeReply) {
    match op {
        VolumeOp::Read => (number, VolumeReply::Value(number)),
        VolumeOp::Write(number) => (number, VolumeReply::Stored),
    }
}

/// An operation on one object, with its reply.
#[derive(Clone, Copy, Debug, PartialEq, Eq)]
pub enum Event {
    Ecb(u32, EcbOp, EcbReply),
    Element(u32, ElementOp, ElementReply),
    Volume(u32, VolumeOp, VolumeReply),
    Latch(LatchOp, LatchReply),
}

/// One event of a history; the place is the number of events that the object had before it.
#[derive(Clone, Copy, Debug, PartialEq, Eq)]
pub struct Entry {
    pub caller: u32,
    pub place: u32,
    pub event: Event,
}

/// All objects behind one thread. Words are packed as the shared ones are.
pub struct State {
    ecbs: Vec<u64>,
    elements: Vec<u64>,
    volumes: Vec<u64>,
    latches: LatchSet,
    latch_place: u32,
}

impl State {
    pub fn opening(config: &Config) -> Self {
        State {
            ecbs: vec![0; config.owners.len()],
            elements: vec![0; config.elements() as usize],
            volumes: vec![0; config.volumes as usize],
            latches: config.latch_set(),
            latch_place: 0,
        }
    }

    pub fn ecb_word(&self, ecb: u32) -> u64 {
        self.ecbs[ecb as usize]
    }

    pub fn element_word(&self, element: u32) -> u64 {
        self.elements[element as usize]
    }

    pub fn volume(&self, volume: u32) -> u32 {
        word::state(self.volumes[volume as usize]) as u32
    }

    pub fn latches(&self) -> &LatchSet {
        &self.latches
    }

    /// One admitted event on an ECB: its place and reply. So too the three below.
    pub fn ecb(&mut self, ecb: u32, op: EcbOp) -> (u32, EcbReply) {
        let word = &mut self.ecbs[ecb as usize];
        let place = word::place(*word);
        let (state, reply) = ecb::apply(op, *word as u32);
        *word = word::next(*word, u64::from(state));
        (place, reply)
    }

    pub fn element(&mut self, element: u32, op: ElementOp) -> (u32, ElementReply) {
        let word = &mut self.elements[element as usize];
        let place = word::place(*word);
        let (state, reply) = element::apply(op, ElementState::unpack(word::state(*word)));
        *word = word::next(*word, state.pack());
        (place, reply)
    }

    pub fn volume_event(&mut self, volume: u32, op: VolumeOp) -> (u32, VolumeReply) {
        let word = &mut self.volumes[volume as usize];
        let place = word::place(*word);
        let (number, reply) = apply_volume(op, *word as u32);
        *word = word::next(*word, u64::from(number));
        (place, reply)
    }

    pub fn latch(&mut self, caller: u32, op: LatchOp, wakes: &mut Vec<Wake>) -> (u32, LatchReply) {
        let place = self.latch_place;
        let reply = self.latches.apply(caller, place, op, wakes);
        self.latch_place += 1;
        (place, reply)
    }

    /// Makes the entry's operation and says whether it is admitted and the entry has the machine's place and reply.
    /// After `false` the state is of no further use.
    pub fn replays(&mut self, config: &Config, entry: &Entry, wakes: &mut Vec<Wake>) -> bool {
        if !self.admits(config, entry) {
            return false;
        }
        let (place, agrees) = match entry.event {
            Event::Ecb(ecb, op, kept) => {
                let (place, reply) = self.ecb(ecb, op);
                (place, reply == kept)
            }
            Event::Element(element, op, kept) => {
                let (place, reply) = self.element(element, op);
                (place, reply == kept)
            }
            Event::Volume(volume, op, kept) => {
                let (place, reply) = self.volume_event(volume, op);
                (place, reply == kept)
            }
            Event::Latch(op, kept) => {
                let (place, reply) = self.latch(entry.caller, op, wakes);
                (place, reply == kept)
            }
        };
        agrees && place == entry.place
    }

    fn admits(&self, config: &Config, entry: &Entry) -> bool {
        let caller = entry.caller;
        if caller >= config.callers {
            return false;
        }
        match entry.event {
            Event::Ecb(ecb, op, _) => {
                let Some(&owner) = config.owners.get(ecb as usize) else {
                    return false;
                };
                match op {
                    EcbOp::Post(_) | EcbOp::Test => true,
                    EcbOp::Extend(exit) => owner == caller && config.exit(exit).is_some_and(|exit| exit.source == ecb),
                    EcbOp::Arm | EcbOp::Settle | EcbOp::Clear => owner == caller,
                }
            }
            Event::Element(element, op, _) => {
                element < config.elements()
                    && match op {
                        ElementOp::Release(..) | ElementOp::Test => true,
                        _ => config.element_owner(element) == caller,
                    }
            }
            Event::Volume(volume, ..) => volume < config.volumes,
            Event::Latch(op, _) => {
                let own = match op {
                    LatchOp::Obtain { form: LatchForm::Posted(ecb), .. } => config.owners.get(ecb as usize) == Some(&caller),
                    _ => true,
                };
                own && self.latches.admits(caller, op)
            }
        }
    }
}

/// A history, kept as the logs of its callers or as one log of them all.
pub struct History {
    pub logs: Vec<Vec<Entry>>,
}

impl History {
    pub fn len(&self) -> usize {
        self.logs.iter().map(Vec::len).sum()
    }

    pub fn is_empty(&self) -> bool {
        self.len() == 0
    }

    /// The entries in one legal order: again and again the lowest log whose next entry has its object's next place
    /// gives that entry.
    pub fn merged(&self, config: &Config) -> Merge<'_> {
        let elements = config.owners.len();
        let volumes = elements + config.elements() as usize;
        let latches = volumes + config.volumes as usize;
        let mut merge = Merge {
            elements,
            volumes,
            latches,
            places: vec![0; latches + 1],
            rest: self.logs.iter().map(|log| log.iter()).collect(),
            heads: Vec::with_capacity(self.logs.len()),
        };
        for log in 0..self.logs.len() {
            let head = merge.head(log);
            merge.heads.push(head);
        }
        merge
    }
}

pub struct Merge<'a> {
    /// Where the elements, the volumes and the latch set stand among all objects.
    elements: usize,
    volumes: usize,
    latches: usize,
    /// The next place of each object.
    places: Vec<u32>,
    rest: Vec<std::slice::Iter<'a, Entry>>,
    /// The next entry of each log, with its object.
    heads: Vec<Option<(usize, &'a Entry)>>,
}

impl<'a> Merge<'a> {
    fn head(&mut self, log: usize) -> Option<(usize, &'a Entry)> {
        let entry = self.rest[log].next()?;
        let object = match entry.event {
            Event::Ecb(ecb, ..) => ecb as usize,
            Event::Element(element, ..) => self.elements + element as usize,
            Event::Volume(volume, ..) => self.volumes + volume as usize,
            Event::Latch(..) => self.latches,
        };
        Some((object, entry))
    }
}

impl<'a> Iterator for Merge<'a> {
    type Item = &'a Entry;

    fn next(&mut self) -> Option<&'a Entry> {
        for log in 0..self.heads.len() {
            if let Some((object, entry)) = self.heads[log] {
                if self.places[object] == entry.place {
                    self.places[object] += 1;
                    self.heads[log] = self.head(log);
                    return Some(entry);
                }
            }
        }
        assert!(self.heads.iter().all(Option::is_none), "the logs are not those of one history");
        None
    }
}
