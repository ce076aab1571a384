//! The rules of one host: what it holds, its next move, what a view does.

use std::collections::{BTreeMap, BTreeSet};

use crate::file::{Sizes, Start};
use crate::frame::{Frame, Instance, Kind, Value};

#[derive(Clone, Copy, PartialEq, Eq, Debug)]
pub enum Standing {
    Honest,
    Finished,
    Broken,
    Lying,
}

/// What a host holds for one instance.
#[derive(Default)]
pub struct Held {
    val_senders: [BTreeSet<u8>; 3],
    pub aux: BTreeMap<u8, Value>,
    pub broadcast: BTreeSet<Value>,
    pub admitted: BTreeSet<Value>,
    pub begun: bool,
    pub aux_sent: Option<Value>,
}

impl Held {
    pub fn val_senders(&self, value: Value) -> &BTreeSet<u8> {
        &self.val_senders[value as usize]
    }

    /// Whether the host that holds this has broadcast that VAL or AUX here.
    pub fn has_sent(&self, kind: Kind, value: Value) -> bool {
        match kind {
            Kind::Val => self.broadcast.contains(&value),
            Kind::Aux => self.aux_sent == Some(value),
        }
    }

    pub fn has_recorded(&self, frame: &Frame) -> bool {
        match frame.kind {
            Kind::Val => self.val_senders(frame.value).contains(&frame.sender),
            Kind::Aux => self.aux.get(&frame.sender) == Some(&frame.value),
        }
    }
}

/// What a turn does.
#[derive(Clone, PartialEq, Eq, Debug)]
pub enum Move {
    Idle,
    Echo(Instance, Value),
    Admit(Instance, Value),
    /// With the value it broadcasts, unless an echo already did.
    Begin(Option<Value>),
    SendAux(Value),
    View(BTreeSet<Value>),
}

impl Move {
    /// The frame that a move made in that instance broadcasts, if any.
    pub fn frame(&self, current: Instance, sender: u8) -> Option<Frame> {
        match *self {
            Move::Echo(at, value) => Some(Frame {
                kind: Kind::Val,
                at,
                value,
                sender,
            }),
            Move::Begin(Some(value)) => Some(Frame {
                kind: Kind::Val,
                at: current,
                value,
                sender,
            }),
            Move::SendAux(value) => Some(Frame {
                kind: Kind::Aux,
                at: current,
                value,
                sender,
            }),
            _ => None,
        }
    }
}

/// Where a host stands.
#[derive(Clone, Copy)]
pub struct Record {
    pub standing: Standing,
    pub at: Instance,
    pub own: Value,
    pub estimate: Value,
    pub decision: Option<Value>,
    pub coins: [Value; 16],
    pub sent: u32,
}

impl Record {
    pub fn new(start: &Start) -> Record {
        Record {
            standing: if start.honest {
                Standing::Honest
            } else {
                Standing::Lying
            },
            at: Instance::FIRST,
            own: start.proposal,
            estimate: start.proposal,
            decision: None,
            coins: start.coins,
            sent: 0,
        }
    }

    fn after_view(&mut self, view: &BTreeSet<Value>) {
        let only = if view.len() == 1 {
            view.first().copied()
        } else {
            None
        };
        if self.at.stage == 0 {
            self.own = only.unwrap_or(Value::Neither);
            self.at.stage = 1;
        } else if view.contains(&Value::Zero) && view.contains(&Value::One) {
            self.standing = Standing::Broken;
        } else if self.at.phase == 1 {
            self.after_phase_1(only);
        } else {
            self.after_phase_2(view);
        }
    }

    fn after_phase_1(&mut self, only: Option<Value>) {
        let coin = self.coins[usize::from(self.at.round) - 1];
        self.estimate = match only {
            Some(Value::Neither) | None => coin,
            Some(value) => value,
        };
        self.at = Instance {
            round: self.at.round,
            phase: 2,
            stage: 0,
        };
        self.own = self.estimate;
    }

    fn after_phase_2(&mut self, view: &BTreeSet<Value>) {
        let bit = view.iter().copied().find(|&value| value != Value::Neither);
        if let Some(value) = bit {
            if view.len() == 1 && self.decision.is_none() {
                self.decision = Some(value);
            }
            self.estimate = value;
        }
        if self.at.round == 16 {
            self.standing = Standing::Finished;
        } else {
            self.at = Instance {
                round: self.at.round + 1,
                phase: 1,
                stage: 0,
            };
            self.own = self.estimate;
        }
    }
}

pub struct Host {
    pub record: Record,
    pub held: BTreeMap<Instance, Held>,
}

impl Host {
    pub fn new(start: &Start) -> Host {
        Host {
            record: Record::new(start),
            held: BTreeMap::new(),
        }
    }

    /// Adds a frame that was found acceptable.
    pub fn receive(&mut self, frame: &Frame) {
        let held = self.held.entry(frame.at).or_default();
        match frame.kind {
            Kind::Val => {
                held.val_senders[frame.value as usize].insert(frame.sender);
            }
            Kind::Aux => {
                held.aux.insert(frame.sender, frame.value);
            }
        }
    }

    /// The move that a turn would make now: echo, then admit, then proceed.
    pub fn next_move(&self, sizes: &Sizes) -> Move {
        let echo = |held: &Held, value| {
            held.val_senders(value).len() >= sizes.echo_at() && !held.broadcast.contains(&value)
        };
        if let Some((at, value)) = self.first(echo) {
            return Move::Echo(at, value);
        }
        let admit = |held: &Held, value| {
            held.val_senders(value).len() >= sizes.admit_at() && !held.admitted.contains(&value)
        };
        if let Some((at, value)) = self.first(admit) {
            return Move::Admit(at, value);
        }
        if self.record.standing == Standing::Finished {
            return Move::Idle;
        }
        self.proceed(sizes)
    }

    /// The first instance and value, in order, for which something holds.
    fn first(&self, holds: impl Fn(&Held, Value) -> bool) -> Option<(Instance, Value)> {
        for (&at, held) in &self.held {
            for &value in at.values() {
                if holds(held, value) {
                    return Some((at, value));
                }
            }
        }
        None
    }

    fn proceed(&self, sizes: &Sizes) -> Move {
        let nothing = Held::default();
        let held = self.held.get(&self.record.at).unwrap_or(&nothing);
        if !held.begun {
            let own = self.record.own;
            return Move::Begin(if held.broadcast.contains(&own) {
                None
            } else {
                Some(own)
            });
        }
        if held.aux_sent.is_none() {
            return match held.admitted.first() {
                Some(&lowest) => Move::SendAux(lowest),
                None => Move::Idle,
            };
        }
        let counted = || {
            held.aux
                .values()
                .filter(|value| held.admitted.contains(value))
        };
        if counted().count() >= sizes.view_at() {
            Move::View(counted().copied().collect())
        } else {
            Move::Idle
        }
    }

    pub fn make(&mut self, made: &Move) {
        let current = self.record.at;
        match made {
            Move::Idle => {}
            Move::Echo(at, value) => self.broadcast_val(*at, *value),
            Move::Admit(at, value) => {
                self.held.entry(*at).or_default().admitted.insert(*value);
            }
            Move::Begin(broadcast) => {
                self.held.entry(current).or_default().begun = true;
                if let Some(value) = broadcast {
                    self.broadcast_val(current, *value);
                }
            }
            Move::SendAux(value) => {
                self.held.entry(current).or_default().aux_sent = Some(*value);
                self.record.sent += 1;
            }
            Move::View(view) => self.record.after_view(view),
        }
    }

    fn broadcast_val(&mut self, at: Instance, value: Value) {
        self.held.entry(at).or_default().broadcast.insert(value);
        self.record.sent += 1;
    }

    pub fn has_broadcast(&self, frame: &Frame) -> bool {
        self.held
            .get(&frame.at)
            .is_some_and(|held| held.has_sent(frame.kind, frame.value))
    }

    pub fn has_recorded(&self, frame: &Frame) -> bool {
        self.held
            .get(&frame.at)
            .is_some_and(|held| held.has_recorded(frame))
    }

    /// Whether a different AUX of this sender is recorded in that instance.
    pub fn has_other_aux(&self, frame: &Frame) -> bool {
        let recorded = self
            .held
            .get(&frame.at)
            .and_then(|held| held.aux.get(&frame.sender));
        frame.kind == Kind::Aux && recorded.is_some_and(|&value| value != frame.value)
    }
}
