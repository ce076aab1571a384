//! Schedules that steer: each host has an aim, the view it should come to see in
//! its instance, and gets just the frames that lead there. The liars know what
//! every host holds and say to each what its aim asks for.

use std::collections::{BTreeMap, BTreeSet};

use crate::frame::{Frame, Instance, Kind, Value, VALUES};
use crate::host::{Move, Standing};
use crate::noise;
use crate::pile::pile;
use crate::rng::Rng;
use crate::world::World;

pub struct Manner {
    pub limit: u64,
    /// Share of noise events, in percent.
    pub noise: u64,
    /// Views that at most t liars can never bring about are aimed at too.
    pub wild: bool,
    /// Every host is made to echo every value.
    pub lavish: bool,
    /// A host that gets nothing until the others can do no more.
    pub starved: Option<u8>,
}

/// What the views of one instance should look like.
#[derive(Clone, Copy)]
enum Mood {
    /// One bit, the same for all.
    Calm,
    /// Both bits in stage 0, only neither in stage 1.
    Torn,
    /// Different for each host, as far as views may differ.
    Mixed,
    /// Anything.
    Wild,
}

struct Aim {
    at: Instance,
    aux: Value,
    view: BTreeSet<Value>,
    /// An echo should come before the begin.
    echo_first: bool,
}

pub struct Director<'a> {
    world: &'a mut World,
    rng: &'a mut Rng,
    manner: Manner,
    moods: BTreeMap<Instance, (Mood, Value)>,
    aims: BTreeMap<u8, Aim>,
}

impl Director<'_> {
    pub fn new<'a>(world: &'a mut World, rng: &'a mut Rng, manner: Manner) -> Director<'a> {
        Director {
            world,
            rng,
            manner,
            moods: BTreeMap::new(),
            aims: BTreeMap::new(),
        }
    }

    /// Plays until the limit, or until nobody proceeds any more; then late frames.
    pub fn play(mut self) {
        while self.world.events < self.manner.limit && !self.world.is_over() {
            let before = self.world.changes;
            let attended = self.attended();
            for host in self.rng.shuffled(&attended) {
                if self.rng.chance(self.manner.noise) {
                    noise::stir(self.world, self.rng);
                }
                self.attend(host);
            }
            if self.rng.chance(2) {
                pile(self.world, self.rng);
            }
            if self.world.changes == before && !self.unstick() {
                break;
            }
        }
        self.aftermath();
    }

    fn attended(&self) -> Vec<u8> {
        let mut hosts = self.world.honest();
        hosts.retain(|&host| Some(host) != self.manner.starved);
        hosts
    }

    /// Brings one host as far towards its aim as can be done now.
    fn attend(&mut self, host: u8) {
        if self.world.record(host).standing != Standing::Honest {
            return;
        }
        let at = self.world.record(host).at;
        if self.aims.get(&host).map(|aim| aim.at) != Some(at) {
            let aim = self.new_aim(at);
            self.aims.insert(host, aim);
        }
        let (begun, spoken) = self
            .world
            .held(host, at)
            .map_or((false, false), |held| (held.begun, held.aux_sent.is_some()));
        if !begun {
            self.open(host, at);
        } else if !spoken {
            self.speak(host, at);
        } else {
            self.look(host, at);
        }
    }

    fn new_aim(&mut self, at: Instance) -> Aim {
        let view = self.wish(at);
        let values: Vec<Value> = view.iter().copied().collect();
        Aim {
            at,
            aux: self.rng.pick(&values),
            view,
            echo_first: self.rng.chance(40),
        }
    }

    /// The view to aim at.
    fn wish(&mut self, at: Instance) -> BTreeSet<Value> {
        use Value::{Neither, One, Zero};
        let (mood, lean) = self.mood(at);
        let views: Vec<Vec<Value>> = match (mood, at.stage) {
            (Mood::Calm, _) => vec![vec![lean]],
            (Mood::Torn, 0) => vec![vec![Zero, One]],
            (Mood::Torn, _) => vec![vec![Neither]],
            (_, 0) => vec![vec![Zero], vec![One], vec![Zero, One]],
            (Mood::Mixed, _) => vec![
                vec![lean],
                vec![lean, Neither],
                vec![lean, Neither],
                vec![Neither],
            ],
            (Mood::Wild, _) => {
                vec![
                    vec![Zero],
                    vec![One],
                    vec![Zero, Neither],
                    vec![One, Neither],
                    vec![Zero, One],
                    VALUES.to_vec(),
                ]
            }
        };
        let index = self.rng.index(&views);
        views[index].iter().copied().collect()
    }

    /// The mood of an instance, and the bit that its views lean to.
    fn mood(&mut self, at: Instance) -> (Mood, Value) {
        if let Some(&known) = self.moods.get(&at) {
            return known;
        }
        let usual = [Mood::Calm, Mood::Torn, Mood::Mixed, Mood::Mixed];
        let mood = if self.manner.wild && self.rng.chance(15) {
            Mood::Wild
        } else {
            self.rng.pick(&usual)
        };
        let bits: Vec<Value> = self.own_bits(at);
        let lean = if bits.is_empty() {
            self.rng.pick(&[Value::Zero, Value::One])
        } else {
            self.rng.pick(&bits)
        };
        self.moods.insert(at, (mood, lean));
        (mood, lean)
    }

    /// The own values 0 or 1 of the honest hosts in an instance.
    fn own_bits(&self, at: Instance) -> Vec<Value> {
        let records = self
            .world
            .honest()
            .into_iter()
            .map(|host| *self.world.record(host));
        records
            .filter(|record| record.at == at && record.own != Value::Neither)
            .map(|record| record.own)
            .collect()
    }

    /// Lets a host begin, sometimes after others made it echo its own value.
    fn open(&mut self, host: u8, at: Instance) {
        if self.manner.lavish {
            self.feed_all_vals(host, at);
        } else if self.aims[&host].echo_first {
            let own = self.world.record(host).own;
            self.feed_vals(host, at, own);
        }
        self.settle(host);
    }

    /// Lets a host admit the value of its aim, and broadcast its AUX.
    fn speak(&mut self, host: u8, at: Instance) {
        let wanted = self.aims[&host].aux;
        self.feed_vals(host, at, wanted);
        self.settle(host);
    }

    /// Gives a host the AUX frames of its aim, and the turn that takes the view.
    fn look(&mut self, host: u8, at: Instance) {
        let view = self.aims[&host].view.clone();
        for &value in &view {
            self.feed_vals(host, at, value);
        }
        self.settle(host);
        let aimed = Some(Move::View(view.clone()));
        let everyone = self.world.everyone();
        for sender in self.rng.shuffled(&everyone) {
            let before = self.world.events;
            self.feed_aux(host, at, sender, &view);
            if self.world.events > before && self.world.next_move(host) == aimed {
                return self.world.turn(host);
            }
        }
        if self.world.next_move(host) == aimed {
            self.world.turn(host);
        }
    }

    /// Turns as long as they echo, admit, begin or broadcast an AUX.
    fn settle(&mut self, host: u8) {
        while let Some(next) = self.world.next_move(host) {
            if matches!(next, Move::Idle | Move::View(_)) {
                break;
            }
            self.world.turn(host);
        }
    }

    /// Delivers a VAL from all who may send it; echoes follow at once.
    fn feed_vals(&mut self, host: u8, at: Instance, value: Value) {
        let mut senders = self.world.everyone();
        if let Some(held) = self.world.held(host, at) {
            senders.retain(|sender| !held.val_senders(value).contains(sender));
        }
        senders.retain(|&sender| self.world.table.may_send(sender, Kind::Val, at, value));
        for sender in self.rng.shuffled(&senders) {
            self.world.deliver_val(host, sender, at, value);
            self.after_delivery(host);
        }
    }

    fn feed_all_vals(&mut self, host: u8, at: Instance) {
        for &value in at.values() {
            self.feed_vals(host, at, value);
        }
    }

    /// Now and then the frame again; then echoes at once, admits and idle turns sometimes.
    fn after_delivery(&mut self, host: u8) {
        if self.rng.chance(5) {
            self.world.again();
        }
        match self.world.next_move(host) {
            Some(Move::Echo(..)) => self.world.turn(host),
            Some(Move::Admit(..)) if self.rng.chance(50) => self.world.turn(host),
            Some(Move::Idle) if self.rng.chance(15) => self.world.turn(host),
            _ => {}
        }
    }

    /// Delivers one sender's AUX if it serves the view, or cannot count yet.
    fn feed_aux(&mut self, host: u8, at: Instance, sender: u8, view: &BTreeSet<Value>) {
        let Some(held) = self.world.held(host, at) else {
            return;
        };
        if held.aux.contains_key(&sender) {
            return;
        }
        let seen: BTreeSet<Value> = held.aux.values().copied().collect();
        let admitted = held.admitted.clone();
        let value = if self.world.record(sender).standing == Standing::Lying {
            self.lying_aux(at, view, &seen)
        } else {
            match self.world.held(sender, at).and_then(|held| held.aux_sent) {
                Some(value) => value,
                None => return,
            }
        };
        let useless = !admitted.contains(&value) && self.rng.chance(50);
        if view.contains(&value) || useless {
            self.world.deliver_aux(host, sender, at, value);
            self.after_delivery(host);
        }
    }

    /// The AUX of a liar: mostly what the view still lacks, or else any of the view.
    fn lying_aux(&mut self, at: Instance, view: &BTreeSet<Value>, seen: &BTreeSet<Value>) -> Value {
        let mut wanted: Vec<Value> = view.difference(seen).copied().collect();
        if wanted.is_empty() {
            wanted.extend(view);
        }
        if self.rng.chance(10) {
            self.rng.pick(at.values())
        } else {
            self.rng.pick(&wanted)
        }
    }

    /// When no aim can be followed any further: any move, any frame, any lie.
    fn unstick(&mut self) -> bool {
        let hosts = self.attended();
        let movable: Vec<u8> = hosts
            .iter()
            .copied()
            .filter(|&host| self.world.can_move(host))
            .collect();
        if !movable.is_empty() {
            let host = self.rng.pick(&movable);
            self.world.turn(host);
            return true;
        }
        let many = self.rng.between(1, hosts.len() as u64 + 1);
        let delivered = (0..many).filter(|_| self.deliver_waiting()).count();
        delivered > 0 || self.help(&hosts) || self.manner.starved.take().is_some()
    }

    fn deliver_waiting(&mut self) -> bool {
        let mut kept = Vec::new();
        let mut found = None;
        while found.is_none() && !self.world.waiting.is_empty() {
            let index = self.rng.index(&self.world.waiting);
            match self.world.take_waiting(index) {
                Some(waiting) if Some(waiting.0) == self.manner.starved => kept.push(waiting),
                other => found = other,
            }
        }
        self.world.waiting.extend(kept);
        if let Some((host, frame)) = found {
            self.world.deliver(host, frame);
        }
        found.is_some()
    }

    /// Lets some liar say something new to a host that waits.
    fn help(&mut self, hosts: &[u8]) -> bool {
        let liars = self.world.liars();
        for host in self.rng.shuffled(hosts) {
            let at = self.world.record(host).at;
            for sender in self.rng.shuffled(&liars) {
                let kind = self.rng.pick(&[Kind::Val, Kind::Aux]);
                let frame = Frame {
                    kind,
                    at,
                    value: self.rng.pick(at.values()),
                    sender,
                };
                let before = self.world.changes;
                self.world.deliver(host, frame);
                if self.world.changes > before {
                    return true;
                }
            }
        }
        false
    }

    /// Late frames of every round for every host, finished ones too, with turns.
    fn aftermath(&mut self) {
        let honest = self.world.honest();
        if honest.is_empty() {
            return;
        }
        for _ in 0..self.rng.below(40) {
            let host = self.rng.pick(&honest);
            let round =
                self.rng
                    .between(1, u64::from(self.world.record(host).at.round)) as u8;
            let at = Instance {
                round,
                phase: self.rng.between(1, 2) as u8,
                stage: self.rng.small(2),
            };
            let value = self.rng.pick(at.values());
            self.feed_vals(host, at, value);
            for _ in 0..self.rng.below(3) {
                self.world.turn(host);
            }
        }
    }
}
