//! A run file in the making: its bytes, the table as it stands after them, and
//! the broadcast frames that are still on their way.

use crate::file::{event_bytes, header_bytes, Sizes, Start};
use crate::frame::{Frame, Instance, Kind, Value};
use crate::host::{Held, Move, Record, Standing};
use crate::table::{Done, Table};

pub struct World {
    pub table: Table,
    pub bytes: Vec<u8>,
    pub events: u64,
    /// Accepted events that changed something.
    pub changes: u64,
    /// Receiver and frame of each broadcast not yet delivered from here.
    pub waiting: Vec<(u8, Frame)>,
}

impl World {
    pub fn new(sizes: Sizes, starts: &[Start]) -> World {
        let mut bytes = header_bytes(sizes.n - 1, sizes.t, 0).to_vec();
        for start in starts {
            bytes.extend(start.bytes());
        }
        World {
            table: Table::new(sizes, starts),
            bytes,
            events: 0,
            changes: 0,
            waiting: Vec::new(),
        }
    }

    pub fn sizes(&self) -> Sizes {
        self.table.sizes
    }

    /// Adds one event and plays it.
    pub fn event(&mut self, bytes: [u8; 3]) {
        self.bytes.extend(bytes);
        self.events += 1;
        match self.table.play(&bytes) {
            Ok(Done::Turned { host, before, made }) => {
                self.changes += u64::from(made != Move::Idle);
                if let Some(frame) = made.frame(before.at, host) {
                    self.waiting
                        .extend(self.honest().into_iter().map(|receiver| (receiver, frame)));
                }
            }
            Ok(Done::Delivered { news }) => self.changes += u64::from(news),
            Err(_) => {}
        }
    }

    /// Adds the last event once more.
    pub fn again(&mut self) {
        if let [.., a, b, c] = self.bytes[..] {
            self.event([a, b, c]);
        }
    }

    pub fn turn(&mut self, host: u8) {
        self.event(event_bytes(2, 0, host, 0));
    }

    pub fn deliver(&mut self, host: u8, frame: Frame) {
        self.event(event_bytes(0, 0, host, frame.pack()));
    }

    pub fn deliver_val(&mut self, host: u8, sender: u8, at: Instance, value: Value) {
        self.deliver(
            host,
            Frame {
                kind: Kind::Val,
                at,
                value,
                sender,
            },
        );
    }

    pub fn deliver_aux(&mut self, host: u8, sender: u8, at: Instance, value: Value) {
        self.deliver(
            host,
            Frame {
                kind: Kind::Aux,
                at,
                value,
                sender,
            },
        );
    }

    pub fn everyone(&self) -> Vec<u8> {
        (0..self.sizes().n).collect()
    }

    /// The hosts that are no liars, broken and finished ones included.
    pub fn honest(&self) -> Vec<u8> {
        self.hosts_where(|standing| standing != Standing::Lying)
    }

    pub fn liars(&self) -> Vec<u8> {
        self.hosts_where(|standing| standing == Standing::Lying)
    }

    pub fn broken(&self) -> Vec<u8> {
        self.hosts_where(|standing| standing == Standing::Broken)
    }

    fn hosts_where(&self, wanted: impl Fn(Standing) -> bool) -> Vec<u8> {
        self.everyone()
            .into_iter()
            .filter(|&host| wanted(self.record(host).standing))
            .collect()
    }

    pub fn record(&self, host: u8) -> &Record {
        self.table.record(host)
    }

    pub fn held(&self, host: u8, at: Instance) -> Option<&Held> {
        self.table.host(host).held.get(&at)
    }

    /// The move of a turn, or none when the host takes no turns.
    pub fn next_move(&self, host: u8) -> Option<Move> {
        match self.record(host).standing {
            Standing::Broken | Standing::Lying => None,
            _ => Some(self.table.next_move(host)),
        }
    }

    /// Whether a turn of that host would change something.
    pub fn can_move(&self, host: u8) -> bool {
        self.next_move(host).is_some_and(|next| next != Move::Idle)
    }

    /// Whether no honest host proceeds any more.
    pub fn is_over(&self) -> bool {
        self.honest()
            .iter()
            .all(|&host| self.record(host).standing != Standing::Honest)
    }

    /// Takes a waiting frame away; none if the receiver has it or takes no more.
    pub fn take_waiting(&mut self, index: usize) -> Option<(u8, Frame)> {
        let (host, frame) = self.waiting.swap_remove(index);
        let takes = self.record(host).standing != Standing::Broken;
        (takes && !self.table.host(host).has_recorded(&frame)).then_some((host, frame))
    }
}
