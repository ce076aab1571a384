//! The whole table of hosts, and what one event does to it.

use crate::file::{Event, Sizes, Start};
use crate::frame::{Frame, Instance, Kind, Value};
use crate::host::{Host, Move, Record, Standing};
use crate::refusal::Refusal;

/// An accepted event.
pub enum Done {
    /// A delivery, and whether the frame was new to the receiver.
    Delivered { news: bool },
    /// A turn, with the host's record as it was before it.
    Turned {
        host: u8,
        before: Record,
        made: Move,
    },
}

pub struct Table {
    pub sizes: Sizes,
    pub hosts: Vec<Host>,
}

impl Table {
    pub fn new(sizes: Sizes, starts: &[Start]) -> Table {
        Table {
            sizes,
            hosts: starts.iter().map(Host::new).collect(),
        }
    }

    pub fn host(&self, number: u8) -> &Host {
        &self.hosts[usize::from(number)]
    }

    pub fn record(&self, number: u8) -> &Record {
        &self.host(number).record
    }

    /// Plays one event of three bytes, or of fewer for an incomplete one.
    pub fn play(&mut self, bytes: &[u8]) -> Result<Done, Refusal> {
        match Event::read(bytes)? {
            Event::Turn { host } => {
                self.check_honest(host)?;
                self.turn(host)
            }
            Event::Deliver { host, word } => {
                self.check_honest(host)?;
                self.deliver(host, word)
            }
        }
    }

    fn check_honest(&self, host: u8) -> Result<(), Refusal> {
        if host >= self.sizes.n {
            return Err(Refusal::Number);
        }
        if self.record(host).standing == Standing::Lying {
            return Err(Refusal::Lying);
        }
        Ok(())
    }

    fn check_whole(&self, host: u8) -> Result<(), Refusal> {
        if self.record(host).standing == Standing::Broken {
            return Err(Refusal::Broken);
        }
        Ok(())
    }

    fn turn(&mut self, number: u8) -> Result<Done, Refusal> {
        self.check_whole(number)?;
        let made = self.next_move(number);
        let host = &mut self.hosts[usize::from(number)];
        let before = host.record;
        host.make(&made);
        Ok(Done::Turned {
            host: number,
            before,
            made,
        })
    }

    fn deliver(&mut self, host: u8, word: u16) -> Result<Done, Refusal> {
        let frame = Frame::unpack(word)?;
        if frame.sender >= self.sizes.n {
            return Err(Refusal::Number);
        }
        self.check_whole(host)?;
        if !self.may_send(frame.sender, frame.kind, frame.at, frame.value) {
            return Err(Refusal::NotBroadcast);
        }
        let receiver = &mut self.hosts[usize::from(host)];
        if receiver.has_other_aux(&frame) {
            return Err(Refusal::OtherAux);
        }
        let news = !receiver.has_recorded(&frame);
        receiver.receive(&frame);
        Ok(Done::Delivered { news })
    }

    /// A liar may send anything, an honest host only what it has broadcast.
    pub fn may_send(&self, sender: u8, kind: Kind, at: Instance, value: Value) -> bool {
        let host = self.host(sender);
        host.record.standing == Standing::Lying
            || host.has_broadcast(&Frame {
                kind,
                at,
                value,
                sender,
            })
    }

    pub fn next_move(&self, host: u8) -> Move {
        self.host(host).next_move(&self.sizes)
    }
}
