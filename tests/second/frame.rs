//! Frames: sixteen bits that name a kind, an instance, a value and a sender.

use crate::bits::{join, Bits};
use crate::refusal::Refusal;

#[derive(Clone, Copy, PartialEq, Eq, Debug)]
pub enum Kind {
    Val,
    Aux,
}

#[derive(Clone, Copy, PartialEq, Eq, PartialOrd, Ord, Debug)]
pub enum Value {
    Zero,
    One,
    Neither,
}

pub const VALUES: [Value; 3] = [Value::Zero, Value::One, Value::Neither];

impl Value {
    /// The value of a bit.
    pub fn of_bit(bit: u8) -> Value {
        if bit == 0 {
            Value::Zero
        } else {
            Value::One
        }
    }

    pub fn number(self) -> u8 {
        self as u8
    }
}

/// One round, phase and stage; ordered in that order.
#[derive(Clone, Copy, PartialEq, Eq, PartialOrd, Ord, Debug)]
pub struct Instance {
    pub round: u8,
    pub phase: u8,
    pub stage: u8,
}

impl Instance {
    pub const FIRST: Instance = Instance {
        round: 1,
        phase: 1,
        stage: 0,
    };

    /// The values a frame of this instance can carry: neither in stage 1 only.
    pub fn values(self) -> &'static [Value] {
        if self.stage == 0 {
            &VALUES[..2]
        } else {
            &VALUES
        }
    }
}

#[derive(Clone, Copy, PartialEq, Eq, Debug)]
pub struct Frame {
    pub kind: Kind,
    pub at: Instance,
    pub value: Value,
    pub sender: u8,
}

/// The seven fields of a word as they stand in it, whether or not they make a frame.
#[derive(Clone, Copy)]
pub struct Fields {
    pub version: u8,
    pub kind: u8,
    pub round: u8,
    pub phase_less_one: u8,
    pub stage: u8,
    pub value: u8,
    pub sender: u8,
}

impl Fields {
    pub fn of_word(word: u16) -> Fields {
        let mut bits = Bits::new(&word.to_be_bytes());
        Fields {
            version: bits.take(1),
            kind: bits.take(1),
            round: bits.take(5),
            phase_less_one: bits.take(1),
            stage: bits.take(1),
            value: bits.take(2),
            sender: bits.take(5),
        }
    }

    pub fn word(&self) -> u16 {
        join(&[
            (1, self.version),
            (1, self.kind),
            (5, self.round),
            (1, self.phase_less_one),
            (1, self.stage),
            (2, self.value),
            (5, self.sender),
        ]) as u16
    }
}

impl Frame {
    pub fn unpack(word: u16) -> Result<Frame, Refusal> {
        let fields = Fields::of_word(word);
        if fields.version == 1 {
            return Err(Refusal::Version);
        }
        if fields.round < 1 || fields.round > 16 {
            return Err(Refusal::Round);
        }
        let value = match (fields.value, fields.stage) {
            (0, _) => Value::Zero,
            (1, _) => Value::One,
            (2, 1) => Value::Neither,
            _ => return Err(Refusal::Value),
        };
        Ok(Frame {
            kind: if fields.kind == 0 {
                Kind::Val
            } else {
                Kind::Aux
            },
            at: Instance {
                round: fields.round,
                phase: fields.phase_less_one + 1,
                stage: fields.stage,
            },
            value,
            sender: fields.sender,
        })
    }

    pub fn fields(&self) -> Fields {
        Fields {
            version: 0,
            kind: self.kind as u8,
            round: self.at.round,
            phase_less_one: self.at.phase - 1,
            stage: self.at.stage,
            value: self.value.number(),
            sender: self.sender,
        }
    }

    pub fn pack(&self) -> u16 {
        self.fields().word()
    }
}
