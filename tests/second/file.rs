//! The parts of a run file: header, host records, events.

use crate::bits::{join, Bits};
use crate::frame::Value;
use crate::refusal::Refusal;

/// n and t, once they are accepted, and the thresholds that follow from them.
#[derive(Clone, Copy)]
pub struct Sizes {
    pub n: u8,
    pub t: u8,
}

impl Sizes {
    pub fn check(n: u64, t: u64) -> Result<Sizes, Refusal> {
        if !(2..=32).contains(&n) {
            return Err(Refusal::HostCount);
        }
        if t > (n - 1) / 3 {
            return Err(Refusal::TooManyLiars);
        }
        Ok(Sizes {
            n: n as u8,
            t: t as u8,
        })
    }

    pub fn echo_at(&self) -> usize {
        usize::from(self.t) + 1
    }

    pub fn admit_at(&self) -> usize {
        2 * usize::from(self.t) + 1
    }

    pub fn view_at(&self) -> usize {
        usize::from(self.n) - usize::from(self.t)
    }
}

pub fn read_header(bytes: &[u8]) -> Result<Sizes, Refusal> {
    if bytes.len() < 2 {
        return Err(Refusal::Incomplete);
    }
    let mut bits = Bits::new(bytes);
    let n = u64::from(bits.take(5)) + 1;
    let t = u64::from(bits.take(4));
    let sizes = Sizes::check(n, t)?;
    if bits.take(7) != 0 {
        return Err(Refusal::NotZero);
    }
    Ok(sizes)
}

pub fn header_bytes(n_less_one: u8, t: u8, spare: u8) -> [u8; 2] {
    (join(&[(5, n_less_one), (4, t), (7, spare)]) as u16).to_be_bytes()
}

/// What a host record of the file says: how that host starts.
#[derive(Clone, Copy)]
pub struct Start {
    pub honest: bool,
    pub proposal: Value,
    pub coins: [Value; 16],
}

impl Start {
    pub const LIAR: Start = Start {
        honest: false,
        proposal: Value::Zero,
        coins: [Value::Zero; 16],
    };

    pub fn read(bytes: &[u8]) -> Result<Start, Refusal> {
        if bytes.len() < 3 {
            return Err(Refusal::Incomplete);
        }
        let mut bits = Bits::new(bytes);
        let honest = bits.take(1) == 1;
        let proposal = Value::of_bit(bits.take(1));
        let spare = bits.take(6);
        let coins = [(); 16].map(|()| Value::of_bit(bits.take(1)));
        let liar_not_zero = !honest && bytes.iter().any(|&byte| byte != 0);
        if spare != 0 || liar_not_zero {
            return Err(Refusal::NotZero);
        }
        Ok(Start {
            honest,
            proposal,
            coins,
        })
    }

    pub fn bytes(&self) -> [u8; 3] {
        let mut fields = vec![
            (1, u8::from(self.honest)),
            (1, self.proposal.number()),
            (6, 0),
        ];
        fields.extend(self.coins.iter().map(|coin| (1, coin.number())));
        three_bytes(join(&fields))
    }
}

/// An event as far as it can be read without knowing the run.
pub enum Event {
    Deliver { host: u8, word: u16 },
    Turn { host: u8 },
}

impl Event {
    pub fn read(bytes: &[u8]) -> Result<Event, Refusal> {
        if bytes.len() < 3 {
            return Err(Refusal::Incomplete);
        }
        let mut bits = Bits::new(&bytes[..1]);
        let kind = bits.take(2);
        let spare = bits.take(1);
        let host = bits.take(5);
        let word = u16::from_be_bytes([bytes[1], bytes[2]]);
        match (kind, spare) {
            (0, 0) => Ok(Event::Deliver { host, word }),
            (2, 0) if word == 0 => Ok(Event::Turn { host }),
            _ => Err(Refusal::NotZero),
        }
    }
}

pub fn event_bytes(kind: u8, spare: u8, host: u8, word: u16) -> [u8; 3] {
    let [high, low] = word.to_be_bytes();
    three_bytes(join(&[
        (2, kind),
        (1, spare),
        (5, host),
        (8, high),
        (8, low),
    ]))
}

fn three_bytes(number: u64) -> [u8; 3] {
    let [_, high, middle, low] = (number as u32).to_be_bytes();
    [high, middle, low]
}
