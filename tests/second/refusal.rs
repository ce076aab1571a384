//! The refusal numbers a run file can meet.

#[derive(Clone, Copy, PartialEq, Eq, Debug)]
pub enum Refusal {
    Incomplete = 1,
    HostCount = 2,
    TooManyLiars = 3,
    NotZero = 4,
    Number = 5,
    Lying = 6,
    Version = 7,
    Round = 8,
    Value = 9,
    Broken = 10,
    NotBroadcast = 11,
    OtherAux = 12,
}

impl Refusal {
    pub fn number(self) -> u8 {
        self as u8
    }
}
