//! Fields of a known number of bits, most significant first, read and written
//! by plain division and multiplication.

/// What is still to be read of a few bytes.
pub struct Bits {
    rest: u64,
    left: u32,
}

impl Bits {
    pub fn new(bytes: &[u8]) -> Bits {
        let rest = bytes
            .iter()
            .fold(0, |sum, &byte| sum * 256 + u64::from(byte));
        Bits {
            rest,
            left: 8 * bytes.len() as u32,
        }
    }

    /// The next field of so many bits.
    pub fn take(&mut self, count: u32) -> u8 {
        self.left -= count;
        let unit = 2u64.pow(self.left);
        let field = self.rest / unit;
        self.rest %= unit;
        field as u8
    }
}

/// Joins fields, each given as its number of bits and its content.
pub fn join(fields: &[(u32, u8)]) -> u64 {
    fields.iter().fold(0, |sum, &(count, field)| {
        sum * 2u64.pow(count) + u64::from(field)
    })
}
