//! The printed tables: all words, and the thresholds of given sizes.

use std::collections::BTreeMap;
use std::io::{self, Write};

use crate::file::Sizes;
use crate::frame::Frame;

/// How many of the 65,536 words are refused, and whether the others pack back.
pub fn words(output: &mut impl Write) -> io::Result<()> {
    let mut refused: BTreeMap<u8, u32> = BTreeMap::new();
    let (mut same, mut other) = (0, 0);
    for word in 0..=u16::MAX {
        match Frame::unpack(word) {
            Err(refusal) => *refused.entry(refusal.number()).or_default() += 1,
            Ok(frame) if frame.pack() == word => same += 1,
            Ok(_) => other += 1,
        }
    }
    for number in 7..=9 {
        writeln!(
            output,
            "refused {number}: {}",
            refused.get(&number).unwrap_or(&0)
        )?;
    }
    writeln!(output, "accepted, and packed to the same word: {same}")?;
    writeln!(output, "accepted, and not packed to the same word: {other}")
}

/// One line for every word: its refusal, or its fields.
pub fn unpack(output: &mut impl Write) -> io::Result<()> {
    for word in 0..=u16::MAX {
        match Frame::unpack(word) {
            Err(refusal) => writeln!(output, "{word:04x}: refused {}", refusal.number())?,
            Ok(frame) => writeln!(
                output,
                "{word:04x}: kind {} round {} phase {} stage {} value {} sender {}",
                frame.kind as u8,
                frame.at.round,
                frame.at.phase,
                frame.at.stage,
                frame.value.number(),
                frame.sender
            )?,
        }
    }
    Ok(())
}

pub fn sizes(output: &mut impl Write, n: u64, t: u64) -> io::Result<()> {
    match Sizes::check(n, t) {
        Err(refusal) => writeln!(output, "n {n} t {t}: refused {}", refusal.number()),
        Ok(sizes) => writeln!(
            output,
            "n {n} t {t}: echo at {} admit at {} view at {}",
            sizes.echo_at(),
            sizes.admit_at(),
            sizes.view_at()
        ),
    }
}
