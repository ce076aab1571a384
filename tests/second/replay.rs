//! Reads a run file and prints what the rules say is printed.

use std::io::{self, Read, Write};

use crate::coverage::Coverage;
use crate::file::{read_header, Sizes, Start};
use crate::host::{Record, Standing};
use crate::refusal::Refusal;
use crate::table::Table;

/// No event is read after this many.
const MOST_EVENTS: u32 = 4_294_967_295;

pub fn replay(
    input: &mut impl Read,
    output: &mut impl Write,
    coverage: &mut Coverage,
) -> io::Result<()> {
    let mut table = match read_start(input)? {
        Ok((sizes, starts)) => Table::new(sizes, &starts),
        Err(refusal) => {
            coverage.refusal(refusal);
            return writeln!(output, "refused {}", refusal.number());
        }
    };
    let (mut events, mut refused) = (0u32, 0u32);
    while events < MOST_EVENTS {
        let mut bytes = [0; 3];
        let length = read_up_to(input, &mut bytes)?;
        if length == 0 {
            break;
        }
        events += 1;
        let played = table.play(&bytes[..length]);
        coverage.event(&table, &played);
        if let Err(refusal) = played {
            refused += 1;
            writeln!(output, "event {events} refused {}", refusal.number())?;
            if refusal == Refusal::Incomplete {
                break;
            }
        }
    }
    for (number, host) in table.hosts.iter().enumerate() {
        print_host(output, number, &host.record)?;
    }
    writeln!(output, "events {events} refused {refused}")
}

/// What a whole file prints.
pub fn replay_bytes(mut bytes: &[u8], coverage: &mut Coverage) -> Vec<u8> {
    let mut printed = Vec::new();
    replay(&mut bytes, &mut printed, coverage).expect("memory takes every line");
    printed
}

/// The header and the host records, or the refusal of the first bad one.
pub fn read_start(input: &mut impl Read) -> io::Result<Result<(Sizes, Vec<Start>), Refusal>> {
    let mut header = [0; 2];
    let length = read_up_to(input, &mut header)?;
    let sizes = match read_header(&header[..length]) {
        Ok(sizes) => sizes,
        Err(refusal) => return Ok(Err(refusal)),
    };
    let mut starts = Vec::new();
    for _ in 0..sizes.n {
        let mut bytes = [0; 3];
        let length = read_up_to(input, &mut bytes)?;
        match Start::read(&bytes[..length]) {
            Ok(start) => starts.push(start),
            Err(refusal) => return Ok(Err(refusal)),
        }
    }
    Ok(Ok((sizes, starts)))
}

/// Fills the buffer as far as the input goes and says how far that was.
fn read_up_to(input: &mut impl Read, buffer: &mut [u8]) -> io::Result<usize> {
    let mut length = 0;
    while length < buffer.len() {
        match input.read(&mut buffer[length..]) {
            Ok(0) => break,
            Ok(count) => length += count,
            Err(error) if error.kind() == io::ErrorKind::Interrupted => {}
            Err(error) => return Err(error),
        }
    }
    Ok(length)
}

fn print_host(output: &mut impl Write, number: usize, record: &Record) -> io::Result<()> {
    let standing = match record.standing {
        Standing::Lying => return writeln!(output, "host {number} lying"),
        Standing::Honest => "honest",
        Standing::Finished => "finished",
        Standing::Broken => "broken",
    };
    let decided = match record.decision {
        Some(value) => value.number().to_string(),
        None => "-".to_string(),
    };
    writeln!(
        output,
        "host {number} {standing} round {} phase {} stage {} est {} decided {decided} sent {}",
        record.at.round,
        record.at.phase,
        record.at.stage,
        record.estimate.number(),
        record.sent
    )
}
