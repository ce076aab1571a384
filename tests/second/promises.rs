//! What the rules promise of every run with at most t liars, checked on the cases.

use std::collections::{BTreeMap, BTreeSet};
use std::io::{self, Write};
use std::ops::Range;

use crate::cases;
use crate::frame::Value;
use crate::host::Standing;
use crate::replay::read_start;
use crate::table::{Done, Table};

/// Checks the cases that have at most t liars; true if some had and all kept the promises.
pub fn check(output: &mut impl Write, numbers: Range<u64>) -> io::Result<bool> {
    let (mut checked, mut failed) = (0, 0);
    for number in numbers {
        match check_case(&cases::make(number).bytes) {
            None => {}
            Some(broken_promises) => {
                checked += 1;
                failed += u64::from(!broken_promises.is_empty());
                for text in broken_promises {
                    writeln!(output, "case {number}: {text}")?;
                }
            }
        }
    }
    writeln!(
        output,
        "checked {checked} cases with at most t liars, {failed} broke a promise"
    )?;
    Ok(checked > 0 && failed == 0)
}

/// The promises a case breaks, or none if nothing is promised of it.
fn check_case(mut bytes: &[u8]) -> Option<Vec<String>> {
    let (sizes, starts) = read_start(&mut bytes).expect("memory can be read").ok()?;
    let liars = starts.iter().filter(|start| !start.honest).count();
    if liars > usize::from(sizes.t) {
        return None;
    }
    let mut table = Table::new(sizes, &starts);
    let mut sent: BTreeMap<(u8, u8), u32> = BTreeMap::new();
    for event in bytes.chunks(3) {
        if let Ok(Done::Turned { host, before, made }) = table.play(event) {
            if let Some(frame) = made.frame(before.at, host) {
                *sent.entry((host, frame.at.round)).or_default() += 1;
            }
        }
    }
    let proposals: BTreeSet<Value> = starts
        .iter()
        .filter(|start| start.honest)
        .map(|start| start.proposal)
        .collect();
    Some(broken_promises(&table, &proposals, &sent))
}

fn broken_promises(
    table: &Table,
    proposals: &BTreeSet<Value>,
    sent: &BTreeMap<(u8, u8), u32>,
) -> Vec<String> {
    let mut found = Vec::new();
    let decisions: BTreeSet<Value> = table
        .hosts
        .iter()
        .filter_map(|host| host.record.decision)
        .collect();
    if decisions.len() > 1 {
        found.push("two honest hosts decided differently".to_string());
    }
    if !decisions.is_subset(proposals) {
        found.push("a decision is no honest host's proposal".to_string());
    }
    if table
        .hosts
        .iter()
        .any(|host| host.record.standing == Standing::Broken)
    {
        found.push("a host is broken".to_string());
    }
    for ((host, round), count) in sent {
        if *count > 12 {
            found.push(format!(
                "host {host} broadcast {count} frames in round {round}"
            ));
        }
    }
    found
}
