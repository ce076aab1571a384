//! Counts what the replayed cases met, so that a comparison shows what it reached.

use std::collections::{BTreeMap, BTreeSet};
use std::fmt;

use crate::frame::Value;
use crate::host::{Move, Record, Standing};
use crate::refusal::Refusal;
use crate::table::{Done, Table};

#[derive(Default)]
pub struct Coverage {
    cases: BTreeMap<&'static str, u64>,
    events: u64,
    refusals: BTreeMap<u8, u64>,
    views: BTreeMap<(u8, u8, BTreeSet<Value>), u64>,
    deepest_round: u8,
    decisions: u64,
    second_decisions: u64,
    finished: u64,
    broken: BTreeMap<u8, u64>,
    silent_begins: u64,
    echoes_by_finished: u64,
    admits_by_finished: u64,
    highest_sent: u32,
}

impl Coverage {
    pub fn case(&mut self, kind: &'static str) {
        *self.cases.entry(kind).or_default() += 1;
    }

    pub fn refusal(&mut self, refusal: Refusal) {
        *self.refusals.entry(refusal.number()).or_default() += 1;
    }

    /// Takes note of one event; the table is the one after it.
    pub fn event(&mut self, table: &Table, played: &Result<Done, Refusal>) {
        self.events += 1;
        match played {
            Err(refusal) => self.refusal(*refusal),
            Ok(Done::Delivered { .. }) => {}
            Ok(Done::Turned { host, before, made }) => self.turn(before, table.record(*host), made),
        }
    }

    fn turn(&mut self, before: &Record, after: &Record, made: &Move) {
        let finished = before.standing == Standing::Finished;
        match made {
            Move::Echo(..) if finished => self.echoes_by_finished += 1,
            Move::Admit(..) if finished => self.admits_by_finished += 1,
            Move::Begin(None) => self.silent_begins += 1,
            Move::View(view) => self.view(before, after, view),
            _ => {}
        }
        self.deepest_round = self.deepest_round.max(after.at.round);
        self.highest_sent = self.highest_sent.max(after.sent);
    }

    fn view(&mut self, before: &Record, after: &Record, view: &BTreeSet<Value>) {
        let place = (before.at.phase, before.at.stage, view.clone());
        *self.views.entry(place).or_default() += 1;
        match after.standing {
            Standing::Finished => self.finished += 1,
            Standing::Broken => *self.broken.entry(before.at.phase).or_default() += 1,
            _ => {}
        }
        let one_bit = view.len() == 1 && !view.contains(&Value::Neither);
        if before.at.phase == 2 && before.at.stage == 1 && one_bit {
            match before.decision {
                None => self.decisions += 1,
                Some(_) => self.second_decisions += 1,
            }
        }
    }

    fn views_in(&self, phase: u8, stage: u8, values: &[Value]) -> u64 {
        let view: BTreeSet<Value> = values.iter().copied().collect();
        self.views.get(&(phase, stage, view)).copied().unwrap_or(0)
    }
}

fn list<K: fmt::Display>(counts: &BTreeMap<K, u64>, before: &str) -> String {
    let parts: Vec<String> = counts
        .iter()
        .map(|(key, count)| format!("{before}{key}: {count}"))
        .collect();
    if parts.is_empty() {
        "none".to_string()
    } else {
        parts.join(", ")
    }
}

impl fmt::Display for Coverage {
    fn fmt(&self, f: &mut fmt::Formatter) -> fmt::Result {
        use Value::{Neither, One, Zero};
        let neither_with_bit =
            self.views_in(2, 1, &[Zero, Neither]) + self.views_in(2, 1, &[One, Neither]);
        writeln!(f, "cases of each kind: {}", list(&self.cases, ""))?;
        writeln!(
            f,
            "events: {}; refusals by number: {}",
            self.events,
            list(&self.refusals, "")
        )?;
        writeln!(
            f,
            "deepest round {}, decisions {}, deciding views of a host that had decided {}",
            self.deepest_round, self.decisions, self.second_decisions
        )?;
        writeln!(
            f,
            "hosts finished {}, hosts broken by {}",
            self.finished,
            list(&self.broken, "phase ")
        )?;
        writeln!(
            f,
            "views of only neither: phase 1 {}, phase 2 {}; of a bit and neither in phase 2: {}",
            self.views_in(1, 1, &[Neither]),
            self.views_in(2, 1, &[Neither]),
            neither_with_bit
        )?;
        write!(
            f,
            "begins after an echo {}, finished hosts' echoes {} and admits {}, highest sent count {}",
            self.silent_begins, self.echoes_by_finished, self.admits_by_finished, self.highest_sent
        )
    }
}
