//! How many cases of each function ended with each number.

use crate::answers::{expected, Answer};
use crate::call::{Call, NAMES};
use crate::core;
use crate::sides;
use crate::vectors::Entry;
use std::collections::{BTreeMap, BTreeSet};
use std::fmt;

/// Counts of compared cases, and the first that differs.
#[derive(Default)]
pub struct Tally {
    // For each function, how often each number came, with 0 for taken.
    counts: [BTreeMap<u8, u64>; NAMES.len()],
    /// The first case that differs, in words.
    pub differs: Option<String>,
}

impl Tally {
    /// Compares the core with what is expected of it, and counts the case. After the first
    /// difference nothing more is compared.
    pub fn compare(&mut self, call: &Call) {
        if self.differs.is_some() {
            return;
        }
        match expected(call) {
            Ok(answer) => self.hold(call, &answer),
            Err(why) => self.differs = Some(format!("{call}: {why}")),
        }
    }

    /// Compares the core with an answer that is known, and counts the case.
    pub fn hold(&mut self, call: &Call, answer: &Answer) {
        self.judge(call, answer.number, core::answer(call), answer);
    }

    /// Compares the core with a recorded answer, and counts the case.
    pub fn replay(&mut self, entry: &Entry) {
        let call = &entry.call;
        let ours = core::answer(call).map(|answer| sides::after(call, &answer));
        self.judge(call, entry.number(), ours, &entry.after);
    }

    fn judge<A: PartialEq + fmt::Display>(
        &mut self,
        call: &Call,
        number: u8,
        ours: Result<A, String>,
        expected: &A,
    ) {
        let differs = match ours {
            Ok(ours) if ours == *expected => {
                *self.counts[call.function()].entry(number).or_default() += 1;
                return;
            }
            Ok(ours) => format!("{call}\n  expected {expected}\n  got      {ours}"),
            Err(why) => format!("{call}: {why}"),
        };
        self.differs.get_or_insert(differs);
    }

    /// How many cases were compared and found equal.
    pub fn total(&self) -> u64 {
        self.counts.iter().flat_map(BTreeMap::values).sum()
    }

    /// The numbers that occurred.
    fn numbers(&self) -> BTreeSet<u8> {
        self.counts
            .iter()
            .flat_map(BTreeMap::keys)
            .copied()
            .collect()
    }
}

/// A row for each function, a column for each number that occurred.
impl fmt::Display for Tally {
    fn fmt(&self, f: &mut fmt::Formatter<'_>) -> fmt::Result {
        let numbers = self.numbers();
        write!(f, "{:<16}", "function")?;
        for number in &numbers {
            let title = match number {
                0 => "0 (taken)".to_string(),
                _ => number.to_string(),
            };
            write!(f, "{title:>12}")?;
        }
        writeln!(f, "{:>12}", "cases")?;
        for (name, row) in NAMES.iter().zip(&self.counts) {
            write!(f, "{name:<16}")?;
            for number in &numbers {
                write!(f, "{:>12}", row.get(number).unwrap_or(&0))?;
            }
            writeln!(f, "{:>12}", row.values().sum::<u64>())?;
        }
        Ok(())
    }
}
