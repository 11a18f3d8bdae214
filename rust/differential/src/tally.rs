//! Comparisons, and how many there were.
use crate::ours::Told;
use oracle::form::{Cause, Form};
use std::collections::BTreeMap;
use std::fmt::Debug;

#[derive(Default)]
pub struct Tally {
    pub comparisons: u64,
    /// Those of the raw record with the typed one, which are not among the others.
    pub beside: u64,
    counts: BTreeMap<u32, u64>,
    broken: BTreeMap<Cause, u64>,
}

impl Tally {
    /// One comparison. What the case is about is said only where the two differ.
    pub fn same<T: PartialEq + Debug>(&mut self, ours: &T, theirs: &T, about: impl Fn() -> String) -> Result<(), String> {
        self.comparisons += 1;
        if ours == theirs {
            return Ok(());
        }
        Err(format!("{}\n  the library: {ours:?}\n  the other:   {theirs:?}", about()))
    }

    /// One comparison of the raw record with the typed one.
    pub fn beside<T: PartialEq + Debug>(&mut self, raw: &T, typed: &T, about: impl Fn() -> String) -> Result<(), String> {
        self.beside += 1;
        if raw == typed {
            return Ok(());
        }
        Err(format!("{}\n  the raw record:   {raw:?}\n  the typed record: {typed:?}", about()))
    }

    /// Counts an answer by its number.
    pub fn count(&mut self, told: &Told) {
        *self.counts.entry(told[0]).or_default() += 1;
    }

    /// Counts a slot that is in no good form by its cause.
    pub fn count_form(&mut self, form: &Form) {
        if let Form::Broken(_, cause) = form {
            *self.broken.entry(*cause).or_default() += 1;
        }
    }

    pub fn answers(&self) -> String {
        shown(&self.counts)
    }

    pub fn causes(&self) -> String {
        shown(&self.broken)
    }
}

fn shown<T: Debug>(counts: &BTreeMap<T, u64>) -> String {
    let cells: Vec<String> = counts.iter().map(|(what, count)| format!("{what:?}: {count}")).collect();
    cells.join(", ")
}
