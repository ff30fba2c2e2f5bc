//! How often a run came to each answer of each call, to each pair of checks that both hold, and to
//! each kind of what is read; and which of them it never came to.

use std::collections::{BTreeMap, BTreeSet};
use std::fmt;

use crate::call::Call;
use crate::checks::{Check, TABLE, besides, never, with};
use crate::kinds::{self, Freed, KINDS, Kind};
use crate::model::Model;

#[derive(Default)]
pub struct Counts {
    /// By the check that refused the call, or none.
    calls: BTreeMap<(&'static str, Option<&'static Check>), u64>,
    /// Those whose order shows.
    pairs: BTreeMap<(&'static Check, &'static Check), u64>,
    /// Any two that held in one call.
    together: BTreeSet<(&'static Check, &'static Check)>,
    kinds: BTreeMap<Kind, u64>,
    /// What the present list has freed.
    freed: Freed,
}

impl Counts {
    pub fn new() -> Counts {
        Counts::default()
    }

    /// Begins another list.
    pub fn begin(&mut self) {
        self.freed = Freed::default();
    }

    /// Counts a call that the model is about to answer: which check refuses it, and which hold
    /// besides.
    pub fn call(&mut self, model: &Model, call: &Call) {
        let held = model.held(call);
        *self.calls.entry((call.name(), held.first().copied())).or_default() += 1;
        for pair in besides(&held) {
            *self.pairs.entry(pair).or_default() += 1;
        }
        for (place, first) in held.iter().enumerate() {
            self.together.extend(held[place + 1..].iter().map(|second| (*first, *second)));
        }
        let mut kinds = kinds::of_call(model, call, &held);
        kinds.extend(self.freed.follow(model, call, &held));
        for kind in kinds {
            *self.kinds.entry(kind).or_default() += 1;
        }
    }

    /// Counts the kinds of all that can be read.
    pub fn values(&mut self, model: &Model) {
        for kind in kinds::values(model) {
            *self.kinds.entry(kind).or_default() += 1;
        }
    }

    pub fn all(&self) -> u64 {
        self.calls.values().sum()
    }

    pub fn refused(&self) -> u64 {
        self.calls.iter().filter(|((_, check), _)| check.is_some()).map(|(_, count)| count).sum()
    }

    fn successes(&self, call: &'static str) -> u64 {
        self.calls.get(&(call, None)).copied().unwrap_or(0)
    }

    fn refusals(&self, check: &'static Check) -> u64 {
        self.calls.get(&(check.call(), Some(check))).copied().unwrap_or(0)
    }

    fn both(&self, first: &'static Check, second: &'static Check) -> u64 {
        self.pairs.get(&(first, second)).copied().unwrap_or(0)
    }

    fn of_kind(&self, what: &'static str, name: &'static str) -> u64 {
        self.kinds.get(&(what, name)).copied().unwrap_or(0)
    }

    /// What the run never came to; and pairs of checks that never hold together, if they did.
    pub fn missing(&self) -> Vec<String> {
        let mut missing = vec![];
        for &(call, checks) in TABLE {
            if self.successes(call) == 0 {
                missing.push(format!("{call}: success"));
            }
            for check in checks {
                if self.refusals(check) == 0 {
                    missing.push(format!("{call}: {check}"));
                }
                for second in with(check).filter(|second| self.both(check, second) == 0) {
                    missing.push(format!("{call}: {check}, and with it {second}"));
                }
            }
        }
        for &(what, names) in KINDS {
            for name in names.iter().filter(|name| self.of_kind(what, name) == 0) {
                missing.push(format!("{what}: {name}"));
            }
        }
        for (first, second) in &self.together {
            if let Some(why) = never(first, second) {
                let call = first.call();
                missing.push(format!("{call}: {first} held with {second}, yet {why}"));
            }
        }
        missing
    }
}

/// A line for each check, with how many others can hold besides and the rarest of them; and one for
/// each thing that is read.
impl fmt::Display for Counts {
    fn fmt(&self, f: &mut fmt::Formatter<'_>) -> fmt::Result {
        for &(call, checks) in TABLE {
            writeln!(f, "{call}: {} succeeded", self.successes(call))?;
            for check in checks {
                write!(f, "{:7}  {check}", self.refusals(check))?;
                if let Some(rarest) = with(check).min_by_key(|second| self.both(check, second)) {
                    let (all, times) = (with(check).count(), self.both(check, rarest));
                    write!(f, "; {all} more can hold, least often {rarest}: {times}")?;
                }
                writeln!(f)?;
            }
        }
        for &(what, names) in KINDS {
            let names: Vec<String> =
                names.iter().map(|name| format!("{} {name}", self.of_kind(what, name))).collect();
            writeln!(f, "{what}: {}", names.join("; "))?;
        }
        Ok(())
    }
}
