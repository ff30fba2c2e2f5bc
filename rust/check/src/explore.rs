//! Seeds, one after the other: a list of calls for each, compared as it is made up.

use std::ops::Range;
use std::time::Duration;

use crate::call::Call;
use crate::calls::Calls;
use crate::compare::{Difference, Pair, first_difference};
pub use crate::counts::Counts;
use crate::crossed;
use crate::full;
use crate::generate::Generator;
use crate::heap;
use crate::model::Model;
use crate::shrink::shrink;

/// All is read and what no file shows is asked for after every so many calls, and at the end of a
/// list; then the kinds of what files do show are counted too. The second is for large trees.
const PROBE_EVERY: usize = 16;
const SELDOM: usize = 128;

/// How many releases of own pages there are then, but for the end of a list.
const RELEASES: u64 = 40;

/// How many seeds come before the lists that have none.
const FEW_SEEDS: u64 = 10;

/// How long to look for a shorter list.
const PATIENCE: Duration = Duration::from_secs(30);

/// A list of calls that ends where something differs.
pub struct Found {
    /// The seed, or the name of a list that has none.
    pub name: String,
    pub machine: u64,
    pub calls: Vec<Call>,
    pub difference: Box<Difference>,
}

/// Compares the lists of all seeds and those that have none with a host that is made by `fresh` from
/// the machine size. Answers the first list after which something differs. A few seeds come first, as
/// their lists are short; then those without a seed, which come to what others seldom do.
pub fn search<H: Calls>(
    seeds: Range<u64>,
    length: usize,
    fresh: impl Fn(u64) -> H,
    counts: &mut Counts,
) -> Option<Found> {
    let few = seeds.end.min(seeds.start.saturating_add(FEW_SEEDS));
    let of_seeds = |mut seeds: Range<u64>, counts: &mut Counts| {
        seeds.find_map(|seed| explore(seed, length, &fresh, counts))
    };
    of_seeds(seeds.start..few, counts)
        .or_else(|| given("crossed", crossed::MACHINE, crossed::calls(), &fresh, counts))
        .or_else(|| given("heap", heap::MACHINE, heap::calls(), &fresh, counts))
        .or_else(|| given("full", full::MACHINE, full::calls(), &fresh, counts))
        .or_else(|| of_seeds(few..seeds.end, counts))
}

fn given<H: Calls>(
    name: &str,
    machine: u64,
    calls: Vec<Call>,
    fresh: impl Fn(u64) -> H,
    counts: &mut Counts,
) -> Option<Found> {
    let length = calls.len();
    let mut calls = calls.into_iter();
    follow(name, machine, fresh(machine), length, |_| calls.next().expect("so many"), counts)
}

/// Makes up and compares a list of calls. Answers the list if something differs.
pub fn explore<H: Calls>(
    seed: u64,
    length: usize,
    fresh: impl Fn(u64) -> H,
    counts: &mut Counts,
) -> Option<Found> {
    let mut generator = Generator::new(seed);
    let (machine, length) = (generator.machine(), generator.length(length));
    let (name, host) = (format!("seed_{seed}"), fresh(machine));
    follow(&name, machine, host, length, |model| generator.next(model), counts)
}

fn follow<H: Calls>(
    name: &str,
    machine: u64,
    host: H,
    length: usize,
    mut next: impl FnMut(&Model) -> Call,
    counts: &mut Counts,
) -> Option<Found> {
    let mut pair = Pair::beside(machine, host);
    let mut calls = vec![];
    counts.begin();
    let found = |calls, difference| Some(Found { name: name.into(), machine, calls, difference });
    for place in 1..=length {
        let call = next(pair.model());
        calls.push(call.clone());
        counts.call(pair.model(), &call);
        if let Err(difference) = pair.step(&call) {
            return found(calls, difference);
        }
        let every = if pair.is_large() { SELDOM } else { PROBE_EVERY };
        if place % every == 0 || place == length {
            if let Err(difference) = pair.survey() {
                return found(calls, difference);
            }
            counts.values(pair.model());
            let probes = pair.probes(if place == length { u64::MAX } else { RELEASES });
            if let Err((last, difference)) = pair.clone().answer_all(&probes) {
                calls.extend_from_slice(&probes[..=last]);
                return found(calls, difference);
            }
        }
    }
    None
}

impl Found {
    /// The shortest list that still shows a difference, not always the same one.
    pub fn shortest<H: Calls>(self, fresh: impl Fn(u64) -> H) -> Found {
        self.shortest_within(PATIENCE, fresh)
    }

    /// The same for those who cannot wait.
    pub fn shortest_within<H: Calls>(self, patience: Duration, fresh: impl Fn(u64) -> H) -> Found {
        let Found { name, machine, calls, difference } = self;
        let rerun = |calls: &[Call]| first_difference(machine, calls, fresh(machine));
        let calls = shrink(calls, patience, |calls| rerun(calls).map(|(place, _)| place + 1));
        let difference = rerun(&calls).map_or(difference, |(_, difference)| difference);
        Found { name, machine, calls, difference }
    }

    /// The list as a test that can be pasted into `tests/lists.rs`.
    pub fn as_test(&self) -> String {
        let mut text = format!("#[test]\nfn {}() {{\n", self.name);
        text += &format!("    agree::<Linked>({}, &[\n", self.machine);
        for call in &self.calls {
            text += &format!("        {call},\n");
        }
        text += "    ]);\n}\n";
        text
    }
}
