//! Short runs of calls that bring the tree to where the rules bite. A scene is planned on a copy of
//! the model; other calls may come between its calls, so it need not turn out as planned.

use super::Generator;
use crate::call::Call;
use crate::model::{CONTROLLERS, EMPTY, LAST_GROUP, LAST_PROCESS, Model};

mod absent;
mod bounds;
mod children;
mod controllers;
mod cross;
mod devices;
mod limits;
mod odd_bytes;
mod owners;
mod pages;
mod processes;
mod questions;
mod stage;
mod trees;
mod zombies;

/// The line that wants every controller.
const ALL: &str = "+cpu +io +memory +pids";

type Scene = fn(&mut Generator, &mut Model);

/// Scenes that come by dice.
const BY_DICE: [Scene; 12] = [
    Generator::ladder,
    Generator::crowd,
    Generator::grove,
    Generator::claim,
    Generator::picture,
    Generator::squeeze_memory,
    Generator::squeeze_pids,
    Generator::toggle,
    Generator::uproot,
    Generator::inner_process,
    Generator::tight_reads,
    Generator::no_zombies,
];

/// Scenes of seeds that are heavy in zombies.
const OF_ZOMBIES: [Scene; 5] = [
    Generator::burial,
    Generator::burial,
    Generator::uncounted,
    Generator::uproot,
    Generator::no_zombies,
];

/// Scenes that come one after the other. Their number has no factor in common with `TURNS`, so that
/// seeds begin at each of them.
const IN_TURN: [Scene; 21] = [
    Generator::cross_make,
    Generator::bounds,
    Generator::cross_control,
    Generator::lineage,
    Generator::cross_births,
    Generator::afterlife,
    Generator::burial,
    Generator::cross_settings,
    Generator::device_room,
    Generator::hoard,
    Generator::uncounted,
    Generator::cross_procs,
    Generator::odd_numbers,
    Generator::cross_groups,
    Generator::family,
    Generator::cross_pages,
    Generator::odd_controls,
    Generator::departed,
    Generator::device_lines,
    Generator::cross_reads,
    Generator::long_lines,
];

/// Whether the list of a seed is heavy in zombies: a tenth of all are.
pub(super) fn has_many_zombies(seed: u64) -> bool {
    seed % 10 == 4
}

/// Whether the list of a seed begins with every process live. Few do: they are long.
pub(super) fn has_full_house(seed: u64) -> bool {
    seed % 50 == 49
}

/// As many calls as the house takes.
pub(super) const FULL_HOUSE: usize = LAST_PROCESS as usize + 30;

impl Generator {
    /// The first scene of a list. One seed of twenty takes most of its calls for a house of a byte's
    /// worth of processes; not the first, for a fault that shows there is long to tell.
    pub(super) fn opening(&mut self, seed: u64, model: &Model) {
        let mut sketch = model.clone();
        if has_full_house(seed) {
            // A call between would take a number or a place.
            self.taste.steady = 100;
            self.house(&mut sketch, LAST_PROCESS);
        } else if has_many_zombies(seed) {
            self.burial(&mut sketch);
        } else if seed % 20 == 19 {
            self.house(&mut sketch, 256);
        } else if self.random.percent(80) {
            let words = self.random.pick(&[ALL, "+io +memory +pids", "+memory", "+pids"]);
            self.control(&mut sketch, 0, words);
        }
    }

    pub(super) fn scene(&mut self, model: &Model) {
        let scene = if self.taste.has_many_zombies && self.random.percent(80) {
            self.random.pick(&OF_ZOMBIES)
        } else if self.random.percent(50) {
            self.random.pick(&BY_DICE)
        } else {
            self.turn += 1;
            IN_TURN[(self.turn % IN_TURN.len() as u64) as usize]
        };
        scene(self, &mut model.clone());
    }

    /// How often each of the scenes that come in turn has come, as far as a seed can tell.
    fn round(&self) -> usize {
        self.turn as usize / IN_TURN.len()
    }

    /// The next rows of a table, so many that a run of seeds comes to all of them.
    fn rows<T: Clone>(&self, table: &[T]) -> Vec<T> {
        const ROWS: usize = 20;
        let first = self.round() * ROWS % table.len();
        table.iter().cycle().skip(first).take(ROWS).cloned().collect()
    }

    pub(super) fn plan(&mut self, sketch: &mut Model, call: Call) {
        call.on(sketch, 0);
        self.plan.push_back(call);
    }

    pub(super) fn control(&mut self, sketch: &mut Model, group: u64, line: &str) {
        let line = line.as_bytes().to_vec();
        self.plan(sketch, Call::WriteSubtreeControl { user: 0, group, line });
    }

    /// Writes a setting, mostly only where its controller is on.
    pub(super) fn set(&mut self, sketch: &mut Model, group: u64, file: &str, figure: u64) {
        let name = file.split('.').next();
        let controller = CONTROLLERS.iter().position(|&controller| Some(controller) == name);
        let is_on = controller.is_some_and(|controller| sketch.is_on(controller, group));
        if !is_on && self.random.percent(85) {
            return;
        }
        let line = figure.to_string().into_bytes();
        self.plan(sketch, Call::WriteSetting { user: 0, group, file: file.into(), line });
    }

    /// Turns controllers on in a group and above it, as far as the rules let.
    pub(super) fn reach(&mut self, sketch: &mut Model, group: u64, words: &str) {
        if sketch.group(group).is_none() {
            return;
        }
        for up in sketch.chain(group).into_iter().skip(1).rev() {
            let set = sketch.group(up).map_or(EMPTY, |kept| kept.set);
            let mut controllers = CONTROLLERS.iter().zip(set);
            if controllers.any(|(name, is_in)| words.contains(name) && !is_in) {
                self.control(sketch, up, words);
            }
        }
    }

    pub(super) fn migrate(&mut self, sketch: &mut Model, user: u32, process: u64, group: u64) {
        let line = process.to_string().into_bytes();
        self.plan(sketch, Call::WriteProcs { user, group, line });
    }

    pub(super) fn free_group(&mut self, sketch: &Model) -> Option<u64> {
        self.random.one_of((1..=LAST_GROUP).filter(|&group| sketch.is_unused(group)))
    }

    pub(super) fn free_process(&mut self, sketch: &Model) -> Option<u64> {
        self.random.one_of((1..=LAST_PROCESS).filter(|&process| sketch.is_free(process)))
    }

    pub(super) fn live_group(&mut self, sketch: &Model) -> u64 {
        self.random.one_of(sketch.live_groups()).unwrap_or(0)
    }

    pub(super) fn live_below_root(&mut self, sketch: &Model) -> Option<u64> {
        self.random.one_of(sketch.live_groups().filter(|&group| group != 0))
    }

    /// Makes a group under `parent` as `user`, if a number is free.
    pub(super) fn child(&mut self, sketch: &mut Model, user: u32, parent: u64) -> Option<u64> {
        let group = self.free_group(sketch)?;
        self.plan(sketch, Call::Make { user, parent, group });
        Some(group)
    }

    /// A new process of `user`, put into `group` by user 0, if a number is free.
    pub(super) fn settler(&mut self, sketch: &mut Model, user: u32, group: u64) -> Option<u64> {
        let process = self.free_process(sketch)?;
        self.plan(sketch, Call::Admit { process, user });
        self.migrate(sketch, 0, process, group);
        Some(process)
    }
}
