//! Limits near what is in use, and below it.

use super::super::Generator;
use crate::call::Call;
use crate::model::Model;

impl Generator {
    pub(super) fn squeeze_memory(&mut self, sketch: &mut Model) {
        if let Some(process) = self.random.one_of(sketch.live_processes()) {
            self.squeeze_memory_of(sketch, process);
        }
    }

    pub(super) fn squeeze_pids(&mut self, sketch: &mut Model) {
        if let Some(parent) = self.random.one_of(sketch.live_processes()) {
            self.squeeze_pids_of(sketch, parent);
        }
    }

    /// A limit on some group of a process's chain, charges up to it and one past it, a limit below
    /// usage, releases and charges again.
    pub(super) fn squeeze_memory_of(&mut self, sketch: &mut Model, process: u64) {
        let group = sketch.process(process).map_or(0, |kept| kept.group);
        let chain = sketch.chain(group);
        self.reach(sketch, group, "+memory");
        let up = self.random.pick(&chain);
        let room = self.random.within(1, 12);
        let usage = sketch.usage(up);
        self.set(sketch, up, "memory.max", (usage + room) * 4096);
        let part = self.random.within(1, room);
        for pages in [part, room - part, 1, 1] {
            self.plan(sketch, Call::Charge { process, pages });
        }
        let usage = sketch.usage(up);
        self.set(sketch, up, "memory.max", usage.saturating_sub(room) * 4096);
        self.plan(sketch, Call::Charge { process, pages: 1 });
        for pages in [part, room + 1, 1] {
            self.plan(sketch, Call::Release { group, pages });
            self.plan(sketch, Call::Charge { process, pages: 1 });
        }
    }

    /// The same for processes; a move into a full group is not stopped.
    pub(super) fn squeeze_pids_of(&mut self, sketch: &mut Model, parent: u64) {
        let group = sketch.process(parent).map_or(0, |kept| kept.group);
        let chain = sketch.chain(group);
        self.reach(sketch, group, "+pids");
        let up = self.random.pick(&chain);
        let room = self.random.below(4);
        let population = sketch.population(up);
        self.set(sketch, up, "pids.max", population + room);
        for _ in 0..room + 2 {
            let Some(process) = self.free_process(sketch) else { return };
            self.plan(sketch, Call::Fork { parent, process });
        }
        let user = self.user();
        self.settler(sketch, user, group);
        let population = sketch.population(up);
        self.set(sketch, up, "pids.max", population.saturating_sub(2));
        let Some(process) = self.free_process(sketch) else { return };
        self.plan(sketch, Call::Fork { parent, process });
        self.plan(sketch, Call::Exit { process: parent });
        if let Some(sibling) = self.random.one_of(sketch.holds(group)) {
            self.plan(sketch, Call::Fork { parent: sibling, process });
        }
    }
}
