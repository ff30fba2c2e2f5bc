//! Trees that grow, and groups that go.

use super::super::Generator;
use crate::call::Call;
use crate::model::{DEEPEST, Model};

impl Generator {
    /// Downward from some group as far as it goes and one further, controllers on all the way, and
    /// a process at the bottom; then a limit above it, more often than not.
    pub(super) fn ladder(&mut self, sketch: &mut Model) {
        let mut bottom = if self.random.percent(50) { 0 } else { self.live_group(sketch) };
        let words =
            self.random.pick(&["+memory +pids +cpu", "+memory", "+io +pids", "+cpu +memory"]);
        self.reach(sketch, bottom, words);
        for _ in 0..DEEPEST + 2 {
            let Some(child) = self.child(sketch, 0, bottom) else { break };
            if sketch.group(child).is_none() {
                break;
            }
            self.control(sketch, bottom, words);
            bottom = child;
        }
        let user = self.user();
        let Some(process) = self.settler(sketch, user, bottom) else { return };
        match self.random.below(3) {
            0 => self.squeeze_memory_of(sketch, process),
            1 => self.squeeze_pids_of(sketch, process),
            _ => {}
        }
    }

    /// Many forks of one process.
    pub(super) fn crowd(&mut self, sketch: &mut Model) {
        let user = self.user();
        let group = self.live_group(sketch);
        let Some(parent) = self.settler(sketch, user, group) else { return };
        for _ in 0..self.random.pick(&[3, 3, 20, 20, 60, 260]) {
            let Some(process) = self.free_process(sketch) else { return };
            self.plan(sketch, Call::Fork { parent, process });
        }
    }

    /// Many groups under any others.
    pub(super) fn grove(&mut self, sketch: &mut Model) {
        for _ in 0..self.random.pick(&[3, 3, 12, 12, 40, 100]) {
            let parent = self.live_group(sketch);
            if self.child(sketch, 0, parent).is_none() {
                return;
            }
        }
    }

    /// Pages charged in a group, its processes gone one way or the other, the group removed from
    /// the bottom up, and the pages looked for above it.
    pub(super) fn uproot(&mut self, sketch: &mut Model) {
        let Some(group) = self.live_below_root(sketch) else { return };
        let parent = sketch.group(group).map_or(0, |kept| kept.parent);
        if let Some(process) = self.random.one_of(sketch.holds(group)) {
            let pages = self.random.within(1, 9);
            self.plan(sketch, Call::Charge { process, pages });
        }
        let mut inside: Vec<u64> =
            sketch.live_groups().filter(|&inner| sketch.chain(inner).contains(&group)).collect();
        inside.sort_by_key(|&inner| std::cmp::Reverse(sketch.depth(inner)));
        for inner in inside {
            let processes: Vec<u64> = sketch.holds(inner).collect();
            for process in processes {
                if self.random.percent(50) {
                    self.plan(sketch, Call::Exit { process });
                } else {
                    self.migrate(sketch, 0, process, 0);
                }
            }
            self.plan(sketch, Call::Remove { user: 0, group: inner });
        }
        let own = sketch.group(parent).map_or(0, |kept| kept.own_pages);
        self.plan(sketch, Call::Release { group: parent, pages: own + 1 });
        self.plan(sketch, Call::Release { group: parent, pages: own });
        self.plan(sketch, Call::Make { user: 0, parent, group });
    }
}
