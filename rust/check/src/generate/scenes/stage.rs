//! What the checks of the calls need to hold: furniture of the tree that stays.

use super::super::Generator;
use super::ALL;
use crate::call::Call;
use crate::model::{DEEPEST, Model, PIDS};

impl Generator {
    /// Makes what is not there yet: a zombie whose group was removed; a user's group that has a
    /// controller in its set, in a child's and in a grandchild's; beside the child a group with another
    /// user's process, which finds no room above for a page or a process.
    pub(super) fn furnish(&mut self, sketch: &mut Model) {
        self.bury_one(sketch);
        if stacked(sketch).next().is_some() && is_crowded(sketch) {
            return;
        }
        let owner = self.random.pick(&self.taste.users);
        let Some(top) = self.child(sketch, 0, 0) else { return };
        self.reach(sketch, top, ALL);
        self.plan(sketch, Call::HandOver { user: 0, group: top, owner });
        let name = self.random.pick(&["+cpu", "+io", "+memory", "+pids"]);
        let mut group = top;
        for _ in 0..3 {
            self.control(sketch, group, name);
            let Some(child) = self.child(sketch, owner, group) else { return };
            group = child;
        }
        let Some(beside) = self.child(sketch, owner, top) else { return };
        let user = self.user();
        let Some(process) = self.settler(sketch, user, beside) else { return };
        self.plan(sketch, Call::Charge { process, pages: 1 });
        let population = sketch.population(top);
        self.set(sketch, top, "pids.max", population);
        self.set(sketch, top, "memory.max", 0);
    }

    fn bury_one(&mut self, sketch: &mut Model) {
        if sketch.removed_groups().next().is_some() {
            return;
        }
        let (above, user) = (self.live_group(sketch), self.user());
        let Some(group) = self.child(sketch, 0, above) else { return };
        let Some(process) = self.settler(sketch, user, group) else { return };
        self.plan(sketch, Call::Exit { process });
        self.plan(sketch, Call::Remove { user: 0, group });
    }

    /// A group at the deepest level, under one of those that come nearest to it.
    pub(super) fn deepen(&mut self, sketch: &mut Model) {
        let deepest = sketch.live_groups().max_by_key(|&group| sketch.depth(group));
        let mut bottom = deepest.unwrap_or(0);
        while sketch.depth(bottom) < DEEPEST {
            let Some(child) = self.child(sketch, 0, bottom) else { return };
            if sketch.group(child).is_none() {
                return;
            }
            bottom = child;
        }
    }
}

/// Whether a group has a set.
pub(super) fn has_set(sketch: &Model, group: u64) -> bool {
    sketch.group(group).is_some_and(|kept| kept.set.contains(&true))
}

/// The groups below the root of which a child has a set.
pub(super) fn stacked(sketch: &Model) -> impl Iterator<Item = u64> {
    let above = |&group: &u64| sketch.children(group).any(|child| has_set(sketch, child));
    sketch.live_groups().filter(|&group| group != 0).filter(above)
}

/// Whether some process may not fork for want of room.
fn is_crowded(sketch: &Model) -> bool {
    let is_full = |&group: &u64| {
        let limit = sketch.group(group).and_then(|kept| kept.settings.pids_max);
        sketch.is_on(PIDS, group) && limit.is_some_and(|max| max <= sketch.population(group))
    };
    let mut groups = sketch.live_groups().filter(|&group| sketch.holds(group).next().is_some());
    groups.any(|group| sketch.chain(group).iter().any(is_full))
}
