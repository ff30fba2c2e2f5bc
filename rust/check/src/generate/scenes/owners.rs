//! Who may: groups of several users, and moves between them.

use super::super::Generator;
use crate::call::Call;
use crate::model::Model;

impl Generator {
    /// A group handed over to a user, who makes two below it and moves a process of his own between
    /// them, out of them, and into another's.
    pub(super) fn claim(&mut self, sketch: &mut Model) {
        let user = self.random.pick(&self.taste.users);
        let above = self.live_group(sketch);
        let Some(claim) = self.child(sketch, 0, above) else { return };
        self.plan(sketch, Call::HandOver { user: 0, group: claim, owner: user });
        let Some(left) = self.child(sketch, user, claim) else { return };
        let Some(right) = self.child(sketch, user, claim) else { return };
        let Some(process) = self.settler(sketch, user, left) else { return };
        self.migrate(sketch, user, process, right);
        let elsewhere = self.live_group(sketch);
        self.migrate(sketch, user, process, elsewhere);
        self.migrate(sketch, user, process, above);
        let other = self.user();
        self.migrate(sketch, other, process, left);
        if let Some(foreign) = self.settler(sketch, other, elsewhere) {
            self.migrate(sketch, user, foreign, left);
            self.migrate(sketch, user, foreign, right);
        }
        self.reach(sketch, left, "+memory");
        for group in [claim, left] {
            let (file, line) = (b"memory.max".to_vec(), b"max".to_vec());
            self.plan(sketch, Call::WriteSetting { user, group, file, line });
        }
        self.plan(sketch, Call::Remove { user, group: claim });
    }

    /// 003's picture: C0 and C1 and what is below them are one user's, their parent is not. The
    /// user moves a process from C10 to C00; then once more when the parent is the user's too.
    pub(super) fn picture(&mut self, sketch: &mut Model) {
        let user = self.random.pick(&self.taste.users);
        let Some(parent) = self.child(sketch, 0, 0) else { return };
        let mut below = vec![];
        for _ in 0..2 {
            let Some(group) = self.child(sketch, 0, parent) else { return };
            self.plan(sketch, Call::HandOver { user: 0, group, owner: user });
            let Some(inner) = self.child(sketch, user, group) else { return };
            below.push(inner);
        }
        let Some(process) = self.settler(sketch, user, below[1]) else { return };
        self.migrate(sketch, user, process, below[0]);
        self.plan(sketch, Call::HandOver { user: 0, group: parent, owner: user });
        self.migrate(sketch, user, process, below[0]);
    }

    /// Groups at three levels, most of them one user's, the others another's or user 0's; a process
    /// of each user; moves all over the groups, while some are handed over. Then a group and a
    /// process of users whose numbers differ in one bit.
    pub(super) fn lineage(&mut self, sketch: &mut Model) {
        let user = self.random.pick(&self.taste.users);
        let other = self.random.pick(&[user.wrapping_add(1), u32::MAX, u32::MAX - 1]);
        let owners = [user, user, other, 0];
        let mut groups = vec![self.live_group(sketch)];
        for place in [0, 1, 2, 2, 1, 5, 5] {
            let Some(group) = self.child(sketch, 0, groups[place]) else { return };
            if sketch.group(group).is_none() {
                return;
            }
            let owner = self.random.pick(&owners);
            self.plan(sketch, Call::HandOver { user: 0, group, owner });
            groups.push(group);
        }
        let mut processes = vec![];
        for user in [user, user, other] {
            let group = self.random.pick(&groups);
            processes.extend(self.settler(sketch, user, group));
        }
        for _ in 0..12 {
            let Some(process) = self.random.one_of(processes.iter().copied()) else { return };
            let group = self.random.pick(&groups);
            let mover = match sketch.process(process) {
                Some(kept) if self.random.percent(80) => kept.user,
                _ => self.random.pick(&owners),
            };
            self.migrate(sketch, mover, process, group);
            if self.random.percent(25) {
                let (group, owner) = (self.random.pick(&groups), self.random.pick(&owners));
                self.plan(sketch, Call::HandOver { user: 0, group, owner });
            }
        }
        let group = self.random.pick(&groups[1..]);
        self.migrate(sketch, 0, processes[0], group);
        for place in [0, 1] {
            let alias = user ^ (1 << ((2 * self.round() + place) % 32));
            self.plan(sketch, Call::HandOver { user: 0, group, owner: alias });
            self.migrate(sketch, alias, processes[0], group);
            self.migrate(sketch, user, processes[0], group);
        }
    }
}
