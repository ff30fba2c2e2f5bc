//! Processes that have ended and were not collected, and groups removed around them.

use super::super::Generator;
use super::ALL;
use crate::call::Call;
use crate::compare::ROOM;
use crate::model::{DEEPEST, LAST_GROUP, LAST_PROCESS, Model};

impl Generator {
    /// Groups one below the other with processes in them. All end, in any order, and the groups are
    /// removed from the lowest up, some of them only; their numbers are tried between. The zombies are
    /// collected in any order, and the numbers made again where that can be.
    pub(super) fn burial(&mut self, sketch: &mut Model) {
        let mut groups = vec![self.live_group(sketch)];
        for _ in 0..self.random.pick(&[1, 2, 2, 3, 4, 6, DEEPEST]) {
            let Some(child) = self.child(sketch, 0, groups[groups.len() - 1]) else { break };
            if sketch.group(child).is_none() {
                break;
            }
            groups.push(child);
        }
        groups.remove(0);
        let mut zombies = vec![];
        for &group in &groups {
            for _ in 0..self.random.pick(&[0, 1, 1, 2]) {
                let user = self.user();
                zombies.extend(self.settler(sketch, user, group));
            }
        }
        if let Some(&lowest) = groups.last() {
            let user = self.user();
            zombies.extend(self.settler(sketch, user, lowest));
        }
        self.shuffle(&mut zombies);
        for &process in &zombies {
            self.plan(sketch, Call::Exit { process });
        }
        let stay = if self.random.percent(60) { 0 } else { self.random.below(3) as usize };
        for &group in groups.iter().skip(stay).rev() {
            self.plan(sketch, Call::Remove { user: 0, group });
            self.look_back(sketch, &groups, &zombies);
        }
        self.shuffle(&mut zombies);
        let (most, all) = if self.taste.has_many_zombies { (zombies.len(), 20) } else { (1, 60) };
        let left = if self.random.percent(all) { 0 } else { self.random.within(0, most as u64) };
        for process in zombies.into_iter().skip(left as usize) {
            self.plan(sketch, Call::Collect { process });
            self.look_back(sketch, &groups, &[process]);
            if self.random.percent(30) {
                let user = self.user();
                self.plan(sketch, Call::Admit { process, user });
            }
        }
    }

    /// A line, the number of a group tried somewhere else, and a call on it, each now and then.
    fn look_back(&mut self, sketch: &mut Model, groups: &[u64], zombies: &[u64]) {
        if let Some(process) = self.random.one_of(zombies.iter().copied())
            && self.random.percent(40)
        {
            let question = Call::Membership { process, room: ROOM };
            let question = self.with_room(sketch, question);
            self.plan(sketch, question);
        }
        let Some(group) = self.random.one_of(groups.iter().copied()) else { return };
        if self.random.percent(50) {
            let parent = self.live_group(sketch);
            let user = self.writer(sketch, parent);
            self.plan(sketch, Call::Make { user, parent, group });
        }
        if self.random.percent(20) {
            let call = self.on_group(sketch, group);
            self.plan(sketch, call);
        }
    }

    /// Any call on a group, live or not, with arguments that would do.
    fn on_group(&mut self, sketch: &Model, group: u64) -> Call {
        let user = 0;
        let process = self.random.one_of(sketch.live_processes()).unwrap_or(1);
        match self.random.below(8) {
            0 => {
                let new = self.free_group(sketch).unwrap_or(LAST_GROUP);
                Call::Make { user, parent: group, group: new }
            }
            1 => Call::Remove { user, group },
            2 => Call::HandOver { user, group, owner: self.user() },
            3 => Call::WriteProcs { user, group, line: process.to_string().into() },
            4 => Call::WriteSubtreeControl { user, group, line: vec![] },
            5 => Call::WriteSetting { user, group, file: b"pids.max".into(), line: b"9".into() },
            6 => Call::Release { group, pages: 1 },
            _ => Call::Read { group, file: b"cgroup.procs".into(), room: ROOM },
        }
    }

    /// A group under a pids limit whose processes end one after the other, while others take their
    /// room but not their numbers; then it takes a set, a move and another group, and goes.
    pub(super) fn uncounted(&mut self, sketch: &mut Model) {
        let above = self.live_group(sketch);
        let Some(group) = self.child(sketch, 0, above) else { return };
        self.reach(sketch, group, ALL);
        let user = self.user();
        let Some(parent) = self.settler(sketch, user, group) else { return };
        let limit = self.random.within(1, 4);
        self.set(sketch, group, "pids.max", limit);
        let mut ended = vec![];
        for _ in 0..self.random.within(3, 8) {
            let Some(process) = self.free_process(sketch) else { return };
            self.plan(sketch, Call::Fork { parent, process });
            let below: Vec<u64> = sketch.holds(group).filter(|&other| other != parent).collect();
            if let Some(process) = self.random.one_of(below.into_iter())
                && self.random.percent(70)
            {
                self.plan(sketch, Call::Exit { process });
                ended.push(process);
            }
            if let Some(process) = self.random.one_of(ended.iter().copied()) {
                let call = self.on_zombie(sketch, parent, process);
                self.plan(sketch, call);
            }
        }
        let rest: Vec<u64> = sketch.holds(group).collect();
        for process in rest {
            self.plan(sketch, Call::Exit { process });
            ended.push(process);
        }
        self.set(sketch, group, "pids.max", 0);
        self.control(sketch, group, "+memory");
        self.control(sketch, group, "-memory");
        if self.random.percent(50) {
            self.child(sketch, 0, group);
        }
        if let Some(process) = self.random.one_of(sketch.live_processes()) {
            self.migrate(sketch, 0, process, group);
            self.migrate(sketch, 0, process, 0);
        }
        self.plan(sketch, Call::Remove { user: 0, group });
        for process in ended {
            if self.random.percent(if self.taste.has_many_zombies { 20 } else { 60 }) {
                self.plan(sketch, Call::Collect { process });
            }
        }
    }

    /// Any call on a process that has ended, with arguments that would do if it had not.
    fn on_zombie(&mut self, sketch: &Model, live: u64, process: u64) -> Call {
        match self.random.below(9) {
            0 => Call::Admit { process, user: self.user() },
            1 => Call::Fork { parent: live, process },
            2 => {
                let new = self.free_process(sketch).unwrap_or(LAST_PROCESS);
                Call::Fork { parent: process, process: new }
            }
            3 => Call::Exit { process },
            4 => Call::Charge { process, pages: 1 },
            5 | 6 => {
                let (group, line) = (self.live_group(sketch), process.to_string().into());
                Call::WriteProcs { user: 0, group, line }
            }
            7 => Call::Membership { process, room: ROOM },
            _ => Call::Collect { process },
        }
    }

    /// Collections of numbers that are no zombie's, some as far from one as a narrow word goes.
    pub(super) fn no_zombies(&mut self, sketch: &mut Model) {
        let user = self.user();
        let group = self.live_group(sketch);
        let Some(process) = self.settler(sketch, user, group) else { return };
        self.plan(sketch, Call::Collect { process });
        self.plan(sketch, Call::Exit { process });
        for _ in 0..6 {
            let process = match self.random.below(4) {
                0 => self.free_process(sketch).unwrap_or(0),
                1 => self.random.one_of(sketch.live_processes()).unwrap_or(0),
                _ => self.edge(process),
            };
            self.plan(sketch, Call::Collect { process });
        }
        for parent in [0, LAST_PROCESS + 1] {
            self.plan(sketch, Call::Fork { parent, process });
        }
        for _ in 0..2 {
            self.plan(sketch, Call::Admit { process, user });
            self.plan(sketch, Call::Collect { process });
        }
    }

    fn shuffle(&mut self, numbers: &mut [u64]) {
        for place in (1..numbers.len()).rev() {
            numbers.swap(place, self.random.below(place as u64 + 1) as usize);
        }
    }
}
