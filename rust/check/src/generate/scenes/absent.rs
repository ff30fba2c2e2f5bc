//! Numbers that are not live: not yet, or not any more.

use super::super::Generator;
use super::super::arguments::SETTINGS;
use super::ALL;
use crate::call::Call;
use crate::compare::FILES;
use crate::model::{LAST_GROUP, LAST_PROCESS, Model};

impl Generator {
    /// A group that had everything and is removed; every call on its number, on one that never was
    /// live or on one above the last; then it is made again under another parent, by another user, where
    /// all its settings show. If a zombie is left of it, that is collected first, but not before it was
    /// tried.
    pub(super) fn afterlife(&mut self, sketch: &mut Model) {
        let above = self.live_group(sketch);
        let Some(group) = self.child(sketch, 0, above) else { return };
        let owner = self.random.pick(&self.taste.users);
        self.enrich(sketch, group, owner);
        self.plan(sketch, Call::Remove { user: 0, group });

        let Some(process) = self.random.one_of(sketch.live_processes()) else { return };
        let never = self.free_group(sketch).unwrap_or(group);
        let live = self.live_group(sketch);
        let absent = match self.random.below(10) {
            0..6 => group,
            6 | 7 => never,
            _ => self.random.pick(&[LAST_GROUP + 1, LAST_GROUP + 2, 512, 1 << 32, u64::MAX]),
        };
        for mut call in calls_on(absent, process, live) {
            let anyone = self.random.pick(&[0, owner, owner.wrapping_add(1)]);
            set_user(&mut call, anyone);
            self.plan(sketch, call);
        }
        for file in [self.random.pick(&SETTINGS), self.random.pick(&SETTINGS)] {
            let (file, line) = (file.to_vec(), b"2000".to_vec());
            self.plan(sketch, Call::WriteSetting { user: 0, group: absent, file, line });
        }
        let (file, room) = (self.random.pick(&FILES).to_vec(), self.random.pick(&[0, 64]));
        self.plan(sketch, Call::Read { group: absent, file, room });

        let parent = self.live_group(sketch);
        let user = self.writer(sketch, parent);
        self.plan(sketch, Call::Make { user, parent, group });
        if sketch.is_on_zombies_path(group) {
            let is_its = |zombie: &u64| sketch.path(*zombie).contains(&group);
            let zombies: Vec<u64> = sketch.zombies().filter(is_its).collect();
            for process in zombies {
                self.plan(sketch, Call::Collect { process });
            }
            self.plan(sketch, Call::Make { user, parent, group });
        }
        self.reach(sketch, group, ALL);
        self.plan(sketch, Call::Release { group, pages: 1 });
        self.plan(sketch, Call::WriteSubtreeControl { user: owner, group, line: vec![] });
    }

    /// Pages, an owner, settings and a set, and perhaps a zombie.
    fn enrich(&mut self, sketch: &mut Model, group: u64, owner: u32) {
        self.reach(sketch, group, ALL);
        if let Some(process) = self.settler(sketch, owner, group) {
            let pages = self.random.within(1, 9);
            self.plan(sketch, Call::Charge { process, pages });
            if self.random.percent(50) {
                self.migrate(sketch, 0, process, 0);
            } else {
                self.plan(sketch, Call::Exit { process });
            }
        }
        self.set(sketch, group, "memory.max", 40_960);
        self.set(sketch, group, "pids.max", 2);
        self.set(sketch, group, "cpu.weight", 9);
        self.set_device(sketch, group, "8:16 riops=5");
        let (file, line) = (b"cpu.max".to_vec(), b"5000 7000".to_vec());
        self.plan(sketch, Call::WriteSetting { user: 0, group, file, line });
        self.control(sketch, group, ALL);
        self.plan(sketch, Call::HandOver { user: 0, group, owner });
    }

    /// A process that has ended, that was collected too, or that never was; every call on its number,
    /// with the arguments that would do and with others; then it is there again, as another user's.
    pub(super) fn departed(&mut self, sketch: &mut Model) {
        let group = self.live_group(sketch);
        let owner = sketch.group(group).map_or(0, |kept| kept.owner);
        let Some(process) = self.settler(sketch, owner, group) else { return };
        self.plan(sketch, Call::Charge { process, pages: 1 });
        self.plan(sketch, Call::Exit { process });
        let Some(never) = self.free_process(sketch) else { return };
        let absent = match self.random.below(10) {
            0..4 => process,
            4..7 => {
                self.plan(sketch, Call::Collect { process });
                process
            }
            _ => never,
        };
        let live = self.random.one_of(sketch.live_processes()).unwrap_or(0);
        let free = self.free_process(sketch).unwrap_or(0);
        for new in [free, live, absent, 0, LAST_PROCESS + 1] {
            self.plan(sketch, Call::Fork { parent: absent, process: new });
        }
        for pages in [1, 0, 1_048_577] {
            self.plan(sketch, Call::Charge { process: absent, pages });
        }
        for room in [0, 64] {
            self.plan(sketch, Call::Membership { process: absent, room });
        }
        self.plan(sketch, Call::Exit { process: absent });
        for user in [0, owner, owner.wrapping_add(1)] {
            let group = self.any_group(sketch);
            self.migrate(sketch, user, absent, group);
            self.migrate(sketch, user, absent, 0);
        }
        let user = self.user();
        let parent = self.random.one_of(sketch.live_processes());
        let again = match parent.filter(|_| self.random.percent(50)) {
            Some(parent) => Call::Fork { parent, process },
            None => Call::Admit { process, user },
        };
        self.plan(sketch, again.clone());
        self.plan(sketch, Call::Collect { process });
        self.plan(sketch, again);
    }
}

/// Each call that takes a group, with arguments that are right otherwise, and with wrong ones.
fn calls_on(group: u64, process: u64, live: u64) -> Vec<Call> {
    let user = 0;
    let line = |text: &str| text.as_bytes().to_vec();
    vec![
        Call::Make { user, parent: group, group: live },
        Call::Make { user, parent: group, group },
        Call::Make { user, parent: group, group: LAST_GROUP + 1 },
        Call::Remove { user, group },
        Call::HandOver { user, group, owner: 7 },
        Call::WriteProcs { user, group, line: process.to_string().into() },
        Call::WriteProcs { user, group, line: line("x") },
        Call::WriteProcs { user, group, line: (LAST_PROCESS + 1).to_string().into() },
        Call::WriteProcs { user, group, line: line("5 6") },
        Call::WriteSubtreeControl { user, group, line: line("") },
        Call::WriteSubtreeControl { user, group, line: line("+memory") },
        Call::WriteSubtreeControl { user, group, line: line("x") },
        Call::WriteSubtreeControl { user, group, line: vec![b' '; 129] },
        Call::WriteSetting { user, group, file: line("memory.max"), line: line("x") },
        Call::WriteSetting { user, group, file: line("pids.max"), line: vec![b'0'; 129] },
        Call::WriteSetting { user, group, file: line("cpu.max"), line: line("max x") },
        Call::WriteSetting { user, group, file: line("cpu.max"), line: line("max 999") },
        Call::WriteSetting { user, group, file: line("io.max"), line: line("8:16 rbps=0") },
        Call::WriteSetting { user, group, file: line("io.max"), line: line("8:16 x") },
        Call::WriteSetting { user, group, file: line("io.max"), line: line("8:16 rbps=1 rbps=2") },
        Call::WriteSetting { user, group, file: line("memory"), line: line("1") },
        Call::Read { group, file: line("memory"), room: 0 },
        Call::Release { group, pages: 1 },
        Call::Release { group, pages: 0 },
        Call::Release { group, pages: 1_048_577 },
    ]
}

fn set_user(call: &mut Call, by: u32) {
    match call {
        Call::Make { user, .. }
        | Call::Remove { user, .. }
        | Call::HandOver { user, .. }
        | Call::WriteProcs { user, .. }
        | Call::WriteSubtreeControl { user, .. }
        | Call::WriteSetting { user, .. } => *user = by,
        _ => {}
    }
}
