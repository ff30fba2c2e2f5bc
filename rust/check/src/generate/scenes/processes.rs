//! So many processes that counts and texts are at their ends.

use super::super::Generator;
use crate::call::Call;
use crate::model::{LAST_PROCESS, Model};

impl Generator {
    /// So many processes, in one group or in two below it, but all there can be in one, under a pids
    /// limit about there. Moves fill up what forks may not. Then the whole cgroup.procs, into a buffer
    /// that it fills and one byte less; and limits about that many with one process gone, collected and
    /// back.
    pub(super) fn house(&mut self, sketch: &mut Model, most: u64) {
        let Some(house) = self.child(sketch, 0, 0) else { return };
        self.control(sketch, 0, "+pids");
        let mut rooms = vec![house];
        if most < LAST_PROCESS && self.random.percent(25) {
            rooms = (0..2).filter_map(|_| self.child(sketch, 0, house)).collect();
        }
        let limit = self.random.pick(&[most - 2, most - 1, most - 1, most, most + 1]);
        self.set(sketch, house, "pids.max", limit);
        let user = self.user();
        let parents: Vec<u64> =
            rooms.iter().filter_map(|&room| self.settler(sketch, user, room)).collect();
        for _ in parents.len() as u64..most {
            let Some(process) = self.free_process(sketch) else { break };
            let parent = self.random.pick(&parents);
            self.plan(sketch, Call::Fork { parent, process });
            if sketch.process(process).is_none() {
                self.plan(sketch, Call::Admit { process, user });
                self.migrate(sketch, 0, process, rooms[0]);
            }
        }
        let length = sketch.holds(rooms[0]).map(|process| process.to_string().len() + 1).sum();
        for room in [length, length - 1, 0] {
            self.plan(sketch, Call::Read { group: rooms[0], file: b"cgroup.procs".into(), room });
        }
        for limit in [most - 1, most, most + 1] {
            self.set(sketch, house, "pids.max", limit);
            let Some(process) = self.random.one_of(sketch.live_processes()) else { return };
            if parents.contains(&process) {
                continue;
            }
            self.plan(sketch, Call::Fork { parent: parents[0], process });
            self.plan(sketch, Call::Exit { process });
            self.plan(sketch, Call::Fork { parent: parents[0], process });
            self.plan(sketch, Call::Collect { process });
            self.plan(sketch, Call::Fork { parent: parents[0], process });
            if sketch.process(process).is_none() {
                self.plan(sketch, Call::Admit { process, user });
                self.migrate(sketch, 0, process, rooms[0]);
            }
        }
    }
}
