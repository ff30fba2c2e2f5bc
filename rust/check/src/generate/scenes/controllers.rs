//! Controllers that join and leave.

use super::super::Generator;
use super::ALL;
use crate::call::Call;
use crate::model::{CONTROLLERS, CPU, Model};

impl Generator {
    /// Settings of a group, then its controllers off and on again in some way.
    pub(super) fn toggle(&mut self, sketch: &mut Model) {
        let Some(group) = self.live_below_root(sketch) else { return };
        let parent = sketch.group(group).map_or(0, |kept| kept.parent);
        self.reach(sketch, group, ALL);
        self.set(sketch, group, "memory.max", 12_288);
        self.set(sketch, group, "pids.max", 3);
        self.set(sketch, group, "cpu.weight", 7);
        if sketch.is_on(CPU, group) {
            let (file, line) = (b"cpu.max".to_vec(), b"2000 3000".to_vec());
            self.plan(sketch, Call::WriteSetting { user: 0, group, file, line });
        }
        self.set_device(sketch, group, "8:16 rbps=2097152 wiops=120");
        let name = self.random.pick(&CONTROLLERS);
        if self.random.percent(30) {
            self.control(sketch, group, &format!("+{name}"));
        }
        match self.random.below(4) {
            0 => self.control(sketch, parent, &format!("-{name} +{name}")),
            1 => self.control(sketch, parent, &format!("+{name} -{name}")),
            2 => self.control(sketch, parent, "-cpu -io -memory -pids"),
            _ => self.control(sketch, parent, &format!("-{name}")),
        }
        self.control(sketch, parent, ALL);
    }

    /// A process into a group with a set, and a set in a group with a process.
    pub(super) fn inner_process(&mut self, sketch: &mut Model) {
        let Some(group) = self.live_below_root(sketch) else { return };
        let user = self.user();
        self.reach(sketch, group, "+memory");
        self.settler(sketch, user, group);
        self.control(sketch, group, "+memory");
        self.control(sketch, group, "-memory");
        let Some(process) = self.random.one_of(sketch.holds(group)) else { return };
        self.migrate(sketch, 0, process, 0);
        self.control(sketch, group, "+memory");
        self.migrate(sketch, 0, process, group);
        self.control(sketch, group, "-memory");
        self.migrate(sketch, 0, process, group);
    }
}
