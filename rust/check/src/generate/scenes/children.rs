//! Many children with settings when a controller leaves.

use super::super::Generator;
use super::ALL;
use crate::call::Call;
use crate::model::{CONTROLLERS, Model};

impl Generator {
    /// Ten children and more with settings, and settings of another controller for a few of them
    /// and for a grandchild. A controller leaves, and joins again so that what is left of its
    /// settings shows; then the other, which a child's set keeps at first.
    pub(super) fn family(&mut self, sketch: &mut Model) {
        let above = if self.random.percent(70) { 0 } else { self.live_group(sketch) };
        let Some(parent) = self.child(sketch, 0, above) else { return };
        self.reach(sketch, parent, ALL);
        self.control(sketch, parent, ALL);
        let mut children = vec![];
        for _ in 0..self.random.within(10, 14) {
            children.extend(self.child(sketch, 0, parent));
        }
        let leaving = CONTROLLERS[self.round() % CONTROLLERS.len()];
        let other = self.random.pick(&CONTROLLERS);
        let Some(&eldest) = children.first() else { return };
        if other != leaving {
            self.control(sketch, eldest, &format!("+{other}"));
            if let Some(grandchild) = self.child(sketch, 0, eldest) {
                self.endow(sketch, grandchild, other);
            }
        }
        for &group in [parent].iter().chain(&children) {
            self.endow(sketch, group, leaving);
        }
        for &group in children.iter().take(2).chain(children.last()) {
            self.endow(sketch, group, other);
        }
        self.control(sketch, parent, &format!("-{leaving}"));
        self.control(sketch, parent, &format!("+{leaving}"));
        self.control(sketch, parent, &format!("-{other}"));
        self.control(sketch, eldest, &format!("-{other}"));
        self.control(sketch, parent, &format!("-{other}"));
        self.control(sketch, parent, ALL);
    }

    /// The controller's settings, other figures for each group.
    fn endow(&mut self, sketch: &mut Model, group: u64, controller: &str) {
        match controller {
            "cpu" => {
                self.set(sketch, group, "cpu.weight", 1 + group);
                if self.random.percent(50) {
                    let (file, line) = (b"cpu.max".to_vec(), format!("{} 3000", 2000 + group));
                    let line = line.into_bytes();
                    self.plan(sketch, Call::WriteSetting { user: 0, group, file, line });
                }
            }
            "io" => self.set_device(sketch, group, format!("{group}:16 wbps={group}")),
            "memory" => self.set(sketch, group, "memory.max", (64 + group) << 12),
            _ => self.set(sketch, group, "pids.max", 200 + group),
        }
    }
}
