//! Devices that come and go, more of them than a group can hold; and lines of every form.

use super::super::Generator;
use super::super::devices::{DEVICES, all_max};
use super::stage::has_set;
use crate::call::Call;
use crate::compare::ROOM;
use crate::devices::forms;
use crate::model::{Device, Held, IO, KEYS, Model, listed_devices};

impl Generator {
    /// Six devices, one after the other, in a group that holds four: each with no pair or "max"
    /// alone, then with a figure. Devices that are held are written again. One goes, and there is
    /// room for another. What is shown is written back; then io may leave.
    pub(super) fn device_room(&mut self, sketch: &mut Model) {
        let Some(group) = self.io_group(sketch) else { return };
        let first = self.random.below(DEVICES.len() as u64) as usize;
        let devices: Vec<Device> =
            DEVICES.into_iter().cycle().skip(first).step_by(3).take(6).collect();
        for device in &devices {
            let idle = self.random.pick(&["", " rbps=max", " riops=max wbps=max"]);
            self.set_device(sketch, group, format!("{device}{idle}"));
            let (key, figure) = (self.random.pick(&KEYS), self.random.within(1, 9));
            self.set_device(sketch, group, format!("{device} {key}={figure}"));
        }
        for _ in 0..3 {
            let Some(Held { device, .. }) = self.held_device(sketch, group) else { return };
            let (key, figure) = (self.random.pick(&KEYS), self.random.pick(&["max", "1", "77"]));
            self.set_device(sketch, group, format!("{device} {key}={figure}"));
        }
        self.make_room(sketch, group);
        let line = self.drawn(format!("{} wbps=4503599627370496", devices[5]).into());
        self.set_device(sketch, group, line);
        let question = Call::Read { group, file: b"io.max".to_vec(), room: ROOM };
        let question = self.with_room(sketch, question);
        self.plan(sketch, question);
        self.write_back(sketch, group);
        if self.random.percent(40) {
            let parent = sketch.group(group).map_or(0, |kept| kept.parent);
            self.control(sketch, parent, "-io");
            self.control(sketch, parent, "+io");
        }
    }

    /// A device of the group goes, at once or key by key.
    fn make_room(&mut self, sketch: &mut Model, group: u64) {
        let Some(Held { device, .. }) = self.held_device(sketch, group) else { return };
        if self.random.percent(50) {
            return self.set_device(sketch, group, all_max(device));
        }
        for key in KEYS {
            self.set_device(sketch, group, format!("{device} {key}=max"));
        }
    }

    /// A line with its newline, one without, and all of them at once.
    fn write_back(&mut self, sketch: &mut Model, group: u64) {
        for ends in [true, false] {
            let Some(held) = self.held_device(sketch, group) else { return };
            let line = held.line();
            self.set_device(sketch, group, if ends { &line } else { line.trim_end() });
        }
        let held = sketch.group(group).map_or(vec![], |kept| kept.settings.io_max.clone());
        self.set_device(sketch, group, listed_devices(&held));
    }

    /// Lines of every form or of every kind, in turn.
    pub(super) fn device_lines(&mut self, sketch: &mut Model) {
        if self.round().is_multiple_of(2) {
            self.device_forms(sketch);
        } else {
            self.cross_devices(sketch);
        }
    }

    /// Some of all forms of a line, to a group that holds a device, or four.
    fn device_forms(&mut self, sketch: &mut Model) {
        let Some(group) = self.io_group(sketch) else { return };
        self.set_device(sketch, group, "8:16 rbps=5 riops=6");
        if self.random.percent(50) {
            for device in ["8:0", "10:0", "255:255"] {
                self.set_device(sketch, group, format!("{device} wbps=7"));
            }
        }
        for line in self.rows(&forms()) {
            self.set_device(sketch, group, line);
        }
    }

    /// Lines of any kind by any user, more often to a group that is full.
    fn cross_devices(&mut self, sketch: &mut Model) {
        self.furnish(sketch);
        let Some(full) = self.io_group(sketch) else { return };
        for major in 1..=4 {
            self.set_device(sketch, full, format!("{major}:{major} rbps={major}"));
        }
        for _ in 0..20 {
            let group = if self.random.percent(60) { full } else { self.any_group(sketch) };
            let user = if self.random.percent(60) { 0 } else { self.any_user(sketch, group) };
            let line = self.any_device_line(sketch, group);
            self.plan(sketch, Call::WriteSetting { user, group, file: b"io.max".to_vec(), line });
        }
    }

    /// A group with io on and no set, which may hold devices already.
    fn io_group(&mut self, sketch: &mut Model) -> Option<u64> {
        let is_fit = |&group: &u64| sketch.is_on(IO, group) && !has_set(sketch, group);
        let fit = self.random.one_of(sketch.live_groups().filter(is_fit));
        fit.filter(|_| self.random.percent(50)).or_else(|| {
            let group = self.child(sketch, 0, 0)?;
            self.reach(sketch, group, "+io");
            Some(group)
        })
    }

    /// Writes a line to io.max.
    pub(super) fn set_device(&mut self, sketch: &mut Model, group: u64, line: impl AsRef<[u8]>) {
        let (file, line) = (b"io.max".to_vec(), line.as_ref().to_vec());
        self.plan(sketch, Call::WriteSetting { user: 0, group, file, line });
    }
}
