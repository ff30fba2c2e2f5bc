//! Pages by the million.

use super::super::Generator;
use crate::call::Call;
use crate::model::Model;

/// The most pages that a call takes.
const MOST: u64 = 1_048_576;

impl Generator {
    /// The largest charges, many of them, up to the brim of the machine where that is near; then a
    /// limit about there on some group of the chain, and below; then the largest releases, from the
    /// group or, where it could be removed, from its parent.
    pub(super) fn hoard(&mut self, sketch: &mut Model) {
        let below_root = |&process: &u64| sketch.process(process).is_some_and(|p| p.group != 0);
        let hoarder = self.random.one_of(sketch.live_processes().filter(below_root));
        let hoarder = hoarder.filter(|_| self.random.percent(50));
        let Some(process) = hoarder.or_else(|| self.newcomer(sketch)) else { return };
        let group = sketch.process(process).map_or(0, |kept| kept.group);
        self.reach(sketch, group, "+memory");
        for up in sketch.chain(group) {
            self.lift(sketch, up);
        }
        for _ in 0..self.random.pick(&[18, 18, 34]) {
            let room = sketch.machine().saturating_sub(sketch.usage(0));
            if room < MOST {
                break;
            }
            self.plan(sketch, Call::Charge { process, pages: MOST });
        }
        let room = sketch.machine().saturating_sub(sketch.usage(0));
        if room < MOST {
            for pages in [room + 1, room, 1] {
                self.plan(sketch, Call::Charge { process, pages });
            }
        }
        let chain = sketch.chain(group);
        for _ in 0..3 {
            let up = self.random.pick(&chain);
            let limit = match self.random.below(4) {
                0 => sketch.usage(up).saturating_sub(1),
                1 => sketch.usage(up) + MOST,
                2 => sketch.usage(up) + MOST - 1,
                _ => sketch.usage(up),
            };
            let odd = self.random.pick(&[0, 0, 1, 4095]);
            self.set(sketch, up, "memory.max", (limit << 12) + odd);
            for pages in [MOST, 1] {
                self.plan(sketch, Call::Charge { process, pages });
            }
            self.lift(sketch, up);
        }
        let parent = sketch.group(group).map_or(0, |kept| kept.parent);
        if self.random.percent(60) {
            self.migrate(sketch, 0, process, 0);
            self.plan(sketch, Call::Remove { user: 0, group });
        }
        let heir = if sketch.group(group).is_some() { group } else { parent };
        self.disperse(sketch, heir);
    }

    /// The largest releases while they last, or a few; then what is left, and one page more.
    fn disperse(&mut self, sketch: &mut Model, group: u64) {
        let own = |sketch: &Model| sketch.group(group).map_or(0, |kept| kept.own_pages);
        for _ in 0..self.random.pick(&[4, 8, 24]) {
            if own(sketch) < MOST {
                break;
            }
            self.plan(sketch, Call::Release { group, pages: MOST });
        }
        let own = own(sketch);
        for pages in [own + 1, own, 1] {
            self.plan(sketch, Call::Release { group, pages });
        }
    }

    fn newcomer(&mut self, sketch: &mut Model) -> Option<u64> {
        let user = self.user();
        let above = self.live_group(sketch);
        let group = self.child(sketch, 0, above)?;
        self.settler(sketch, user, group)
    }

    /// No memory limit any more, where there was one.
    fn lift(&mut self, sketch: &mut Model, group: u64) {
        if sketch.group(group).is_some_and(|kept| kept.settings.memory_max.is_some()) {
            let (file, line) = (b"memory.max".to_vec(), b"max".to_vec());
            self.plan(sketch, Call::WriteSetting { user: 0, group, file, line });
        }
    }
}
