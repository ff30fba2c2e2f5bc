//! Calls with every argument of any kind: each kind of number, user, line and buffer about as often
//! as any other, so that two checks of a call hold at once about as often as one does.

use super::super::Generator;
use super::super::arguments::FIGURES;
use super::stage::{has_set, stacked};
use crate::call::Call;
use crate::compare::{FILES, ROOM};
use crate::model::{CONTROLLERS, DEEPEST, LAST_GROUP, LAST_PROCESS, Model};

/// How many calls of a kind a scene makes.
const CALLS: usize = 24;

impl Generator {
    pub(super) fn cross_make(&mut self, sketch: &mut Model) {
        self.furnish(sketch);
        self.deepen(sketch);
        for _ in 0..CALLS {
            let parent = self.any_group(sketch);
            let free = self.free_group(sketch);
            let removed = self.random.one_of(sketch.removed_groups());
            let group = match (free, removed) {
                (_, Some(group)) if self.random.percent(25) => group,
                (Some(group), _) if self.random.percent(40) => group,
                _ => self.any_group(sketch),
            };
            let user = self.any_user(sketch, parent);
            self.plan(sketch, Call::Make { user, parent, group });
        }
    }

    pub(super) fn cross_groups(&mut self, sketch: &mut Model) {
        self.furnish(sketch);
        for _ in 0..CALLS {
            let group = self.any_group(sketch);
            let user = self.any_user(sketch, group);
            let owner = self.user();
            let call = match self.random.below(2) {
                0 => Call::HandOver { user, group, owner },
                _ => Call::Remove { user, group },
            };
            self.plan(sketch, call);
        }
    }

    pub(super) fn cross_procs(&mut self, sketch: &mut Model) {
        self.furnish(sketch);
        for _ in 0..CALLS {
            let is_owned = |&g: &u64| sketch.group(g).is_some_and(|kept| kept.owner != 0);
            let owned = sketch.live_groups().filter(|&group| has_set(sketch, group));
            let group = match self.random.one_of(owned.filter(is_owned)) {
                Some(group) if self.random.percent(15) => group,
                _ => self.any_group(sketch),
            };
            let process = self.any_process(sketch);
            let user = match (self.random.below(3), sketch.process(process), sketch.group(group)) {
                (0, Some(kept), _) => kept.user,
                (1, _, Some(kept)) => kept.owner,
                _ => self.any_user(sketch, group),
            };
            let line = match self.random.below(10) {
                0 => self.malformed_word(),
                1 => format!("{process} {process}").into(),
                2 => format!("{process:<129}").into(),
                3 => format!("{process:0>129}").into(),
                4 => self.random.pick(&["", " ", "\n"]).into(),
                5 => self.random.pick(&["0", "000\n"]).into(),
                _ => process.to_string().into(),
            };
            self.plan(sketch, Call::WriteProcs { user, group, line });
        }
    }

    pub(super) fn cross_control(&mut self, sketch: &mut Model) {
        self.furnish(sketch);
        for _ in 0..CALLS {
            let group = match self.random.one_of(stacked(sketch)) {
                Some(group) if self.random.percent(30) => group,
                _ => self.any_group(sketch),
            };
            let user = self.any_user(sketch, group);
            let line = self.any_control_line(sketch, group);
            self.plan(sketch, Call::WriteSubtreeControl { user, group, line });
        }
    }

    pub(super) fn cross_settings(&mut self, sketch: &mut Model) {
        self.furnish(sketch);
        for _ in 0..CALLS {
            let group = self.any_group(sketch);
            let file = self.any_setting(sketch, group);
            let user = if self.random.percent(25) { 0 } else { self.any_user(sketch, group) };
            let line = self.any_setting_line(&file);
            self.plan(sketch, Call::WriteSetting { user, group, file, line });
        }
    }

    pub(super) fn cross_births(&mut self, sketch: &mut Model) {
        self.furnish(sketch);
        for _ in 0..CALLS {
            let process = self.any_process(sketch);
            let user = self.user();
            let call = match self.random.below(9) {
                0 => Call::Admit { process, user },
                1 => Call::Exit { process },
                2 => Call::Collect { process },
                _ => Call::Fork { parent: self.any_process(sketch), process },
            };
            self.plan(sketch, call);
        }
    }

    pub(super) fn cross_pages(&mut self, sketch: &mut Model) {
        self.furnish(sketch);
        for _ in 0..CALLS {
            let group = self.any_group(sketch);
            let own = sketch.group(group).map_or(0, |kept| kept.own_pages);
            let wide = [1_048_577, 1 << 32, (1 << 32) + 1, 1 << 52, u64::MAX];
            let pages = match self.random.below(6) {
                0 => 0,
                1 | 2 => self.random.pick(&wide),
                3 => self.random.pick(&[1, 1_048_575, 1_048_576]),
                _ => own + self.random.below(2),
            };
            let call = match self.random.below(2) {
                0 => Call::Release { group, pages },
                _ => Call::Charge { process: self.any_process(sketch), pages },
            };
            self.plan(sketch, call);
        }
    }

    pub(super) fn cross_reads(&mut self, sketch: &mut Model) {
        self.furnish(sketch);
        for _ in 0..CALLS {
            let group = self.any_group(sketch);
            let question = if self.random.percent(70) {
                let file = match self.random.below(6) {
                    0 => self.odd_file(),
                    _ => self.random.pick(&FILES).to_vec(),
                };
                Call::Read { group, file, room: ROOM }
            } else {
                Call::Membership { process: self.any_process(sketch), room: ROOM }
            };
            let question = self.with_room(sketch, question);
            self.plan(sketch, question);
        }
    }
}

// Arguments.
impl Generator {
    /// Above the last, not live, removed but on a zombie's path, the root, at the deepest level, with a
    /// set, with a child that has one, with a process, with a child, or any that is live.
    pub(super) fn any_group(&mut self, sketch: &Model) -> u64 {
        let below_root = sketch.live_groups().filter(|&group| group != 0);
        let of_kind = match self.random.below(10) {
            0 => {
                let (next, wide) = (LAST_GROUP + 1, 1 << 32);
                Some(self.random.pick(&[next, next, next + 1, 512, 1024, wide, 1 << 63, u64::MAX]))
            }
            1 if self.random.percent(40) => self.random.one_of(sketch.removed_groups()),
            1 => self.free_group(sketch),
            2 => Some(0),
            3 => self.random.one_of(below_root.filter(|&group| sketch.depth(group) == DEEPEST)),
            4 => self.random.one_of(below_root.filter(|&group| has_set(sketch, group))),
            5 => self.random.one_of(stacked(sketch)),
            6 | 7 => self.random.one_of(below_root.filter(|&g| sketch.holds(g).next().is_some())),
            8 => self.random.one_of(below_root.filter(|&g| sketch.children(g).next().is_some())),
            _ => None,
        };
        of_kind.unwrap_or_else(|| self.live_group(sketch))
    }

    /// Out of range, free, a zombie, below the root, or any that is live.
    pub(super) fn any_process(&mut self, sketch: &Model) -> u64 {
        let place = |process: u64| sketch.process(process).map_or(0, |kept| kept.group);
        let of_kind = match self.random.below(7) {
            0 => Some(self.random.pick(&[
                0,
                0,
                0,
                0,
                LAST_PROCESS + 1,
                LAST_PROCESS + 2,
                2_048,
                1 << 32,
                (1 << 32) + 1,
                u64::MAX,
            ])),
            1 if self.random.percent(60) => self.random.one_of(sketch.zombies()),
            1 => self.free_process(sketch),
            2..5 => {
                self.random.one_of(sketch.live_processes().filter(|&process| place(process) != 0))
            }
            _ => None,
        };
        of_kind.or_else(|| self.random.one_of(sketch.live_processes())).unwrap_or(1)
    }

    /// User 0, an owner, one that a narrow word would take for an owner, or anyone.
    pub(super) fn any_user(&mut self, sketch: &Model, group: u64) -> u32 {
        let owner_of = |group: u64| sketch.group(group).map_or(0, |kept| kept.owner);
        match self.random.below(6) {
            0 => 0,
            1 => owner_of(group),
            2 => owner_of(sketch.group(group).map_or(0, |kept| kept.parent)),
            3 => owner_of(group) ^ (1 << self.random.below(32)),
            _ => self.user(),
        }
    }

    /// One to three words: wrong ones, ones that leave where a child has them, ones that are not
    /// available, and any.
    fn any_control_line(&mut self, sketch: &Model, group: u64) -> Vec<u8> {
        let in_a_child = |&k: &u64| {
            let mut sets = sketch.children(group).filter_map(|child| sketch.group(child));
            sets.any(|kept| kept.set[k as usize])
        };
        let is_missing =
            |&k: &u64| sketch.group(group).is_some() && !sketch.is_available(k as usize, group);
        let mut words = vec![];
        for _ in 0..self.random.within(1, 3) {
            let any = self.random.below(4);
            let (sign, controller) = match self.random.below(6) {
                0 => {
                    words.push(self.bad_control_word());
                    continue;
                }
                1 | 2 => ('-', self.random.one_of((0..4).filter(in_a_child)).unwrap_or(any)),
                3 => ('+', self.random.one_of((0..4).filter(is_missing)).unwrap_or(any)),
                4 => ('-', any),
                _ => ('+', any),
            };
            words.push(format!("{sign}{}", CONTROLLERS[controller as usize]).into());
        }
        let mut line = words.join(&b' ');
        if self.random.percent(20) {
            line.resize(129, b' ');
        }
        line
    }

    /// A setting, more often one that is on there; now and then a file that is none.
    fn any_setting(&mut self, sketch: &Model, group: u64) -> Vec<u8> {
        let is_on = |file: &&[u8]| {
            let name = file.split(|&byte| byte == b'.').next();
            let controller = CONTROLLERS.iter().position(|c| Some(c.as_bytes()) == name);
            sketch.group(group).is_some() && controller.is_some_and(|k| sketch.is_on(k, group))
        };
        let on: Vec<&[u8]> = FIGURES.into_iter().filter(is_on).collect();
        match self.random.below(9) {
            0 => self.random.pick(&FILES).to_vec(),
            1 => self.odd_file(),
            2 => b"cpu.max".to_vec(),
            3..5 => self.random.pick(&FIGURES).to_vec(),
            _ if on.is_empty() => self.random.pick(&FIGURES).to_vec(),
            _ => self.random.pick(&on).to_vec(),
        }
    }

    /// Up to three words, each in range, out of range or malformed on its own.
    fn any_setting_line(&mut self, file: &[u8]) -> Vec<u8> {
        let mut words = vec![];
        let most = if file == b"cpu.max" { 2 } else { 1 };
        for place in 0..self.random.pick(&[0, 1, most, most, most, 2, 3]) {
            let (fine, outside) = match (file, place) {
                (b"memory.max", 0) => (["0", "8192"], ["4503599627370497", "9999999999999999999"]),
                (b"pids.max", 0) => (["0", "max"], ["4194305", "4294967297"]),
                (b"cpu.weight", 0) => (["1", "10000"], ["0", "10001"]),
                (_, 0) => (["max", "1000000000"], ["999", "1000000001"]),
                _ => (["1000", "1000000"], ["999", "1000001"]),
            };
            let word = match self.random.below(5) {
                0..2 => self.random.pick(&fine).into(),
                2..4 => self.random.pick(&outside).into(),
                _ => self.malformed_word(),
            };
            words.push(word);
        }
        let mut line = words.join(&b' ');
        if self.random.percent(20) {
            line.resize(129, b' ');
        }
        line
    }
}
