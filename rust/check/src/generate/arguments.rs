//! Arguments of calls: mostly numbers that are live, or that are free where a call needs such a one.

use super::Generator;
use crate::call::Call;
use crate::compare::{FILES, ROOM};
use crate::model::{CPU, IO, LAST_GROUP, LAST_PROCESS, MEMORY, Model, PIDS};

/// Numbers at the edges of the ranges of groups and processes, of the narrower ranges that document
/// 01 had, and of the widths of machine words.
const EDGES: [u64; 26] = [
    0,
    1,
    2,
    63,
    64,
    127,
    128,
    LAST_GROUP - 1,
    LAST_GROUP,
    LAST_GROUP + 1,
    LAST_GROUP + 2,
    511,
    512,
    LAST_PROCESS - 1,
    LAST_PROCESS,
    LAST_PROCESS + 1,
    LAST_PROCESS + 2,
    2_048,
    1 << 16,
    (1 << 32) - 1,
    1 << 32,
    (1 << 32) + 1,
    1 << 63,
    (1 << 63) + 5,
    u64::MAX - 1,
    u64::MAX,
];

pub(super) const PAGE_EDGES: [u64; 13] = [
    0,
    1,
    2,
    1_048_575,
    1_048_576,
    1_048_577,
    1 << 32,
    (1 << 32) + 1,
    1 << 40,
    1 << 52,
    1 << 63,
    u64::MAX - 1,
    u64::MAX,
];

/// Distances at which a careless index or a narrow word would take one number for another.
const ALIASES: [u64; 9] = [
    64,
    LAST_GROUP + 1,
    LAST_GROUP + 2,
    512,
    LAST_PROCESS,
    LAST_PROCESS + 1,
    1 << 32,
    1 << 40,
    1 << 63,
];

/// The settings that take figures.
pub(super) const FIGURES: [&[u8]; 4] = [b"cpu.weight", b"cpu.max", b"memory.max", b"pids.max"];

pub(super) const SETTINGS: [&[u8]; 5] =
    [b"cpu.weight", b"cpu.max", b"io.max", b"memory.max", b"pids.max"];

const ODD_FILES: [&[u8]; 12] = [
    b"",
    b"memory.ma",
    b"memory.maxx",
    b"memory.max\n",
    b"memory.max\0",
    b"Memory.max",
    b"memory.peak",
    b"cpu.max ",
    b"io.weight",
    b"cgroup",
    b"\xff\xfe",
    b"pids.max.pids.max.pids.max.pids.max.pids.max.pids.max.pids.max.pids.max.pids.max.pids.max",
];

impl Generator {
    pub(super) fn is_edge(&mut self) -> bool {
        self.random.percent(self.taste.edges)
    }

    pub(super) fn user(&mut self) -> u32 {
        match self.random.below(8) {
            0 => 0,
            1 => self.random.pick(&[0, 1, 2, 1000, 1 << 31, u32::MAX - 1, u32::MAX]),
            _ => self.random.pick(&self.taste.users),
        }
    }

    /// Mostly a user who may write the group.
    pub(super) fn writer(&mut self, model: &Model, group: u64) -> u32 {
        let owner = model.group(group).map_or(0, |kept| kept.owner);
        if !self.random.percent(self.taste.lawful) {
            self.user()
        } else if self.random.percent(50) {
            owner
        } else {
            0
        }
    }

    /// Mostly a user who may write the group's parent; the owner of the group itself too.
    pub(super) fn writer_above(&mut self, model: &Model, group: u64) -> u32 {
        let of = if self.random.percent(15) {
            group
        } else {
            model.group(group).map_or(0, |kept| kept.parent)
        };
        self.writer(model, of)
    }

    pub(super) fn edge(&mut self, live: u64) -> u64 {
        if self.random.percent(30) {
            live.wrapping_add(self.random.pick(&ALIASES))
        } else {
            self.random.pick(&EDGES)
        }
    }

    /// Mostly a live group.
    pub(super) fn group(&mut self, model: &Model) -> u64 {
        let live = self.random.one_of(model.live_groups()).unwrap_or(0);
        if self.is_edge() {
            self.edge(live)
        } else if self.random.percent(self.taste.absent) {
            self.free_group(model).unwrap_or(live)
        } else if self.random.percent(self.taste.taken) {
            self.random.one_of(model.removed_groups()).unwrap_or(live)
        } else {
            live
        }
    }

    /// Mostly a live group to make another under, by this seed's taste one of the deepest.
    pub(super) fn parent(&mut self, model: &Model) -> u64 {
        if !self.random.percent(self.taste.deep) {
            return self.group(model);
        }
        let deepest = model.live_groups().map(|group| model.depth(group)).max();
        let deepest = model.live_groups().filter(|&group| Some(model.depth(group)) == deepest);
        self.random.one_of(deepest).unwrap_or(0)
    }

    /// Mostly a group of this seed's pool that can be made.
    pub(super) fn new_group(&mut self, model: &Model) -> u64 {
        if self.is_edge() {
            let live = self.group(model);
            return self.edge(live);
        }
        if let Some(group) = self.random.one_of(model.removed_groups())
            && self.random.percent(self.taste.taken)
        {
            return group;
        }
        let pool = self.taste.groups.clone();
        let free = pool.iter().copied().filter(|&group| model.is_unused(group));
        match self.random.one_of(free) {
            Some(group) if self.random.percent(90) => group,
            _ => self.random.pick(&pool),
        }
    }

    /// Mostly a live process.
    pub(super) fn process(&mut self, model: &Model) -> u64 {
        let live = self.random.one_of(model.live_processes());
        let live = live.unwrap_or_else(|| self.random.pick(&self.taste.processes));
        if self.is_edge() {
            self.edge(live)
        } else if self.random.percent(self.taste.absent) {
            self.free_process(model).unwrap_or(live)
        } else if self.random.percent(self.taste.taken) {
            self.random.one_of(model.zombies()).unwrap_or(live)
        } else {
            live
        }
    }

    /// Mostly a process of this seed's pool that is free, or another where all of them are taken.
    pub(super) fn new_process(&mut self, model: &Model) -> u64 {
        if self.is_edge() {
            let live = self.process(model);
            return self.edge(live);
        }
        if let Some(zombie) = self.random.one_of(model.zombies())
            && self.random.percent(self.taste.taken)
        {
            return zombie;
        }
        let pool = self.taste.processes.clone();
        let free = pool.iter().copied().filter(|&process| model.is_free(process));
        match self.random.one_of(free) {
            Some(process) if self.random.percent(90) => process,
            None if self.random.percent(50) => self.free_process(model).unwrap_or(1),
            _ => self.random.pick(&pool),
        }
    }

    /// Mostly few pages, or about as many as some group on the way up has room for.
    pub(super) fn pages(&mut self, model: &Model, process: u64) -> u64 {
        if self.is_edge() {
            return self.random.pick(&PAGE_EDGES);
        }
        let Some(group) = model.process(process).map(|kept| kept.group) else {
            return self.random.within(1, 4);
        };
        let up = self.random.pick(&model.chain(group));
        let limit = match up {
            0 => Some(model.machine()),
            _ => model.group(up).and_then(|kept| kept.settings.memory_max),
        };
        match limit {
            Some(limit) if self.random.percent(40) => {
                let room = limit.saturating_sub(model.usage(up));
                (room + self.random.below(3)).saturating_sub(1).min(1_048_577)
            }
            _ => self.random.pick(&[1, 1, 2, 3, 5, 8, 13, 64, 1_048_576]),
        }
    }

    /// A name that is no file's; half the time nearly one.
    pub(super) fn odd_file(&mut self) -> Vec<u8> {
        if self.random.percent(50) {
            return self.random.pick(&ODD_FILES).to_vec();
        }
        let name = self.random.pick(&FILES);
        self.off_by_one(name)
    }

    /// Mostly a group and a setting that is on there.
    pub(super) fn setting(&mut self, model: &Model) -> (u64, Vec<u8>) {
        if self.is_edge() {
            let file = if self.random.percent(50) {
                self.odd_file()
            } else {
                self.random.pick(&FILES).to_vec()
            };
            return (self.group(model), file);
        }
        let file = self.random.pick(&SETTINGS);
        let controller = match file {
            b"io.max" => IO,
            b"memory.max" => MEMORY,
            b"pids.max" => PIDS,
            _ => CPU,
        };
        let on = model.live_groups().filter(|&group| model.is_on(controller, group));
        match self.random.one_of(on) {
            Some(group) if self.random.percent(90) => (group, file.to_vec()),
            _ => (self.group(model), file.to_vec()),
        }
    }

    /// The question with a buffer about as long as the reply: one byte short, exact, one more.
    pub(super) fn with_room(&mut self, model: &Model, mut question: Call) -> Call {
        let answer = question.on(&mut model.clone(), 0);
        let length = if answer.number == 0 { answer.told[0] as usize } else { 0 };
        let short = length.saturating_sub(1);
        let chosen = self.random.pick(&[0, 1, short, short, length, length, length + 1, 64, ROOM]);
        if let Call::Read { room, .. } | Call::Membership { room, .. } = &mut question {
            *room = chosen;
        }
        question
    }
}
