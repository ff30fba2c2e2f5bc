//! A host for the same calls as an ordinary Rust program: structs and enums, running sums of pages,
//! processes and zombies for each group, nothing proved. It is what the proved host is timed against.

mod devices;

use shootspiral::number::{
    LAST_GROUP, LAST_PROCESS, LONGEST_IO_MAX, LONGEST_REPLY, MAX_DEPTH, MAX_LINE,
    MAX_MACHINE_PAGES, MAX_PAGES, PAGE_BYTES,
};
use shootspiral_check::Calls;

use self::Errno::*;
use self::devices::{Change, Device, Devices, KEYS};

const GROUPS: usize = LAST_GROUP.0 as usize + 1;
/// One more than there are: process 0 is never live.
const PROCESSES: usize = LAST_PROCESS.0 as usize + 1;
const PAGE_SHIFT: u32 = PAGE_BYTES.ilog2();
const NO_GROUP: u64 = u64::MAX;

/// What the membership line of a zombie has after the path, once its group was removed.
const DELETED: &[u8] = b" (deleted)";
/// The most bytes of a membership line: "0::", a "/" and a number at each depth, that, a newline.
const LONGEST_MEMBERSHIP: usize =
    4 + MAX_DEPTH as usize * (2 + LAST_GROUP.0.ilog10() as usize) + DELETED.len();
/// More bytes than any other file has, but cgroup.procs and io.max.
const LONGEST_VALUE: usize = 32;

// A group's parent and depth, and a process's group, are kept in a byte each.
const _: () = assert!(GROUPS <= 256 && MAX_DEPTH < 256);

#[derive(Clone, Copy)]
#[repr(u32)]
enum Errno {
    Enoent = 2,
    Esrch = 3,
    Eagain = 11,
    Enomem = 12,
    Eacces = 13,
    Ebusy = 16,
    Eexist = 17,
    Einval = 22,
    Enospc = 28,
    Erange = 34,
}

type Done<T = ()> = Result<T, Errno>;

/// A refused charge or fork: the errno, and the first group without room with its place.
struct Denied(Errno, Option<(usize, u64)>);

impl From<Errno> for Denied {
    fn from(errno: Errno) -> Denied {
        Denied(errno, None)
    }
}

#[derive(Clone, Copy)]
enum Controller {
    Cpu,
    Io,
    Memory,
    Pids,
}

const CONTROLLERS: [(Controller, &[u8]); 4] = [
    (Controller::Cpu, b"cpu"),
    (Controller::Io, b"io"),
    (Controller::Memory, b"memory"),
    (Controller::Pids, b"pids"),
];

/// A set of controllers, a bit each.
#[derive(Clone, Copy, PartialEq, Eq)]
struct Set(u8);

impl Set {
    const EMPTY: Set = Set(0);
    const ALL: Set = Set(0b1111);

    fn has(self, controller: Controller) -> bool {
        self.0 & (1 << controller as u8) != 0
    }

    fn with(self, controller: Controller) -> Set {
        Set(self.0 | 1 << controller as u8)
    }

    fn without(self, controller: Controller) -> Set {
        Set(self.0 & !(1 << controller as u8))
    }

    fn minus(self, other: Set) -> Set {
        Set(self.0 & !other.0)
    }

    fn and(self, other: Set) -> Set {
        Set(self.0 & other.0)
    }
}

/// At the start of a cache line, wherever the host is placed: a group that lies across two takes up to
/// twice as long, and the comparison would go by chance.
#[derive(Clone, Copy)]
#[repr(align(64))]
struct Group {
    is_live: bool,
    /// A removed group keeps it: zombies may have their path there.
    parent: u8,
    depth: u8,
    set: Set,
    owner: u32,
    /// Live children, and live processes of the group itself.
    children: u32,
    members: u32,
    own_pages: u64,
    /// Pages, live processes and zombies in the whole subtree. A removed group still counts zombies.
    usage: u64,
    population: u64,
    zombies: u64,
    /// The root's is the machine. None wherever the controller is off.
    memory_max: Option<u64>,
    pids_max: Option<u64>,
    cpu_max: Option<u64>,
    cpu_period: u64,
    cpu_weight: u64,
}

impl Group {
    const FREE: Group = Group { is_live: false, ..Group::new(0, 0, 0) };

    fn root(machine_pages: u64) -> Group {
        let machine = machine_pages.min(MAX_MACHINE_PAGES);
        Group { memory_max: Some(machine), ..Group::new(0, 0, 0) }
    }

    const fn new(parent: u8, depth: u8, owner: u32) -> Group {
        Group {
            is_live: true,
            parent,
            depth,
            set: Set::EMPTY,
            owner,
            children: 0,
            members: 0,
            own_pages: 0,
            usage: 0,
            population: 0,
            zombies: 0,
            memory_max: None,
            pids_max: None,
            cpu_max: None,
            cpu_period: 100_000,
            cpu_weight: 100,
        }
    }

    fn reset(&mut self, left: Set) {
        if left.has(Controller::Cpu) {
            (self.cpu_max, self.cpu_period, self.cpu_weight) = (None, 100_000, 100);
        }
        if left.has(Controller::Memory) {
            self.memory_max = None;
        }
        if left.has(Controller::Pids) {
            self.pids_max = None;
        }
    }
}

/// What a process number stands for. The group of a zombie may have been removed.
#[derive(Clone, Copy)]
enum Process {
    Free,
    Live { user: u32, group: u8 },
    Zombie { group: u8 },
}

#[derive(Clone)]
pub struct Plain {
    groups: [Group; GROUPS],
    /// Of each group, and not in it: a walk up the groups passes none of this.
    devices: [Devices; GROUPS],
    processes: [Process; PROCESSES],
}

impl Plain {
    /// Writes a fresh tree over this one.
    #[inline(never)]
    pub fn renew(&mut self, machine_pages: u64) {
        self.groups.fill(Group::FREE);
        self.groups[0] = Group::root(machine_pages);
        for devices in &mut self.devices {
            devices.clear();
        }
        self.processes.fill(Process::Free);
    }

    fn live(&self, group: u64) -> Done<&Group> {
        let found = self.groups.get(group as usize).ok_or(Einval)?;
        if found.is_live { Ok(found) } else { Err(Enoent) }
    }

    /// The user and the group of a live process.
    fn process(&self, process: u64) -> Done<(u32, usize)> {
        match self.processes.get(process as usize) {
            Some(&Process::Live { user, group }) => Ok((user, group as usize)),
            _ => Err(Esrch),
        }
    }

    fn may_write(&self, user: u32, group: usize) -> bool {
        user == 0 || self.groups[group].owner == user
    }

    /// The controllers that are on in the group: for the root, none.
    fn on(&self, group: usize) -> Set {
        if group == 0 { Set::EMPTY } else { self.groups[self.groups[group].parent as usize].set }
    }

    fn available(&self, group: usize) -> Set {
        if group == 0 { Set::ALL } else { self.on(group) }
    }

    fn common_ancestor(&self, mut one: usize, mut other: usize) -> usize {
        while one != other {
            let (a, b) = (&self.groups[one], &self.groups[other]);
            if a.depth >= b.depth {
                one = a.parent as usize;
            }
            if b.depth >= a.depth {
                other = b.parent as usize;
            }
        }
        one
    }

    /// The first group from here up where the test fails, with its place; else how many there are.
    fn climb(&self, group: usize, has_room: impl Fn(&Group) -> bool) -> Result<u64, (usize, u64)> {
        let (mut up, mut place) = (group, 1);
        loop {
            let g = &self.groups[up];
            if !has_room(g) {
                return Err((up, place));
            }
            if up == 0 {
                return Ok(place);
            }
            (up, place) = (g.parent as usize, place + 1);
        }
    }

    fn each_up(&mut self, group: usize, change: impl Fn(&mut Group)) {
        let mut up = group;
        loop {
            let g = &mut self.groups[up];
            change(g);
            if up == 0 {
                return;
            }
            up = g.parent as usize;
        }
    }

    fn enter(&mut self, process: u64, user: u32, group: usize) {
        self.processes[process as usize] = Process::Live { user, group: group as u8 };
        self.groups[group].members += 1;
        self.each_up(group, |g| g.population += 1);
    }

    fn try_make(&mut self, user: u32, parent: u64, group: u64) -> Done {
        if group as usize >= GROUPS {
            return Err(Einval);
        }
        let depth = self.live(parent)?.depth;
        let old = &self.groups[group as usize];
        if old.is_live || old.zombies > 0 {
            return Err(Eexist);
        }
        if !self.may_write(user, parent as usize) {
            return Err(Eacces);
        }
        if u64::from(depth) == MAX_DEPTH {
            return Err(Eagain);
        }
        self.groups[group as usize] = Group::new(parent as u8, depth + 1, user);
        self.devices[group as usize].clear();
        self.groups[parent as usize].children += 1;
        Ok(())
    }

    fn try_remove(&mut self, user: u32, group: u64) -> Done {
        let removed = *self.live(group)?;
        let parent = removed.parent as usize;
        if !self.may_write(user, parent) {
            return Err(Eacces);
        }
        if group == 0 || removed.children > 0 || removed.members > 0 {
            return Err(Ebusy);
        }
        let above = &mut self.groups[parent];
        above.children -= 1;
        above.own_pages += removed.own_pages;
        self.groups[group as usize].is_live = false;
        Ok(())
    }

    fn try_hand_over(&mut self, user: u32, group: u64, owner: u32) -> Done {
        if group == 0 {
            return Err(Einval);
        }
        self.live(group)?;
        if user != 0 {
            return Err(Eacces);
        }
        self.groups[group as usize].owner = owner;
        Ok(())
    }

    fn try_write_procs(&mut self, user: u32, group: u64, line: &[u8]) -> Done {
        let set = self.live(group)?.set;
        if !self.may_write(user, group as usize) {
            return Err(Eacces);
        }
        let mut words = words(line)?;
        let number = words.next().and_then(number).filter(|&number| number != 0).ok_or(Einval)?;
        if words.next().is_some() {
            return Err(Einval);
        }
        let (moved, source) = self.process(number)?;
        let meeting = || self.common_ancestor(source, group as usize);
        if user != 0 && (moved != user || !self.may_write(user, meeting())) {
            return Err(Eacces);
        }
        if group != 0 && set != Set::EMPTY {
            return Err(Ebusy);
        }
        self.groups[source].members -= 1;
        self.each_up(source, |g| g.population -= 1);
        self.enter(number, moved, group as usize);
        Ok(())
    }

    fn try_write_subtree_control(&mut self, user: u32, group: u64, line: &[u8]) -> Done {
        let Group { set: old, members, .. } = *self.live(group)?;
        if !self.may_write(user, group as usize) {
            return Err(Eacces);
        }
        let (mut wanted, mut unwanted) = (Set::EMPTY, Set::EMPTY);
        for word in words(line)? {
            let (sign, controller) = control_word(word).ok_or(Einval)?;
            if sign == b'+' {
                (wanted, unwanted) = (wanted.with(controller), unwanted.without(controller));
            } else {
                (wanted, unwanted) = (wanted.without(controller), unwanted.with(controller));
            }
        }
        if wanted.minus(self.available(group as usize)) != Set::EMPTY {
            return Err(Enoent);
        }
        let left = old.and(unwanted);
        let joins = wanted.minus(old);
        let is_child = |g: &Group| g.is_live && g.depth > 0 && u64::from(g.parent) == group;
        let in_a_child = |g: &Group| is_child(g) && g.set.and(left) != Set::EMPTY;
        if left != Set::EMPTY && self.groups.iter().any(in_a_child) {
            return Err(Ebusy);
        }
        if group != 0 && members > 0 && joins != Set::EMPTY {
            return Err(Ebusy);
        }
        self.groups[group as usize].set = Set(old.minus(left).0 | joins.0);
        if left != Set::EMPTY {
            let all = self.groups.iter_mut().zip(&mut self.devices);
            for (g, devices) in all.filter(|(g, _)| is_child(g)) {
                g.reset(left);
                if left.has(Controller::Io) {
                    devices.clear();
                }
            }
        }
        Ok(())
    }

    fn try_write_setting(&mut self, user: u32, group: u64, file: &[u8], line: &[u8]) -> Done {
        let parent = self.live(group)?.parent as usize;
        let on = self.on(group as usize);
        let controller = match file {
            b"memory.max" => Controller::Memory,
            b"pids.max" => Controller::Pids,
            b"cpu.weight" | b"cpu.max" => Controller::Cpu,
            b"io.max" => Controller::Io,
            _ => return Err(Enoent),
        };
        if !on.has(controller) {
            return Err(Enoent);
        }
        if !self.may_write(user, parent) {
            return Err(Eacces);
        }
        if file == b"io.max" {
            return self.devices[group as usize].change(&Change::parse(line)?);
        }
        let mut words = words(line)?;
        let first = words.next().ok_or(Einval)?;
        let second = words.next();
        if words.next().is_some() {
            return Err(Einval);
        }
        let g = &mut self.groups[group as usize];
        match (file, second) {
            (b"memory.max", None) => {
                let bytes = limit(first)?;
                let bytes = within(bytes, 0, 1 << 52)?;
                g.memory_max = bytes.map(|bytes| bytes >> PAGE_SHIFT);
            }
            (b"pids.max", None) => g.pids_max = within(limit(first)?, 0, 4_194_304)?,
            (b"cpu.weight", None) => {
                let weight = number(first).ok_or(Einval)?;
                within(Some(weight), 1, 10_000)?;
                g.cpu_weight = weight;
            }
            (b"cpu.max", _) => {
                let quota = limit(first)?;
                let period = match second {
                    Some(word) => number(word).ok_or(Einval)?,
                    None => g.cpu_period,
                };
                let quota = within(quota, 1_000, 1_000_000_000)?;
                within(Some(period), 1_000, 1_000_000)?;
                (g.cpu_max, g.cpu_period) = (quota, period);
            }
            _ => return Err(Einval),
        }
        Ok(())
    }

    fn try_admit(&mut self, process: u64, user: u32) -> Done {
        self.vet_new(process)?;
        self.enter(process, user, 0);
        Ok(())
    }

    fn vet_new(&self, process: u64) -> Done {
        match self.processes.get(process as usize) {
            None => Err(Einval),
            Some(_) if process == 0 => Err(Einval),
            Some(Process::Free) => Ok(()),
            Some(_) => Err(Eexist),
        }
    }

    fn try_fork(&mut self, parent: u64, process: u64) -> Result<u64, Denied> {
        let (user, group) = self.process(parent)?;
        self.vet_new(process)?;
        let has_room = |g: &Group| g.pids_max.is_none_or(|max| g.population < max);
        let full = |found| Denied(Eagain, Some(found));
        let consulted = self.climb(group, has_room).map_err(full)?;
        self.enter(process, user, group);
        Ok(consulted)
    }

    fn try_exit(&mut self, process: u64) -> Done {
        let (_, group) = self.process(process)?;
        self.processes[process as usize] = Process::Zombie { group: group as u8 };
        self.groups[group].members -= 1;
        self.each_up(group, |g| {
            g.population -= 1;
            g.zombies += 1;
        });
        Ok(())
    }

    fn try_collect(&mut self, process: u64) -> Done {
        let Some(&Process::Zombie { group }) = self.processes.get(process as usize) else {
            return Err(Esrch);
        };
        self.processes[process as usize] = Process::Free;
        self.each_up(group as usize, |g| g.zombies -= 1);
        Ok(())
    }

    fn try_charge(&mut self, process: u64, pages: u64) -> Result<u64, Denied> {
        let (_, group) = self.process(process)?;
        if !(1..=MAX_PAGES).contains(&pages) {
            return Err(Einval.into());
        }
        let has_room = |g: &Group| g.memory_max.is_none_or(|max| g.usage + pages <= max);
        let full = |found| Denied(Enomem, Some(found));
        let consulted = self.climb(group, has_room).map_err(full)?;
        self.groups[group].own_pages += pages;
        self.each_up(group, |g| g.usage += pages);
        Ok(consulted)
    }

    fn try_release(&mut self, group: u64, pages: u64) -> Done {
        if group as usize >= GROUPS || !(1..=MAX_PAGES).contains(&pages) {
            return Err(Einval);
        }
        if pages > self.live(group)?.own_pages {
            return Err(Erange);
        }
        self.groups[group as usize].own_pages -= pages;
        self.each_up(group as usize, |g| g.usage -= pages);
        Ok(())
    }

    fn try_read(&self, group: u64, file: &[u8], reply: &mut [u8]) -> Done<u64> {
        self.live(group)?;
        let group = group as usize;
        match file {
            b"cgroup.procs" => {
                let mut text = Text::<LONGEST_REPLY>::new();
                self.members(group, &mut text);
                text.deliver(reply)
            }
            b"io.max" if self.on(group).has(Controller::Io) => {
                let mut text = Text::<LONGEST_IO_MAX>::new();
                for device in self.devices[group].held() {
                    text.device(device);
                }
                text.deliver(reply)
            }
            _ => {
                let mut text = Text::<LONGEST_VALUE>::new();
                self.value(group, file, &mut text)?;
                text.deliver(reply)
            }
        }
    }

    /// The live processes of the group itself. It looks no further than the last of them.
    fn members(&self, group: usize, text: &mut Text<LONGEST_REPLY>) {
        let is_here = |process: &usize| match self.processes[*process] {
            Process::Live { group: its, .. } => its as usize == group,
            _ => false,
        };
        for process in (1..PROCESSES).filter(is_here).take(self.groups[group].members as usize) {
            text.figure(process as u64, b'\n');
        }
    }

    fn value(&self, group: usize, file: &[u8], text: &mut Text<LONGEST_VALUE>) -> Done {
        let g = &self.groups[group];
        let on = self.on(group);
        match file {
            b"cgroup.controllers" => text.names(self.available(group)),
            b"cgroup.subtree_control" => text.names(g.set),
            b"cgroup.events" if group != 0 => {
                text.bytes(if g.population > 0 { b"populated 1\n" } else { b"populated 0\n" });
            }
            b"memory.current" if on.has(Controller::Memory) => {
                text.figure(g.usage << PAGE_SHIFT, b'\n');
            }
            b"memory.max" if on.has(Controller::Memory) => {
                text.limit(g.memory_max.map(|pages| pages << PAGE_SHIFT), b'\n');
            }
            b"pids.current" if on.has(Controller::Pids) => text.figure(g.population, b'\n'),
            b"pids.max" if on.has(Controller::Pids) => text.limit(g.pids_max, b'\n'),
            b"cpu.weight" if on.has(Controller::Cpu) => text.figure(g.cpu_weight, b'\n'),
            b"cpu.max" if on.has(Controller::Cpu) => {
                text.limit(g.cpu_max, b' ');
                text.figure(g.cpu_period, b'\n');
            }
            _ => return Err(Enoent),
        }
        Ok(())
    }

    fn path(&self, group: usize, text: &mut Text<LONGEST_MEMBERSHIP>) {
        if group != 0 {
            self.path(self.groups[group].parent as usize, text);
            text.bytes(b"/");
            text.digits(group as u64);
        }
    }

    fn membership_line(&self, process: u64, text: &mut Text<LONGEST_MEMBERSHIP>) -> Done {
        let group = match self.processes.get(process as usize) {
            Some(&(Process::Live { group, .. } | Process::Zombie { group })) => group as usize,
            _ => return Err(Esrch),
        };
        text.bytes(b"0::");
        if group == 0 {
            text.bytes(b"/");
        }
        self.path(group, text);
        if !self.groups[group].is_live {
            text.bytes(DELETED);
        }
        text.bytes(b"\n");
        Ok(())
    }
}

/// A reply in the making, in an array that is no larger than it has to be.
struct Text<const ROOM: usize> {
    bytes: [u8; ROOM],
    length: usize,
}

impl<const ROOM: usize> Text<ROOM> {
    fn new() -> Text<ROOM> {
        Text { bytes: [0; ROOM], length: 0 }
    }

    fn bytes(&mut self, bytes: &[u8]) {
        let end = self.length + bytes.len();
        self.bytes[self.length..end].copy_from_slice(bytes);
        self.length = end;
    }

    fn digits(&mut self, mut value: u64) {
        let count = value.checked_ilog10().map_or(1, |log| log as usize + 1);
        let end = self.length + count;
        for digit in self.bytes[self.length..end].iter_mut().rev() {
            *digit = b'0' + (value % 10) as u8;
            value /= 10;
        }
        self.length = end;
    }

    fn figure(&mut self, value: u64, end: u8) {
        self.digits(value);
        self.bytes(&[end]);
    }

    fn limit(&mut self, limit: Option<u64>, end: u8) {
        match limit {
            Some(value) => self.digits(value),
            None => self.bytes(b"max"),
        }
        self.bytes(&[end]);
    }

    fn device(&mut self, device: &Device) {
        let (major, minor) = device.number;
        self.figure(major.into(), b':');
        self.figure(minor.into(), b' ');
        let ends = [b' ', b' ', b' ', b'\n'];
        for ((key, limit), end) in KEYS.into_iter().zip(device.limits).zip(ends) {
            self.bytes(key);
            self.bytes(b"=");
            self.limit(limit, end);
        }
    }

    fn names(&mut self, set: Set) {
        for (controller, name) in CONTROLLERS {
            if set.has(controller) {
                if self.length > 0 {
                    self.bytes(b" ");
                }
                self.bytes(name);
            }
        }
        if self.length > 0 {
            self.bytes(b"\n");
        }
    }

    fn deliver(&self, reply: &mut [u8]) -> Done<u64> {
        let front = reply.get_mut(..self.length).ok_or(Enospc)?;
        front.copy_from_slice(&self.bytes[..self.length]);
        Ok(self.length as u64)
    }
}

fn without_newline(line: &[u8]) -> &[u8] {
    line.strip_suffix(b"\n").unwrap_or(line)
}

fn words(line: &[u8]) -> Done<impl Iterator<Item = &[u8]>> {
    if line.len() > MAX_LINE {
        return Err(Einval);
    }
    Ok(without_newline(line).split(|&byte| byte == b' ').filter(|word| !word.is_empty()))
}

/// A number word's value; any that passes 64 bits is the largest, which is outside every range.
fn number(word: &[u8]) -> Option<u64> {
    if word.is_empty() {
        return None;
    }
    let mut value = 0u64;
    for byte in word {
        let digit = byte.wrapping_sub(b'0');
        if digit > 9 {
            return None;
        }
        value = value.saturating_mul(10).saturating_add(u64::from(digit));
    }
    Some(value)
}

fn limit(word: &[u8]) -> Done<Option<u64>> {
    if word == b"max" { Ok(None) } else { number(word).map(Some).ok_or(Einval) }
}

fn within(limit: Option<u64>, low: u64, high: u64) -> Done<Option<u64>> {
    match limit {
        Some(value) if !(low..=high).contains(&value) => Err(Erange),
        _ => Ok(limit),
    }
}

fn control_word(word: &[u8]) -> Option<(u8, Controller)> {
    let (&sign, name) = word.split_first()?;
    if sign != b'+' && sign != b'-' {
        return None;
    }
    CONTROLLERS.into_iter().find(|(_, known)| *known == name).map(|(found, _)| (sign, found))
}

fn settled(done: Done) -> u32 {
    done.map_or_else(|errno| errno as u32, |()| 0)
}

fn told(done: Result<u64, Denied>, told: &mut [u64; 2]) -> u32 {
    match done {
        Ok(consulted) => {
            *told = [NO_GROUP, consulted];
            0
        }
        Err(Denied(errno, found)) => {
            *told = found.map_or([NO_GROUP, 0], |(group, place)| [group as u64, place]);
            errno as u32
        }
    }
}

fn replied(length: Done<u64>, told: &mut [u64; 1]) -> u32 {
    *told = [length.unwrap_or(0)];
    settled(length.map(|_| ()))
}

/// Each call is kept out of line, as a call of the library is.
impl Calls for Plain {
    fn fresh(machine_pages: u64) -> Plain {
        let (groups, devices) = ([Group::FREE; GROUPS], [Devices::NONE; GROUPS]);
        let mut plain = Plain { groups, devices, processes: [Process::Free; PROCESSES] };
        plain.groups[0] = Group::root(machine_pages);
        plain
    }

    #[inline(never)]
    fn make(&mut self, user: u32, parent: u64, group: u64) -> u32 {
        settled(self.try_make(user, parent, group))
    }

    #[inline(never)]
    fn remove(&mut self, user: u32, group: u64) -> u32 {
        settled(self.try_remove(user, group))
    }

    #[inline(never)]
    fn hand_over(&mut self, user: u32, group: u64, owner: u32) -> u32 {
        settled(self.try_hand_over(user, group, owner))
    }

    #[inline(never)]
    fn write_procs(&mut self, user: u32, group: u64, line: &[u8]) -> u32 {
        settled(self.try_write_procs(user, group, line))
    }

    #[inline(never)]
    fn write_subtree_control(&mut self, user: u32, group: u64, line: &[u8]) -> u32 {
        settled(self.try_write_subtree_control(user, group, line))
    }

    #[inline(never)]
    fn write_setting(&mut self, user: u32, group: u64, file: &[u8], line: &[u8]) -> u32 {
        settled(self.try_write_setting(user, group, file, line))
    }

    #[inline(never)]
    fn admit(&mut self, process: u64, user: u32) -> u32 {
        settled(self.try_admit(process, user))
    }

    #[inline(never)]
    fn fork(&mut self, parent: u64, process: u64, words: &mut [u64; 2]) -> u32 {
        told(self.try_fork(parent, process), words)
    }

    #[inline(never)]
    fn exit(&mut self, process: u64) -> u32 {
        settled(self.try_exit(process))
    }

    #[inline(never)]
    fn collect(&mut self, process: u64) -> u32 {
        settled(self.try_collect(process))
    }

    #[inline(never)]
    fn charge(&mut self, process: u64, pages: u64, words: &mut [u64; 2]) -> u32 {
        told(self.try_charge(process, pages), words)
    }

    #[inline(never)]
    fn release(&mut self, group: u64, pages: u64) -> u32 {
        settled(self.try_release(group, pages))
    }

    #[inline(never)]
    fn read(&self, group: u64, file: &[u8], reply: &mut [u8], told: &mut [u64; 1]) -> u32 {
        replied(self.try_read(group, file, reply), told)
    }

    #[inline(never)]
    fn membership(&self, process: u64, reply: &mut [u8], told: &mut [u64; 1]) -> u32 {
        let mut text = Text::new();
        let length = self.membership_line(process, &mut text).and_then(|()| text.deliver(reply));
        replied(length, told)
    }

    #[inline(never)]
    fn first_bad_word(&self, line: &[u8], told: &mut [u64; 2]) {
        let line = without_newline(line);
        let mut first = 0;
        for word in line.split(|&byte| byte == b' ') {
            if !word.is_empty() && control_word(word).is_none() {
                *told = [first, word.len() as u64];
                return;
            }
            first += word.len() as u64 + 1;
        }
        *told = [line.len() as u64, 0];
    }
}
