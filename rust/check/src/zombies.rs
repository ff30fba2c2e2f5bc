//! Zombies where dice seldom leave them, on the tree of `crossed`: lines that end in " (deleted)" of
//! every length there is; groups removed one after the other up to the root, with a zombie in each, and
//! collected in several orders; what a zombie must not count for; numbers that are no zombie's.

use crate::call::Call;
use crate::compare::ROOM;
use crate::crossed::LADDER;
use crate::model::{DEEPEST, LAST_PROCESS};

/// A process that comes and goes.
const PROCESS: u64 = 50;

/// Numbers of one, two and three digits, not used by the lists before.
const DIGITS: [u64; 3] = [8, 80, 200];

/// The highest of the groups that are removed one after the other, and the process in it; those below
/// have the numbers after it.
const TOP: u64 = 200;
const FIRST: u64 = 200;

pub fn calls() -> Vec<Call> {
    let mut calls = lengths();
    let levels = DEEPEST as u64;
    calls.extend(buried(levels, (0..levels).collect()));
    calls.extend(buried(levels, (0..levels).rev().collect()));
    calls.extend(buried(5, vec![2, 0, 4, 1, 3]));
    calls.extend(buried(5, vec![3, 4, 0, 1, 2]));
    calls.extend(deepest_alone());
    calls.extend(not_counted());
    calls.extend(no_zombies());
    calls
}

/// Below each group of the ladder, and below the root, one group or two, so that paths of every length
/// come up. The lowest is removed when its process has ended. Its line goes into a buffer that it fills,
/// a byte less, more, and none.
fn lengths() -> Vec<Call> {
    let [one, two, three] = DIGITS;
    let mut calls = vec![];
    for level in 0..DEEPEST as u64 {
        let (above, path) = match level {
            0 => (0, 0),
            _ => (LADDER + level - 1, level as usize * "/240".len()),
        };
        let tails = [vec![one], vec![two], vec![three], vec![one, two]];
        for tail in tails.into_iter().filter(|tail| level as usize + tail.len() <= DEEPEST) {
            let mut parent = above;
            for &group in &tail {
                calls.push(make(parent, group));
                parent = group;
            }
            calls.extend([admit(PROCESS), enter(parent, PROCESS), exit(PROCESS), remove(parent)]);
            let below: usize = tail.iter().map(|group| group.to_string().len() + 1).sum();
            let length = "0:: (deleted)\n".len() + path + below;
            let rooms = [length, length - 1, length + 1, length - " (deleted)".len(), 0, ROOM];
            calls.extend(rooms.map(|room| Call::Membership { process: PROCESS, room }));
            calls.push(collect(PROCESS));
            calls.extend(tail.iter().rev().skip(1).map(|&group| remove(group)));
        }
    }
    calls
}

/// So many groups one below the other, a process in each. All end, all groups are removed from the
/// lowest up, and each number is tried between. The zombies are collected in this order, by their
/// depths; after each of them all numbers are made that can be.
fn buried(levels: u64, order: Vec<u64>) -> Vec<Call> {
    let mut calls = vec![];
    for level in 0..levels {
        let (group, process) = (TOP + level, FIRST + level);
        calls.push(make(if level == 0 { 0 } else { group - 1 }, group));
        calls.extend([admit(process), enter(group, process)]);
    }
    calls.extend((0..levels).map(|level| exit(FIRST + level)));
    for level in (0..levels).rev() {
        calls.extend([remove(TOP + level), make(0, TOP + level), remove(TOP + level)]);
    }
    for level in [0, levels - 1] {
        calls.extend(on_a_removed_group(TOP + level));
        calls.extend(on_a_zombie(FIRST + level));
    }
    for level in order {
        calls.extend([collect(FIRST + level), collect(FIRST + level)]);
        calls.extend((0..levels).map(|level| make(0, TOP + level)));
    }
    calls.extend((0..levels).map(|level| remove(TOP + level)));
    calls
}

/// One zombie at the deepest level, and every group above it removed: all their numbers are free at
/// once, and one is made again with a live process in it.
fn deepest_alone() -> Vec<Call> {
    let levels = DEEPEST as u64;
    let mut calls = vec![];
    for level in 0..levels {
        let group = TOP + level;
        calls.push(make(if level == 0 { 0 } else { group - 1 }, group));
    }
    calls.extend([admit(FIRST), enter(TOP + levels - 1, FIRST), exit(FIRST)]);
    for level in (0..levels).rev() {
        calls.extend([remove(TOP + level), Call::Membership { process: FIRST, room: ROOM }]);
    }
    calls.extend((0..levels).map(|level| make(LADDER, TOP + level)));
    calls.push(collect(FIRST));
    calls.extend((0..levels).map(|level| make(LADDER, TOP + level)));
    calls.extend([admit(FIRST), enter(TOP, FIRST), exit(FIRST), collect(FIRST)]);
    calls.extend((0..levels).map(|level| remove(TOP + level)));
    calls
}

/// Every call on the number of a removed group.
fn on_a_removed_group(group: u64) -> Vec<Call> {
    let (user, line) = (0, b"".to_vec());
    vec![
        make(group, DIGITS[0]),
        make(group, group),
        Call::Make { user: 7, parent: 0, group },
        remove(group),
        Call::HandOver { user, group, owner: 7 },
        enter(group, 9),
        Call::WriteSubtreeControl { user, group, line: line.clone() },
        Call::WriteSetting { user, group, file: b"pids.max".to_vec(), line },
        Call::Release { group, pages: 1 },
        Call::Read { group, file: b"cgroup.procs".to_vec(), room: ROOM },
    ]
}

/// Every call on a zombie but its collection.
fn on_a_zombie(process: u64) -> Vec<Call> {
    vec![
        admit(process),
        Call::Fork { parent: 9, process },
        Call::Fork { parent: process, process: PROCESS },
        exit(process),
        Call::Charge { process, pages: 1 },
        enter(0, process),
    ]
}

/// A group whose process has ended: it is empty, has room, takes a set and another process, and goes.
fn not_counted() -> Vec<Call> {
    let [_, inner, group] = DIGITS;
    let limit = |figure: &str| {
        let (file, line) = (b"pids.max".to_vec(), figure.into());
        Call::WriteSetting { user: 0, group, file, line }
    };
    let control =
        |line: &str| Call::WriteSubtreeControl { user: 0, group, line: line.as_bytes().to_vec() };
    let (one, other) = (PROCESS, PROCESS + 1);
    let fork = |parent, process| Call::Fork { parent, process };
    let mut calls = vec![make(0, group), admit(one), enter(group, one), limit("2")];
    calls.extend([fork(one, other), exit(other), fork(one, other), fork(one, other + 1)]);
    calls.extend([fork(other, other + 2), fork(one, other + 2), exit(one), fork(one, other + 2)]);
    calls.extend([exit(other + 1), limit("0"), control("+pids"), control("-pids"), limit("1")]);
    calls.extend([Call::Charge { process: one, pages: 1 }, enter(group, one), enter(0, other)]);
    calls.extend([enter(group, 9), Call::Charge { process: 9, pages: 1 }, fork(9, one)]);
    calls.extend([fork(9, other + 2), enter(0, 9), Call::Release { group, pages: 1 }]);
    calls.extend([make(group, inner), remove(inner), remove(group), make(0, group)]);
    let zombies = [one, other, other + 1];
    calls.extend(zombies.map(collect));
    calls.extend([make(0, group), remove(group)]);
    calls
}

/// Numbers that are free, live or out of range, some as far from a zombie's as a narrow word goes.
fn no_zombies() -> Vec<Call> {
    let mut calls = vec![admit(PROCESS), collect(PROCESS), exit(PROCESS)];
    calls.extend([0, 9, PROCESS + 1, LAST_PROCESS, LAST_PROCESS + 1, u64::MAX].map(collect));
    calls.extend([8, 9, 10, 16, 32, 63].map(|bits| collect(PROCESS + (1 << bits))));
    calls.extend([admit(PROCESS), collect(PROCESS), collect(PROCESS)]);
    calls.extend([admit(LAST_PROCESS), exit(LAST_PROCESS), collect(LAST_PROCESS)]);
    calls
}

fn make(parent: u64, group: u64) -> Call {
    Call::Make { user: 0, parent, group }
}

fn remove(group: u64) -> Call {
    Call::Remove { user: 0, group }
}

fn admit(process: u64) -> Call {
    Call::Admit { process, user: 7 }
}

fn enter(group: u64, process: u64) -> Call {
    Call::WriteProcs { user: 0, group, line: process.to_string().into() }
}

fn exit(process: u64) -> Call {
    Call::Exit { process }
}

fn collect(process: u64) -> Call {
    Call::Collect { process }
}
