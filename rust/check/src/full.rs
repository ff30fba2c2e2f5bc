//! A list of calls for which a seed's are too few: every group and every process live, counts at their
//! ends and the longest texts; processes that go about; then all groups but those of the ladder removed
//! and made again below the root, with settings that one line resets in all of them; at last every
//! process a zombie, and the group of all of them removed.

use crate::call::Call;
use crate::compare::ROOM;
use crate::crossed::LADDER;
use crate::model::{LAST_GROUP, LAST_PROCESS};

pub const MACHINE: u64 = 1 << 21;

/// The lowest group, where all processes come to stand.
const BOTTOM: u64 = LAST_GROUP;
const ALL: &str = "+cpu +io +memory +pids";

pub fn calls() -> Vec<Call> {
    let mut calls = vec![control(0, ALL)];
    calls.extend(groups());
    calls.extend(processes());
    calls.extend(longest_texts());
    calls.extend(visits());
    calls.extend(made_again());
    calls.extend(departures());
    calls.extend(endings());
    calls
}

/// The ladder, controllers on all the way, and all others below each other by halves; then numbers
/// that are live, and the first that there is not.
fn groups() -> Vec<Call> {
    let mut calls = vec![];
    for group in LADDER..=BOTTOM {
        let above = if group == LADDER { 0 } else { group - 1 };
        calls.push(make(above, group));
        calls.extend((group < BOTTOM).then(|| control(group, ALL)));
    }
    calls.extend((1..LADDER).map(|group| make(group / 2, group)));
    calls.extend([make(0, LAST_GROUP), make(1, LAST_GROUP + 1), make(LAST_GROUP + 1, 1)]);
    calls.extend([make(BOTTOM, LAST_GROUP + 1), control(LADDER, "-cpu")]);
    calls
}

/// The first process goes to the bottom and forks all others, up to limits at the top of the ladder
/// that stop the last that a byte counts, and the last of all; then one more than there are.
fn processes() -> Vec<Call> {
    let mut calls = vec![Call::Admit { process: 1, user: 7 }, enter(BOTTOM, 1)];
    let mut next = 2;
    for most in [255, 256, LAST_PROCESS - 1, LAST_PROCESS] {
        calls.push(pids(LADDER, most));
        calls.extend((next..=most + 1).map(|process| fork(1, process)));
        next = most + 1;
    }
    calls.extend([fork(LAST_PROCESS + 1, 2), fork(LAST_PROCESS, 2)]);
    calls.push(Call::Admit { process: LAST_PROCESS + 1, user: 7 });
    calls.push(Call::Admit { process: LAST_PROCESS, user: 7 });
    for limit in [LAST_PROCESS - 1, LAST_PROCESS, LAST_PROCESS + 1] {
        calls.extend([pids(BOTTOM, limit), exit(512), fork(2, 512)]);
        calls.extend([collect(512), fork(2, 512)]);
        calls.extend([pids(BOTTOM, LAST_PROCESS), fork(2, 512)]);
    }
    calls
}

/// The whole cgroup.procs and the longest membership line, into buffers that they fill, a byte less
/// and more.
fn longest_texts() -> Vec<Call> {
    let listed = (1..=LAST_PROCESS).map(|process| process.to_string().len() + 1).sum::<usize>();
    let path = (LADDER..=BOTTOM).map(|group| group.to_string().len() + 1).sum::<usize>();
    let line = "0::".len() + path + "\n".len();
    let mut calls = vec![];
    for room in [listed, listed - 1, listed + 1, 916, 0, ROOM] {
        calls.push(Call::Read { group: BOTTOM, file: b"cgroup.procs".to_vec(), room });
    }
    for room in [line, line - 1, line + 1, 28, 0, ROOM] {
        calls.push(Call::Membership { process: LAST_PROCESS, room });
    }
    calls
}

/// Processes of many numbers go each to a group of another, fork and charge there, and come back.
fn visits() -> Vec<Call> {
    let mut calls = vec![];
    for (process, group) in
        (LAST_PROCESS / 2..=LAST_PROCESS).step_by(16).zip((1..LADDER).step_by(7))
    {
        calls.extend([enter(group, process), Call::Charge { process, pages: group }]);
        calls.extend([exit(process - 1), collect(process - 1), fork(process, process - 1)]);
        calls.extend([Call::Release { group, pages: group }, enter(BOTTOM, process)]);
        calls.extend([Call::Remove { user: 0, group }, enter(BOTTOM, process - 1)]);
    }
    calls
}

/// From the lowest up; then each below the root, with settings. The controllers leave one after the
/// other, and join again so that what is left of the settings shows.
fn made_again() -> Vec<Call> {
    let mut calls: Vec<Call> =
        (1..LADDER).rev().map(|group| Call::Remove { user: 0, group }).collect();
    calls.extend((1..LADDER).map(|group| make(0, group)));
    for group in (1..LADDER).chain([LADDER]) {
        let (file, figure) = match group % 4 {
            0 => ("cpu.weight", group.to_string()),
            1 => ("io.max", format!("{group}:16 rbps={group}")),
            2 => ("memory.max", ((group + 1) << 12).to_string()),
            _ => ("pids.max", group.to_string()),
        };
        calls.push(set(group, file, &figure));
    }
    calls.extend(["-pids", "+pids"].map(|line| control(BOTTOM - 1, line)));
    calls.extend((LADDER..BOTTOM).rev().map(|group| control(group, "-cpu -io -memory -pids")));
    for name in ["cpu", "io", "memory", "pids"] {
        calls.extend([control(0, &format!("-{name}")), control(0, &format!("+{name}"))]);
    }
    calls
}

/// The first processes go, and the last, and those about the ends of bytes; they come back when they
/// are collected.
fn departures() -> Vec<Call> {
    let edges = [1, 2, 63, 64, 255, 256, 257, 511, 512, LAST_PROCESS - 1, LAST_PROCESS];
    let mut calls: Vec<Call> = edges.map(exit).to_vec();
    calls.extend([exit(LAST_PROCESS + 1), exit(LAST_PROCESS)]);
    calls.extend(edges.map(|process| fork(3, process)));
    calls.extend([0, 3, LAST_PROCESS + 1].map(collect));
    calls.extend(edges.map(collect));
    calls.extend(edges.map(|process| fork(3, process)));
    calls.push(Call::Remove { user: 0, group: BOTTOM });
    calls
}

/// All processes end, and so does their group; its number is taken until the last zombie is collected.
fn endings() -> Vec<Call> {
    let mut calls: Vec<Call> = (1..=LAST_PROCESS).map(exit).collect();
    calls.extend([fork(1, 2), Call::Admit { process: 1, user: 7 }]);
    calls.push(Call::Read { group: BOTTOM, file: b"cgroup.procs".to_vec(), room: 0 });
    calls.extend([Call::Remove { user: 0, group: BOTTOM }, make(BOTTOM - 1, BOTTOM)]);
    let line = "0::".len() + "/255".len() * (BOTTOM + 1 - LADDER) as usize + " (deleted)\n".len();
    for room in [line, line - 1, line + 1, 68, 0, ROOM] {
        calls.push(Call::Membership { process: LAST_PROCESS, room });
    }
    let middle = LAST_PROCESS / 2;
    calls.extend((1..=LAST_PROCESS).filter(|&process| process != middle).map(collect));
    calls.extend([make(BOTTOM - 1, BOTTOM), Call::Admit { process: middle, user: 7 }]);
    calls.extend([collect(middle), make(0, BOTTOM), Call::Admit { process: middle, user: 7 }]);
    calls
}

fn make(parent: u64, group: u64) -> Call {
    Call::Make { user: 0, parent, group }
}

fn control(group: u64, line: &str) -> Call {
    Call::WriteSubtreeControl { user: 0, group, line: line.into() }
}

fn enter(group: u64, process: u64) -> Call {
    Call::WriteProcs { user: 0, group, line: process.to_string().into() }
}

fn fork(parent: u64, process: u64) -> Call {
    Call::Fork { parent, process }
}

fn exit(process: u64) -> Call {
    Call::Exit { process }
}

fn collect(process: u64) -> Call {
    Call::Collect { process }
}

fn set(group: u64, file: &str, line: &str) -> Call {
    let (file, line) = (file.into(), line.into());
    Call::WriteSetting { user: 0, group, file, line }
}

fn pids(group: u64, limit: u64) -> Call {
    set(group, "pids.max", &limit.to_string())
}
