//! Lists of calls on which the proved host must agree with the model, and each of which shows a fault
//! around processes that have ended: a wrong host that has it does not agree.

#[path = "common/shows.rs"]
mod shows;

use shootspiral_check::Call::{self, *};
use shows::shows;

fn make(parent: u64, group: u64) -> Call {
    Make { user: 0, parent, group }
}

fn remove(group: u64) -> Call {
    Remove { user: 0, group }
}

fn enter(group: u64, process: u64) -> Call {
    WriteProcs { user: 0, group, line: process.to_string().into() }
}

fn control(group: u64, line: &str) -> Call {
    WriteSubtreeControl { user: 0, group, line: line.into() }
}

fn admit(process: u64) -> Call {
    Admit { process, user: 0 }
}

fn fork(parent: u64, process: u64) -> Call {
    Fork { parent, process }
}

fn exit(process: u64) -> Call {
    Exit { process }
}

fn collect(process: u64) -> Call {
    Collect { process }
}

/// Groups one below the other, from 1 on, and in the lowest a process of the same number that has
/// ended.
fn ended(levels: u64, then: &[Call]) -> Vec<Call> {
    let mut calls: Vec<Call> = (1..=levels).map(|group| make(group - 1, group)).collect();
    calls.extend([admit(levels), enter(levels, levels), exit(levels)]);
    [calls, then.to_vec()].concat()
}

/// The same, and so many of the groups are removed, the lowest first.
fn removed(levels: u64, gone: u64, then: &[Call]) -> Vec<Call> {
    let removals: Vec<Call> = (levels - gone + 1..=levels).rev().map(remove).collect();
    ended(levels, &[removals, then.to_vec()].concat())
}

fn all_show(rows: &[(&str, Vec<Call>)]) {
    for (fault, calls) in rows {
        shows(fault, 64, calls);
    }
}

#[test]
fn zombies_are_not_live() {
    let pids = [control(0, "+pids")];
    let limit = |figure: &str| {
        let (file, line) = (b"pids.max".to_vec(), figure.into());
        WriteSetting { user: 0, group: 1, file, line }
    };
    all_show(&[
        ("a zombie stays in cgroup.procs", ended(1, &[])),
        ("pids.current counts zombies", ended(1, &pids)),
        ("a zombie makes a group populated", ended(2, &[])),
        (
            "pids.max counts zombies",
            ended(2, &[&pids[..], &[admit(1), enter(1, 1), limit("2"), fork(1, 3)]].concat()),
        ),
        (
            "pids.max counts zombies",
            ended(1, &[&pids[..], &[admit(2), enter(1, 2), limit("2"), fork(2, 3)]].concat()),
        ),
        ("a zombie stops the removal of its group", removed(1, 1, &[])),
        ("a zombie below stops a removal", removed(2, 2, &[])),
        ("a zombie is an inner process", ended(1, &[control(0, "+cpu"), control(1, "+cpu")])),
        ("a move of a zombie is a success that does nothing", ended(1, &[enter(0, 1)])),
        ("a zombie is moved", ended(1, &[enter(0, 1)])),
        ("a zombie is charged", ended(1, &[Charge { process: 1, pages: 1 }])),
        ("a zombie is charged", removed(1, 1, &[Charge { process: 1, pages: 1 }])),
        ("a zombie forks", ended(1, &[fork(1, 2)])),
        ("a zombie ends again", ended(1, &[exit(1)])),
    ]);
}

#[test]
fn numbers_of_zombies_are_taken() {
    all_show(&[
        ("exit leaves no zombie", ended(1, &[])),
        ("admit takes a zombie's number", ended(1, &[admit(1)])),
        ("admit takes a zombie's number", removed(1, 1, &[admit(1)])),
        ("fork takes a zombie's number", ended(1, &[admit(2), fork(2, 1)])),
        ("fork takes a zombie's number", removed(1, 1, &[admit(2), fork(2, 1)])),
        ("collect ends a live process", vec![admit(1), collect(1)]),
        ("collect of a free number is a success", vec![collect(1)]),
        ("collect of a free number is a success", ended(1, &[collect(1), collect(1)])),
        ("collect of a number out of range is 22", vec![collect(0)]),
        ("collect of a number out of range is 22", vec![collect(1025)]),
        ("collect frees nothing", ended(1, &[collect(1)])),
        (
            "collect frees all zombies of a group",
            vec![admit(1), admit(2), exit(1), exit(2), collect(1)],
        ),
        ("processes are numbered in 10 bits", vec![admit(1), exit(1), collect(1025)]),
    ]);
}

#[test]
fn numbers_of_removed_groups_are_taken() {
    all_show(&[
        ("a removed number is made again at once", removed(1, 1, &[make(0, 1)])),
        (
            "a removed number is made again though a zombie's path comes from below",
            removed(2, 2, &[make(0, 1)]),
        ),
        (
            "a removed number is made again though a zombie is two levels below and more",
            removed(3, 3, &[make(0, 1)]),
        ),
        (
            "a removed number is made again though a zombie is in that group",
            removed(2, 2, &[make(0, 2)]),
        ),
        (
            "a removed number is made again under another parent",
            removed(2, 1, &[make(0, 3), make(3, 2)]),
        ),
        ("a zombie's line follows the number made again", removed(2, 1, &[make(0, 2)])),
        (
            "a number that a zombie's path ran through is never made again",
            removed(1, 1, &[collect(1), make(0, 1)]),
        ),
        (
            "a removed group above a zombie's own is left when the last was collected",
            removed(2, 2, &[collect(2), make(0, 1)]),
        ),
        ("only a zombie's own group is kept when removed", removed(2, 2, &[make(0, 1)])),
        ("a group is made under a removed one", removed(1, 1, &[make(1, 2)])),
        ("a removed group is read while a zombie is left", removed(1, 1, &[])),
        ("a removed group is 17 in every call while a zombie is left", removed(1, 1, &[remove(1)])),
    ]);
}

/// One in 2 and another in 1 above it: the first needs both groups, the second one.
#[test]
fn a_collection_frees_no_more_than_it_may() {
    let both = |then: &[Call]| {
        let mut calls = vec![make(0, 1), make(1, 2), admit(5), admit(6), enter(2, 5), enter(1, 6)];
        calls.extend([exit(5), exit(6), remove(2), remove(1)]);
        [calls, then.to_vec()].concat()
    };
    let fault = "collect clears removed groups that another zombie needs";
    shows(fault, 64, &both(&[collect(6)]));
    shows(fault, 64, &both(&[collect(6), make(0, 1)]));
    shows(fault, 64, &both(&[collect(5), make(0, 1)]));
}

#[test]
fn lines_of_zombies_stand_still() {
    all_show(&[
        ("\" (deleted)\" stands in every zombie's line", ended(1, &[])),
        ("\" (deleted)\" is missing after the removal", removed(1, 1, &[])),
        ("\" (deleted)\" is missing until the parent is removed too", removed(2, 1, &[])),
        ("\" (deleted)\" stands after the newline", removed(1, 1, &[])),
        ("a zombie's path is cut at the removed group", removed(2, 1, &[])),
        ("a zombie's path is cut at the removed group", removed(2, 2, &[])),
        ("a removed group's path is its number alone", removed(2, 1, &[])),
        ("a zombie has no membership line", ended(1, &[])),
        ("a zombie's line is gone with its group", removed(1, 1, &[])),
        ("a zombie's line is that of the root", ended(1, &[])),
        ("only a zombie's own group is kept when removed", removed(2, 2, &[])),
    ]);
    let deep: Vec<Call> = (240..=255).map(|n| make(if n == 240 { 0 } else { n - 1 }, n)).collect();
    let last = [admit(1), enter(255, 1), exit(1), remove(255)];
    let line = |room| [&deep[..], &last, &[Membership { process: 1, room }]].concat();
    shows("a membership line of more than 68 bytes is refused", 64, &line(78));
    shows("a membership line of 78 bytes is refused", 64, &line(78));
    shows("a buffer of exactly the length is too short", 64, &line(78));
    shows("a buffer that is too short is filled all the same", 64, &line(77));
}

/// Where two checks hold, the one that the papers name first is the answer.
#[test]
fn taken_numbers_come_at_their_place() {
    let full = [control(0, "+pids"), admit(2), enter(1, 2)];
    let limit = WriteSetting { user: 0, group: 1, file: b"pids.max".to_vec(), line: b"1".to_vec() };
    let user = |group| Make { user: 7, parent: 0, group };
    let mut deep: Vec<Call> = (2..=17).map(|n| make(if n == 2 { 0 } else { n - 1 }, n)).collect();
    deep.push(make(17, 1));
    all_show(&[
        (
            "fork asks for room before a zombie's number",
            ended(1, &[&full[..], &[limit, fork(2, 1)]].concat()),
        ),
        ("fork asks for the child's number before a zombie's", ended(1, &[fork(1, 0)])),
        ("make asks for a zombie's path before the parent", removed(1, 1, &[make(9, 1)])),
        ("make asks for the user before a zombie's path", removed(1, 1, &[user(1)])),
        ("make asks for the depth before a zombie's path", removed(1, 1, &deep)),
        (
            "a move asks for the user before a zombie",
            ended(
                1,
                &[
                    HandOver { user: 0, group: 1, owner: 7 },
                    WriteProcs { user: 7, group: 1, line: b"1".to_vec() },
                ],
            ),
        ),
        ("charge asks for pages before a zombie", ended(1, &[Charge { process: 1, pages: 0 }])),
    ]);
}
