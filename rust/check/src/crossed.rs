//! A list of calls, two for each pair of checks that can hold in one call: on a tree where every
//! check can, all arguments of a short list each are tried with all others. Dice come to most pairs;
//! this leaves none to them. On the same tree go on the lists of [`sizes`], [`names`], [`depths`],
//! [`effects`], [`devices`] and [`zombies`].

use std::collections::BTreeMap;

use crate::call::Call;
use crate::calls::Calls;
use crate::checks::{Check, TABLE, besides, never, with};
use crate::compare::{FILES, ROOM};
use crate::model::{DEEPEST, LAST_GROUP, LAST_PROCESS, Model};
use crate::{depths, devices, effects, names, sizes, zombies};

pub const MACHINE: u64 = 64;

/// The highest of the groups that stand one below the other, down to the deepest level. That one is
/// the last, and all have three digits, as a membership line is longest.
pub const LADDER: u64 = LAST_GROUP + 1 - DEEPEST as u64;

/// Some that are in `tree`, two that were, one that is not live, and two above the last.
const GROUPS: [u64; 13] =
    [0, 1, 2, 3, 4, 5, 6, 7, LADDER, LAST_GROUP, 100, LAST_GROUP + 1, u64::MAX];
const PROCESSES: [u64; 8] = [0, 5, 6, 7, 8, 9, LAST_PROCESS, LAST_PROCESS + 1];
const USERS: [u32; 3] = [0, 7, 8];
const PAGES: [u64; 5] = [0, 1, 1_048_576, 1_048_577, u64::MAX];
/// The settings that take figures, and a file that is none.
const SETTINGS: [&str; 5] = ["memory.max", "pids.max", "cpu.weight", "cpu.max", "io.weight"];
const NUMBERS: [&str; 9] = ["0", "5", "6", "7", "8", "9", "1024", "1025", "x"];
const FIGURES: [&str; 5] = ["0", "1000", "9999999999999999", "max", "x"];
/// Words of io.max, where the first device is a fifth.
const DEVICES: [&str; 6] = ["9:0", "256:0", "rbps=1", "wbps=0", "riops=max", "x"];
const CONTROLS: [&str; 9] =
    ["+cpu", "+io", "+memory", "+pids", "-cpu", "-io", "-memory", "-pids", "x"];

pub fn calls() -> Vec<Call> {
    let mut calls = tree();
    let mut model = Model::fresh(MACHINE);
    for call in &calls {
        call.on(&mut model, 0);
    }
    for &(name, checks) in TABLE {
        calls.extend(pairs(&model, name, checks));
    }
    calls.extend(sizes::calls(&model));
    calls.extend(names::calls());
    calls.extend(depths::calls(&model));
    calls.extend(effects::calls());
    calls.extend(devices::calls());
    calls.extend(zombies::calls());
    calls
}

/// Groups 1 to 4 are user 7's; 2 and 3, below it, have cpu in their sets, and neither io nor pids is
/// on there. So has 5 beside them, user 0's. Group 1 holds four devices. Processes 5 and 6, user 7's
/// and user 8's, stand in 4 and find no room above it; 9, user 7's, is in the root. Zombies are 7 in
/// group 7, which was removed, as was 6 above it, and 8 in group 4. The ladder goes down from the root.
fn tree() -> Vec<Call> {
    let make = |user, parent, group| Call::Make { user, parent, group };
    let control =
        |group, line: &str| Call::WriteSubtreeControl { user: 0, group, line: line.into() };
    let procs = |group, line: &str| Call::WriteProcs { user: 0, group, line: line.into() };
    let limit = |file: &str| {
        let (file, line) = (file.into(), b"0".to_vec());
        Call::WriteSetting { user: 0, group: 1, file, line }
    };
    let device = |major: u64| {
        let (file, line) = (b"io.max".to_vec(), format!("{major}:16 rbps=7").into());
        Call::WriteSetting { user: 0, group: 1, file, line }
    };
    let mut calls = vec![
        control(0, "+cpu +io +memory +pids"),
        make(0, 0, 1),
        Call::HandOver { user: 0, group: 1, owner: 7 },
        control(1, "+cpu +memory"),
        make(7, 1, 2),
        control(2, "+cpu"),
        make(7, 2, 3),
        control(3, "+cpu"),
        make(7, 1, 4),
        make(0, 1, 5),
        control(5, "+cpu"),
        Call::Admit { process: 5, user: 7 },
        Call::Admit { process: 6, user: 8 },
        Call::Admit { process: 9, user: 7 },
        procs(4, "5"),
        procs(4, "6"),
        make(0, 1, 6),
        make(0, 6, 7),
        Call::Admit { process: 7, user: 7 },
        Call::Admit { process: 8, user: 7 },
        procs(7, "7"),
        procs(4, "8"),
        Call::Exit { process: 7 },
        Call::Exit { process: 8 },
        Call::Remove { user: 0, group: 7 },
        Call::Remove { user: 0, group: 6 },
        Call::Charge { process: 5, pages: 3 },
        limit("memory.max"),
        limit("pids.max"),
        make(0, 0, LADDER),
    ];
    calls.extend((1..=4).map(device));
    calls.extend((LADDER..LAST_GROUP).map(|group| make(0, group, group + 1)));
    calls
}

/// For each check of a call, and each later one that can hold with it so that their order shows,
/// the first call that does it and the last. Panics where there is none, and where two checks hold
/// together that never do.
fn pairs(model: &Model, name: &str, checks: &[&'static Check]) -> Vec<Call> {
    let mut found: BTreeMap<(&Check, &Check), [Call; 2]> = BTreeMap::new();
    for call in every(name) {
        let held = model.held(&call);
        for (place, first) in held.iter().enumerate() {
            for second in &held[place + 1..] {
                if let Some(why) = never(first, second) {
                    panic!("{call}: {first} holds with {second}, yet {why}");
                }
            }
        }
        for pair in besides(&held) {
            let ends = found.entry(pair).or_insert_with(|| [call.clone(), call.clone()]);
            ends[1] = call.clone();
        }
    }
    let mut calls = vec![];
    for first in checks {
        for second in with(first) {
            match found.remove(&(*first, second)) {
                Some(ends) => calls.extend(ends),
                None => panic!("{name}: no call with {first} and {second}"),
            }
        }
    }
    calls
}

/// Every call of this name with such arguments.
fn every(name: &str) -> Vec<Call> {
    let by_user = |calls: &dyn Fn(u32, u64) -> Vec<Call>| {
        let groups = |user| GROUPS.map(|group| calls(user, group)).concat();
        USERS.map(groups).concat()
    };
    let by_process = |calls: &dyn Fn(u64) -> Vec<Call>| PROCESSES.map(calls).concat();
    match name {
        "make" => {
            by_user(&|user, parent| GROUPS.map(|group| Call::Make { user, parent, group }).to_vec())
        }
        "remove" => by_user(&|user, group| vec![Call::Remove { user, group }]),
        "hand_over" => by_user(&|user, group| vec![Call::HandOver { user, group, owner: 7 }]),
        "write_procs" => {
            let lines = lines(&NUMBERS, 2);
            let write = |user, group, line| Call::WriteProcs { user, group, line };
            by_user(&|user, group| lines.iter().map(|l| write(user, group, l.clone())).collect())
        }
        "write_subtree_control" => {
            let lines = lines(&CONTROLS, 2);
            let write = |user, group, line| Call::WriteSubtreeControl { user, group, line };
            by_user(&|user, group| lines.iter().map(|l| write(user, group, l.clone())).collect())
        }
        "write_setting" => {
            let (figures, devices) = (lines(&FIGURES, 3), lines(&DEVICES, 3));
            let write = |user, group, file: &str, line: &Vec<u8>| {
                let (file, line) = (file.into(), line.clone());
                Call::WriteSetting { user, group, file, line }
            };
            let to = |user, group, file, lines: &[Vec<u8>]| {
                lines.iter().map(|line| write(user, group, file, line)).collect::<Vec<_>>()
            };
            by_user(&|user, group| {
                let of_figures = SETTINGS.map(|file| to(user, group, file, &figures)).concat();
                [of_figures, to(user, group, "io.max", &devices)].concat()
            })
        }
        "admit" => by_process(&|process| vec![Call::Admit { process, user: 7 }]),
        "fork" => {
            by_process(&|parent| PROCESSES.map(|process| Call::Fork { parent, process }).to_vec())
        }
        "exit" => by_process(&|process| vec![Call::Exit { process }]),
        "collect" => by_process(&|process| vec![Call::Collect { process }]),
        "charge" => {
            by_process(&|process| PAGES.map(|pages| Call::Charge { process, pages }).to_vec())
        }
        "release" => {
            by_user(&|_, group| PAGES.map(|pages| Call::Release { group, pages }).to_vec())
        }
        "read" => by_user(&|_, group| {
            let read = |file: &[u8], room| Call::Read { group, file: file.to_vec(), room };
            FILES.iter().flat_map(|file| [read(file, 0), read(file, ROOM)]).collect()
        }),
        "membership" => {
            by_process(&|process| [0, ROOM].map(|room| Call::Membership { process, room }).to_vec())
        }
        _ => unreachable!("no arguments for {name}"),
    }
}

/// Every line of so many words or fewer, and the same drawn out to 129 bytes.
fn lines(words: &[&str], most: usize) -> Vec<Vec<u8>> {
    let mut lines = vec![vec![]];
    let mut last = lines.clone();
    for _ in 0..most {
        let longer = |line: &Vec<u8>| {
            let with = |word: &&str| [line, word.as_bytes()].join(&b' ').trim_ascii().to_vec();
            words.iter().map(with).collect::<Vec<_>>()
        };
        last = last.iter().flat_map(longer).collect();
        lines.extend(last.clone());
    }
    let mut drawn = lines.clone();
    for line in &mut drawn {
        line.resize(129, b' ');
    }
    lines.extend(drawn);
    lines
}
