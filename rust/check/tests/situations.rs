//! The lists of calls come to places that dice seldom reach: numbers that are not live, figures by
//! the million, many children, every process, bytes beside the digits, long lines, many devices,
//! zombies.

use std::collections::{BTreeMap, BTreeSet};

use shootspiral_check::checks::{
    Check, TABLE, admit, besides, fork, make, with, write_procs, write_setting,
};
use shootspiral_check::generate::Generator;
use shootspiral_check::model::{
    CONTROLLERS, CPU, IO, LAST_GROUP, LAST_PROCESS, MEMORY, Model, PIDS,
};
use shootspiral_check::{Call, Calls};

/// So many that about a hundred are left without those that are heavy in zombies.
const SEEDS: std::ops::RangeInclusive<u64> = 1..=110;
const CALLS: usize = 300;

/// How often they must come to each pair of checks but one: a user's own process, below a group of
/// the user's, is put into another's group there that has a set.
const OFTEN: u64 = 2;
const SELDOM: (&Check, &Check) = (write_procs::MAY_NOT_WRITE, write_procs::HAS_SET);

/// Each place, and how often a run must come to it.
const PLACES: [(&str, u64); 73] = [
    ("make under a group not live", 20),
    ("remove of a group not live", 20),
    ("hand_over of a group not live", 20),
    ("write_procs of a group not live", 20),
    ("write_subtree_control of a group not live", 20),
    ("write_setting of a group not live", 20),
    ("release of a group not live", 20),
    ("read of a group not live", 20),
    ("fork of a process not live", 20),
    ("exit of a process not live", 20),
    ("charge of a process not live", 20),
    ("membership of a process not live", 20),
    ("collect of a process not live", 200),
    ("a group made again under another parent", 20),
    ("a group with pages removed at depth 4 or below", 5),
    ("a group made under depth 15", 20),
    ("a group not made under depth 16", 20),
    ("a charge at depth 16 stopped at depth 1 to 14", 5),
    ("a fork at depth 16 stopped at depth 1 to 14", 3),
    ("a charge above 2^24 pages", 20),
    ("a limit that stops a charge above 2^24 pages", 10),
    ("a release from more than 2^22 own pages", 20),
    ("a group with more than 2^22 pages removed", 2),
    ("cpu leaves ten children with settings", 3),
    ("io leaves ten children with settings", 3),
    ("memory leaves ten children with settings", 3),
    ("pids leaves ten children with settings", 3),
    ("two words to memory.max", 10),
    ("two words to pids.max", 10),
    ("two words to cpu.weight", 10),
    ("three words to cpu.max", 5),
    ("memory.max with / or :", 3),
    ("pids.max with / or :", 3),
    ("cpu.weight with / or :", 3),
    ("cpu.max with / or :", 3),
    ("cgroup.procs with / or :", 3),
    ("a fork of the 255th process inside", 3),
    ("a fork of the 256th process inside", 3),
    ("a fork stopped at 255 processes", 3),
    ("a fork of the 1024th process inside", 1),
    ("a fork stopped at 1023 processes", 1),
    ("every process in a buffer that they fill", 1),
    ("every process in a buffer one byte short", 1),
    ("a group above 63", 1000),
    ("a process above 256", 1000),
    ("more than 64 groups", 100),
    ("a long line without a bad word", 5),
    ("a long line with a bad word first", 5),
    ("a long line with a bad word last", 5),
    ("a long line with a bad word within", 5),
    ("a long line of one word", 5),
    ("a move that the common ancestor's owner alone may make", 20),
    ("a fifth device", 20),
    ("a fifth device, accepted as all are max", 5),
    ("a held device of four", 20),
    ("room for a fourth device", 20),
    ("a device's line written back", 10),
    ("a device's line written back without its newline", 10),
    ("io.max of 128 bytes", 3),
    ("an exit in a group below the root", 300),
    ("a group with a zombie removed", 100),
    ("a group above a zombie's removed", 50),
    ("a number not made, by the path of a zombie in that group", 50),
    ("a number not made, by the path of a zombie further down", 30),
    ("a number made again that a zombie's path ran through", 20),
    ("a zombie's number admitted", 20),
    ("a zombie's number forked", 20),
    ("a process again that was a zombie", 50),
    ("a zombie collected in a removed group", 50),
    ("a collection that frees two numbers of groups and more", 10),
    ("a move of a zombie", 20),
    ("three removed groups on a zombie's path", 100),
    ("a line with \" (deleted)\" that fills its buffer", 10),
];

#[test]
fn every_place_is_come_to() {
    let mut counts: BTreeMap<String, u64> = BTreeMap::new();
    for seed in SEEDS {
        let mut generator = Generator::new(seed);
        let mut model = Model::fresh(generator.machine());
        let mut parents = BTreeMap::new();
        let mut freed = BTreeSet::new();
        for _ in 0..generator.length(CALLS) {
            let call = generator.next(&model);
            let before = model.clone();
            let answer = call.on(&mut model, 0);
            for place in places(&before, &call, answer.number, &answer.told) {
                *counts.entry(place).or_default() += 1;
            }
            if let (Call::Make { parent, group, .. }, 0) = (&call, answer.number)
                && parents.insert(*group, *parent).is_some_and(|former| former != *parent)
            {
                *counts.entry("a group made again under another parent".into()).or_default() += 1;
            }
            for place in again(&mut freed, &before, &call, answer.number, &model) {
                *counts.entry(place.into()).or_default() += 1;
            }
        }
    }
    let count = |place: &str| counts.get(place).copied().unwrap_or(0);
    let rare = PLACES.iter().filter(|(place, often)| count(place) < *often);
    let rare: Vec<_> = rare.map(|(place, _)| format!("{place}: {}", count(place))).collect();
    assert!(rare.is_empty(), "{rare:#?}");
}

/// Numbers that a collection has freed: of groups, and of processes.
#[derive(PartialEq, Eq, PartialOrd, Ord)]
enum Freed {
    Group(u64),
    Process(u64),
}

/// The places that a call comes to by what was freed before it.
fn again(
    freed: &mut BTreeSet<Freed>,
    before: &Model,
    call: &Call,
    number: u32,
    after: &Model,
) -> Vec<&'static str> {
    let (is_again, place) = match call {
        _ if number != 0 => return vec![],
        Call::Collect { process } => {
            freed.insert(Freed::Process(*process));
            let left: BTreeSet<u64> = after.removed_groups().collect();
            let gone: Vec<u64> = before.removed_groups().filter(|g| !left.contains(g)).collect();
            let place = "a collection that frees two numbers of groups and more";
            let is_two = gone.len() > 1;
            freed.extend(gone.into_iter().map(Freed::Group));
            (is_two, place)
        }
        Call::Make { group, .. } => {
            let place = "a number made again that a zombie's path ran through";
            (freed.remove(&Freed::Group(*group)), place)
        }
        Call::Admit { process, .. } | Call::Fork { process, .. } => {
            (freed.remove(&Freed::Process(*process)), "a process again that was a zombie")
        }
        _ => return vec![],
    };
    if is_again { vec![place] } else { vec![] }
}

/// One seed of ten ends processes and leaves them.
#[test]
fn a_tenth_of_the_lists_is_heavy_in_zombies() {
    let mut most = vec![];
    for seed in SEEDS {
        let mut generator = Generator::new(seed);
        let mut model = Model::fresh(generator.machine());
        let (mut zombies, mut ends) = (0, 0);
        for _ in 0..generator.length(CALLS) {
            let call = generator.next(&model);
            let answer = call.on(&mut model, 0);
            ends += usize::from(answer.number == 0 && matches!(call, Call::Exit { .. }));
            zombies += model.zombies().count();
        }
        if ends > 12 && zombies > 2 * CALLS {
            most.push(seed);
        }
    }
    let heavy = SEEDS.filter(|seed| seed % 10 == 4);
    let missing: Vec<u64> = heavy.filter(|seed| !most.contains(seed)).collect();
    assert!(missing.is_empty(), "{missing:?} of {most:?}");
}

/// Pairs of checks whose order shows, by the seeds alone.
#[test]
fn pairs_of_checks_are_come_to() {
    let mut counts: BTreeMap<_, u64> = BTreeMap::new();
    for seed in SEEDS {
        let mut generator = Generator::new(seed);
        let mut model = Model::fresh(generator.machine());
        for _ in 0..generator.length(CALLS) {
            let call = generator.next(&model);
            for pair in besides(&model.held(&call)) {
                *counts.entry(pair).or_default() += 1;
            }
            call.on(&mut model, 0);
        }
    }
    let mut rare = vec![];
    for &first in TABLE.iter().flat_map(|(_, checks)| *checks) {
        for second in with(first) {
            let count = counts.get(&(first, second)).copied().unwrap_or(0);
            if count < OFTEN && (first, second) != SELDOM {
                rare.push(format!("{}: {first}, {second}: {count}", first.call()));
            }
        }
    }
    assert!(rare.is_empty(), "{rare:#?}");
}

/// The places that a call comes to, by the model before it and by its answer.
fn places(model: &Model, call: &Call, number: u32, told: &[u64]) -> Vec<String> {
    let mut places = absent(model, call);
    let mut note = |is_there: bool, place: &str| {
        if is_there {
            places.push(place.into());
        }
    };
    note(number == 0 && call.groups().iter().any(|&group| group > 63), "a group above 63");
    let processes = call.processes();
    note(number == 0 && processes.iter().any(|&process| process > 256), "a process above 256");
    note(model.live_groups().count() > 64, "more than 64 groups");
    let is_long = |zombie| {
        let path = model.path(zombie).into_iter();
        path.take_while(|group| model.is_on_zombies_path(*group)).count() >= 3
    };
    note(model.zombies().any(is_long), "three removed groups on a zombie's path");
    let own = |group: u64| model.group(group).map_or(0, |kept| kept.own_pages);
    let refused_by = model.held(call).first().copied();
    match call {
        Call::Make { parent, group, .. } => {
            note(number == 11, "a group not made under depth 16");
            note(number == 0 && model.depth(*parent) == 15, "a group made under depth 15");
            let is_taken = refused_by == Some(make::NEW_ON_ZOMBIES_PATH);
            let is_own = model.zombies().any(|zombie| model.path(zombie)[0] == *group);
            note(is_taken && is_own, "a number not made, by the path of a zombie in that group");
            note(is_taken && !is_own, "a number not made, by the path of a zombie further down");
        }
        Call::Remove { group, .. } => {
            let mut paths = model.zombies().map(|zombie| model.path(zombie));
            let inside: Vec<_> = paths.by_ref().filter(|path| path.contains(group)).collect();
            let is_own = inside.iter().any(|path| path[0] == *group);
            note(number == 0 && is_own, "a group with a zombie removed");
            let is_above = !is_own && !inside.is_empty();
            note(number == 0 && is_above, "a group above a zombie's removed");
            let is_deep = number == 0 && model.depth(*group) >= 4;
            note(is_deep && own(*group) > 0, "a group with pages removed at depth 4 or below");
            let is_rich = number == 0 && own(*group) > 1 << 22;
            note(is_rich, "a group with more than 2^22 pages removed");
        }
        Call::Charge { process, .. } => {
            let is_far = is_far_below(model, *process, told[0]);
            note(number == 12 && is_far, "a charge at depth 16 stopped at depth 1 to 14");
            let many = 1 << 24;
            note(number == 0 && model.usage(0) > many, "a charge above 2^24 pages");
            let stops = number == 12 && told[0] != 0 && model.usage(told[0]) > many;
            note(stops, "a limit that stops a charge above 2^24 pages");
        }
        Call::Release { group, .. } => {
            let is_large = number == 0 && own(*group) > 1 << 22;
            note(is_large, "a release from more than 2^22 own pages");
        }
        Call::WriteSubtreeControl { group, line, .. } if number == 0 => {
            for name in left_by(model, *group, line) {
                note(true, &format!("{name} leaves ten children with settings"));
            }
        }
        Call::WriteSetting { group, file, line, .. } => {
            let words = line.split(|&byte| byte == b' ').filter(|word| !word.is_empty()).count();
            let file = String::from_utf8_lossy(file);
            let is_more = refused_by == Some(write_setting::MORE_WORDS);
            note(is_more && words == 2, &format!("two words to {file}"));
            note(is_more && words == 3, &format!("three words to {file}"));
            let malformed = [write_setting::MALFORMED, write_setting::PERIOD_MALFORMED];
            let is_malformed = refused_by.is_some_and(|check| malformed.contains(&check));
            note(is_malformed && is_beside_digits(line), &format!("{file} with / or :"));
            if file == "io.max" {
                note(refused_by == Some(write_setting::FIFTH_DEVICE), "a fifth device");
                if number == 0 {
                    places.extend(device_places(model, *group, line));
                }
            }
        }
        Call::WriteProcs { user, group, line } => {
            note(refused_by == Some(write_procs::PROCESS_IS_ZOMBIE), "a move of a zombie");
            let is_malformed = refused_by == Some(write_procs::NOT_A_NUMBER);
            note(is_malformed && is_beside_digits(line), "cgroup.procs with / or :");
            let is_owner = model.group(*group).is_some_and(|kept| kept.owner == *user);
            let process = std::str::from_utf8(line).ok().and_then(|line| line.trim().parse().ok());
            let moved = process.and_then(|process| model.process(process));
            let is_own = is_owner && moved.is_some_and(|kept| kept.user == *user);
            let is_refused = refused_by == Some(write_procs::MAY_NOT_WRITE_LOWEST);
            note(is_refused && is_own, "a move that the common ancestor's owner alone may make");
        }
        Call::Admit { .. } => {
            note(refused_by == Some(admit::IS_ZOMBIE), "a zombie's number admitted");
        }
        Call::Exit { process } => {
            let is_below = model.process(*process).is_some_and(|kept| kept.group != 0);
            note(is_below, "an exit in a group below the root");
        }
        Call::Collect { process } => {
            let is_gone = is_deleted(model, *process);
            note(number == 0 && is_gone, "a zombie collected in a removed group");
        }
        Call::Membership { process, room } => {
            let fills = is_deleted(model, *process) && told[0] == *room as u64;
            note(fills, "a line with \" (deleted)\" that fills its buffer");
        }
        Call::Fork { parent, .. } => {
            note(refused_by == Some(fork::NEW_IS_ZOMBIE), "a zombie's number forked");
            let group = model.process(*parent).map_or(0, |kept| kept.group);
            let limited =
                |&up: &u64| model.group(up).is_some_and(|kept| kept.settings.pids_max.is_some());
            let inside = model.chain(group).into_iter().find(limited);
            let inside = inside.map_or(0, |up| model.population(up));
            note(number == 0 && inside == 254, "a fork of the 255th process inside");
            note(number == 0 && inside == 255, "a fork of the 256th process inside");
            note(number == 11 && inside == 255, "a fork stopped at 255 processes");
            note(number == 0 && inside == 1023, "a fork of the 1024th process inside");
            note(number == 11 && inside == 1023, "a fork stopped at 1023 processes");
            let is_far = is_far_below(model, *parent, told[0]);
            note(number == 11 && is_far, "a fork at depth 16 stopped at depth 1 to 14");
        }
        Call::Read { group, room, .. } => {
            let all = model.holds(*group).count() == 1024;
            let (filled, short) = ((*room, told[0]) == (4013, 4013), (*room, number) == (4012, 28));
            note(all && filled, "every process in a buffer that they fill");
            note(all && short, "every process in a buffer one byte short");
        }
        Call::FirstBadWord { line } if line.len() > 2_000 => {
            let after = line.len() as u64 - told[0] - told[1];
            let place = match (told[0], told[1], after) {
                (_, 0, _) => "a long line without a bad word",
                (0, _, 0 | 1) => "a long line of one word",
                (0, _, _) => "a long line with a bad word first",
                (_, _, 0 | 1) => "a long line with a bad word last",
                _ => "a long line with a bad word within",
            };
            note(true, place);
        }
        _ => {}
    }
    places
}

/// Whether a zombie's own group was removed.
fn is_deleted(model: &Model, process: u64) -> bool {
    model.path(process).first().is_some_and(|own| model.is_on_zombies_path(*own))
}

/// The places that an accepted line of io.max comes to.
fn device_places(model: &Model, group: u64, line: &[u8]) -> Vec<String> {
    let held = model.group(group).map_or(vec![], |kept| kept.settings.io_max.clone());
    let line = String::from_utf8_lossy(line);
    let device = line.split_whitespace().next().unwrap_or_default();
    let is_held = held.iter().any(|held| held.device.to_string() == device);
    let has_figure = line.split('=').skip(1).any(|value| !value.starts_with("max"));
    let is_back = |line: &str| held.iter().any(|held| held.line() == line);
    let places = [
        (held.len() == 4 && !is_held, "a fifth device, accepted as all are max"),
        (held.len() == 4 && is_held, "a held device of four"),
        (held.len() == 3 && !is_held && has_figure, "room for a fourth device"),
        (is_back(&line), "a device's line written back"),
        (is_back(&format!("{line}\n")), "a device's line written back without its newline"),
        (line.len() == 128, "io.max of 128 bytes"),
    ];
    places.into_iter().filter(|(holds, _)| *holds).map(|(_, place)| place.into()).collect()
}

/// Whether the process is at depth 16, and the group at depth 1 to 14.
fn is_far_below(model: &Model, process: u64, group: u64) -> bool {
    let depth = model.process(process).map(|kept| model.depth(kept.group));
    depth == Some(16) && (1..=14).contains(&model.depth(group))
}

/// Whether the line has one of the two bytes beside the digits.
fn is_beside_digits(line: &[u8]) -> bool {
    line.iter().any(|byte| b"/:".contains(byte))
}

/// Numbers in range that are not live.
fn absent(model: &Model, call: &Call) -> Vec<String> {
    let (group, process, how) = match call {
        Call::Make { parent, .. } => (Some(*parent), None, "under"),
        Call::Remove { group, .. }
        | Call::HandOver { group, .. }
        | Call::WriteProcs { group, .. }
        | Call::WriteSubtreeControl { group, .. }
        | Call::WriteSetting { group, .. }
        | Call::Release { group, .. }
        | Call::Read { group, .. } => (Some(*group), None, "of"),
        Call::Fork { parent, .. } => (None, Some(*parent), "of"),
        Call::Exit { process }
        | Call::Collect { process }
        | Call::Charge { process, .. }
        | Call::Membership { process, .. } => (None, Some(*process), "of"),
        Call::Admit { .. } | Call::FirstBadWord { .. } => (None, None, ""),
    };
    let mut places = vec![];
    if group.is_some_and(|group| group <= LAST_GROUP && model.group(group).is_none()) {
        places.push(format!("{} {how} a group not live", call.name()));
    }
    if process.is_some_and(|n| (1..=LAST_PROCESS).contains(&n) && model.process(n).is_none()) {
        places.push(format!("{} {how} a process not live", call.name()));
    }
    places
}

/// The controllers that a line makes leave ten children and more with settings of theirs.
fn left_by(model: &Model, group: u64, line: &[u8]) -> Vec<&'static str> {
    let children: Vec<_> = model.children(group).filter_map(|child| model.group(child)).collect();
    let is_set = |k: usize| {
        let with_settings = children.iter().filter(|child| match k {
            CPU => child.settings.cpu_weight != 100,
            IO => !child.settings.io_max.is_empty(),
            MEMORY => child.settings.memory_max.is_some(),
            _ => child.settings.pids_max.is_some(),
        });
        with_settings.count() >= 10
    };
    let leaves = |k: usize| {
        line.trim_ascii_end() == format!("-{}", CONTROLLERS[k]).as_bytes()
            && model.group(group).is_some_and(|kept| kept.set[k])
    };
    let left = [CPU, IO, MEMORY, PIDS].into_iter().filter(|&k| leaves(k) && is_set(k));
    left.map(|k| CONTROLLERS[k]).collect()
}
