//! The kinds of zombies: where they are, what is taken by them and freed by their collection, and how
//! long the lines are that end in " (deleted)".

use std::collections::BTreeSet;

use super::{Kind, kind};
use crate::call::Call;
use crate::checks::{
    Check, admit, charge, collect, exit, fork, hand_over, make, read, release, remove, write_procs,
    write_setting, write_subtree_control,
};
use crate::model::{DEEPEST, EMPTY, LAST_PROCESS, Model, PIDS};

/// Where one is, and what is about it that it must not count for.
pub(super) const STANDING: &[&str] = &[
    "in the root",
    "in a live group",
    "in a live group at depth 16",
    "in a removed group under the root",
    "in a removed group under a live one",
    "in a removed group under a removed one",
    "in a removed group under two removed ones and more",
    "in a removed group, and so are all above it to depth 1, from depth 16",
    "in a live group beside a live process",
    "in a live group that has no live process inside",
    "in a live group that has a set",
    "in a live group with pids on",
    "in a live group that is full by pids.max and has no live process inside",
    "above another zombie, both in removed groups",
    "two in one removed group",
    "more than 256",
];

/// Which zombies' paths run through the number of a removed group that is to be made again.
pub(super) const TAKEN: &[&str] = &[
    "of one in that group",
    "of one in a group below it",
    "of one two levels and more below it",
    "of two and more",
];

/// What a call does beside zombies, or does not.
pub(super) const CALLS: &[&str] = &[
    "remove of a group with a zombie",
    "remove of a group with 1024 zombies",
    "remove of a group above one with a zombie",
    "remove that leaves nothing to be kept",
    "move into a group with a zombie",
    "set written where a zombie is",
    "controller joins where a zombie is",
    "fork beside a zombie, with as much room as that",
    "make under a group with a zombie",
    "pages charged to a group with a zombie",
    "exit beside another zombie",
];

/// The calls that name a process, and are refused where it is a zombie.
pub(super) const REFUSED: &[&str] =
    &["admit", "fork, new", "fork, parent", "exit", "charge", "write_procs"];

/// The calls that find a number not live, though a zombie's path runs through it.
pub(super) const NOT_LIVE: &[&str] = &[
    "make, parent",
    "remove",
    "hand_over",
    "write_procs",
    "write_subtree_control",
    "write_setting",
    "release",
    "read",
];

/// What a collection frees.
pub(super) const COLLECTED: &[&str] = &[
    "of one in a live group",
    "of one in the root",
    "frees one group's number",
    "frees two groups' numbers and more",
    "frees the numbers of groups that were at depth 1 to 16",
    "frees some, and some stay taken by another",
    "frees none, as another is in the same removed group",
    "frees none, as another is below in removed groups",
];

/// What is no zombie and not collected.
pub(super) const NOT_COLLECTED: &[&str] = &[
    "live",
    "free",
    "free, and was collected before",
    "0",
    "1025",
    "a zombie's number and 1024",
    "a zombie's number and 2^32",
    "2^64 - 1",
];

/// Numbers that are taken anew.
pub(super) const AGAIN: &[&str] =
    &["group made", "group made under another parent", "process admitted", "process forked"];

/// The lengths of the lines that end in " (deleted)", from "0::/1 (deleted)" and a newline on.
pub(super) const LENGTHS: &[&str; LONGEST - SHORTEST + 1] = &[
    "16", "17", "18", "19", "20", "21", "22", "23", "24", "25", "26", "27", "28", "29", "30", "31",
    "32", "33", "34", "35", "36", "37", "38", "39", "40", "41", "42", "43", "44", "45", "46", "47",
    "48", "49", "50", "51", "52", "53", "54", "55", "56", "57", "58", "59", "60", "61", "62", "63",
    "64", "65", "66", "67", "68", "69", "70", "71", "72", "73", "74", "75", "76", "77", "78",
];
const SHORTEST: usize = 16;
const LONGEST: usize = 78;

/// What a list has freed so far.
#[derive(Default)]
pub struct Freed {
    /// With the parents that they had.
    groups: BTreeSet<(u64, u64)>,
    processes: BTreeSet<u64>,
}

impl Freed {
    /// The kinds of a call that takes a number which a collection has freed, or tries to free one
    /// again; and what it frees itself.
    pub fn follow(&mut self, model: &Model, call: &Call, held: &[&Check]) -> Vec<Kind> {
        match (call, held.first()) {
            (Call::Collect { process }, None) => {
                self.processes.insert(*process);
                let freed = freed(model, *process);
                self.groups.extend(freed.into_iter().map(|group| (group, model.removed[&group])));
                vec![]
            }
            (Call::Collect { process }, Some(check)) if **check == *collect::FREE => {
                let was_collected = self.processes.contains(process);
                let name = "free, and was collected before";
                was_collected.then(|| kind("collect, refused", name)).into_iter().collect()
            }
            (Call::Make { parent, group, .. }, None) => self.made(*group, *parent),
            (Call::Admit { process, .. }, None) => self.born(*process, "process admitted"),
            (Call::Fork { process, .. }, None) => self.born(*process, "process forked"),
            _ => vec![],
        }
    }

    fn made(&mut self, group: u64, parent: u64) -> Vec<Kind> {
        let former = self.groups.iter().find(|(freed, _)| *freed == group).copied();
        let Some((_, former)) = former else { return vec![] };
        self.groups.remove(&(group, former));
        let mut kinds = vec![kind("after its collection, again", "group made")];
        if former != parent {
            kinds.push(kind("after its collection, again", "group made under another parent"));
        }
        kinds
    }

    fn born(&mut self, process: u64, how: &str) -> Vec<Kind> {
        let is_freed = self.processes.remove(&process);
        is_freed.then(|| kind("after its collection, again", how)).into_iter().collect()
    }
}

/// The numbers of groups that the collection of a zombie would free.
fn freed(model: &Model, zombie: u64) -> BTreeSet<u64> {
    let others = model.zombies().filter(|&other| other != zombie);
    let needed: BTreeSet<u64> = others.flat_map(|other| model.path(other)).collect();
    let path = model.path(zombie).into_iter();
    path.filter(|group| model.is_on_zombies_path(*group) && !needed.contains(group)).collect()
}

/// The group of a zombie.
fn group_of(model: &Model, zombie: u64) -> u64 {
    model.path(zombie)[0]
}

/// The zombies of a group itself.
fn zombies_of(model: &Model, group: u64) -> impl Iterator<Item = u64> {
    model.zombies().filter(move |&zombie| group_of(model, zombie) == group)
}

/// The kinds of all zombies there are.
pub(super) fn values(model: &Model) -> Vec<Kind> {
    let mut kinds = vec![];
    let mut note = |holds: bool, name: &str| {
        if holds {
            kinds.push(kind("zombie", name));
        }
    };
    for zombie in model.zombies() {
        let path = model.path(zombie);
        let (own, depth) = (path[0], path.len() - 1);
        let gone = path.iter().take_while(|group| model.is_on_zombies_path(**group)).count();
        note(own == 0, "in the root");
        note(gone == 1 && depth == 1, "in a removed group under the root");
        note(gone == 1 && depth > 1, "in a removed group under a live one");
        note(gone == 2, "in a removed group under a removed one");
        note(gone > 2, "in a removed group under two removed ones and more");
        note(
            gone == DEEPEST,
            "in a removed group, and so are all above it to depth 1, from depth 16",
        );
        let in_one = zombies_of(model, own).count();
        note(gone > 0 && in_one > 1, "two in one removed group");
        let is_below = |other: u64| model.path(other)[1..].contains(&own);
        note(
            gone > 0 && model.zombies().any(is_below),
            "above another zombie, both in removed groups",
        );
        if let Some(kept) = model.group(own).filter(|_| own != 0) {
            let has_none = model.population(own) == 0;
            let is_full = model.is_on(PIDS, own) && kept.settings.pids_max == Some(0);
            note(true, "in a live group");
            note(depth == DEEPEST, "in a live group at depth 16");
            note(model.holds(own).next().is_some(), "in a live group beside a live process");
            note(has_none, "in a live group that has no live process inside");
            note(kept.set != EMPTY, "in a live group that has a set");
            note(model.is_on(PIDS, own), "in a live group with pids on");
            note(
                is_full && has_none,
                "in a live group that is full by pids.max and has no live process inside",
            );
        }
    }
    note(model.zombies().count() > 256, "more than 256");
    kinds
}

/// The kinds of a call, by the checks that hold.
pub(super) fn of_call(model: &Model, call: &Call, held: &[&'static Check]) -> Vec<Kind> {
    let mut kinds = beside(model, call, held);
    kinds.extend(refused(model, call, held));
    if let Call::Make { group, .. } = call
        && held.first() == Some(&make::NEW_ON_ZOMBIES_PATH)
    {
        kinds.extend(taken(model, *group));
    }
    if let Call::Collect { process } = call {
        kinds.extend(match held.is_empty() {
            true => collected(model, *process),
            false => not_collected(model, *process),
        });
    }
    kinds
}

/// Accepted calls beside zombies.
fn beside(model: &Model, call: &Call, held: &[&Check]) -> Vec<Kind> {
    if !held.is_empty() {
        return vec![];
    }
    let has_zombie = |group: u64| zombies_of(model, group).next().is_some();
    let mut kinds = vec![];
    let mut note = |holds: bool, name: &str| {
        if holds {
            kinds.push(kind("accepted beside a zombie", name));
        }
    };
    match call {
        Call::Remove { group, .. } => {
            let is_needed = model.zombies().any(|zombie| model.path(zombie).contains(group));
            note(has_zombie(*group), "remove of a group with a zombie");
            let is_every = zombies_of(model, *group).count() as u64 == LAST_PROCESS;
            note(is_every, "remove of a group with 1024 zombies");
            note(!has_zombie(*group) && is_needed, "remove of a group above one with a zombie");
            let is_any = model.zombies().next().is_some();
            note(is_any && !is_needed, "remove that leaves nothing to be kept");
        }
        Call::WriteProcs { group, .. } => {
            note(has_zombie(*group), "move into a group with a zombie");
        }
        Call::WriteSubtreeControl { group, line, .. } if *group != 0 => {
            note(has_zombie(*group) && !line.is_empty(), "set written where a zombie is");
            let mut after = model.clone();
            call.on(&mut after, 0);
            let joins = |model: &Model| model.group(*group).map_or(EMPTY, |kept| kept.set);
            let is_joined = joins(&after).iter().zip(joins(model)).any(|(new, old)| *new && !old);
            note(has_zombie(*group) && is_joined, "controller joins where a zombie is");
        }
        Call::Fork { parent, .. } => {
            let group = model.process(*parent).map_or(0, |kept| kept.group);
            let is_tight = |&up: &u64| {
                let limit = model.group(up).and_then(|kept| kept.settings.pids_max);
                let zombies = model.zombies().filter(|&zombie| model.path(zombie).contains(&up));
                let room = limit.map(|max| max - model.population(up));
                model.is_on(PIDS, up) && room.is_some_and(|room| room <= zombies.count() as u64)
            };
            note(
                model.chain(group).iter().any(is_tight),
                "fork beside a zombie, with as much room as that",
            );
        }
        Call::Make { parent, .. } => {
            note(*parent != 0 && has_zombie(*parent), "make under a group with a zombie");
        }
        Call::Charge { process, .. } => {
            let group = model.process(*process).map_or(0, |kept| kept.group);
            note(has_zombie(group), "pages charged to a group with a zombie");
        }
        Call::Exit { process } => {
            let group = model.process(*process).map_or(0, |kept| kept.group);
            note(has_zombie(group), "exit beside another zombie");
        }
        _ => {}
    }
    kinds
}

/// Calls that are refused since a number is a zombie's, or not live though taken.
fn refused(model: &Model, call: &Call, held: &[&'static Check]) -> Vec<Kind> {
    const NAMED: [(&Check, &str); 6] = [
        (admit::IS_ZOMBIE, "admit"),
        (fork::NEW_IS_ZOMBIE, "fork, new"),
        (fork::PARENT_IS_ZOMBIE, "fork, parent"),
        (exit::IS_ZOMBIE, "exit"),
        (charge::IS_ZOMBIE, "charge"),
        (write_procs::PROCESS_IS_ZOMBIE, "write_procs"),
    ];
    const ABSENT: [(&Check, &str); 8] = [
        (make::PARENT_NOT_LIVE, "make, parent"),
        (remove::NOT_LIVE, "remove"),
        (hand_over::NOT_LIVE, "hand_over"),
        (write_procs::NOT_LIVE, "write_procs"),
        (write_subtree_control::NOT_LIVE, "write_subtree_control"),
        (write_setting::NOT_LIVE, "write_setting"),
        (release::NOT_LIVE, "release"),
        (read::NOT_LIVE, "read"),
    ];
    let Some(first) = held.first() else { return vec![] };
    let mut kinds = vec![];
    if let Some((_, name)) = NAMED.iter().find(|(check, _)| check == first) {
        // Of a fork the child's number comes last.
        let named = call.processes();
        let zombie = if *name == "fork, new" { named.last() } else { named.first() };
        let is_gone = zombie.is_some_and(|&n| model.is_on_zombies_path(group_of(model, n)));
        let what = match is_gone {
            true => "zombie in a removed group, refused",
            false => "zombie in a live group, refused",
        };
        kinds.push(kind(what, name));
    }
    if let Some((_, name)) = ABSENT.iter().find(|(check, _)| check == first)
        && call.groups().first().is_some_and(|group| model.is_on_zombies_path(*group))
    {
        kinds.push(kind("not live, though a zombie's path runs through it", name));
    }
    kinds
}

fn taken(model: &Model, group: u64) -> Vec<Kind> {
    let levels = |zombie: u64| model.path(zombie).iter().position(|&up| up == group);
    let below: Vec<usize> = model.zombies().filter_map(levels).collect();
    let kinds = [
        (below.contains(&0), "of one in that group"),
        (below.contains(&1), "of one in a group below it"),
        (below.iter().any(|&levels| levels > 1), "of one two levels and more below it"),
        (below.len() > 1, "of two and more"),
    ];
    let holding = kinds.into_iter().filter(|(holds, _)| *holds);
    holding.map(|(_, name)| kind("make, taken by the path", name)).collect()
}

fn collected(model: &Model, zombie: u64) -> Vec<Kind> {
    let path = model.path(zombie);
    let own = path[0];
    let (freed, is_gone) = (freed(model, zombie).len(), model.is_on_zombies_path(own));
    let gone = path.iter().filter(|group| model.is_on_zombies_path(**group)).count();
    let is_shared = zombies_of(model, own).count() > 1;
    let kinds = [
        (!is_gone && own != 0, "of one in a live group"),
        (own == 0, "of one in the root"),
        (freed == 1, "frees one group's number"),
        (freed > 1, "frees two groups' numbers and more"),
        (freed == DEEPEST, "frees the numbers of groups that were at depth 1 to 16"),
        (freed > 0 && freed < gone, "frees some, and some stay taken by another"),
        (is_gone && freed == 0 && is_shared, "frees none, as another is in the same removed group"),
        (is_gone && freed == 0 && !is_shared, "frees none, as another is below in removed groups"),
    ];
    let holding = kinds.into_iter().filter(|(holds, _)| *holds);
    holding.map(|(_, name)| kind("collect", name)).collect()
}

fn not_collected(model: &Model, process: u64) -> Vec<Kind> {
    let is_at = |distance: u64| process.checked_sub(distance).is_some_and(|n| model.is_zombie(n));
    let kinds = [
        (model.process(process).is_some(), "live"),
        (model.is_free(process), "free"),
        (process == 0, "0"),
        (process == 1025, "1025"),
        (is_at(1024), "a zombie's number and 1024"),
        (is_at(1 << 32), "a zombie's number and 2^32"),
        (process == u64::MAX, "2^64 - 1"),
    ];
    let holding = kinds.into_iter().filter(|(holds, _)| *holds);
    holding.map(|(_, name)| kind("collect, refused", name)).collect()
}

/// A line that ends in " (deleted)", of this length, into a buffer that it fills or that is a byte
/// short.
pub(super) fn line(length: usize, room: usize) -> Vec<Kind> {
    let what = match room {
        _ if room == length => "line with \" (deleted)\", buffer of exactly the length",
        _ if room + 1 == length => "line with \" (deleted)\", buffer one byte short",
        _ => return vec![],
    };
    vec![kind(what, LENGTHS[length - SHORTEST])]
}
