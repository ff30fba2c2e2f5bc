//! Faults of a host that does more than a call asks, or less, or answers otherwise.

use super::Outcome;
use crate::call::Call;
use crate::calls::{Calls, NO_GROUP};
use crate::checks::{fork, release, write_procs};
use crate::model::{
    CPU, DEEPEST, DEFAULTS, EMPTY, Limit, MEMORY, Model, Process, control_word, number, words,
};

/// The process that a line of cgroup.procs names, as it was before the call.
fn moved<'a>(model: &'a Model, line: &[u8]) -> Option<&'a Process> {
    model.process(u64::try_from(number(words(line).first()?)?).ok()?)
}

/// The figure of a line.
fn figure(line: &[u8]) -> Option<u64> {
    u64::try_from(number(words(line).first()?)?).ok()
}

pub(super) fn pages_move(done: &mut Outcome) {
    if let Call::WriteProcs { group, line, .. } = done.call
        && done.is_success()
        && let Some(moved) = moved(done.before, line)
    {
        let pages = std::mem::take(&mut done.after.group_mut(moved.group).own_pages);
        done.after.group_mut(*group).own_pages += pages;
    }
}

pub(super) fn limit_stops_move(done: &mut Outcome) {
    if let Call::WriteProcs { group, line, .. } = done.call
        && done.is_success()
        && let Some(moved) = moved(done.before, line)
    {
        let source = done.before.chain(moved.group);
        let is_full = |up: &u64| {
            let limit = done.before.group(*up).and_then(|g| g.settings.pids_max);
            !source.contains(up) && limit.is_some_and(|max| done.before.population(*up) >= max)
        };
        if done.before.chain(*group).iter().any(is_full) {
            done.refuse(11);
        }
    }
}

/// A move that asks another group than the lowest one on both chains, which are given from the
/// process's group and from the target up.
pub(super) fn another_is_asked(done: &mut Outcome, asked: fn(&[u64], &[u64]) -> u64) {
    let Call::WriteProcs { user, group, line } = done.call else { return };
    let Some(moved) = moved(done.before, line) else { return };
    let chains = [moved.group, *group].map(|group| done.before.chain(group));
    let may = done.before.may_write(*user, asked(&chains[0], &chains[1]));
    let refused = done.refused_by();
    if refused == Some(write_procs::MAY_NOT_WRITE_LOWEST) && may {
        *done.number = done.after.write_procs(0, *group, line);
    }
    if !may && refused.is_none_or(|check| check == write_procs::HAS_SET) {
        done.refuse(13);
    }
}

pub(super) fn ancestor_not_asked(done: &mut Outcome) {
    another_is_asked(done, |source, _| source[0]);
}

pub(super) fn walk_from_root(done: &mut Outcome) {
    another_is_asked(done, |_, _| 0);
}

/// Place by place, though one group is deeper than the other.
pub(super) fn unequal_depths(done: &mut Outcome) {
    another_is_asked(done, |source, target| {
        let mut pairs = source.iter().zip(target);
        pairs.find(|(one, other)| one == other).map_or(0, |(&group, _)| group)
    });
}

/// Of entries of equal depth, the lowest first.
pub(super) fn first_unequal_pair(done: &mut Outcome) {
    another_is_asked(done, |source, target| {
        let depths = source.len().min(target.len());
        let [source, target] = [source, target].map(|chain| &chain[chain.len() - depths..]);
        let mut pairs = source.iter().zip(target);
        pairs.find(|(one, other)| one != other).map_or(0, |(&group, _)| group)
    });
}

/// The children of a group whose controllers were written, if that changed anything.
pub(super) fn children(done: &Outcome) -> Vec<u64> {
    match done.call {
        Call::WriteSubtreeControl { group, .. } if done.is_success() => {
            done.before.children(*group).collect()
        }
        _ => vec![],
    }
}

pub(super) fn settings_kept(done: &mut Outcome) {
    for child in children(done) {
        keep_settings(done, child);
    }
}

pub(super) fn nine_children_reset(done: &mut Outcome) {
    for child in children(done).into_iter().skip(9) {
        keep_settings(done, child);
    }
}

/// As many as a chain has groups.
pub(super) fn seventeen_children_reset(done: &mut Outcome) {
    for child in children(done).into_iter().skip(DEEPEST + 1) {
        keep_settings(done, child);
    }
}

pub(super) fn keep_settings(done: &mut Outcome, child: u64) {
    if let Some(before) = done.before.group(child) {
        done.after.group_mut(child).settings = before.settings.clone();
    }
}

pub(super) fn word_by_word(done: &mut Outcome) {
    if let Call::WriteSubtreeControl { line, .. } = done.call
        && words(line).contains(&b"-cpu".as_slice())
    {
        for child in children(done) {
            done.after.group_mut(child).settings.reset(CPU);
        }
    }
}

pub(super) fn taken_back_joins(done: &mut Outcome) {
    if let Call::WriteSubtreeControl { group, line, .. } = done.call
        && done.is_success()
        && *group != 0
        && done.before.holds(*group).next().is_some()
        && words(line).into_iter().filter_map(control_word).any(|(_, joins)| joins)
    {
        done.refuse(16);
    }
}

/// The group, file and line of a setting that was written.
pub(super) fn setting<'a>(done: &Outcome<'a>) -> Option<(u64, &'a [u8], &'a [u8])> {
    match done.call {
        Call::WriteSetting { group, file, line, .. } if done.is_success() => {
            Some((*group, file, line))
        }
        _ => None,
    }
}

/// memory.max rounded otherwise than down.
fn rounded(done: &mut Outcome, pages: impl Fn(u64) -> u64) {
    if let Some((group, b"memory.max", line)) = setting(done) {
        done.after.group_mut(group).settings.memory_max = figure(line).map(pages);
    }
}

pub(super) fn rounded_up(done: &mut Outcome) {
    rounded(done, |bytes| bytes.div_ceil(4096));
}

pub(super) fn never_rounded_to_0(done: &mut Outcome) {
    rounded(done, |bytes| (bytes / 4096).max(bytes.min(1)));
}

pub(super) fn limit_below_usage_refused(done: &mut Outcome) {
    if let Some((group, b"pids.max", line)) = setting(done)
        && figure(line).is_some_and(|max| max < done.before.population(group))
    {
        done.refuse(16);
    }
}

pub(super) fn period_reset(done: &mut Outcome) {
    if let Some((group, b"cpu.max", line)) = setting(done)
        && words(line).len() == 1
    {
        done.after.group_mut(group).settings.cpu_period = DEFAULTS.cpu_period;
    }
}

pub(super) fn consulted_one_short(done: &mut Outcome) {
    if matches!(done.call, Call::Charge { .. } | Call::Fork { .. }) && done.told[0] != NO_GROUP {
        done.told[1] -= 1;
    }
}

/// The group of a process that was to be charged, and the pages.
fn charged(done: &Outcome) -> Option<(u64, u64)> {
    match done.call {
        Call::Charge { process, pages } => Some((done.before.process(*process)?.group, *pages)),
        _ => None,
    }
}

pub(super) fn half_charged(done: &mut Outcome) {
    if let Some((group, pages)) = charged(done)
        && *done.number == 12
        && done.told[0] != group
    {
        done.after.group_mut(group).own_pages += pages;
    }
}

/// Grants a charge that was refused for want of room, where there is room by another idea of what
/// is used.
pub(super) fn charge_by(done: &mut Outcome, usage: impl Fn(&Model, u64) -> u64) {
    let Some((group, pages)) = charged(done) else { return };
    if *done.number != 12 {
        return;
    }
    let chain = done.before.chain(group);
    let limit = |up: u64| -> Limit {
        match up {
            0 => Some(done.before.machine()),
            _ => done.before.group(up)?.settings.memory_max,
        }
    };
    let is_full = |&up: &u64| limit(up).is_some_and(|max| usage(done.before, up) + pages > max);
    match chain.iter().position(is_full) {
        Some(place) => *done.told = [chain[place], place as u64 + 1],
        None => {
            done.after.group_mut(group).own_pages += pages;
            *done.number = 0;
            *done.told = [NO_GROUP, chain.len() as u64];
        }
    }
}

pub(super) fn compared_in_36_bits(done: &mut Outcome) {
    charge_by(done, |model, group| model.usage(group) % (1 << 24));
}

/// The groups at the deepest level below a group.
fn deepest_below(model: &Model, group: u64) -> impl Iterator<Item = u64> {
    let is_below = move |&other: &u64| {
        let chain = model.chain(other);
        chain.len() == DEEPEST + 1 && chain[1..].contains(&group)
    };
    model.live_groups().filter(is_below)
}

/// The usage of a group by a sum that stops one level above the deepest.
fn shallow_usage(model: &Model, group: u64) -> u64 {
    let own = |deep| model.group(deep).map_or(0, |kept| kept.own_pages);
    model.usage(group) - deepest_below(model, group).map(own).sum::<u64>()
}

pub(super) fn memory_max_without_deepest(done: &mut Outcome) {
    charge_by(done, |model, group| match group {
        0 => model.usage(0),
        _ => shallow_usage(model, group),
    });
}

pub(super) fn machine_without_deepest(done: &mut Outcome) {
    charge_by(done, |model, group| match group {
        0 => shallow_usage(model, 0),
        _ => model.usage(group),
    });
}

pub(super) fn own_pages_in_22_bits(done: &mut Outcome) {
    if let Some((group, _)) = charged(done) {
        done.after.group_mut(group).own_pages %= 1 << 22;
    }
}

pub(super) fn own_pages_in_22_bits_where_off(done: &mut Outcome) {
    if let Some((group, _)) = charged(done)
        && group != 0
        && !done.before.chain(group).iter().any(|&up| done.before.is_on(MEMORY, up))
    {
        done.after.group_mut(group).own_pages %= 1 << 22;
    }
}

pub(super) fn root_pages_in_22_bits(done: &mut Outcome) {
    done.after.group_mut(0).own_pages %= 1 << 22;
}

pub(super) fn release_not_live_22(done: &mut Outcome) {
    if done.refused_by() == Some(release::NOT_LIVE) {
        *done.number = 22;
    }
}

/// Grants a fork that was refused for want of room, where there is room by another idea of how many
/// processes there are.
pub(super) fn fork_by(done: &mut Outcome, population: impl Fn(&Model, u64) -> u64) {
    let Call::Fork { parent, process } = done.call else { return };
    if done.refused_by() != Some(fork::PIDS_LIMIT) {
        return;
    }
    let Some(forked) = done.before.process(*parent) else { return };
    let chain = done.before.chain(forked.group);
    let limit = |up: u64| done.before.group(up).and_then(|kept| kept.settings.pids_max);
    let is_full = |&up: &u64| limit(up).is_some_and(|max| population(done.before, up) + 1 > max);
    match chain.iter().position(is_full) {
        Some(place) => *done.told = [chain[place], place as u64 + 1],
        None => {
            done.after.admit(*process, forked.user);
            done.after.write_procs(0, forked.group, process.to_string().as_bytes());
            *done.number = 0;
            *done.told = [NO_GROUP, chain.len() as u64];
        }
    }
}

/// A 256th process makes none.
pub(super) fn population_in_8_bits(done: &mut Outcome) {
    fork_by(done, |model, group| match model.population(group) {
        255 => 0,
        population => population,
    });
}

/// A 1,024th process makes none.
pub(super) fn population_in_10_bits(done: &mut Outcome) {
    fork_by(done, |model, group| match model.population(group) {
        1023 => 0,
        population => population,
    });
}

pub(super) fn pids_max_without_deepest(done: &mut Outcome) {
    fork_by(done, |model, group| {
        let deep: usize = deepest_below(model, group).map(|deep| model.holds(deep).count()).sum();
        model.population(group) - deep as u64
    });
}

/// Makes a process of the root user 0's.
fn give_to_user_0(done: &mut Outcome, process: u64) {
    done.after.exit(process);
    done.after.collect(process);
    done.after.admit(process, 0);
}

pub(super) fn root_forks_for_user_0(done: &mut Outcome) {
    if let Call::Fork { parent, process } = done.call
        && done.is_success()
        && done.before.process(*parent).is_some_and(|forked| forked.group == 0)
    {
        give_to_user_0(done, *process);
    }
}

pub(super) fn root_takes_for_user_0(done: &mut Outcome) {
    if let Call::WriteProcs { group: 0, line, .. } = done.call
        && done.is_success()
        && let Some(process) = figure(line)
    {
        give_to_user_0(done, process);
    }
}

/// A group that was removed, its parent and its own pages.
fn removed(done: &Outcome) -> Option<(u64, u64, u64)> {
    match done.call {
        Call::Remove { group, .. } if done.is_success() => {
            let removed = done.before.group(*group)?;
            Some((*group, removed.parent, removed.own_pages))
        }
        _ => None,
    }
}

pub(super) fn pages_dropped(done: &mut Outcome) {
    if let Some((_, parent, pages)) = removed(done) {
        done.after.group_mut(parent).own_pages -= pages;
    }
}

pub(super) fn most_pages_passed_on(done: &mut Outcome) {
    if let Some((_, parent, pages)) = removed(done) {
        done.after.group_mut(parent).own_pages -= pages.saturating_sub(1 << 20);
    }
}

pub(super) fn pages_to_root(done: &mut Outcome) {
    if let Some((_, parent, pages)) = removed(done) {
        done.after.group_mut(parent).own_pages -= pages;
        done.after.group_mut(0).own_pages += pages;
    }
}

pub(super) fn settings_outlive(done: &mut Outcome) {
    if let Some((group, ..)) = removed(done)
        && let Some(removed) = done.before.group(group)
    {
        done.removed.insert(group, removed.settings.clone());
    }
    if let Call::Make { group, .. } = done.call
        && done.is_success()
        && let Some(settings) = done.removed.remove(group)
    {
        done.after.group_mut(*group).settings = settings;
    }
}

pub(super) fn hand_over_empties_set(done: &mut Outcome) {
    if let Call::HandOver { group, .. } = done.call
        && done.is_success()
    {
        done.after.group_mut(*group).set = EMPTY;
    }
}
